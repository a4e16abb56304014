"""The resident engine `srv6-pce`: starts it, asks it and closes it.

    with Engine() as engine:
        engine.load("net", network=text)
        found = engine.compile("net", intent)

A request that gives nothing raises the error of its name, as `NotFlat`. An engine that ended raises
`EngineEnded`; it isn't started again. One request is asked at a time.
"""

import json
import subprocess
from collections.abc import Iterable, Sequence
from dataclasses import dataclass
from typing import Any, Self

from .program import find_program


class EngineError(Exception):
    """A request that gave nothing; its class has the error's name, and `fields` what it tells."""

    def __init__(self, error: dict[str, Any]):
        self.fields = {field: value for field, value in error.items() if field != "name"}
        told = " ".join(str(value) for value in self.fields.values())
        super().__init__(f"{error['name']} {told}".rstrip())


class BadJson(EngineError):
    """The line is no JSON object."""


class BadRequest(EngineError):
    """`fields["field"]` is missing, unknown, or has a value that it may not have."""


class UnknownName(EngineError):
    """Nothing has the name `fields["unknown"]`."""


class BadFile(EngineError):
    """A file can't be read."""


class TooBig(EngineError):
    """A line, a text or the number of networks is above `fields["limit"]`."""


class Refused(EngineError):
    """A text is refused, as `fields["why"]` says."""


class NotFlat(EngineError):
    """The network isn't flat, as `fields["why"]` says."""


class NoMemory(EngineError):
    """Memory is wanting; all networks are held as they were."""


class EngineEnded(Exception):
    """The engine ended, or can't be started."""


ERRORS = {error.__name__: error for error in EngineError.__subclasses__()}


@dataclass(frozen=True)
class Held:
    """A network that is held: how many of each part it has, and why it isn't flat."""

    flat: bool
    links: int
    nodes: int
    routes: int
    sids: int
    why: str = ""


@dataclass(frozen=True)
class PathSid:
    """A SID of a list; `stays` in the container of the one before it."""

    prefix: str
    stays: bool


@dataclass(frozen=True)
class Compiled:
    """What compiling gives: `answer` is list, NoList, TooLong or HopLimit; NoList has no list."""

    answer: str
    containers: int = 0
    header: int = 0
    need: int = 0
    path: tuple[PathSid, ...] = ()
    segments: tuple[str, ...] = ()
    sids: int = 0
    certificate: str = ""


@dataclass(frozen=True)
class Judged:
    """What judging gives: `answer` is realizes, "not legal" or no; only no has a cause and a SID."""

    answer: str
    containers: int = 0
    least: bool = False
    need: int = 0
    sids: int = 0
    within: bool = False
    cause: str = ""
    sid: int = 0


def find_engine() -> str:
    """The path of the program: $SRV6_PCE, else the one that the repository built, else the one on
    PATH.
    """
    if there := find_program("srv6-pce"):
        return there
    raise EngineEnded("no program srv6-pce: build it, or set SRV6_PCE to its path")


class Engine:
    """An engine that was started; it holds no network yet."""

    def __init__(self, program: str | None = None):
        self._asked = 0
        path = program or find_engine()
        pipe = subprocess.PIPE
        try:
            self._process = subprocess.Popen([path], stdin=pipe, stdout=pipe)
        except OSError as fault:
            raise EngineEnded(f"{path} can't be started: {fault.strerror or fault}") from None

    def __enter__(self) -> Self:
        return self

    def __exit__(self, *_: object) -> None:
        self.close()

    def ask(self, do: str, **fields: Any) -> dict[str, Any]:
        """What a request gives; a field that is None is left out. Raises the error of its name."""
        self._asked += 1
        given = {name: value for name, value in fields.items() if value is not None}
        line = json.dumps({"id": self._asked, "do": do} | given).encode()
        reply = self._exchange(line + b"\n")
        if "ok" in reply:
            return reply["ok"]
        error = reply["error"]
        raise ERRORS.get(error["name"], EngineError)(error)

    def close(self) -> int:
        """Ends the input, and waits for the engine to end; its exit status."""
        for stream in (self._process.stdin, self._process.stdout):
            try:
                stream.close()
            except OSError:  # what was left to be written of a line that wasn't heard
                pass
        return self._process.wait()

    def version(self) -> dict[str, Any]:
        """The program and the version of its protocol."""
        return self.ask("version")

    def load(
        self,
        name: str,
        *,
        network: str | None = None,
        file: str | None = None,
        plan: str | None = None,
        plan_file: str | None = None,
    ) -> Held:
        """Holds a network by a name: that of a description, or of the file that has one."""
        fields = {"network": network, "file": file, "plan": plan, "plan_file": plan_file}
        return Held(**self.ask("load", **{"as": name}, **fields))

    def without(
        self,
        source: str,
        name: str,
        *,
        links: Iterable[str] = (),
        nodes: Iterable[str] = (),
        routes: str | None = None,
    ) -> Held:
        """Holds by a name what is left of a network without these links, and without those of these
        nodes.
        """
        parts = {"links": list(links), "nodes": list(nodes), "routes": routes}
        return Held(**self.ask("without", **{"from": source, "as": name}, **parts))

    def drop(self, name: str) -> None:
        """Holds no network by a name any longer."""
        self.ask("drop", **{"as": name})

    def compile(self, name: str, intent: str, *, certificate: bool = False) -> Compiled:
        """The list that is chosen for an intent in a network."""
        found = self.ask("compile", **{"in": name}, intent=intent, certificate=certificate)
        path = tuple(PathSid(**sid) for sid in found.pop("path", ()))
        segments = tuple(found.pop("segments", ()))
        return Compiled(**found, path=path, segments=segments)

    def judge(self, name: str, intent: str, segments: Sequence[str]) -> Judged:
        """What a list, by its segments in the order in which they are visited, comes to."""
        return Judged(**self.ask("judge", **{"in": name}, intent=intent, list=list(segments)))

    def trace(
        self, name: str, node: str, packet: bytes, choices: Sequence[int] | None = None
    ) -> str:
        """The trace of a packet that arrives at a node, as `srv6 trace` writes it."""
        taken = None if choices is None else list(choices)
        asked = {"in": name, "node": node, "packet": packet.hex(), "choices": taken}
        return self.ask("trace", **asked)["trace"]

    def _exchange(self, line: bytes) -> dict[str, Any]:
        """The reply to a line."""
        try:
            self._process.stdin.write(line)
            self._process.stdin.flush()
            reply = self._process.stdout.readline()
        except (OSError, ValueError):
            reply = b""
        if not reply.endswith(b"\n"):
            raise EngineEnded(f"the engine ended with status {self.close()}")
        read = json.loads(reply)
        if read["id"] != self._asked:
            raise EngineEnded(f"a reply to {read['id']} came where one to {self._asked} is due")
        return read
