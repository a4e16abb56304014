"""Files of lists, as `docs/FORMATS.md` ('Lists') has them: what `mesh` writes, and `what-if` and the
tools for headends take.
"""

import json
from collections.abc import Iterator, Sequence
from dataclasses import dataclass
from ipaddress import IPv6Address
from pathlib import Path
from typing import Any

from .command import Fault
from .files import INPUT_LIMIT, decoded, parse_toml, read_bytes
from .intent import Intent, intent_of
from .items import Prefix, address_of, prefix_of
from .report import HEADS

KIND = "lists"
ANSWERS = ("list", "NoList", "TooLong", "HopLimit", "refused")


@dataclass(frozen=True, slots=True)
class OneList:
    """An intent, and the list that was found for it, if there is one."""

    name: str
    text: str  # of the intent
    answer: str  # list, NoList, TooLong, HopLimit, refused
    segments: tuple[IPv6Address, ...] = ()
    path: tuple[tuple[bool, Prefix], ...] = ()  # of each SID whether it stays in its container
    names: tuple[str, ...] = ()  # of the SIDs
    header: int = 0  # bytes
    need: int = 0
    why: str = ""  # where it is refused

    @property
    def intent(self) -> Intent:
        """The intent as it is read."""
        return intent_of(parse_toml(self.text, self.name), self.name)

    @property
    def prefixes(self) -> list[Prefix]:
        """The prefixes of the SIDs."""
        return [prefix for _, prefix in self.path]

    @property
    def has_list(self) -> bool:
        """Whether there is a list within the intent's limits."""
        return self.answer == "list"

    @property
    def said(self) -> str:
        """The list in a line: its SIDs, or else why there is none."""
        return ", ".join(self.names) if self.path else self.why or self.answer

    def as_json(self) -> dict[str, Any]:
        """The list as a file has it."""
        intent = self.intent
        path = [
            {"prefix": str(prefix), "stays": stays, "name": name}
            for (stays, prefix), name in zip(self.path, self.names)
        ]
        return {
            "name": self.name, "headend": intent.headend, "function": intent.steps[-1].function,
            "answer": self.answer, "segments": [str(one) for one in self.segments], "path": path,
            "containers": len(self.segments), "header": self.header, "need": self.need,
            "sids": len(path), **({"why": self.why} if self.why else {}), "intent": self.text,
        }  # fmt: skip

    def report(self) -> str:
        """The list as `srv6 compile` prints it, with no potentials in its certificate."""
        if not self.segments:
            return "# none\n"
        form = 2 if self.intent.prefer == "sids" else 1
        lines = [f"# container {one}" for one in self.segments]
        lines.append(f"# containers {len(self.segments)}")
        if form == 2:
            lines.append(f"# sids {len(self.path)}")
        lines += [f"# header {self.header}", f"# need {self.need}", HEADS[form]]
        lines += [f"path {'stay' if stays else 'new'} {prefix}" for stays, prefix in self.path]
        return "\n".join([*lines, "end", ""])


def lists_text(net: str, plan: str | None, lists: Sequence[OneList]) -> str:
    """A file of lists."""
    rows = [one.as_json() for one in lists]
    return json.dumps({"kind": KIND, "net": net, "plan": plan, "lists": rows}, indent=1) + "\n"


def is_lists(content: bytes) -> bool:
    """Whether a file may be one of lists: it begins as a JSON object does."""
    return content.lstrip()[:1] == b"{"


def read_lists(path: str | Path) -> list[OneList]:
    """The lists of a file."""
    return list(lists_of(decoded(read_bytes(path, INPUT_LIMIT), str(path)), str(path)))


def lists_of(text: str, name: str) -> Iterator[OneList]:
    """The lists of a text."""
    try:
        root = json.loads(text)
    except (ValueError, RecursionError) as fault:
        raise Fault(f"{name}: not JSON: {fault}") from None
    rows = root.get("lists") if isinstance(root, dict) and root.get("kind") == KIND else None
    if not isinstance(rows, list):
        raise Fault(f"{name}: no object with the kind `{KIND}`, and `lists`")
    names: set[str] = set()
    for number, row in enumerate(rows, 1):
        one = _list(row, f"{name}: list {number}")
        if one.name in names:
            raise Fault(f"{name}: list {number}: an earlier one has the name {one.name!r}")
        names.add(one.name)
        yield one


def _list(row: Any, where: str) -> OneList:
    try:
        path = tuple((_flag(sid["stays"]), prefix_of(sid["prefix"])) for sid in row["path"])
        one = OneList(
            _line(row["name"]), _text(row["intent"]), _text(row["answer"]),
            tuple(address_of(_text(text)) for text in row["segments"]), path,
            tuple(_line(sid.get("name", sid["prefix"])) for sid in row["path"]),
            _count(row["header"]), _count(row["need"]), _line(row.get("why", "")),
        )  # fmt: skip
    except (KeyError, TypeError, ValueError, AttributeError) as fault:
        raise Fault(f"{where}: no list: {type(fault).__name__} {fault}") from None
    if one.answer not in ANSWERS:
        raise Fault(f"{where}: `answer` is none of {', '.join(ANSWERS)}")
    if any(prefix.version != 6 for prefix in one.prefixes) or one.has_list != bool(path and one.segments):
        if one.answer in ("list", "NoList", "refused"):
            raise Fault(f"{where}: its SIDs and its segments don't go with its answer")
    intent_of(parse_toml(one.text, where), where)
    return one


def _text(value: Any) -> str:
    if not isinstance(value, str):
        raise TypeError(f"{value!r} is no text")
    return value


def _line(value: Any) -> str:
    if not _text(value).isprintable():
        raise TypeError(f"{value!r} is no text of one line")
    return value


def _flag(value: Any) -> bool:
    if not isinstance(value, bool):
        raise TypeError(f"{value!r} is neither true nor false")
    return value


def _count(value: Any) -> int:
    if type(value) is not int or not 0 <= value < 2**32:
        raise TypeError(f"{value!r} is no number")
    return value
