"""The program `srv6`: where it is, and what it answers."""

import os
import shutil
import subprocess
from collections.abc import Sequence
from dataclasses import dataclass
from pathlib import Path

from .command import Fault, Status, tool_name

REPOSITORY = Path(__file__).resolve().parents[2]
EMPTY_TRACE = b"srv6 trace 1\nend\n"
SAY = tool_name("srv6-say")


@dataclass(frozen=True)
class Answer:
    """What a run of the program came to."""

    status: int
    out: bytes
    err: str


def find_program(name: str = "srv6") -> str | None:
    """The path of the program srv6, or of srv6-pce: $SRV6 or $SRV6_PCE, else the one that the
    repository built, else the one on PATH.
    """
    crate = name.replace("-", "_")
    if named := os.environ.get(crate.upper()):
        return named
    built = REPOSITORY / "crates" / crate / "out" / crate
    if built.is_file() and os.access(built, os.X_OK):
        return str(built)
    return shutil.which(name)


def the_program() -> str:
    """The path of the program; a fault where there is none."""
    if path := find_program():
        return path
    raise Fault(
        "no program srv6: build it by examples/run, or set SRV6 to its path", Status.NO_MEMORY
    )


def run_program(words: Sequence[str | Path], given: bytes = b"") -> Answer:
    """Runs the program on words and an input."""
    path = the_program()
    try:
        done = subprocess.run([path, *map(str, words)], input=given, capture_output=True)
    except (OSError, ValueError) as fault:
        reason = getattr(fault, "strerror", None) or fault
        raise Fault(f"the program {path} can't be run: {reason}", Status.OUTSIDE_FAULT) from None
    return Answer(done.returncode, done.stdout, done.stderr.decode("utf-8", "surrogateescape"))


def judge_answer(words: Sequence[str | Path], answer: Answer, *others: Status) -> None:
    """A fault where a run of the program ended with another status than Done and these others."""
    if answer.status in (Status.DONE, *others):
        return
    said = (answer.err.splitlines() or [f"status {answer.status}"])[-1]
    known = Status(answer.status) if answer.status in list(Status) else Status.OUTSIDE_FAULT
    command, asked = words[0], " ".join(map(str, words))
    raise Fault(f"srv6 {asked}: {said} (`{SAY} {command} ..` says more)", known)


def judge_description(net: str | Path, called: str = "") -> None:
    """A fault where the program refuses a description, which the fault may call otherwise than by
    its path.
    """
    called = called or str(net)
    answer = run_program(["replay", net, "/dev/stdin"], EMPTY_TRACE)
    if answer.status == Status.REFUSED:
        raise Fault(f"{called}: srv6 says: {answer.err.strip()}")
    if answer.status != Status.DONE:
        raise Fault(f"{called}: srv6 ends with status {answer.status}", Status(answer.status))
