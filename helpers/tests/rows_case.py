"""Worked rows of `compile` and `check`, by the rules of the tools alone, for the tests of these."""

import unittest
from pathlib import Path

from srv6tools.check_certificate import Checker
from srv6tools.command import Status
from srv6tools.compiling import compiled
from srv6tools.description import read_network
from srv6tools.intent import read_intent
from srv6tools.loose import legs_of
from support import HELPERS

ROWS = HELPERS.parent / "crates" / "worked_rows" / "data"


def rows_are_answered(case: unittest.TestCase, kind: str) -> None:
    """The answers of `compile` and `check` in the rows of a kind, byte by byte; walks, updates, and faults of an intent's text,
    are the program's.
    """
    if not (ROWS / kind).is_dir():
        case.skipTest(f"the worked rows of the kind {kind} aren't there")
    for row in sorted((ROWS / kind).iterdir()):
        words = (row / "args").read_text().split()
        err = (row / "stderr").read_text()
        if words[0] not in ("compile", "check") or err.startswith("refused 33 "):
            continue
        with case.subTest(row.name):
            wants = [(row / name).read_text() for name in ("stdout", "stderr", "status")]
            case.assertEqual(_of_row(row, words), (*wants[:2], wants[2].strip()))


def _of_row(row: Path, words: list[str]) -> tuple[str, str, str]:
    net, intent = read_network(row / words[1]), read_intent(row / words[2])
    if words[0] == "check":
        line, status = Checker(legs_of(net, intent)).judged((row / words[3]).read_text())
        return *(("", f"{line}\n") if status == Status.REFUSED else (f"{line}\n", "")), str(int(status))
    answer = compiled(net, intent)
    out = "".join(f"{line}\n" for line in answer.out)
    return out, f"{answer.err}\n" if answer.err else "", str(answer.status)
