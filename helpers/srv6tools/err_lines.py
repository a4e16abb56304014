"""The lines that `srv6` writes on `err`: refusals, answers that there aren't, what became of
packets, and the edits of an update.
"""

import re
from dataclasses import dataclass

_REFUSED = re.compile(r"refused ([0-9]{1,10}) ([A-Za-z0-9]+)((?: [^ ]+)*)")
_NO_ANSWER = re.compile(r"no answer (NoList|TooLong|HopLimit)(?: ([0-9]{1,20}))?")
_PACKET = re.compile(r"packet ([0-9]{1,10}): (.*)")
_EDIT = re.compile(
    r"edit (add|remove) (route|sid) ([0-9]{1,10})|edit (switch)|edit (busy) ([0-9]{1,10})"
)
_OUTCOMES = (
    ("not read", re.compile(r"not read, (?P<reason>[A-Za-z]+)")),
    ("left", re.compile(r"left (?P<place>[^ ]+)")),
    ("delivered", re.compile(r"delivered at (?P<place>[^ ]+)")),
    ("dropped", re.compile(r"dropped (?P<reason>[A-Za-z0-9]+) at (?P<place>[^ ]+)")),
    ("stopped", re.compile(r"stopped after [0-9]+ stages")),
)


@dataclass(frozen=True, slots=True)
class Refusal:
    """A line `refused NUMBER NAME FIELDS`."""

    number: int
    name: str
    fields: tuple[str, ...]


@dataclass(frozen=True, slots=True)
class NoAnswer:
    """A line `no answer ..`; the number is the list's containers or its need."""

    why: str  # NoList, TooLong or HopLimit
    number: int | None


@dataclass(frozen=True, slots=True)
class PacketLine:
    """A line `packet N: ..`."""

    number: int
    outcome: str  # not read, left, delivered, dropped or stopped
    reason: str | None = None  # the cause or the reason of a drop
    place: str | None = None  # the link or the node


@dataclass(frozen=True, slots=True)
class EditLine:
    """A line `edit ..` of an update."""

    kind: str  # add, remove, switch or busy
    table: str | None = None  # of an entry that is added or removed: route or sid
    number: int | None = None  # the entry's in both descriptions joined, or of busy the packet's


def err_line_of(line: str) -> Refusal | NoAnswer | PacketLine | EditLine | None:
    """What a line on `err` says; None of any other line."""
    if match := _REFUSED.fullmatch(line):
        return Refusal(int(match[1]), match[2], tuple(match[3].split()))
    if match := _NO_ANSWER.fullmatch(line):
        return NoAnswer(match[1], int(match[2]) if match[2] else None)
    if match := _PACKET.fullmatch(line):
        for outcome, shape in _OUTCOMES:
            if found := shape.fullmatch(match[2]):
                parts = found.groupdict()
                return PacketLine(int(match[1]), outcome, parts.get("reason"), parts.get("place"))
    if match := _EDIT.fullmatch(line):
        number = match[3] or match[6]
        kind = match[1] or match[4] or match[5]
        return EditLine(kind, match[2], int(number) if number else None)
    return None
