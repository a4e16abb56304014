"""The text that `srv6 trace` writes: walks of packets, a line for each stage."""

import re
from collections.abc import Iterator, Sequence
from dataclasses import dataclass, field

from .command import Fault

HEAD = "srv6 trace 1"
_HEX = r"(-|(?:[0-9a-f]{2})+)"
_NUMBER = r"(0|[1-9][0-9]{0,9})"
_PACKET = re.compile(rf"packet {_NUMBER} ([64]) ([A-Za-z0-9_.-]{{1,32}}) {_HEX}")
_STAGES = {
    "again": re.compile(rf"again ([^ ]+) (?:table {_NUMBER}|(through)) {_HEX}"),
    "hand": re.compile(rf"hand ([^ ]+) (?:table {_NUMBER}|(through)) ([64]) {_HEX}"),
    "send": re.compile(rf"send ([A-Za-z0-9_.-]{{1,32}}) {_HEX}"),
    "local": re.compile("local"),
    "drop": re.compile(rf"drop ([A-Za-z0-9]+) {_HEX}"),
    "stages": re.compile("stages"),
}


@dataclass(frozen=True, slots=True)
class Stage:
    """A line of a stage; what its kind doesn't have is None."""

    line: int  # from 1
    kind: str  # again, hand, send, local, drop or stages
    sid: str | None = None  # of again and hand
    table: int | None = None  # of again and hand, None where it says `through`
    link: str | None = None  # of send
    reason: str | None = None  # of drop
    family: int | None = None  # of hand
    packet: bytes | None = None  # behind the stage; of drop the ICMPv6 error, if there is one


@dataclass(slots=True)
class Walk:
    """The walk of a packet: how it enters, and its stages."""

    line: int
    number: int
    family: int
    node: str
    packet: bytes
    stages: list[Stage] = field(default_factory=list)


@dataclass(slots=True)
class Trace:
    """A trace; it is whole where its last line is `end`."""

    walks: list[Walk] = field(default_factory=list)
    is_whole: bool = False


def trace_of(lines: Sequence[str], name: str) -> Trace:
    """The trace of a text's lines; a fault at the first line that has no shape of one."""
    if lines[:1] != [HEAD]:
        raise Fault(f"{name}: line 1: a trace begins with {HEAD!r}")
    found = Trace()
    for number, line in enumerate(lines[1:], 2):
        if found.is_whole:
            raise Fault(f"{name}: line {number}: a line behind `end`")
        if line == "end":
            found.is_whole = True
        elif match := _PACKET.fullmatch(line):
            packet = bytes_of(match[4])
            found.walks.append(Walk(number, int(match[1]), int(match[2]), match[3], packet))
        elif (stage := stage_of(line, number)) and found.walks:
            found.walks[-1].stages.append(stage)
        else:
            raise Fault(f"{name}: line {number}: no line of a trace here: {line[:60]!r}")
    return found


def stage_of(line: str, number: int = 0) -> Stage | None:
    """The stage of a line, where it is one."""
    kind = line.partition(" ")[0]
    match = _STAGES[kind].fullmatch(line) if kind in _STAGES else None
    if not match:
        return None
    groups = match.groups()
    table = int(groups[1]) if kind in ("again", "hand") and groups[1] else None
    match kind:
        case "again":
            return Stage(number, kind, sid=groups[0], table=table, packet=bytes_of(groups[3]))
        case "hand":
            family, packet = int(groups[3]), bytes_of(groups[4])
            return Stage(number, kind, sid=groups[0], table=table, family=family, packet=packet)
        case "send":
            return Stage(number, kind, link=groups[0], packet=bytes_of(groups[1]))
        case "drop":
            error = None if groups[1] == "-" else bytes_of(groups[1])
            return Stage(number, kind, reason=groups[0], packet=error)
        case _:
            return Stage(number, kind)


def bytes_of(digits: str) -> bytes:
    """The bytes of hexadecimal digits, `-` for none."""
    return b"" if digits == "-" else bytes.fromhex(digits)


def digits_of(content: bytes) -> str:
    """Bytes as hexadecimal digits, `-` for none."""
    return content.hex() or "-"


def links_of(walk: Walk) -> Iterator[str]:
    """The links that a walk crosses, in order."""
    return (stage.link for stage in walk.stages if stage.link)
