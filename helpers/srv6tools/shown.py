"""The lines that `srv6 show` writes: the headers of packets, with their places."""

import re
from collections.abc import Iterable, Iterator
from dataclasses import dataclass, field

from .command import Fault

Value = int | str

_NUMBER = "([0-9]{1,10})"
_ADDRESS = "([0-9A-Fa-f.:]+)"
_PACKET = re.compile(f"packet {_NUMBER}")
_ENTRY = re.compile(f"entry {_NUMBER} {_ADDRESS}")
_TLVS = re.compile(f"tlvs {_NUMBER}")
_NOT_READ = re.compile("not read ([A-Za-z]+)")


@dataclass(frozen=True, slots=True)
class _Shape:
    """A line of a header: its words with the names of its values."""

    kind: str
    line: re.Pattern[str]
    names: tuple[str, ...]


def _shape(kind: str, *words: str, first: str = "") -> _Shape:
    """The shape of a line: its kind, a value that `first` names, and words with a value each."""
    values = {word: _ADDRESS if word in ("src", "dst") else _NUMBER for word in words}
    pieces = [kind, _NUMBER] if first else [kind]
    pieces += [f"{word} {value}" for word, value in values.items()]
    return _Shape(kind, re.compile(" ".join(pieces)), (first, *words) if first else words)


_SHAPES = (
    _shape("ip6", "class", "flow", "payload", "next", "hop", "src", "dst"),
    _shape("ip4", "ttl", "proto", "total", "src", "dst"),
    _shape("hop-by-hop", "at", "bytes"),
    _shape("destination", "at", "bytes"),
    _shape("routing", "type", "left", "at", "bytes"),
    _shape("srh", "next", "left", "last", "flags", "tag", "at", "bytes"),
    _shape("fragment", "at"),
    _shape("upper", "at", "bytes", first="type"),
    _shape("bad chain", "at"),
    _shape("truncated"),
    _shape("bad version"),
)


_BY_WORD: dict[str, list[_Shape]] = {}
for _one in _SHAPES:
    _BY_WORD.setdefault(_one.kind.partition(" ")[0], []).append(_one)


@dataclass(slots=True)
class Header:
    """A header of a packet, or what stands in the place of one, as `bad chain`."""

    kind: str
    values: dict[str, Value] = field(default_factory=dict)
    entries: list[str] = field(default_factory=list)
    tlvs: int | None = None
    """Bytes of the type-length-value area of an srh."""
    bad_last_entry: bool = False

    @property
    def at(self) -> int:
        """Where it begins, in bytes from the packet's first."""
        return int(self.values.get("at", 0))

    @property
    def size(self) -> int | None:
        """Its length in bytes, where the line tells it."""
        known = {"ip6": 40, "fragment": 8}
        size = self.values.get("bytes", known.get(self.kind))
        return None if size is None else int(size)


@dataclass(slots=True)
class Shown:
    """A packet of the input: its number, and its headers in order, or why it isn't read."""

    number: int
    headers: list[Header] = field(default_factory=list)
    not_read: str | None = None


def shown_in(lines: Iterable[str], name: str) -> Iterator[Shown]:
    """The packets of the lines of `show`."""
    shown: Shown | None = None
    for number, line in enumerate(lines, 1):
        if line.startswith("packet ") and (match := _PACKET.fullmatch(line)):
            if shown:
                yield shown
            shown = Shown(int(match[1]))
        elif shown is None or not _takes(shown, line):
            raise Fault(f"{name}: line {number}: no line of srv6 show here: {line[:60]!r}")
    if shown:
        yield shown


def _takes(shown: Shown, line: str) -> bool:
    """Takes a line into the packet, where it fits there."""
    last = shown.headers[-1] if shown.headers else None
    if last and last.kind == "srh" and last.tlvs is None and not last.bad_last_entry:
        return _takes_of_srh(last, line)
    if shown.not_read:
        return False
    if match := _NOT_READ.fullmatch(line):
        shown.not_read = match[1]
        return not shown.headers
    for shape in _BY_WORD.get(line.partition(" ")[0], ()):
        if match := shape.line.fullmatch(line):
            shown.headers.append(Header(shape.kind, _values(shape.names, match.groups())))
            return True
    return False


def _values(names: Iterable[str], texts: Iterable[str]) -> dict[str, Value]:
    return {
        name: text if name in ("src", "dst") else int(text) for name, text in zip(names, texts)
    }


def _takes_of_srh(srh: Header, line: str) -> bool:
    if match := _ENTRY.fullmatch(line):
        srh.entries.append(match[2])
        return int(match[1]) == len(srh.entries) - 1
    if match := _TLVS.fullmatch(line):
        srh.tlvs = int(match[1])
        return True
    srh.bad_last_entry = line == "bad last entry"
    return srh.bad_last_entry
