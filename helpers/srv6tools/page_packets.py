"""Packets and walks as the page of `view` holds them: each text, header layout and packet once, a
packet as what it has otherwise than the one before it.
"""

import difflib
import itertools
import json
from collections.abc import Hashable, Iterable, Sequence
from dataclasses import dataclass, field
from typing import Any

from .decisions import HEADEND_RFC, Teller, Told
from .description import Network
from .fans import each_walk, end_words, fan_of
from .fields import Part, dissected
from .trace import Walk
from .walks import Start, Walks

MOST_STAGES = 512  # of a walk that are shown
MOST_WAYS, MOST_LINKS = 24, 400  # of a packet's walks that are listed one by one
_PACKETS = ("IPv6 header", "IPv4 header")


class Interned:
    """Values, each once, by number."""

    def __init__(self) -> None:
        self.values: list[Any] = []
        self._places: dict[Hashable, int] = {}

    def number(self, value: Any, key: Hashable = None) -> int:
        """The number of a value, which is kept where it is new."""
        key = value if key is None else key
        if key not in self._places:
            self._places[key] = len(self.values)
            self.values.append(value)
        return self._places[key]


@dataclass(slots=True)
class Entered:
    """A packet of the input as the page shows it: its walk, and how it came to where that begins.
    """

    walk: Walk
    end: str  # the program's words for what became of it
    inner: bytes | None = None  # as it came to the headend, where an intent's list was put on
    first: str | None = None  # the link on which the headend sent it
    node: str = ""  # the headend
    looks_up: bool = True  # whether the description is the one of the walk


@dataclass(slots=True)
class Changes:
    """What differs between a packet before and after a stage, by the numbers of fields and parts.
    """

    before: list[int] = field(default_factory=list)  # fields with another value
    gone: list[int] = field(default_factory=list)  # parts that were taken out
    after: list[int] = field(default_factory=list)
    new: list[int] = field(default_factory=list)  # parts that were put in
    words: list[str] = field(default_factory=list)


def _depth(parts: Sequence[Part]) -> int:
    """How many packets there are inside one another, quoted ones apart."""
    labels = (part.label for part in parts if not part.label.startswith("quoted "))
    return sum(label.removeprefix("inner ").split("inner ")[-1] in _PACKETS for label in labels)


def _aligned(before: Sequence[Part], after: Sequence[Part]) -> tuple[list[str], list[str]]:
    """The labels of two packets' parts, so that a packet inside one of them stands by itself."""
    deeper = _depth(after) - _depth(before)
    one, other = [part.label for part in before], [part.label for part in after]
    if deeper > 0:
        one = ["inner " * deeper + label for label in one]
    else:
        other = ["inner " * -deeper + label for label in other]
    return one, other


def changes_of(before: Sequence[Part], after: Sequence[Part]) -> Changes:
    """What differs between two packets, the later one made of the earlier one."""
    found, labels = Changes(), _aligned(before, after)
    starts = [_starts(parts) for parts in (before, after)]
    matcher = difflib.SequenceMatcher(None, *labels, autojunk=False)
    for kind, left, end, right, to in matcher.get_opcodes():
        if kind == "equal":
            for one, other in zip(range(left, end), range(right, to)):
                _compare(found, before[one], after[other], starts[0][one], starts[1][other])
            continue
        found.gone += range(left, end)
        found.new += range(right, to)
        if left < end:
            found.words.append(f"taken out: {_labels(before[left:end])}")
        if right < to:
            found.words.append(f"put in: {_labels(after[right:to])}")
    return found


def _labels(parts: Iterable[Part]) -> str:
    return ", ".join(part.label for part in parts)


def _starts(parts: Sequence[Part]) -> list[int]:
    """The number of each part's first field."""
    starts, count = [], 0
    for part in parts:
        starts.append(count)
        count += len(part.fields)
    return starts


def _compare(found: Changes, one: Part, other: Part, start: int, to: int) -> None:
    fields = {field.name: at for at, field in enumerate(other.fields)}
    said = []
    for at, old in enumerate(one.fields):
        place = fields.pop(old.name, None)
        if place is None:
            found.before.append(start + at)
        elif (new := other.fields[place]) != old:
            found.before.append(start + at)
            found.after.append(to + place)
            said.append(f"{old.name} {_short(old.text)} to {_short(new.text)}")
    found.after += [to + place for place in fields.values()]
    if said:
        found.words.append(f"{other.label}: {', '.join(said)}")


def _short(text: str) -> str:
    return text.removesuffix(" in hexadecimal")


def _how(csid: str, changes: Sequence[str]) -> str:
    """How the destination came to be another one at a SID, by what changed."""
    fields = {
        (line.partition(": ")[0], one.rpartition(" to ")[0].rpartition(" ")[0])
        for line in changes
        for one in line.partition(": ")[2].split(", ")
    }
    if ("IPv6 header", "destination") not in fields:
        return ""
    if any(name == "Segments Left" for _, name in fields):
        return {"replace": "the next CSID, or a whole segment, comes from the next entry"}.get(
            csid, "the next entry of the segment list becomes the destination"
        )
    return {
        "next": "the CSID is shifted out: what stood behind it moves up to behind the block",
        "replace": "the next CSID of the same container takes its place",
    }.get(csid, "")


class Pages:
    """All that the page has of packets."""

    def __init__(self, net: Network) -> None:
        self.net = net
        self.parts: dict[bytes, list[Part]] = {}
        self.texts, self.shapes, self.views, self.marks = (Interned() for _ in range(4))
        self.fans = Interned()
        self.walks: list[dict[str, Any]] = []
        self._tellers: dict[bool, Teller] = {}
        self._values: dict[int, list[int]] = {}  # of a view, by field
        self._packets: dict[int, bytes] = {}
        self.nodes = {name: at for at, name in enumerate(net.nodes)}
        self.links = {name: at for at, name in enumerate(net.links)}
        self.sids = {(sid.node, sid.prefix): at for at, sid in enumerate(net.sids)}

    def read(self, packets: Iterable[bytes]) -> None:
        """Asks the program for the headers of packets."""
        wanted = [one for one in dict.fromkeys(packets) if one and one not in self.parts]
        self.parts |= dict(zip(wanted, dissected(wanted)))
        self.parts[b""] = []

    def text(self, words: str) -> int:
        """The number of a text."""
        return self.texts.number(words)

    def view(self, packet: bytes, base: int | None = None) -> int:
        """The number of a packet, which may be told by what it has otherwise than another one."""
        if packet in self.views._places:
            return self.views._places[packet]
        parts = self.parts[packet]
        shape, at = [], 0
        for part in parts:
            rows = []
            for one in part.fields:
                rows.append([one.name, at, one.bits])
                at += one.bits
            shape.append([part.label, rows])
        number = self.shapes.number(shape, json.dumps(shape))
        values = [self.text(one.text) for part in parts for one in part.fields]
        whole: list[Any] = [number, packet.hex(), values]
        if base is not None and self._is_like(base, packet, number):
            whole = self._difference(base, packet, values)
        place = self.views.number(whole, packet)
        self._values[place], self._packets[place] = values, packet
        return place

    def _is_like(self, base: int, packet: bytes, shape: int) -> bool:
        other = self._packets[base]
        return len(other) == len(packet) and self._shape_of(base) == shape

    def _shape_of(self, place: int) -> int:
        while len(self.views.values[place]) == 4:
            place = self.views.values[place][0]
        return self.views.values[place][0]

    def _difference(self, base: int, packet: bytes, values: list[int]) -> list[Any]:
        """The view before it, the fields with other values, and the bytes that are others."""
        other, before = self._packets[base], self._values[base]
        fields = [[at, new] for at, (old, new) in enumerate(zip(before, values)) if old != new]
        pieces: list[list[Any]] = []
        at = 0
        while at < len(packet):
            if packet[at] == other[at]:
                at += 1
                continue
            end = at
            while end < len(packet) and packet[end : end + 4] != other[end : end + 4]:
                end += 1
            pieces.append([at, packet[at:end].hex()])
            at = end
        return [base, fields, pieces, 0]

    def mark(self, before: bytes, after: bytes) -> tuple[int, list[str]]:
        """The number of what differs between two packets, and the same in words."""
        found = changes_of(self.parts[before], self.parts[after])
        row = [found.before, found.gone, found.after, found.new]
        return self.marks.number(row, json.dumps(row)), found.words

    def add(self, entered: Entered, group: str, fan: int = -1) -> int:
        """Adds a walk; gives its number."""
        walk = entered.walk
        start = walk.packet if entered.inner is None else entered.inner
        first = self.view(start)
        rows = []
        if entered.inner is not None and entered.first:
            rows.append(self._entry(entered, first))
        told = self._teller(entered.looks_up).told(walk)
        packet, view = walk.packet, self.view(walk.packet, first)
        shown = walk.stages[:MOST_STAGES]
        for stage, said in zip(shown, told):
            after = stage.packet if stage.packet is not None else b""
            mark, words, now = -1, [], -1
            if stage.kind == "drop":
                now = self.view(after) if after else -1
            elif after:
                now = self.view(after, view)
                mark, words = self.mark(packet, after)
                if stage.kind == "again" and said.sid and (how := _how(said.sid.csid, words)):
                    words = [*words, how]
                packet, view = after, now
            rows.append(self._row(stage.kind, said, stage.link, now, mark, words))
        self.walks.append({
            "number": walk.number, "group": group, "node": self.nodes[entered.node or walk.node],
            "view": first, "end": self.text(entered.end), "stages": rows, "fan": fan,
            "more": len(walk.stages) - len(shown),
        })  # fmt: skip
        return len(self.walks) - 1

    def _teller(self, looks_up: bool) -> Teller:
        if looks_up not in self._tellers:
            self._tellers[looks_up] = Teller(self.net, self.parts, looks_up)
        return self._tellers[looks_up]

    def _entry(self, entered: Entered, first: int) -> list[int]:
        """The headend's stage: it puts the list on, and sends the packet."""
        after = entered.walk.packet
        mark, words = self.mark(entered.inner or b"", after)
        link = self.net.links[entered.first or ""]
        to = f" to {link.end}" if link.end else ", which leaves the network"
        told = Told(
            entered.node, "the intent's list", f"puts the list on and sends it on {link.name}{to}",
            HEADEND_RFC,
        )  # fmt: skip
        return self._row("enter", told, link.name, self.view(after), mark, words)

    def _row(
        self, kind: str, said: Told, link: str | None, view: int, mark: int, words: list[str]
    ) -> list[int]:
        sid = self.sids[said.sid.node, said.sid.prefix] if said.sid else -1
        return [
            self.nodes[said.node], self.text(kind), self.text(said.words), self.text(said.entry),
            self.text(said.rfc), self.links[link] if link else -1, view, mark,
            self.text("; ".join(words)), sid,
        ]  # fmt: skip

    def fan(self, walks: Walks, start: Start) -> int:
        """The number of all walks of a packet, over all choices: how many there are, over which
        links how many go, and how they end.
        """
        fan, ways, links = fan_of(walks, start), [], 0
        for way in itertools.islice(each_walk(walks, start), MOST_WAYS):
            names = [self.links[hop.link] for _, hop in way if hop.link]
            ways.append([names, self.text(end_words(*way[-1]))])
            links += len(names)
            if links > MOST_LINKS:
                break
        row = {
            "walks": str(fan.walks),
            "links": [[self.links[name], str(count)] for name, count in fan.links.items()],
            "ends": [[self.text(end), str(count)] for end, count in fan.ends.items()],
            "ways": ways,
        }
        return self.fans.number(row, json.dumps(row))

    def data(self) -> dict[str, Any]:
        """All of it, for the page."""
        return {
            "texts": self.texts.values, "shapes": self.shapes.values, "views": self.views.values,
            "marks": self.marks.values, "fans": self.fans.values, "walks": self.walks,
        }  # fmt: skip
