"""draw-walk: the walks of packets through a network, as Graphviz text."""

import argparse
import functools
from collections.abc import Iterable, Iterator, Mapping, Sequence
from dataclasses import dataclass, field
from ipaddress import IPv6Address
from typing import NamedTuple

from .captures import Sent, sent_from
from .command import Fault, Parser, Status, positive, progress, run_tool
from .description import Link, Network, read_network
from .drawing import COLOURS, Drawing, Mark, end_of, quoted
from .err_lines import PacketLine, err_line_of
from .files import opened, read_lines

ERRORS = {
    1: "Destination Unreachable", 2: "Packet Too Big", 3: "Time Exceeded", 4: "Parameter Problem",
}  # fmt: skip
MOST_RUNS = 4  # runs of packets' numbers that a name has
DESCRIPTION = """\
Draws the walks of packets through a network, as Graphviz text on standard output:

  srv6 run NET NODE < INPUT > CAPTURE 2> LINES
  draw-walk --lines LINES NET CAPTURE [PACKET].. | dot -Tpng > walks.png

The network's links are grey; one that leaves the network ends at a point. Packets that cross the
same links and end alike have a colour, and an edge for each link, with the numbers of their sends
over it, counted from 1. An ICMPv6 error is a note at the node that sends it. A capture doesn't
tell what becomes of a packet at the node where its last send ends, nor of a packet of which
nothing is sent; the lines of `srv6 run`, `walk` or `update` do, and with them drops are drawn.
Without CAPTURE the network alone is drawn.

Before an update of a network, both ways of its packets in one picture: those in the old
description whole, those in the new one, which has the same nodes and links, in dashes.

  srv6 walk OLD INTENT < INPUT > OLD-CAPTURE
  srv6 walk NEW INTENT < INPUT > NEW-CAPTURE
  draw-walk --new NEW-CAPTURE OLD OLD-CAPTURE

What `srv6 update OLD NEW INTENT` writes is drawn over OLD or over NEW."""


class Error(NamedTuple):
    """An ICMPv6 error about a packet: the node that sends it, and what it is."""

    node: str
    kind: int
    code: int

    @property
    def lines(self) -> tuple[str, ...]:
        """What it is, in words."""
        return ERRORS.get(self.kind, f"type {self.kind}"), f"code {self.code}"


class End(NamedTuple):
    """How a packet ends at a node, by its line."""

    node: str
    outcome: str  # delivered or dropped
    reason: str | None = None

    @property
    def lines(self) -> tuple[str, ...]:
        """What it is, in words."""
        return (self.outcome, self.reason) if self.reason else (self.outcome,)


class Way(NamedTuple):
    """What is drawn of a packet: the node where it begins, the links that it crosses, in order, its
    ICMPv6 error and its end, where they are known.
    """

    first: str
    links: tuple[str, ...]
    error: Error | None
    end: End | None

    def over(self) -> dict[str, list[str]]:
        """For each link that is crossed the numbers of the sends over it, from 1."""
        sends: dict[str, list[str]] = {}
        for number, name in enumerate(self.links, 1):
            sends.setdefault(name, []).append(str(number))
        return sends


@dataclass(slots=True)
class Walk:
    """What a capture and lines have of a packet."""

    packet: int
    links: list[Link] = field(default_factory=list)
    error: bytes | None = None
    line: PacketLine | None = None


def walks_of(net: Network, frames: Iterable[Sent], name: str) -> dict[int, Walk]:
    """The walks of a capture that `srv6` wrote over a network, by the packets' numbers."""
    links: list[Link] = list(net.links.values())
    walks: dict[int, Walk] = {}
    for sent in frames:
        walk = walks.setdefault(sent.packet, Walk(sent.packet))
        if sent.link == 0:
            walk.error = sent.content
        elif sent.link > len(links):
            which = f"link {sent.link}, which the network doesn't have"
            raise Fault(f"{name}: packet {sent.packet} crosses {which}")
        else:
            walk.links.append(links[sent.link - 1])
            walk.error = None
    return walks


def add_lines(walks: dict[int, Walk], lines: Iterable[str], name: str) -> None:
    """Adds what lines of `srv6` say of packets, also of those of which nothing is sent."""
    found = (said for line in lines if isinstance(said := err_line_of(line), PacketLine))
    said = [one for one in found if one.outcome != "not read"]
    if walks and not said:
        raise Fault(f"{name}: no line of a packet, as `srv6 run` writes them on standard error")
    for one in said:
        walks.setdefault(one.number, Walk(one.number)).line = one


class Ways:
    """The ways of packets of a network; a fault where a walk isn't one of the network."""

    def __init__(self, net: Network) -> None:
        self.net = net
        self._by_address = {node.address: node.name for node in reversed(net.nodes.values())}

    def of(self, walk: Walk) -> Way | None:
        """The way of a packet; None where nothing says where it is."""
        place = None
        for link in walk.links:
            if place not in (None, link.start):
                raise Fault(f"packet {walk.packet} crosses {link.name} from where it isn't")
            place = link.end or ""
        error = self._error(walk)
        if error and place not in (None, error.node):
            raise Fault(f"the error about packet {walk.packet} comes from where it isn't")
        end = self._end(walk)
        last = place if place is not None else error.node if error else None
        if end and last not in (None, end.node):
            raise Fault(f"packet {walk.packet} is {end.outcome} at {end.node}, where it isn't")
        first = walk.links[0].start if walk.links else last or (end.node if end else None)
        links = tuple(link.name for link in walk.links)
        return None if first is None else Way(first, links, error, end)

    def _error(self, walk: Walk) -> Error | None:
        """The error; the node that sends it has its source as address."""
        content = walk.error
        if content is None:
            return None
        if len(content) < 42:
            raise Fault(f"the error about packet {walk.packet} is cut")
        source = IPv6Address(content[8:24])
        if source not in self._by_address:
            which = f"comes from {source}, which no node has"
            raise Fault(f"the error about packet {walk.packet} {which}")
        return Error(self._by_address[source], content[40], content[41])

    def _end(self, walk: Walk) -> End | None:
        """The end that a line has at a node: one that leaves or is stopped has none."""
        line = walk.line
        if line is None or line.outcome not in ("delivered", "dropped"):
            return None
        if line.place not in self.net.nodes:
            raise Fault(f"packet {walk.packet} ends at {line.place}, which is no node")
        return End(line.place, line.outcome, line.reason)


def named(packets: Sequence[int]) -> str:
    """Packets in words: the one, or how many there are and which."""
    if len(packets) == 1:
        return f"packet {packets[0]}"
    runs = list(_runs(sorted(packets)))
    more = ", .." if len(runs) > MOST_RUNS else ""
    return f"{len(packets)} packets: {', '.join(runs[:MOST_RUNS])}{more}"


def _runs(numbers: Sequence[int]) -> Iterator[str]:
    """Ascending numbers as runs of those that follow one another."""
    first = before = numbers[0]
    for number in [*numbers[1:], 0]:
        if number != before + 1:
            yield f"{first}" if first == before else f"{first}-{before}"
            first = number
        before = number


def _draw(drawing: Drawing, packets: Sequence[int], way: Way, colour: str, is_new: bool) -> None:
    """The way of packets: where they come from, the links that they cross, and how they end; one
    in the new description in dashes.
    """
    net, new = drawing.net, ", new" if is_new else ""
    name = named(packets) + new
    count = (f"packet {packets[0]}" if len(packets) == 1 else f"{len(packets)} packets") + new
    drawing.entry(name, quoted(way.first), colour)
    more = ", penwidth=2, style=dashed" if is_new else ", penwidth=2"
    for link_name, sends in way.over().items():
        link = net.links[link_name]
        label = f"{count}: send {', '.join(sends)} over {link_name}"
        drawing.edge(quoted(link.start), end_of(link), label, colour, more)
    if way.end:
        shape = "box" if way.end.outcome == "delivered" else "octagon"
        mark = Mark(f"end of {name}", shape, way.end.lines)
        drawing.mark(mark, way.end.node, count, colour)
    if way.error:
        mark = Mark(f"error about {name}", "note", way.error.lines)
        drawing.mark(mark, way.error.node, f"{count}: error", colour)


def main(words: Sequence[str]) -> int:
    """Runs the tool."""
    parser = Parser("draw-walk", DESCRIPTION)
    parser.add_argument("net", metavar="NET", help="a description")
    parser.add_argument(
        "capture", metavar="CAPTURE", nargs="?",
        help="a capture that `srv6` wrote; without one the network alone is drawn",
    )  # fmt: skip
    parser.add_argument(
        "packets", metavar="PACKET", nargs="*", type=positive, help="without numbers all are drawn"
    )
    parser.add_argument(
        "--used", action="store_true", help="leave out nodes and links that no packet meets"
    )
    parser.add_argument(
        "--lines", metavar="LINES", help="what srv6 said of the packets on standard error"
    )
    parser.add_argument(
        "--new", metavar="CAPTURE", help="draw the walks in the new description too, in dashes"
    )
    parser.add_argument("--new-lines", metavar="LINES", help="what srv6 said of these")
    return run_tool(parser, functools.partial(_work, parser.prog), words)


def _ways_in(net: Network, capture: str | None, lines: str | None) -> dict[int, Way]:
    """The ways of the packets of a capture and of lines, by number; none without a capture."""
    if capture is None:
        return {}
    with opened(capture) as file:
        walks = walks_of(net, sent_from(file, capture), capture)
    if lines:
        add_lines(walks, read_lines(lines), lines)
    ways = Ways(net)
    found = ((packet, ways.of(walk)) for packet, walk in walks.items())
    return {packet: way for packet, way in found if way}


Both = tuple[Way | None, Way | None]  # in the old description and in the new one


def grouped(packets: Iterable[int], old: Mapping[int, Way], new: Mapping[int, Way]) -> dict[Both, list[int]]:
    """The packets that go the same ways, in both descriptions."""
    groups: dict[Both, list[int]] = {}
    for packet in dict.fromkeys(packets):
        groups.setdefault((old.get(packet), new.get(packet)), []).append(packet)
    return groups


def _work(tool: str, words: argparse.Namespace) -> None:
    if words.capture is None and (words.used or words.lines or words.new):
        raise Fault("--used, --lines and --new are of the walks of a CAPTURE", Status.USAGE)
    if words.new_lines and not words.new:
        raise Fault("--new-lines is of the walks of --new", Status.USAGE)
    with progress(tool, "drawing"):
        net = read_network(words.net)
        old = _ways_in(net, words.capture, words.lines)
        new = _ways_in(net, words.new, words.new_lines)
        for packet in words.packets:
            if packet not in old and packet not in new:
                raise Fault(f"{words.new or words.capture} has nothing of packet {packet}")
        groups = grouped(words.packets or [*old, *new], old, new)
        drawing = Drawing(net)
        if words.used:
            shown = [way for both in groups for way in both if way]
            used = [net.links[name] for way in shown for name in way.links]
            drawing.begin(used, [way.first for way in shown])
        else:
            drawing.begin()
        for place, (both, packets) in enumerate(groups.items()):
            for at, way in enumerate(both):
                if way:
                    _draw(drawing, packets, way, COLOURS[place % len(COLOURS)], at == 1)
    print(drawing.text())
