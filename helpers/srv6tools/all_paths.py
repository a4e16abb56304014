"""all-paths: every walk of packets over all choices among equal next hops."""

import argparse
import functools
import itertools
import json
from collections.abc import Hashable, Iterator, Sequence
from dataclasses import dataclass
from pathlib import Path
from typing import Any

from .command import Fault, Parser, Status, judge_all, positive, progress, run_tool
from .description import Network, read_network
from .drawing import COLOURS, Drawing, end_of, quoted
from .fans import each_walk
from .files import read_input
from .say_items import near
from .spread import Spread, spreads_of
from .walks import (
    Hop, Start, View, Visit, Walks, counts_of, crossed, views_of, visits_from, ways_of,
)  # fmt: skip

VISITS = 100_000
DESCRIPTION = """\
Prints every walk of each packet of the input, whichever of the equal next hops are chosen, as
`srv6 trace` and `srv6 walk` take them: at each node the SIDs that it executes, then the link, and
of the packet on it the destination, the hop limit and Segments Left. Packets arrive at NODE; of
an INTENT they enter at its headend; without either they arrive at each node in turn. Frames that
srv6 doesn't read are left out.

Where walks come together, the rest is printed once, and `as at #N` stands in the other places.

With --count it reads no input: it prints `walks N`, over how many walks the list of
`srv6 compile NET INTENT` spreads its packets up to the hand-over, and the links that all of them
cross. Of several intents there is a line for each, `walks N INTENT: LINKS`."""


@dataclass(frozen=True, slots=True)
class Found:
    """What there is to print: the packets, their walks, and what their headers say."""

    net: Network
    walks: Walks
    starts: list[Start]
    views: dict[bytes, View | None]

    def view(self, packet: bytes) -> str:
        """A packet's outermost header, in words."""
        return str(self.views.get(packet) or "to nothing that reads")

    def title(self, start: Start, count: int) -> str:
        """The line above the walks of a packet."""
        entry = "enters at the headend" if start.visit.inner else "arrives at"
        view = "" if start.visit.inner else f", {self.view(start.visit.packet)}"
        return f"packet {start.number} {entry} {start.visit.node}{view}: {_count(count, 'walk')}"


def _count(count: int, what: str) -> str:
    return f"{count} {what}" if count == 1 else f"{count} {what}s"


def _of_hop(hop: Hop) -> str:
    return f" executes {', '.join(hop.sids)}" if hop.sids else ""


class Tree:
    """The walks of a packet as a tree; a chain of nodes with one next hop each isn't indented."""

    def __init__(self, found: Found, start: Start):
        self.found, self.walks = found, found.walks
        self.start, self.numbers = start, self._met_often(start)
        self.printed: set[Visit] = set()

    def _met_often(self, start: Start) -> dict[Visit, int]:
        """The visits to which more than one hop leads, with a number each."""
        met: dict[Visit, int] = {}
        for visit in visits_from(self.walks, start):
            for hop in self.walks.hops[visit]:
                if (then := self.walks.next_visit(hop)) is not None:
                    met[then] = met.get(then, 0) + 1
        often = [visit for visit, times in met.items() if times > 1]
        return {visit: number for number, visit in enumerate(often, 1)}

    def lines(self) -> Iterator[str]:
        """The lines of the tree, without recursion: a row of things that are still to be printed.
        """
        todo: list[tuple[Visit | Hop, str, str]] = [(self.start.visit, "", "")]
        while todo:
            one, first, rest = todo.pop()
            if isinstance(one, Hop):
                then = self.walks.next_visit(one)
                end = f": {one.end}" if one.end else ""
                yield f"{first}{one.link} {self.found.view(one.packet)}{end}"
                if then is not None:
                    todo.append((then, rest, rest))
                continue
            hops = self.walks.hops.get(one, [])
            number = f" (#{self.numbers[one]})" if one in self.numbers else ""
            if one in self.printed:
                yield f"{first}{one.node} as at #{self.numbers.get(one, 0)}"
            elif not hops:
                yield f"{first}{one.node}{number} .."
            elif len(hops) == 1:
                yield f"{first}{one.node}{number}{self._only(hops[0])}"
                if (then := self.walks.next_visit(hops[0])) is not None:
                    todo.append((then, rest, rest))
            else:
                yield f"{first}{one.node}{number}{_of_hop(hops[0])}"
                last = len(hops) - 1
                for place in range(last, -1, -1):
                    marks = ("`- ", "   ") if place == last else ("|- ", "|  ")
                    todo.append((hops[place], rest + marks[0], rest + marks[1]))
            self.printed.add(one)

    def _only(self, hop: Hop) -> str:
        """The one hop of a visit, behind the node's name."""
        over = f" over {hop.link} {self.found.view(hop.packet)}" if hop.link else ""
        return f"{_of_hop(hop)}{over}" + (f": {hop.end}" if hop.end else "")


def _row(found: Found, visit: Visit, hop: Hop) -> list[str]:
    view = found.views.get(hop.packet) if hop.link else None
    left = "" if view is None or view.segments_left is None else str(view.segments_left)
    told = [view.destination, str(view.hop_limit), left] if view else ["", "", ""]
    return [visit.node, " ".join(hop.sids), hop.link or "", *told, hop.end or ""]


def tree_lines(found: Found) -> Iterator[str]:
    """The walks of all packets as trees."""
    known: dict[Hashable, tuple[int, list[str]]] = {}
    for place, start in enumerate(found.starts):
        if place:
            yield ""
        key = ways_of(found.walks, start)
        if key not in known:
            count = counts_of(found.walks, start)[start.visit]
            known[key] = count, [f"  {line}" for line in Tree(found, start).lines()]
        count, lines = known[key]
        yield found.title(start, count)
        yield from lines


COLUMNS = ["packet", "walk", "node", "executes", "link", "destination", "hop", "left", "end"]


def table_lines(found: Found, most: int) -> Iterator[str]:
    """The table of all walks."""
    rows = [COLUMNS]
    for start in found.starts:
        for number, walk in enumerate(itertools.islice(each_walk(found.walks, start), most), 1):
            rows += [[str(start.number), str(number), *_row(found, *hop)] for hop in walk]
    widths = [max(len(row[place]) for row in rows) for place in range(len(COLUMNS))]
    for row in rows:
        yield "  ".join(text.ljust(width) for text, width in zip(row, widths)).rstrip()


def as_json(found: Found) -> dict[str, Any]:
    """All walks as JSON: each packet's visits, with what may come next at each."""
    return {"kind": "all-paths", "packets": [_packet_json(found, start) for start in found.starts]}


def _packet_json(found: Found, start: Start) -> dict[str, Any]:
    visits = visits_from(found.walks, start)
    places = {visit: place for place, visit in enumerate(visits)}
    return {
        "number": start.number,
        "node": start.visit.node,
        "walks": counts_of(found.walks, start)[start.visit],
        "visits": [
            {
                "visit": places[visit],
                "node": visit.node,
                **_view_json(found.views.get(visit.packet)),
                "hops": [_hop_json(found, places, hop) for hop in found.walks.hops[visit]],
            }
            for visit in visits
        ],
    }


def _view_json(view: View | None) -> dict[str, Any]:
    return {
        "destination": view.destination if view else None,
        "hop_limit": view.hop_limit if view else None,
        "segments_left": view.segments_left if view else None,
    }


def _hop_json(found: Found, places: dict[Visit, int], hop: Hop) -> dict[str, Any]:
    then = found.walks.next_visit(hop)
    return {
        "sids": list(hop.sids),
        "link": hop.link,
        **_view_json(found.views.get(hop.packet)),
        "next": places.get(then) if then else None,
        "end": hop.end,
    }


def dot_text(found: Found) -> str:
    """The links that any walk crosses, as Graphviz text."""
    links = crossed(found.walks, found.starts)
    drawing = Drawing(found.net)
    drawing.begin(
        [link for some in links.values() for link in some],
        [start.visit.node for start in found.starts],
    )
    for place, start in enumerate(found.starts):
        colour = COLOURS[place % len(COLOURS)]
        drawing.entry(f"packet {start.number}", quoted(start.visit.node), colour)
        for link in links[start]:
            label = f"packet {start.number}: {link.name}"
            drawing.edge(quoted(link.start), end_of(link), label, colour, ", penwidth=2")
    return drawing.text()


def main(words: Sequence[str]) -> int:
    """Runs the tool."""
    parser = Parser("all-paths", DESCRIPTION)
    parser.usage = (
        "all-paths NET [NODE|INTENT] [--table|--json|--dot] [--most N] < INPUT, or"
        " all-paths --count [--json] NET INTENT.."
    )
    parser.add_argument("net", metavar="NET", help="a description")
    parser.add_argument(
        "starts", metavar="NODE|INTENT", nargs="*", help="a node's name, or an intent's file"
    )
    form = parser.add_mutually_exclusive_group()
    for name, what in (
        ("--table", "a row for each node of each walk"),
        ("--json", "each visit of a node, with what may come next"),
        ("--dot", "Graphviz text of the links that are crossed"),
    ):
        form.add_argument(name, action="store_true", help=what)
    parser.add_argument(
        "--count", action="store_true", help="over how many walks the list of an intent spreads"
    )
    parser.add_argument(
        "--most", metavar="N", type=positive, default=1000,
        help="walks of a packet in the table (1000)",
    )  # fmt: skip
    return run_tool(parser, functools.partial(_work, parser.prog), words)


def _work(tool: str, words: argparse.Namespace) -> int:
    _judge(words)
    if words.count:
        return _count_walks(tool, words)
    with progress(tool, "asking srv6 for the walks"):
        net = read_network(words.net)
        found = _found(net, words.starts[0] if words.starts else None, read_input())
    if found.walks.is_cut:
        raise Fault(f"there are more than {VISITS} visits of packets at nodes; take fewer packets")
    if words.dot:
        print(dot_text(found))
    elif words.json:
        print(json.dumps(as_json(found), indent=1))
    elif words.table:
        print("\n".join(table_lines(found, words.most)))
    else:
        print("\n".join(tree_lines(found)))
    return Status.DONE


def _judge(words: argparse.Namespace) -> None:
    """A fault where words don't go together."""
    if not words.count and len(words.starts) > 1:
        raise Fault("one node or one intent, or several intents with --count", Status.USAGE)
    if words.count and (not words.starts or words.table or words.dot):
        raise Fault("--count takes intents, and --json alone of the forms", Status.USAGE)


def _count_walks(tool: str, words: argparse.Namespace) -> int:
    """Prints over how many walks the lists of intents spread."""
    with progress(tool, "asking srv6 for the walks"):
        found = list(spreads_of(read_network(words.net), words.starts))
    rows = list(zip(words.starts, found))
    if words.json:
        intents = [_spread_json(*row) for row in rows]
        print(json.dumps({"kind": "walks", "net": words.net, "intents": intents}, indent=1))
    elif len(rows) > 1:
        print("\n".join(_spread_line(*row) for row in rows))
    elif isinstance(found[0], Spread):
        print(f"walks {found[0].fan.walks}\n{found[0].said}")
    judge_all(found, "intents have none")
    return Status.DONE


def _spread_json(intent: str, found: Spread | Fault) -> dict[str, Any]:
    if isinstance(found, Fault):
        return {"intent": intent, "walks": None, "why": str(found)}
    return {"intent": intent, **found.as_json()}


def _spread_line(intent: str, found: Spread | Fault) -> str:
    if isinstance(found, Fault):
        return f"walks none {intent}: {found}"
    return f"walks {found.fan.walks} {intent}: {found.said}"


def _found(net: Network, start: str | None, given: bytes) -> Found:
    """The walks from a node, from an intent's headend, or from each node."""
    walks, starts = Walks(net, VISITS), []
    if start is None or start in net.nodes:
        for node in net.nodes if start is None else [start]:
            starts += walks.from_node(node, given)
    elif Path(start).exists():
        starts += walks.from_intent(start, given)
    else:
        what = near(start, net.nodes, "nodes", most=256)
        raise Fault(f'{net.path} has no node "{start}", and there is no such file; {what}')
    packets = [visit.packet for visit in walks.hops]
    packets += [hop.packet for hops in walks.hops.values() for hop in hops]
    return Found(net, walks, starts, views_of(packets))
