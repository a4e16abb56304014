"""All walks of packets over all choices among equal next hops, as `srv6 trace` and `srv6 walk`
take them.

What a node does with a packet depends on the node and the packet alone, and on the choice for the
send. So of walks that come to one node with the same bytes the rest is asked of `srv6` once.
"""

import collections
import os
from collections.abc import Hashable, Iterable, Sequence
from concurrent.futures import ThreadPoolExecutor
from dataclasses import dataclass, field
from pathlib import Path
from typing import NamedTuple

from .captures import in_captures, sent_in
from .description import Link, Network
from .err_lines import PacketLine, err_line_of
from .intent import read_intent
from .loose import legs_of
from .own_entries import OwnEntries, own_entries_of
from .program import Answer, judge_answer, run_program
from .report import certificate_in
from .shown import Shown, shown_in
from .trace import Walk, trace_of

MOST_MEMBERS = 64  # of a set of equal next hops
MOST_ENTRIES = 5_000  # of a description that is read anew each time that walks are asked for


class Visit(NamedTuple):
    """A packet at a node: as it arrives there, or, with a number, an inner packet that enters at
    the headend.
    """

    node: str
    packet: bytes
    inner: int | None = None


@dataclass(frozen=True, slots=True)
class Hop:
    """What a node does with a packet under one choice: the SIDs that it executes, and a send or
    an end.
    """

    sids: tuple[str, ...]
    link: str | None = None
    packet: bytes = b""  # as it is sent
    end: str | None = None


@dataclass(frozen=True, slots=True)
class Start:
    """Where a packet of the input enters."""

    number: int
    visit: Visit


@dataclass(slots=True)
class Walks:
    """The walks that are found: for each visit the hops, one for each member of the set of next
    hops.
    """

    net: Network
    most: int  # visits
    calls: int | None = None  # how often the program may be asked for what is behind the first walks
    hops: dict[Visit, list[Hop]] = field(default_factory=dict)
    is_cut: bool = False  # there are more visits
    _by_choice: dict[Visit, dict[int, Hop]] = field(default_factory=dict)
    _open: dict[Visit, None] = field(default_factory=dict)  # of which not all hops are known
    _sets: dict[str, set[tuple[str, ...]]] = field(default_factory=dict)
    _own: OwnEntries | None = None  # of a large network

    def __post_init__(self) -> None:
        if len(self.net.routes) + len(self.net.sids) > MOST_ENTRIES:
            self._own = own_entries_of(self.net.path)
        for route in self.net.routes:
            self._sets.setdefault(route.via[0], set()).add(route.via)
        for sid in self.net.sids:
            if sid.links:
                self._sets.setdefault(sid.links[0], set()).add(sid.links)

    @property
    def entries_a_call(self) -> int:
        """The routes and SIDs that the program reads when it is asked for walks, about."""
        entries = len(self.net.routes) + len(self.net.sids)
        return entries // len(self.net.nodes) if self._own else entries

    def next_visit(self, hop: Hop) -> Visit | None:
        """Where a hop leads; None where the packet ends or leaves the network."""
        link = self.net.links[hop.link] if hop.link else None
        return Visit(link.end, hop.packet) if link and link.end else None

    def from_node(self, node: str, given: bytes) -> list[Start]:
        """Finds the walks of the packets of an input that arrive at a node."""
        starts = []
        for walk in self._traced(node, 0, given):
            starts.append(Start(walk.number, Visit(walk.node, walk.packet)))
            self._take(walk, 0)
        self._find_all()
        return starts

    def from_intent(self, intent: str, given: bytes) -> list[Start]:
        """Finds the walks of the inner packets of an input that enter at an intent's headend."""
        entry = _Entry(self.net, intent, given)
        starts = [Start(number, visit) for number, visit in entry.visits.items()]
        choice = 0
        while pending := [start.visit for start in starts if self._wants(start.visit) == choice]:
            for visit, hop in entry.hops(choice).items():
                if visit in pending:
                    self._put(visit, choice, hop)
            choice += 1
        self._find_all()
        return starts

    def _find_all(self) -> None:
        """Asks for what each visit still wants, those of one node and one choice together."""
        while not self.is_cut and (wanted := self._wanted()):
            if self._own:
                self._ask_each_node(wanted)
                continue
            for (node, choice), visits in wanted.items():
                self._ask(node, choice, [one for one in visits if self._wants(one) == choice])
                self._count(1)
                if self.is_cut:
                    break

    def _ask(self, node: str, choice: int, visits: Sequence[Visit]) -> None:
        """Asks for the walks of packets that arrive at a node, under one choice."""
        for _, given in in_captures(visit.packet for visit in visits):
            for walk in self._traced(node, choice, given):
                self._take(walk, choice)

    def _count(self, calls: int) -> None:
        """Stops where there are too many visits, or the program was asked too often."""
        if self.calls is not None:
            self.calls -= calls
        self.is_cut |= len(self._by_choice) > self.most or (self.calls is not None and self.calls < 0)

    def _ask_each_node(self, wanted: dict[tuple[str, int], list[Visit]]) -> None:
        """Asks for all that nodes do with packets, by their own entries, on all processors."""
        by_node: dict[str, list[Visit]] = {}
        for (node, _), visits in wanted.items():
            by_node.setdefault(node, []).extend(visits)
        with ThreadPoolExecutor(os.cpu_count()) as aside:
            self._count(sum(aside.map(self._ask_node, by_node, by_node.values())))

    def _ask_node(self, node: str, visits: Sequence[Visit]) -> int:
        """Asks for the first hops of packets at a node; gives how often."""
        calls = 0
        while left := [visit for visit in visits if self._wants(visit) is not None]:
            choice = min(self._wants(visit) for visit in left)
            packets = (visit.packet for visit in left if self._wants(visit) == choice)
            for _, given in in_captures(packets):
                calls += 1
                for walk in self._traced(node, choice, given, self._own.path(node)):
                    self._take(walk, choice, is_first=True)
        return calls

    def _wanted(self) -> dict[tuple[str, int], list[Visit]]:
        """The visits of which hops are still to be asked for, by the node and the choice; those of
        which all are known are done.
        """
        wanted: dict[tuple[str, int], list[Visit]] = {}
        for visit in list(self._open):
            choice = self._wants(visit)
            if choice is None:
                hops = self._by_choice[visit]
                self.hops[visit] = [hops[choice] for choice in self._choices(visit)]
                del self._open[visit]
            elif visit.inner is None:
                wanted.setdefault((visit.node, choice), []).append(visit)
        return wanted

    def _wants(self, visit: Visit) -> int | None:
        """The least choice that isn't known of a visit and gives another member."""
        hops = self._by_choice.get(visit, {})
        return next((choice for choice in self._choices(visit) if choice not in hops), None)

    def _choices(self, visit: Visit) -> range:
        """The choices that give another member each; one more than are known where it isn't known
        how many.
        """
        hops = self._by_choice.get(visit, {})
        if 0 not in hops or not hops[0].link:  # another choice may have led here first
            return range(1)
        sizes = {len(links) for links in self._sets.get(hops[0].link, ())}
        if len(sizes) == 1:
            return range(sizes.pop())
        for choice in range(1, MOST_MEMBERS + 1):  # a set has each link once, and begins anew
            if choice not in hops:
                return range(choice + 1)
            if hops[choice].link == hops[0].link:
                return range(choice)
        return range(MOST_MEMBERS)

    def _traced(
        self, node: str, choice: int, given: bytes, path: str | Path | None = None
    ) -> list[Walk]:
        words = ["trace", path or self.net.path, node, str(choice)]
        answer = run_program(words, given)
        judge_answer(words, answer)
        return trace_of(answer.out.decode("latin-1").splitlines(), "srv6 trace").walks

    def _put(self, visit: Visit, choice: int, hop: Hop) -> None:
        self._met(visit).setdefault(choice, hop)
        if (then := self.next_visit(hop)) is not None:
            self._met(then)

    def _met(self, visit: Visit) -> dict[int, Hop]:
        """The hops that are known of a visit, by choice."""
        if visit not in self._by_choice:
            self._open[visit] = None
        return self._by_choice.setdefault(visit, {})

    def _take(self, walk: Walk, choice: int, is_first: bool = False) -> None:
        """The hops of a walk that was taken under one choice for all sends, or the first alone."""
        visit, sids = Visit(walk.node, walk.packet), []
        for stage in walk.stages:
            match stage.kind:
                case "again" | "hand":
                    sids.append(stage.sid)
                    continue
                case "send":
                    link = self.net.links[stage.link]
                    end = None if link.end else f"left {link.name}"
                    hop = Hop(tuple(sids), link.name, stage.packet, end)
                case "local":
                    hop = Hop(tuple(sids), end="delivered")
                case "drop":
                    error = ", with an ICMPv6 error" if stage.packet else ""
                    hop = Hop(tuple(sids), end=f"dropped {stage.reason}{error}")
                case _:
                    hop = Hop(tuple(sids), end="stopped after 10000 stages")
            self._put(visit, choice, hop)
            sids = []
            if (then := self.next_visit(hop)) is None or is_first:
                return
            visit = then


class _Entry:
    """What `srv6 walk` does with the inner packets of an input at the headend."""

    def __init__(self, net: Network, intent: str, given: bytes):
        self.net, self.intent, self.given = net, intent, given
        self.links = list(net.links.values())
        self.headend = read_intent(intent).headend
        with ThreadPoolExecutor(1) as aside:  # of a large network each call takes a while
            walked = aside.submit(self._walked, 0)
            self.sids = self._own_sids()
            self._first = self._firsts(walked.result())
        self.visits = {visit.inner: visit for visit in self._first}

    def _own_sids(self) -> tuple[str, ...]:
        """The SIDs that the headend itself executes."""
        words = ["compile", self.net.path, self.intent]
        answer = run_program(words)
        judge_answer(words, answer)
        path = certificate_in(answer.out.decode("latin-1")).path
        if not path:
            return ()
        legs = legs_of(self.net, read_intent(self.intent))
        own = legs.executed_first([step.prefix for step in path])
        return tuple(str(sid.prefix) for sid in own)

    def hops(self, choice: int) -> dict[Visit, Hop]:
        """The first hops of the packets under one choice."""
        return self._firsts(self._walked(choice)) if choice else self._first

    def _walked(self, choice: int) -> Answer:
        return run_program(["walk", self.net.path, self.intent, str(choice)], self.given)

    def _firsts(self, answer: Answer) -> dict[Visit, Hop]:
        """The first hops in an answer of `srv6 walk`."""
        judge_answer(["walk", self.net.path, self.intent], answer)
        firsts: dict[int, Hop] = {}
        for sent in sent_in(answer.out, "srv6 walk"):
            if sent.packet not in firsts and 0 < sent.link <= len(self.links):
                link = self.links[sent.link - 1]
                end = None if link.end else f"left {link.name}"
                firsts[sent.packet] = Hop(self.sids, link.name, sent.content, end)
        for line in answer.err.splitlines():
            said = err_line_of(line)
            if isinstance(said, PacketLine) and said.outcome != "not read":
                end = f"{said.outcome} {said.reason or ''}".strip()
                firsts.setdefault(said.number, Hop((), end=end))
        return {Visit(self.headend, b"", number): hop for number, hop in sorted(firsts.items())}


@dataclass(frozen=True, slots=True)
class View:
    """What of a packet's outermost header is told."""

    destination: str
    hop_limit: int
    segments_left: int | None  # None where there is no segment routing header

    def __str__(self) -> str:
        left = "" if self.segments_left is None else f", Segments Left {self.segments_left}"
        return f"to {self.destination}, hop limit {self.hop_limit}{left}"


def views_of(packets: Iterable[bytes]) -> dict[bytes, View | None]:
    """The views of packets, as `srv6 show` tells their headers; None of one that doesn't read."""
    views: dict[bytes, View | None] = {}
    for some, given in in_captures(packet for packet in dict.fromkeys(packets) if packet):
        answer = run_program(["show"], given)
        judge_answer(["show"], answer)
        for shown in shown_in(answer.out.decode("latin-1").splitlines(), "srv6 show"):
            views[some[shown.number - 1]] = _view(shown)
    return views


def _view(shown: Shown) -> View | None:
    first = shown.headers[0] if shown.headers else None
    if first is None or first.kind not in ("ip6", "ip4"):
        return None
    left = [int(header.values["left"]) for header in shown.headers if header.kind == "srh"]
    hop_limit = int(first.values["hop" if first.kind == "ip6" else "ttl"])
    return View(str(first.values["dst"]), hop_limit, left[0] if left else None)


def crossed(walks: Walks, starts: Iterable[Start]) -> dict[Start, list[Link]]:
    """For each packet the links that any of its walks crosses, in the order of the description."""
    found: dict[Start, list[Link]] = {}
    for start in starts:
        hops = [hop for visit in visits_from(walks, start) for hop in walks.hops[visit]]
        links = {walks.net.links[hop.link] for hop in hops if hop.link}
        found[start] = sorted(links, key=lambda link: link.number)
    return found


def visits_from(walks: Walks, start: Start) -> list[Visit]:
    """All visits of a packet, each once, in the order in which they are come to."""
    found, todo = {start.visit: None}, collections.deque([start.visit])
    while todo:
        for hop in walks.hops.get(todo.popleft(), ()):
            then = walks.next_visit(hop)
            if then is not None and then in walks.hops and then not in found:
                found[then] = None
                todo.append(then)
    return [visit for visit in found if visit in walks.hops]


def ways_of(walks: Walks, start: Start) -> Hashable:
    """What the walks of a packet depend on: those of two packets for which this is the same, be
    they one packet twice or inner packets that the headend treats alike, are the same.
    """
    visit = start.visit
    return visit if visit.inner is None else (visit.node, *walks.hops.get(visit, ()))


def counts_of(walks: Walks, start: Start) -> dict[Visit, int]:
    """For each visit of a packet how many walks there are from it on."""
    counts: dict[Visit, int] = {}
    todo = [start.visit]
    while todo:
        visit = todo[-1]
        thens = [walks.next_visit(hop) for hop in walks.hops.get(visit, ())]
        unknown = [then for then in thens if then is not None and then not in counts]
        if unknown and visit not in counts:
            counts[visit] = 0  # met again it is a loop, which counts as an end
            todo.extend(unknown)
            continue
        todo.pop()
        own = (1 if then is None else max(1, counts.get(then, 1)) for then in thens)
        counts[visit] = sum(own) or 1
    return counts
