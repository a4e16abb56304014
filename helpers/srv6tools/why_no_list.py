"""why-no-list: how far any segment list comes along an intent, and why none goes on from there."""

import argparse
import collections
import functools
from collections.abc import Iterator, Sequence
from ipaddress import IPv6Address

from .command import Fault, Parser, Status, progress, run_tool
from .description import Sid, read_network
from .err_lines import NoAnswer, err_line_of
from .intent import Step, read_intent
from .legs import Edges, Legs, Rooms
from .loose import legs_of
from .places import Halt, Stop
from .program import judge_answer, run_program
from .pushed_headers import Lost, Origin

MOST_NAMES = 4  # SIDs that one line names
DESCRIPTION = """\
Where `srv6 compile NET INTENT` says `no answer NoList`: prints the furthest step that any list
does, and for each SID there why no list goes on. What is found follows the rules of certificates
(docs/FORMATS.md); that there is no list is what srv6 says. Where there is one, the status is
3."""

# The SIDs behind which a packet goes on from an origin, or which push a header that is lost. None
# is the headend.
Origins = dict[Origin | Lost, list[Sid | None]]


class Search:
    """What lists come to: the states that are reached from the headend."""

    def __init__(self, legs: Legs):
        self.legs, self.rooms = legs, Rooms(legs.net)
        self.reached: dict[int, dict[Sid | None, set[int]]] = {0: {None: {0}}}  # by position, rooms
        self.has_list = False
        self._go(Edges(legs, self.rooms))

    def _go(self, edges: Edges) -> None:
        """Goes along all edges; of states that are alike in theirs only the first is gone on
        from.
        """
        todo, alike = collections.deque([(0, None, 0)]), set()
        while todo:
            state = todo.popleft()
            if edges.like(*state) in alike:
                continue
            alike.add(edges.like(*state))
            for edge in edges.of(*state):
                self.has_list |= edge.is_last
                rooms = self.reached.setdefault(edge.position, {}).setdefault(edge.sid, set())
                if not edge.is_last and edge.room not in rooms:
                    rooms.add(edge.room)
                    todo.append((edge.position, edge.sid, edge.room))

    def furthest(self) -> tuple[int, Origins]:
        """The most steps that are done where a SID is executed, or the header is taken off that it
        pushes, and from where packets go on there.
        """
        origins: dict[int, Origins] = {}
        for position, reached in self.reached.items():
            for sid in sorted(reached, key=lambda sid: sid.number if sid else 0):
                origin = self.legs.origin(position, sid)
                done = position if isinstance(origin, Lost) else origin.position
                origins.setdefault(done, {}).setdefault(origin, []).append(sid)
        return max(origins), origins[max(origins)]


class Reasons:
    """Why packets don't go on from the SIDs where the most steps are done."""

    def __init__(self, search: Search):
        self.search, self.legs = search, search.legs
        self.position, self.origins = search.furthest()

    def step(self, position: int) -> str:
        """A step by the number of steps that are done before it."""
        return f"step {position + 1} ({self.legs.steps[position]})"

    def lines(self) -> Iterator[str]:
        """All that is to be said."""
        steps, node = self.legs.steps, self.legs.stands[self.position]
        if self.position:
            done = f"step {self.position} of {len(steps)} ({steps[self.position - 1]})"
            yield f"no list: the furthest that any list comes is {done}, at {node}"
        else:
            yield f"no list: no list does a step; the headend is {node}"
        if self.position < len(steps):
            yield f"what comes next is {self.step(self.position)}"
        for origin, sids in self.origins.items():
            yield ""
            if isinstance(origin, Lost):
                yield f"from {self._names(sids)}:"
                why = self._why_lost(origin)
                yield f"  the header that the policy puts in front is lost: {why}"
            else:
                binds = sids[0] is not None and sids[0].binds
                where = f", whose header is taken off at {origin.place.node}" if binds else ""
                yield f"from {self._names(sids)}{where}:"
                yield from self._from(origin, sids[0])
        yield ""
        yield from self._missing()

    def _names(self, sids: Sequence[Sid | None]) -> str:
        if sids[0] is None:
            return f"the headend {self.legs.intent.headend}"
        names = [str(sid) for sid in sids[:MOST_NAMES]]
        more = len(sids) - len(names)
        return ", ".join(names) + (f" and {more} more like these" if more else "")

    def _from(self, origin: Origin, sid: Sid | None) -> Iterator[str]:
        """A line for each reason, with the SIDs that a packet doesn't come to for it."""
        reasons: dict[str, list[Sid]] = {}
        for to in self.legs.sids_ahead(self.position):
            if why := self.why_not(origin, sid, to):
                reasons.setdefault(why, []).append(to)
        if not reasons:
            yield "  there is no other SID at any node of the path from here on"
        for why, targets in reasons.items():
            yield f"  to {self._names(targets)}: {why}"

    def why_not(self, origin: Origin, sid: Sid | None, to: Sid) -> str:
        """Why no list goes on from a SID to another; nothing where one comes to it without a
        step.
        """
        if to.binds and not self.legs.goes_on(to):
            return "it binds a policy, and where a step reaches a node no list executes such a SID"
        transit = self.legs.transit(origin, to)
        if transit.halt:
            why = self._why_halted(transit.halt, transit.position)
            return self._crossed(transit.position) + why
        if transit.sid is not to:
            met = transit.sid
            first = f"the packet comes to {met} at {met.node} first" if met else ""
            return self._crossed(transit.position) + first
        done = self.legs.executes(to, transit.position)
        if done is None:
            return f"it is the function {to.title}, and {self._next(transit.position)}"
        if to.goes_on and done > self.position:
            return self._why_no_room(sid, to)
        if to.goes_on and not to.exposes(self.legs.intent.family):
            return ""
        return self._why_not_last(sid, to, done)

    def _next(self, position: int) -> str:
        if position == len(self.legs.steps):
            return "all steps are done"
        return f"what comes next is {self.step(position)}"

    def _why_not_last(self, sid: Sid | None, to: Sid, done: int) -> str:
        family, inner = self.legs.intent.family, self.legs.intent.inner
        if done < len(self.legs.steps):
            why = f"{to.behaviour} hands the packet over, and {self._next(done)}"
            return "" if to.goes_on else why
        if not to.exposes(family):
            return f"{to.behaviour} doesn't expose {inner} packets, which the intent has inside"
        return "" if to.goes_on else self._why_no_room(sid, to)

    def _why_no_room(self, sid: Sid | None, to: Sid) -> str:
        block = self.search.rooms.block(sid) if sid else None
        return f"the container of REPLACE-CSIDs is full there, and it is outside the block {block}"

    def _why_lost(self, lost: Lost) -> str:
        """Why a pushed header isn't taken off."""
        if isinstance(lost.why, str):
            return self._crossed(lost.position) + lost.why
        why = self._why_halted(lost.why, lost.position)
        return f"to {IPv6Address(lost.address)}, {self._crossed(lost.position)}{why}"

    def _why_halted(self, halt: Halt, position: int) -> str:
        """Where a packet goes no further, and what is in its way there."""
        place, links = halt.place, ", ".join(halt.via.links) if halt.via else ""
        at = f"{place.node}, table {place.table}," if place.table else place.node
        sends = f"its links are {links}" if place.via else f"{at} sends over {links}"
        if halt.via and halt.via.prefix:
            sends += f" (route {halt.via.prefix})"
        match halt.stop:
            case Stop.NOTHING:
                return f"{at} has no route to it"
            case Stop.MULTICAST:
                return "its address is multicast"
            case Stop.ADDRESS:
                return f"it has the address of the node {place.node}"
            case Stop.NO_STEP:
                return f"{sends}, and all steps are done"
            case Stop.FUNCTION:
                return f"{sends}, and what comes next is {self.step(position)}"
            case Stop.LEAVES:
                return f"{sends}, which leaves the network, and {self.step(position)} isn't done"
            case Stop.LOOP:
                return f"{sends}, and so it may come to {place.node} again, and for ever"
            case Stop.DIFFER:
                return f"{sends}, behind which it comes to other SIDs, or with other steps done"
            case Stop.LINKS:
                wanted = self.legs.steps[position].links
                off = [link for link in halt.via.links if link not in wanted] if halt.via else []
                verb = "is no link" if len(off) == 1 else "are no links"
                return f"{sends}; {', '.join(off)} {verb} of {self.step(position)}"

    def _crossed(self, position: int) -> str:
        """The steps that are crossed up to a position, where there are any."""
        if position == self.position:
            return ""
        first, last = self.position + 1, position
        steps = f"step {first}" if first == last else f"steps {first} to {last}"
        return f"it crosses {steps} to {self.legs.stands[last]}; "

    def _missing(self) -> Iterator[str]:
        """What the next step has at its node, be it enough or not."""
        legs, node = self.legs, self.legs.stands[self.position]
        if self.position == len(legs.steps):
            yield "all steps are done, and no SID hands the packet over behind them"
            return
        step = legs.steps[self.position]
        if step.function:
            yield from self._of_function(step)
            return
        if step.reach:
            yield from self._of_reach(step.reach)
            return
        wanted = set(step.links)
        links = ", ".join(step.links)
        crossing = [
            sid
            for sid in legs.sids_at(node)
            if sid.behaviour == "End.X" and set(sid.links or ()) <= wanted
        ]
        yield f"End.X at {node} over {links} alone: {self._listed(crossing)}"
        end = legs.stands[self.position + 1]
        family = legs.intent.family
        behind = [sid for sid in legs.sids_at(end) if sid.goes_on or sid.exposes(family)]
        at_end = f"SIDs at {end}, where step {step.number} ends, that a list may execute"
        yield f"{at_end}: {self._listed(behind)}"
        routes = [
            str(route.prefix)
            for route in legs.net.routes
            if route.node == node and route.prefix.version == 6 and set(route.via) <= wanted
        ]
        more = f" and {len(routes) - MOST_NAMES} more" if len(routes) > MOST_NAMES else ""
        named = ", ".join(routes[:MOST_NAMES]) or "none"
        yield f"routes of {node} over {links} alone: {named}{more}"

    def _of_reach(self, node: str) -> Iterator[str]:
        legs, family = self.legs, self.legs.intent.family
        sids = [sid for sid in legs.sids_at(node) if legs.goes_on(sid) or sid.exposes(family)]
        yield f"SIDs at {node} that a list may execute: {self._listed(sids)}"
        into = [link.name for link in legs.net.links.values() if link.end == node]
        more = f" and {len(into) - MOST_NAMES} more" if len(into) > MOST_NAMES else ""
        yield f"links to {node}: {', '.join(into[:MOST_NAMES]) or 'none'}{more}"

    def _of_function(self, step: Step) -> Iterator[str]:
        legs, node = self.legs, self.legs.stands[self.position]
        for sid in legs.sids_at(node):
            if sid.title == step.function:
                exposes = "exposes" if sid.exposes(legs.intent.family) else "doesn't expose"
                yield f"the function is {sid}; it {exposes} {legs.intent.inner} packets"

    def _listed(self, sids: Sequence[Sid]) -> str:
        return self._names(sids) if sids else "none"


def main(words: Sequence[str]) -> int:
    """Runs the tool."""
    parser = Parser("why-no-list", DESCRIPTION)
    parser.add_argument("net", metavar="NET", help="a description")
    parser.add_argument("intent", metavar="INTENT", help="an intent")
    return run_tool(parser, functools.partial(_work, parser.prog), words)


def _work(tool: str, words: argparse.Namespace) -> int:
    with progress(tool, "looking for the furthest step"):
        if told := _there_is_one(words.net, words.intent):
            print(told)
            return Status.NO_ANSWER
        search = Search(legs_of(read_network(words.net), read_intent(words.intent)))
        if search.has_list:
            raise Fault("srv6 finds no list, and this tool finds one, so it can't say why")
        lines = list(Reasons(search).lines())
    print("\n".join(lines))
    return Status.DONE


def _there_is_one(net: str, intent: str) -> str:
    """What `srv6 compile` says where there is a list; a fault where it refuses."""
    words = ["compile", net, intent]
    answer = run_program(words)
    last = (answer.err.splitlines() or [""])[-1]
    said = err_line_of(last)
    if isinstance(said, NoAnswer) and said.why == "NoList":
        return ""
    if isinstance(said, NoAnswer):
        key = "max_containers" if said.why == "TooLong" else "hop_limit"
        return f"there is a list, but not within the intent's `{key}`: {last}"
    judge_answer(words, answer)
    report = [line for line in answer.out.decode().splitlines() if line.startswith("# ")]
    return "there is a list:\n" + "\n".join(report)
