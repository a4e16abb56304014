"""check-certificate: says of a certificate what `srv6 check` says, by the rules of certificates
alone.

It shares no code with the program: it is written from `docs/FORMATS.md` ('Certificate', 'States,
edges and rooms', 'Verdict of `check`') and `docs/BEHAVIOUR.md` ('Look-up').
"""

import argparse
import collections
import functools
import sys
from collections.abc import Iterator, Sequence

from .command import Parser, Status, progress, run_tool
from .description import Sid, read_network
from .files import read_bytes
from .intent import read_intent
from .legs import Edge, Edges, Legs, Rooms
from .loose import legs_of
from .report import FORMS, Certificate, Potential, certificate_in

State = tuple[int, Sid | None, int]  # position, SID and room
Cost = tuple[int, int, int]  # containers, SIDs where the intent prefers few of them, and hops
START: State = (0, None, 0)
NOTHING: Cost = (0, 0, 0)
DESCRIPTION = """\
Prints what `srv6 check NET INTENT CERT` prints, and exits with its status, by the rules of
certificates alone. That the description and the intent keep their rules, and that the network is
flat, is taken for granted."""


class Checker:
    """The states of a network and an intent, and what a certificate shows of them."""

    def __init__(self, legs: Legs):
        self.legs, self.rooms = legs, Rooms(legs.net)
        self.form = FORMS[legs.intent.prefer]
        self.edges = Edges(legs, self.rooms)
        shared = collections.Counter(sid.prefix for sid in legs.sids)
        self.names = {
            sid: f"{sid.prefix}@{sid.node}" if shared[sid.prefix] > 1 else str(sid.prefix)
            for sid in legs.sids
        }
        self.states = list(self._states())
        self.places = {self.name(state): place for place, state in enumerate(self.states)}

    def _states(self) -> Iterator[State]:
        """All states in their order."""
        yield START
        for position in range(len(self.legs.stands)):
            for sid in self.legs.states_at(position):
                for room in range(self.rooms.most(sid) + 1):
                    yield position, sid, room

    def name(self, state: State) -> str:
        """A state as it is written in a certificate."""
        position, sid, room = state
        return f"{position} {self.names[sid]} {room}" if sid else "0 - 0"

    def first_bad_line(self, certificate: Certificate) -> int:
        """The first line that is outside the grammar or names no state; 0 where there is none.
        The head of a certificate for the other preference is outside it.
        """
        if certificate.head and certificate.form != self.form:
            return certificate.head
        last = -1
        for potential in certificate.potentials:
            place = self.places.get(_name_of(potential), -1)
            if place <= last:
                return potential.line
            last = place
        return certificate.bad

    def judged(self, text: str) -> tuple[str, Status]:
        """The line that `srv6 check` has for a text, on `err` where it is refused, and the status."""
        certificate = certificate_in(text)
        if bad := self.first_bad_line(certificate):
            return f"refused 45 BadCert {bad}", Status.REFUSED
        verdict = self.verdict(certificate)
        return verdict, Status.SAYS_NO if verdict.startswith("no ") else Status.DONE

    def verdict(self, certificate: Certificate) -> str:
        """The line of `check`."""
        left: dict[State, Cost] = {
            self.states[self.places[_name_of(one)]]: (one.containers, one.sids, one.hops)
            for one in certificate.potentials
        }
        least: dict[tuple, Cost | None] = {}

        def least_of(state: State) -> Cost | None:
            """The least that an edge to a listed state or to the end costs, with what is left
            behind it.
            """
            key = self.edges.like(*state)
            if key not in least:
                least[key] = min(self._costs(state, left), default=None)
            return least[key]

        for line, (state, cost) in zip(certificate.potentials, left.items()):
            on = least_of(state)
            if on is not None and cost > on:
                return f"no {line.line} edge"
        for state in self.states:
            if state not in left and least_of(state) is not None:
                return f"no {certificate.head} unlisted {self.name(state)}"
        if certificate.none:
            return "none" if START not in left else f"no {certificate.none} path"
        return self._of_path(certificate, left.get(START))

    def own_cost(self, edge: Edge) -> Cost:
        """What an edge costs."""
        return int(not edge.stays), self.form - 1, edge.hops

    def _costs(self, state: State, left: dict[State, Cost]) -> Iterator[Cost]:
        for edge in self.edges.of(*state):
            to = NOTHING if edge.is_last else left.get((edge.position, edge.sid, edge.room))
            if to is not None:
                yield added(self.own_cost(edge), to)

    def _of_path(self, certificate: Certificate, start: Cost | None) -> str:
        state, cost = START, NOTHING
        for step in certificate.path:
            is_last = step is certificate.path[-1]
            wanted = step.stays, step.prefix, is_last
            for edge in self.edges.of(*state):
                if (edge.stays, edge.sid.prefix, edge.is_last) == wanted:
                    break
            else:
                return f"no {step.line} path"
            state = edge.position, edge.sid, edge.room
            cost = added(cost, self.own_cost(edge))
        if cost != start:
            return f"no {certificate.end} tight"
        return f"least {self.cost_text(cost)}"

    def cost_text(self, cost: Cost) -> str:
        """The numbers of a cost; SIDs stand among them where they count."""
        containers, sids, hops = cost
        return f"{containers} {sids} {hops}" if self.form == 2 else f"{containers} {hops}"


def added(one: Cost, other: Cost) -> Cost:
    """The sum of two costs."""
    return one[0] + other[0], one[1] + other[1], one[2] + other[2]


def _name_of(potential: Potential) -> str:
    if potential.prefix is None:
        return f"{potential.position} - {potential.room}"
    at = f"@{potential.node}" if potential.node else ""
    return f"{potential.position} {potential.prefix}{at} {potential.room}"


def main(words: Sequence[str]) -> int:
    """Runs the tool."""
    parser = Parser("check-certificate", DESCRIPTION)
    parser.add_argument("net", metavar="NET", help="a description")
    parser.add_argument("intent", metavar="INTENT", help="an intent")
    parser.add_argument("cert", metavar="CERT", help="a certificate")
    return run_tool(parser, functools.partial(_work, parser.prog), words)


def _work(tool: str, words: argparse.Namespace) -> int:
    with progress(tool, "going through the states"):
        legs = legs_of(read_network(words.net), read_intent(words.intent))
        text = read_bytes(words.cert).decode("latin-1")
        line, status = Checker(legs).judged(text)
    print(line, file=sys.stderr if status == Status.REFUSED else sys.stdout)
    return status
