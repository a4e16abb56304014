"""How packets come from SID to SID along the steps of an intent, by `docs/FORMATS.md` ('States,
edges and rooms').

What a certificate speaks of: transits of a packet to a SID's first address, legs and finishes, and
the room of containers. That the description and the intent keep their rules, and that the network
is flat, is taken for granted.
"""

import itertools
from collections.abc import Iterator, Sequence
from typing import NamedTuple

from .command import Fault
from .description import Network, Sid
from .intent import Intent, Step
from .items import Prefix
from .places import Halt, Place, Tables, arrival, halt_at, place_behind
from .pushed_headers import HeaderWalks, Lost, Origin


class Transit(NamedTuple):
    """The way of a packet from a place: the steps done, the lowerings of the hop limit, and where
    it ends.
    """

    position: int
    lowered: int
    sid: Sid | None  # the SID that is found
    halt: Halt | None = None  # else why there is none


class Leg(NamedTuple):
    """A transit to a SID that is executed: the steps done with it, and the lowerings; a last one
    ends the list.
    """

    sid: Sid
    position: int
    hops: int
    is_last: bool


class Legs:
    """The legs and finishes of a network along an intent."""

    def __init__(self, net: Network, intent: Intent):
        self.net, self.intent, self.steps = net, intent, intent.steps
        self.stands = _stands(net, intent)  # by position the node where the walk stands
        self._tables = Tables(net)
        self.headers = HeaderWalks(net, intent, self.stands, self._tables)
        self._by_node: dict[str, list[Sid]] = {}
        numbers = {name: number for number, name in enumerate(net.nodes)}
        self.sids = sorted(net.sids, key=lambda sid: (sid.prefix, numbers[sid.node]))
        for sid in self.sids:
            self._by_node.setdefault(sid.node, []).append(sid)
        self._arrivals: dict[tuple[int, int], Transit] = {}
        self._legs: dict[Origin, list[Leg]] = {}
        nodes = [frozenset(self.stands[position:]) for position in range(len(self.stands))]
        self._ahead = [[sid for sid in self.sids if sid.node in ahead] for ahead in nodes]

    def sids_at(self, node: str) -> list[Sid]:
        """The SIDs of a node."""
        return self._by_node.get(node, [])

    def standing_at(self, position: int) -> list[Sid]:
        """The SIDs of the nodes where a packet may stand with so many steps done."""
        return self.sids_at(self.stands[position])

    def states_at(self, position: int) -> Iterator[Sid]:
        """The SIDs of the states at a position, in their order."""
        done = self.steps[position - 1].function if position else None
        for sid in self.standing_at(position):
            if self.goes_on(sid) and (sid.title is None or sid.title == done):
                yield sid

    def goes_on(self, sid: Sid) -> bool:
        """Whether a list may go on behind a SID."""
        return sid.goes_on

    def sids_ahead(self, position: int) -> list[Sid]:
        """The SIDs of the nodes where the walk stands from a position on; to no other ones does a
        leg lead.
        """
        return self._ahead[position]

    def origin(self, position: int, sid: Sid | None) -> Origin | Lost:
        """From where a packet goes on that executed a SID last, or none, with so many steps done;
        or where the header is lost that the SID pushes.
        """
        if sid is None:
            return Origin(position, Place(self.intent.headend, 0, None, False))
        if sid.binds:
            return self.headers.end(position, sid)
        return Origin(position, place_behind(sid))

    def transit(self, origin: Origin, sid: Sid) -> Transit:
        """The way of a packet to the first address of a SID's prefix."""
        return self._on(origin.position, origin.place, int(sid.prefix.network_address))

    def _on(self, position: int, place: Place, address: int) -> Transit:
        found = self._tables.found_at(place, address)
        if isinstance(found, Sid):
            return Transit(position, 0, found)
        if halt := halt_at(place, found, address, self.steps[position : position + 1]):
            return Transit(position, 0, None, halt)
        transit = self._arrive(position + 1, address)
        return transit._replace(lowered=transit.lowered + 1) if place.lowers else transit

    def _arrive(self, position: int, address: int) -> Transit:
        """The way on from where the walk stands, where the packet has come over a link."""
        key = position, address
        if key not in self._arrivals:
            self._arrivals[key] = self._on(position, arrival(self.stands[position]), address)
        return self._arrivals[key]

    def executes(self, sid: Sid, position: int) -> int | None:
        """The steps done once a SID is executed behind so many; None where its title isn't the
        next step's.
        """
        return self.intent.executes(sid.title, position)

    def legs(self, position: int, sid: Sid | None) -> list[Leg]:
        """The legs and finishes from behind a SID, or from the headend, in the order of the SIDs.
        """
        origin = self.origin(position, sid)
        if isinstance(origin, Lost):
            return []
        if origin not in self._legs:
            self._legs[origin] = list(self._find(origin))
        return self._legs[origin]

    def along(self, prefixes: Sequence[Prefix]) -> Iterator[Leg]:
        """The legs of a list and its finish, by the prefixes of its SIDs."""
        position, sid = 0, None
        for number, prefix in enumerate(prefixes, 1):
            for leg in self.legs(position, sid):
                if (leg.sid.prefix, leg.is_last) == (prefix, number == len(prefixes)):
                    break
            else:
                raise Fault(f"no leg leads to {prefix}, SID {number} of the list")
            yield leg
            position, sid = leg.position, leg.sid

    def executed_first(self, prefixes: Sequence[Prefix]) -> Iterator[Sid]:
        """The SIDs of a list, and those on headers that they push, that are executed before a link
        is crossed.
        """
        position, sid = 0, None
        for leg in self.along(prefixes):
            origin = self.origin(position, sid)
            if isinstance(origin, Lost) or self.crosses(origin, leg.sid):
                return
            yield leg.sid
            position, sid = leg.position, leg.sid
            stages = self.headers.stages(position, leg.sid) if leg.sid.binds else iter(())
            for stage in itertools.islice(stages, 1, None):
                if isinstance(stage, Lost) or stage.sid is None:
                    return
                yield stage.sid

    def crosses(self, origin: Origin, sid: Sid) -> bool:
        """Whether a packet crosses a link on its way to a SID."""
        return self.transit(origin, sid).position > origin.position

    def links_on(self, origin: Origin, sid: Sid) -> dict[str, int]:
        """The links that a packet may take on its way to a SID, each with its step, from 1."""
        steps = self.steps[origin.position : self.transit(origin, sid).position]
        return {link: step.number for step in reversed(steps) for link in step.links}

    def _find(self, origin: Origin) -> Iterator[Leg]:
        for sid in self.sids_ahead(origin.position):
            transit = self.transit(origin, sid)
            if transit.sid is not sid or (to := self.executes(sid, transit.position)) is None:
                continue
            if self.goes_on(sid):
                yield Leg(sid, to, transit.lowered + 1, False)
            if sid.exposes(self.intent.family) and to == len(self.steps):
                yield Leg(sid, to, transit.lowered, True)


def _stands(net: Network, intent: Intent) -> list[str]:
    if intent.headend not in net.nodes:
        raise Fault(f"{intent.path}: headend: there is no node {intent.headend!r}")
    stands = [intent.headend]
    for step in intent.steps:
        stands.append(_end_of(net, intent, step) if step.links else step.reach or stands[-1])
    return stands


def _end_of(net: Network, intent: Intent, step: Step) -> str:
    for name in step.links:
        if name not in net.links:
            raise Fault(f"{intent.path}: step {step.number}: there is no link {name!r}")
    end = net.links[step.links[0]].end
    if end is None:
        raise Fault(f"{intent.path}: step {step.number}: {step.links[0]} leaves the network")
    return end


def unit_at(prefix: Prefix, bit: int) -> int:
    """16 bits of an IPv6 prefix from a bit on."""
    return int(prefix.network_address) >> (112 - bit) & 0xFFFF


class Rooms:
    """How much fits into a container behind a SID."""

    def __init__(self, net: Network):
        self._blocks = {sid: net.block_of(sid.prefix) for sid in net.sids}
        self._units = {sid: self._own(sid) // 16 for sid in net.sids}
        self._most = {sid: self._greatest(sid) for sid in net.sids}
        self._nested = self._nests(net)

    def _nests(self, net: Network) -> dict[Sid, frozenset[int]]:
        """The 16 bits behind each SID that SIDs nested in it have."""
        on = {sid.prefix: sid for sid in net.sids}
        units: dict[Sid, set[int]] = {}
        for sid in net.sids:
            outer = on.get(sid.prefix.supernet(16)) if self._own(sid) == 32 else None
            if self._blocks[sid] and outer:
                units.setdefault(outer, set()).add(unit_at(sid.prefix, sid.prefix.prefixlen - 16))
        return {sid: frozenset(found) for sid, found in units.items()}

    def nested(self, sid: Sid) -> frozenset[int]:
        """The 16 bits that may not come directly behind a SID, since they are a nested SID's."""
        return self._nested.get(sid, frozenset())

    def _own(self, sid: Sid) -> int:
        """A SID's bits behind its block."""
        block = self._blocks[sid]
        return sid.prefix.prefixlen - (block.prefix.prefixlen if block else 0)

    def _greatest(self, sid: Sid) -> int:
        match sid.csid:
            case "next":
                return (128 - sid.prefix.prefixlen) // 16
            case "replace":
                return 128 // self._own(sid) - 1
        return 0

    def most(self, sid: Sid) -> int:
        """The greatest room behind a SID."""
        return self._most[sid]

    def block(self, sid: Sid) -> Prefix | None:
        """The prefix of a SID's block."""
        block = self._blocks[sid]
        return block.prefix if block else None

    def behind(self, stays: bool, sid: Sid | None, room: int, then: Sid) -> int | None:
        """The room left behind the next SID, which stays in the container or begins one; None
        where it can't.
        """
        block = self._blocks[sid] if sid else None
        same = block is not None and block is self._blocks[then]
        if not stays:
            if sid is None or sid.csid != "replace" or room > 0:
                return self._most[then] if then.csid == "next" else 0
            return (self._most[then] if then.csid == "replace" else 0) if same else None
        wants = self._units[then] if sid and sid.csid == "next" else 1
        if not same or sid is None or sid.csid == "plain" or wants > room:
            return None
        if unit_at(then.prefix, block.prefix.prefixlen) in self.nested(sid):
            return None
        return 0 if then.csid == "plain" else room - wants


class Edge(NamedTuple):
    """An edge of a state: the next SID, whether it stays in the container, and the state it leads
    to.
    """

    stays: bool
    sid: Sid
    position: int
    room: int
    hops: int
    is_last: bool  # it leads to the end


class Edges:
    """The edges of states: a position, a SID (None at the start) and a room."""

    def __init__(self, legs: Legs, rooms: Rooms):
        self._legs, self._rooms = legs, rooms
        self._edges: dict[tuple, list[Edge]] = {}

    def like(self, position: int, sid: Sid | None, room: int) -> tuple:
        """What the edges of a state depend on: states that are alike in it have the same ones."""
        origin = self._legs.origin(position, sid)
        if isinstance(origin, Lost):
            return ()
        form = (sid.csid, self._rooms.block(sid), self._rooms.nested(sid)) if sid else None
        return origin, form, room

    def of(self, position: int, sid: Sid | None, room: int) -> list[Edge]:
        """The edges of a state, in the order of the SIDs, `new` before `stay`."""
        key = self.like(position, sid, room)
        if key not in self._edges:
            self._edges[key] = list(self._find(position, sid, room))
        return self._edges[key]

    def _find(self, position: int, sid: Sid | None, room: int) -> Iterator[Edge]:
        for leg in self._legs.legs(position, sid):
            for stays in (False, True):
                left = self._rooms.behind(stays, sid, room, leg.sid)
                if left is not None:
                    yield Edge(stays, leg.sid, leg.position, left, leg.hops, leg.is_last)
