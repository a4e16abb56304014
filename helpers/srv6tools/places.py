"""Where packets stand at nodes, and what a node's tables of IPv6 find for an address.

By `docs/BEHAVIOUR.md` ('Where a packet stands', 'Look-up'), along the steps of an intent by
`docs/FORMATS.md` ('States, edges and rooms').
"""

import enum
from collections.abc import Sequence
from dataclasses import dataclass
from typing import NamedTuple

from .description import Network, Node, Route, Sid
from .intent import Step
from .items import Prefix

MULTICAST = range(0xFF << 120, 1 << 128)


class Via(NamedTuple):
    """Equal next hops: the links, and the route's prefix; None of those of a SID."""

    links: tuple[str, ...]
    prefix: Prefix | None


Found = Sid | Node | Via | None  # what a look-up finds, or links that are taken


@dataclass(frozen=True, slots=True)
class Place:
    """Where a packet is: a table of a node, or links."""

    node: str
    table: int
    via: Via | None
    lowers: bool  # its hop limit falls where it goes on over links


def arrival(node: str) -> Place:
    """Where a packet is that came to a node over a link."""
    return Place(node, 0, None, True)


def place_behind(sid: Sid) -> Place:
    """Where a packet goes on that a SID itself sends on, with a header in front or without."""
    return _place_by(sid, (sid.table or 0) if sid.behaviour == "End.T" else 0, False)


def place_inside(sid: Sid) -> Place:
    """Where a packet goes on that a SID takes out of another one."""
    return _place_by(sid, sid.table or 0, True)


def _place_by(sid: Sid, table: int, lowers: bool) -> Place:
    if sid.links:
        return Place(sid.node, 0, Via(sid.links, None), lowers)
    return Place(sid.node, table, None, lowers)


class Table:
    """A table of a node: the longest prefix that holds an address decides."""

    def __init__(self) -> None:
        # by bits behind the prefix, and by those of the prefix
        self._rows: dict[int, dict[int, Sid | Node | Route]] = {}
        self._shifts: list[int] = []

    def enter(self, key: tuple[int, int], entry: Sid | Node | Route) -> None:
        """Of equal prefixes the entry that comes first holds; `key` has the bits behind a prefix, and its own."""
        shift, bits = key
        rows = self._rows.get(shift)
        if rows is None:
            rows = self._rows[shift] = {}
            self._shifts = sorted(self._rows)
        rows.setdefault(bits, entry)

    def look_up(self, address: int) -> Sid | Node | Route | None:
        """The entry for an address."""
        for shift in self._shifts:
            if found := self._rows[shift].get(address >> shift):
                return found
        return None


class Tables:
    """The tables of IPv6 of all nodes; each is made where it is looked up first."""

    def __init__(self, net: Network) -> None:
        self._tables: dict[tuple[str, int], Table | None] = {}
        self._nodes = net.nodes
        self._sids: dict[str, list[Sid]] = {}
        self._routes: dict[tuple[str, int], list[Route]] = {}
        # of the prefix of a route, by its identity: many routes share it, and the routes are kept
        self._keys: dict[int, tuple[int, int]] = {}
        for sid in net.sids:
            self._sids.setdefault(sid.node, []).append(sid)
        for route in net.routes:
            self._routes.setdefault((route.node, route.table), []).append(route)

    def _made(self, name: str, number: int) -> Table | None:
        """A table of a node; None where nothing is in it. On one prefix a SID comes before the node's address, and that
        before routes.
        """
        table, routes = Table(), self._routes.get((name, number), ())
        if number == 0:
            for sid in self._sids.get(name, ()):
                table.enter(_key_of(sid.prefix), sid)
            if node := self._nodes.get(name):
                table.enter((0, int(node.address)), node)
        elif not routes:
            return None
        keys = self._keys
        for route in routes:
            prefix = route.prefix
            key = keys.get(id(prefix))
            if key is None:
                key = keys[id(prefix)] = _key_of(prefix)
            if prefix.version == 6:
                table.enter(key, route)
        return table

    def found_at(self, place: Place, address: int) -> Found:
        """What a packet meets at a place: its links, or what the table has for its destination,
        which is nothing where that is multicast.
        """
        if place.via:
            return place.via
        key = place.node, place.table
        if key not in self._tables:
            self._tables[key] = self._made(*key)
        table = self._tables[key]
        found = table.look_up(address) if table and address not in MULTICAST else None
        return Via(found.via, found.prefix) if isinstance(found, Route) else found


def _key_of(prefix: Prefix) -> tuple[int, int]:
    """How many bits are behind a prefix, and its own."""
    shift = 128 - prefix.prefixlen
    return shift, int(prefix.network_address) >> shift


class Stop(enum.Enum):
    """Why a packet goes no further along the steps."""

    NOTHING = "a look-up finds nothing"
    MULTICAST = "the destination is multicast"
    ADDRESS = "a look-up finds the node's address"
    LINKS = "a link is none of the next step"
    FUNCTION = "links are met, and the next step is a function"
    LEAVES = "a link leaves the network, and the next step reaches a node"
    LOOP = "links lead into a loop"
    DIFFER = "links lead to different SIDs, or to one with different steps done"
    NO_STEP = "links are met, and no step is left"


class Halt(NamedTuple):
    """Where a packet goes no further, and the links there."""

    stop: Stop
    place: Place
    via: Via | None


def halt_at(place: Place, found: Found, address: int, steps: Sequence[Step]) -> Halt | None:
    """Whether a packet that met something goes no further, with these steps left."""
    if isinstance(found, Sid):
        return None
    if isinstance(found, Via):
        stop = _stop_over(found, steps)
        return Halt(stop, place, found) if stop else None
    if found is not None:
        return Halt(Stop.ADDRESS, place, None)
    return Halt(Stop.MULTICAST if address in MULTICAST else Stop.NOTHING, place, None)


def _stop_over(via: Via, steps: Sequence[Step]) -> Stop | None:
    if not steps:
        return Stop.NO_STEP
    if steps[0].function:
        return Stop.FUNCTION
    return None if set(via.links) <= set(steps[0].links) else Stop.LINKS
