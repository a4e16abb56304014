"""What a node does with packets, as `srv6 trace` says, and which pairs of what is met and what comes of it that shows."""

from __future__ import annotations

from collections.abc import Iterator, Sequence
from dataclasses import dataclass
from ipaddress import IPv6Address
from pathlib import Path

from .captures import in_captures
from .command import Fault, Status
from .description import MOST_MTU, Network, Node, Sid
from .items import Prefix
from .places import Place, Tables, Via, place_behind, place_inside
from .program import run_program
from .tagging import kind_of
from .trace import Walk, trace_of

ADDRESS, ROUTE_6, ROUTE_4, NO_LOOKUP = "the address", "an IPv6 route", "an IPv4 route", "no entry"
GOES_ON, GIVES_6, GIVES_4, DELIVERED, SENT = "goes on", "exposes IPv6", "exposes IPv4", "delivered", "sent"
CHAIN = ("BadChain", "LateHopByHop", "OptionDiscard", "OptionUnknown", "UnknownRouting", "Fragment")
STEP = ("HopLimit", "BadSegments", "HmacTlv", "BadTlv", "TooBig")
LATER = ("Truncated", "BadVersion", "Multicast", "NoRoute", "HopLimit", "Ttl", "MtuExceeded")


@dataclass(frozen=True, order=True)
class Pair:
    """What a packet meets at the node, and what comes of it; `then` is said of what comes behind a SID."""

    met: str
    outcome: str

    def __str__(self) -> str:
        return f"{self.met}: {self.outcome}"


@dataclass(frozen=True)
class Doing:
    """What a node does with a packet under one choice: what it sends over which link, or its ICMPv6 error."""

    outcome: str  # sent, delivered, dropped or unending
    link: str | None = None
    content: bytes | None = None  # of what is sent, or the error
    reason: str | None = None
    pairs: tuple[Pair, ...] = ()
    sids: tuple[str, ...] = ()  # those that are executed, or met at the end

    def __str__(self) -> str:
        if self.outcome == "sent":
            return f"sent over {self.link}"
        if self.outcome == "dropped":
            error = f", ICMPv6 error {self.content[40]}/{self.content[41]}" if self.content else ""
            return f"dropped {self.reason}{error}"
        return self.outcome


class Seer:
    """Asks the program what a node does with packets."""

    def __init__(self, net: Network, node: str, path: str | Path) -> None:
        self.net, self.node, self.path = net, node, path
        self.tables = Tables(net)
        sets = [len(route.via) for route in net.routes if route.node == node]
        sets += [len(sid.links or ()) for sid in net.sids if sid.node == node]
        self.choices = max(sets, default=1)
        self.routes_4 = [one for one in net.routes if one.node == node and one.prefix.version == 4]
        self.kinds = {str(sid.prefix): kind_of(net, sid) for sid in net.sids if sid.node == node}
        self.sids = {str(sid.prefix): sid for sid in net.sids if sid.node == node}

    def doings(self, packets: Sequence[bytes]) -> list[list[Doing]]:
        """Of each packet what the node does, under each choice that makes a difference."""
        found: list[list[Doing]] = [[] for _ in packets]
        for choice in range(max(1, self.choices)):
            for place, doing in enumerate(self._doings(packets, choice)):
                if doing not in found[place]:
                    found[place].append(doing)
        return found

    def _doings(self, packets: Sequence[bytes], choice: int) -> Iterator[Doing]:
        for chunk, capture in in_captures(packets):
            answer = run_program(["trace", self.path, self.node, str(choice)], capture)
            if answer.status != Status.DONE:
                raise Fault(f"srv6 trace says: {answer.err.strip()[:200]}", Status(answer.status))
            walks = trace_of(answer.out.decode("latin-1").splitlines(), "srv6 trace").walks
            by_number = {walk.number: walk for walk in walks}
            for number in range(1, len(chunk) + 1):
                walk = by_number.get(number)
                yield self.doing_of(walk) if walk else Doing("not read")

    def doing_of(self, walk: Walk) -> Doing:
        """What the node does in the walk of a packet, up to where it leaves the node."""
        pairs: list[Pair] = []
        sids: list[str] = []
        last: str | None = None  # the kind of the SID that was executed last
        place, family, packet = Place(self.node, 0, None, True), walk.family, walk.packet
        for stage in walk.stages:
            if stage.kind in ("again", "hand"):
                last = self.kinds[stage.sid or ""]
                sids.append(stage.sid or "")
                exposed = {6: GIVES_6, 4: GIVES_4}.get(stage.family or 0, GOES_ON)
                pairs.append(Pair(last, exposed if stage.kind == "hand" else GOES_ON))
                sid = self.sids[stage.sid or ""]
                place = place_inside(sid) if stage.kind == "hand" else place_behind(sid)
                family, packet = stage.family or 6, stage.packet or b""
                continue
            found = self._found(place, family, packet)
            if isinstance(found, Sid):
                met, front = self.kinds[str(found.prefix)], ""
                sids.append(str(found.prefix))
            elif isinstance(found, Node):
                met, front = (ADDRESS, "") if last is None else (last, "then at the address ")
            else:
                what = NO_LOOKUP if found is None else ROUTE_6 if family == 6 else ROUTE_4
                met, front = (what, "") if last is None else (last, "then ")
            said = {"send": SENT, "local": DELIVERED}.get(stage.kind, f"dropped {stage.reason}")
            if isinstance(found, Node) and stage.kind == "drop" and front:
                said = "dropped"
            pairs.append(Pair(met, front + said))
            outcome = {"send": "sent", "local": "delivered", "drop": "dropped"}.get(stage.kind, "unending")
            return Doing(outcome, stage.link, stage.packet, stage.reason, tuple(pairs), tuple(sids))
        return Doing("unending", pairs=tuple(pairs), sids=tuple(sids))

    def _found(self, place: Place, family: int, packet: bytes) -> object:
        """What the packet meets at a place; of IPv4 no SID and no address, and of bytes that don't read nothing."""
        if not _reads(family, packet):
            return None
        if family == 6:
            return self.tables.found_at(place, int(IPv6Address(packet[24:40])))
        if place.via:
            return place.via
        if any(one.table == place.table and _holds(one.prefix, packet[16:20]) for one in self.routes_4):
            return Via((), None)
        return None


def _reads(family: int, packet: bytes) -> bool:
    """Whether bytes read as a packet of a family, which comes before its look-up."""
    if family == 6:
        return len(packet) >= 40 and packet[0] >> 4 == 6 and 40 + int.from_bytes(packet[4:6]) <= len(packet)
    if len(packet) < 20 or packet[0] >> 4 != 4:
        return False
    return 20 <= 4 * (packet[0] & 15) <= int.from_bytes(packet[2:4]) <= len(packet)


def _holds(prefix: Prefix, address: bytes) -> bool:
    """Whether an IPv4 prefix holds an address."""
    shift = 32 - prefix.prefixlen
    return int.from_bytes(address) >> shift == int(prefix.network_address) >> shift


class Universe:
    """All pairs of a node, and why some of them can't be met."""

    def __init__(self, net: Network, node: str) -> None:
        self.net, self.node, self.tables = net, node, Tables(net)
        self.sids: dict[str, list[Sid]] = {}
        for sid in net.sids:
            if sid.node == node:
                self.sids.setdefault(kind_of(net, sid), []).append(sid)
        self.routes = [route for route in net.routes if route.node == node]
        self.allow = net.nodes[node].allow
        self.small = {link.name for link in net.links.values() if link.start == node and link.mtu < MOST_MTU}

    def pairs(self) -> Iterator[tuple[Pair, str | None]]:
        """Each pair, and the reason why it can't be met; None where nothing is known against it."""
        for family, met, late in ((6, ROUTE_6, "HopLimit"), (4, ROUTE_4, "Ttl")):
            routes = [route for route in self.routes if route.table == 0 and route.prefix.version == family]
            none = None if routes else f"table 0 has no IPv{family} route"
            yield Pair(met, SENT), none
            yield Pair(met, f"dropped {late}"), none
            small = any(set(route.via) & self.small for route in routes)
            yield Pair(met, "dropped MtuExceeded"), none or (None if small else "no link of these routes has an MTU")
        default = {route.prefix.version for route in self.routes if route.table == 0 and not route.prefix.prefixlen}
        both = "table 0 has a route for each destination of both families" if default == {4, 6} else None
        yield Pair(NO_LOOKUP, "dropped NoRoute"), both
        yield Pair(NO_LOOKUP, "dropped Truncated"), None
        yield Pair(NO_LOOKUP, "dropped Multicast"), None
        unread = "a frame of raw IP that begins neither with 6 nor with 4 is no packet (NotIp)"
        yield Pair(NO_LOOKUP, "dropped BadVersion"), unread
        yield from ((Pair(ADDRESS, outcome), None) for outcome in (DELIVERED, *(f"dropped {one}" for one in CHAIN)))
        for kind, sids in self.sids.items():
            yield from ((Pair(kind, outcome), self._why(outcome, sids)) for outcome in _OUTCOMES)

    def _why(self, outcome: str, sids: Sequence[Sid]) -> str | None:
        """Why no SID of a kind can come to an outcome; of several SIDs the reason of the last."""
        whys = [self._why_at(outcome, sid) for sid in sids]
        return None if None in whys else whys[-1]

    def _why_at(self, outcome: str, sid: Sid) -> str | None:
        if outcome.startswith("then "):
            return self._why_behind(outcome.removeprefix("then "), sid)
        takes = "without USD it takes no packet out"
        decaps = "it takes packets out, and does no step"
        if outcome == GOES_ON:
            return None if sid.goes_on else decaps
        if outcome in (GIVES_6, GIVES_4):
            return None if sid.exposes(6 if outcome == GIVES_6 else 4) else (
                takes if sid.goes_on else f"{sid.behaviour} doesn't take a packet of that family out")  # fmt: skip
        if outcome == DELIVERED:
            hidden = [layer for layer in self.allow if not (layer in (4, 41) and sid.exposes(6 if layer == 41 else 4))]
            return None if hidden else "the node allows no upper layer at its SIDs"
        reason = outcome.removeprefix("dropped ")
        if reason == "TooBig":
            return None if sid.binds else "it puts no header in front"
        if reason in ("HopLimit", "HmacTlv", "BadTlv") and not sid.goes_on:
            return decaps
        return None

    def _why_behind(self, outcome: str, sid: Sid) -> str | None:
        """Why what a SID has sent on or taken out can't come to an outcome."""
        families = [family for family in (6, 4) if sid.exposes(family)]
        places = [(place_inside(sid), family, True) for family in families]
        places += [(place_behind(sid), 6, False)] if sid.goes_on else []
        if sid.binds:
            first = self.net.policies[sid.policy or ""].segments[0]
            if (found := self._by_first(first)) not in (None, outcome):
                return f"the policy's first segment, {first}, decides: {found}"
        whys = [self._why_there(outcome, place, family, exposed) for place, family, exposed in places]
        return None if None in whys else whys[-1]

    def _by_first(self, first: IPv6Address) -> str | None:
        """What always comes of a packet to a policy's first segment; None where several things may come."""
        found = self.tables.found_at(Place(self.node, 0, None, False), int(first))
        if isinstance(found, Via):
            return None if set(found.links) & self.small else SENT
        if isinstance(found, Sid):
            return "another SID of the node"
        if found is None:
            return "dropped Multicast" if first.is_multicast else "dropped NoRoute"
        return "at the address dropped"

    def _why_there(self, outcome: str, place: Place, family: int, exposed: bool) -> str | None:
        routes = [one for one in self.routes if one.table == place.table and one.prefix.version == family]
        links = set(place.via.links) if place.via else {link for one in routes for link in one.via}
        no_way = None if place.via or routes else f"table {place.table} has no IPv{family} route"
        if outcome in (SENT, "dropped MtuExceeded") or outcome == ("dropped HopLimit" if family == 6 else "dropped Ttl"):
            if outcome == "dropped MtuExceeded" and not links & self.small:
                return no_way or "no link that is taken there has an MTU"
            if outcome.endswith(("HopLimit", "Ttl")) and not exposed:
                return "its own hop limit is lowered by the SID alone"
            return no_way
        if outcome in ("dropped HopLimit", "dropped Ttl"):
            return f"it is of IPv{family} there"
        if outcome in ("dropped Truncated", "dropped BadVersion"):
            return None if exposed else "what goes on is a packet that was read"
        if place.via:
            return "it goes over the SID's links without a look-up"
        if outcome == "dropped Multicast":
            return None if family == 6 else "multicast isn't told apart in IPv4"
        if outcome == "dropped NoRoute":
            whole = any(not one.prefix.prefixlen for one in routes)
            return f"table {place.table} has a route for each IPv{family} destination" if whole else None
        if outcome == "at the address dropped" or outcome == "at the address delivered":
            return None if place.table == 0 and family == 6 else "the node's address is in table 0 of IPv6"
        return None


_OUTCOMES = (
    GOES_ON, GIVES_6, GIVES_4, DELIVERED,
    *(f"dropped {reason}" for reason in (*CHAIN, "UpperLayer", *STEP)),
    f"then {SENT}", *(f"then dropped {reason}" for reason in LATER),
    "then at the address delivered", "then at the address dropped",
)  # fmt: skip
