"""What a node did in a stage, in words: the entry that it found, what it executed, what changed,
and where the RFCs have it.

What was done is the program's answer, a line of a trace. The entry is looked up in the
description; one that doesn't go with the line is a fault of this tool, and said so.
"""

from collections.abc import Iterator, Sequence
from dataclasses import dataclass
from ipaddress import IPv4Address, IPv6Address

from .command import Fault
from .description import Network, Node, Sid
from .fields import Part
from .items import Prefix
from .places import Found, Place, Tables, Via
from .say_others import REASONS
from .trace import Stage, Walk

RFC_OF = {
    "End": "RFC 8986 section 4.1", "End.X": "RFC 8986 section 4.2", "End.T": "RFC 8986 section 4.3",
    "End.DX6": "RFC 8986 section 4.4", "End.DX4": "RFC 8986 section 4.5",
    "End.DT6": "RFC 8986 section 4.6", "End.DT4": "RFC 8986 section 4.7",
    "End.DT46": "RFC 8986 section 4.8", "End.B6.Encaps": "RFC 8986 section 4.13",
    "End.B6.Encaps.Red": "RFC 8986 section 4.14",
}  # fmt: skip
RFC_OF_CSID = {"next": "RFC 9800 section 4.1", "replace": "RFC 9800 section 4.2"}
RFC_OF_FLAVOUR = {
    "psp": "RFC 8986 section 4.16.1", "usp": "RFC 8986 section 4.16.2",
    "usd": "RFC 8986 section 4.16.3",
}  # fmt: skip
RFC_OF_REASON = {
    "Truncated": "RFC 8200 section 3", "BadVersion": "RFC 8200 section 3",
    "NoRoute": "RFC 4443 section 3.1", "HopLimit": "RFC 4443 section 3.3",
    "Ttl": "RFC 791 section 3.1", "MtuExceeded": "RFC 8200 section 5, RFC 4443 section 3.2",
    "BadChain": "RFC 8200 section 4", "LateHopByHop": "RFC 8200 section 4.1",
    "OptionDiscard": "RFC 8200 section 4.2", "OptionUnknown": "RFC 8200 section 4.2",
    "UnknownRouting": "RFC 8200 section 4.4", "BadSegments": "RFC 8754 section 4.3.1.1",
    "UpperLayer": "RFC 8986 section 4.1.1",
}  # fmt: skip
HEADEND_RFC = "RFC 8986 sections 5.1 and 5.2"
ERRORS = {
    1: "Destination Unreachable", 2: "Packet Too Big", 3: "Time Exceeded", 4: "Parameter Problem",
}  # fmt: skip


@dataclass(frozen=True, slots=True)
class Told:
    """A stage in words."""

    node: str
    entry: str  # what the look-up found, or the links that were taken
    words: str  # what the node did
    rfc: str  # where the RFCs have it
    sid: Sid | None = None  # that was executed


class EntryTables:
    """What a node's tables find for a destination, of either family."""

    def __init__(self, net: Network) -> None:
        self._six = Tables(net)
        self._four: dict[tuple[str, int], list[tuple[Prefix, Via]]] = {}
        for route in net.routes:
            if route.prefix.version == 4:
                rows = self._four.setdefault((route.node, route.table), [])
                rows.append((route.prefix, Via(route.via, route.prefix)))
        self._known: dict[tuple[str, int, IPv4Address], Found] = {}

    def look_up(self, place: Place, address: IPv6Address | IPv4Address) -> Found:
        """The entry with the longest prefix."""
        if isinstance(address, IPv6Address):
            return self._six.found_at(place, int(address))
        if place.via:
            return place.via
        key = place.node, place.table, address
        if key not in self._known:
            rows = [row for row in self._four.get(key[:2], ()) if address in row[0]]
            best = max(rows, key=lambda row: row[0].prefixlen, default=None)
            self._known[key] = best[1] if best else None
        return self._known[key]


def value_of(parts: Sequence[Part], part: str, name: str) -> str | None:
    """The value of a field, where the part is there."""
    for one in parts:
        if one.label == part:
            for field in one.fields:
                if field.name == name:
                    return field.text
    return None


def destination_of(parts: Sequence[Part]) -> IPv6Address | IPv4Address | None:
    """Where a packet is to go, of a packet that reads."""
    if not parts or len(parts[0].fields) < 8:
        return None
    text = next((one.text for one in parts[0].fields if one.name == "destination"), None)
    if text is None:
        return None
    return IPv6Address(text) if ":" in text else IPv4Address(text)


class Teller:
    """Goes along walks, and tells each stage. Of walks of another description, or of the headend's
    own drops, the lines alone are told, and no look-up.
    """

    def __init__(
        self, net: Network, parts: dict[bytes, list[Part]], looks_up: bool = True
    ) -> None:
        self.net, self.parts, self.looks_up = net, parts, looks_up
        self._tables = EntryTables(net)
        self._sids = {(sid.node, sid.prefix): sid for sid in net.sids}

    def told(self, walk: Walk) -> Iterator[Told]:
        """The stages of a walk, one by one."""
        place, packet, last = Place(walk.node, 0, None, True), walk.packet, None
        family = walk.family
        for stage in walk.stages:
            found = self._found(walk, stage, place, packet)
            yield self._one(stage, place, found, last, family)
            family = stage.family or family
            last = found if isinstance(found, Sid) else None
            if stage.kind == "send":
                link = self.net.links[stage.link]
                place = Place(link.end or "", 0, None, True)
            elif stage.kind in ("again", "hand") and isinstance(found, Sid):
                via = Via(found.links, None) if stage.table is None and found.links else None
                place = Place(found.node, stage.table or 0, via, stage.kind == "hand")
            if stage.packet is not None and stage.kind != "drop":
                packet = stage.packet

    def _found(self, walk: Walk, stage: Stage, place: Place, packet: bytes) -> Found:
        if not self.looks_up:
            return self._said(stage, place)
        address = destination_of(self.parts[packet]) if packet else None
        found = place.via or (self._tables.look_up(place, address) if address else None)
        fits = {
            "send": isinstance(found, Via) and stage.link in found.links,
            "again": isinstance(found, Sid) and str(found.prefix) == stage.sid,
            "hand": isinstance(found, Sid) and str(found.prefix) == stage.sid,
            "local": isinstance(found, (Sid, Node)),
        }
        if not fits.get(stage.kind, True):
            where = f"packet {walk.number}, line {stage.line} of its trace"
            raise Fault(f"{where}: {place.node} has {entry_words(place, found)}, srv6 says else")
        return found

    def _said(self, stage: Stage, place: Place) -> Found:
        """What the line itself says of the entry."""
        if stage.link:
            return Via((stage.link,), None)
        if stage.sid is None:
            return None
        own = (sid for (node, _), sid in self._sids.items() if node == place.node)
        found = next((sid for sid in own if str(sid.prefix) == stage.sid), None)
        if found is None:
            raise Fault(f"a walk executes {stage.sid} at {place.node}, which has no such SID")
        return found

    def _one(
        self, stage: Stage, place: Place, found: Found, last: Sid | None, family: int
    ) -> Told:
        entry = entry_words(place, found) if self.looks_up else ""
        match stage.kind:
            case "send" if isinstance(found, Via):
                words = self._send(stage, place, found, family)
                return Told(place.node, entry, words, _send_rfc(found, last))
            case "again" if isinstance(found, Sid):
                return Told(place.node, entry, _again(stage, found), sid_rfc(found), found)
            case "hand" if isinstance(found, Sid):
                return Told(place.node, entry, _hand(stage, found), sid_rfc(found), found)
            case "local":
                sid = found if isinstance(found, Sid) else None
                rfc = "RFC 8986 section 4.1.1" if sid else "RFC 8200 section 3"
                words = "delivers it: the node takes the packet's upper layer"
                return Told(place.node, entry, words, rfc, sid)
            case "drop":
                sid = found if isinstance(found, Sid) else None
                rfc = RFC_OF_REASON.get(stage.reason or "", "own rule")
                return Told(place.node, entry, self._drop(stage), rfc, sid)
        return Told(place.node, "", "stops: 10,000 stages without an end", "own rule")

    def _send(self, stage: Stage, place: Place, found: Via, family: int) -> str:
        link = self.net.links[stage.link]
        to = f" to {link.end}" if link.end else ", which leaves the network"
        which = ""
        if len(found.links) > 1:
            number = found.links.index(link.name) + 1
            which = f", next hop {number} of {len(found.links)} equal ones"
        limit = "hop limit" if family == 6 else "TTL"
        lowered = f", and lowers the {limit}" if place.lowers else ""
        return f"sends it on {link.name}{to}{which}{lowered}"

    def _drop(self, stage: Stage) -> str:
        why = REASONS.get(stage.reason or "", "")
        words = f"drops it ({stage.reason}): {why}"
        if stage.packet is None:
            return f"{words}; no ICMPv6 error is sent"
        kind = stage.packet[40]
        called = ERRORS.get(kind, f"type {kind}")
        parts = self.parts[stage.packet]
        told = value_of(parts, "ICMPv6 header", "pointer") or ""
        more = f", {'MTU' if kind == 2 else 'pointer'} {told}" if kind in (2, 4) else ""
        return f"{words}; sends ICMPv6 {called}, code {stage.packet[41]}{more}"


def entry_words(place: Place, found: Found) -> str:
    """An entry, in words."""
    table = f"table {place.table}"
    if isinstance(found, Sid):
        return f"SID {found.prefix} ({found.what})"
    if isinstance(found, Node):
        return f"the node's own address {found.address}"
    if isinstance(found, Via):
        links = ", ".join(found.links)
        return f"route {found.prefix} of {table} over {links}" if found.prefix else f"links {links}"
    return f"nothing in {table}"


def _send_rfc(found: Via, last: Sid | None) -> str:
    if found.prefix is None:
        return RFC_OF[last.behaviour] if last else ""
    return "RFC 8200 section 3" if found.prefix.version == 6 else "RFC 791 section 3.1"


def sid_rfc(sid: Sid) -> str:
    """The sections of a SID's behaviour, its CSID flavour and its other flavours."""
    sections = [RFC_OF[sid.behaviour]]
    if sid.csid in RFC_OF_CSID:
        sections.append(RFC_OF_CSID[sid.csid])
    return ", ".join([*sections, *(RFC_OF_FLAVOUR[one] for one in sid.flavours)])


def _next(stage: Stage) -> str:
    if stage.table is None:
        return "goes over the SID's links next, without a look-up"
    return f"is looked up in table {stage.table} next"


def _again(stage: Stage, sid: Sid) -> str:
    return f"executes {sid.what} at {sid.prefix}; the packet {_next(stage)}"


def _hand(stage: Stage, sid: Sid) -> str:
    inner = f"the IPv{stage.family} packet inside"
    return f"executes {sid.what} at {sid.prefix}: takes out {inner}, which {_next(stage)}"
