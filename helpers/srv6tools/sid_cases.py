"""The packets of a covering set for a SID: what it goes on with, shifts, replaces or takes out, and chains of headers in front.

Each is laid out field by field, with a tag (`tagging`); what the node does with it the program says (`coverage`).
"""

from __future__ import annotations

import itertools
from collections.abc import Iterator, Sequence
from ipaddress import IPv6Address
from typing import Any

from .description import Sid
from .items import Prefix
from .packet_parts import (
    DESTINATION, FRAGMENT, HOP_BY_HOP, ICMPV6, IPV4, IPV6, NOTHING, ROUTING, UDP,
    fragment, icmp6, options, srh,
)  # fmt: skip
from .places import place_behind, place_inside
from .tagging import MARK_SIZE, NOWHERE_6, Tagger

PAD, SKIPPED, DISCARDED, UNKNOWN, TO_MULTICAST = (
    "010400000000", "1e0400000000", "400400000000", "800400000000", "c00400000000",
)  # fmt: skip
OPTION_BEYOND, OPTION_CUT = "1e2000000000", "010300000080"
MULTICAST = "ff05::1"
TLVS = {
    "Pad1": bytes(8),
    "PadN": bytes([4, 6]) + bytes(6),
    "an unknown TLV": bytes([9, 6]) + b"abcdef",
    "an HMAC": bytes([5, 38]) + bytes(38),
    "an HMAC behind PadN": bytes([4, 6]) + bytes(6) + bytes([5, 38]) + bytes(38),
    "an HMAC beyond the header": bytes([5, 38]) + bytes(6),
    "a TLV beyond the header": bytes([9, 60]) + bytes(6),
    "a TLV one byte beyond the header": bytes([9, 7]) + bytes(6),
    "a TLV without a length": bytes([4, 5]) + bytes(5) + bytes([9]),
}
"""Areas behind a segment list, by what is in them."""


class SidMaker(Tagger):
    """Lays out the packets of a SID."""

    def of_sid(self, sid: Sid, whole: bool = True) -> Iterator[tuple[str, bytes]]:
        """The packets of a SID: all of them, or those that show its links, table or policy."""
        if self.met(sid) is None:
            return
        for wanted, making in ((sid.goes_on, self._going_on), (sid.csid == "next", self._shifting),
                               (sid.csid == "replace", self._replacing), (True, self._inside)):  # fmt: skip
            if wanted:
                made = making(sid)
                yield from made if whole else itertools.islice(made, 2)
        if whole:
            yield from self._chains(sid)

    def _chain_cases(self, here: object, kind: int, rest: bytes) -> Iterator[tuple[str, bytes]]:
        """Chains of headers in front of a header, or of nothing."""
        said = {"padding": PAD, "option 1e": SKIPPED, "option 40": DISCARDED, "option 80": UNKNOWN, "option c0": TO_MULTICAST,
                "an option beyond the header": OPTION_BEYOND, "an option without a length": OPTION_CUT}  # fmt: skip
        for name, content in said.items():
            yield f"destination options, {name}", self.to(here, DESTINATION, self.behind(options(kind, content), rest))
        for name, content in (("padding", PAD), ("option 80", UNKNOWN)):
            yield f"hop-by-hop, {name}", self.to(here, HOP_BY_HOP, self.behind(options(kind, content), rest))
        late = self.behind(options(HOP_BY_HOP, PAD), options(kind, PAD), rest)
        yield "late hop-by-hop", self.to(here, DESTINATION, late)
        yield "first fragment", self.to(here, FRAGMENT, self.behind(fragment(kind), rest))
        yield "later fragment", self.to(here, FRAGMENT, self.behind(fragment(kind, 1), rest))
        yield "whole fragment", self.to(here, FRAGMENT, self.behind(fragment(kind, 0, False), rest))
        yield "routing type 0, a segment left", self.to(here, ROUTING, self.behind(srh(1, [str(here)], kind, routing_type=0), rest))
        yield "routing type 253, none left", self.to(here, ROUTING, self.behind(srh(0, [], kind, 0, routing_type=253), rest))
        yield "destination options are cut", self.to(here, DESTINATION, bytes([kind, 4]) + bytes(6))
        yield "a header of 4 bytes", self.to(here, DESTINATION, bytes([kind, 0, 1, 0]))
        yield "a fragment header is cut", self.to(here, FRAGMENT, bytes([kind, 0, 0]))
        long_chain = options(DESTINATION, PAD) * 5 + options(kind, PAD)
        yield "six destination options", self.to(here, DESTINATION, self.behind(long_chain, rest))

    def _onward(self, sid: Sid) -> str:
        """A segment that the SID's own look-up sends on, or any one where there is no look-up."""
        place = place_behind(sid)
        return self.routed(place.table) or self.routed(0) or NOWHERE_6[0]

    def _going_on(self, sid: Sid) -> Iterator[tuple[str, bytes]]:
        """Packets to a SID that goes on to the next segment; the first ones are what it is for."""
        here, there = str(self.met(sid)), self._onward(sid)
        way = [there, here]

        def header(left: int, segments: Sequence[str] = way, **more: Any) -> bytes:
            return self.behind(srh(left, segments, **more))

        def send(payload: bytes, **more: Any) -> bytes:
            return self.to(here, ROUTING, payload, **more)

        yield "a segment left", send(header(1))
        yield "hop limit 2", send(header(1), hop_limit=2)
        yield "hop limit 1", send(header(1), hop_limit=1)
        yield "hop limit 0", send(header(1), hop_limit=0)
        yield "two segments left", send(header(2, [there, there, here]))
        yield "UDP behind it", send(srh(1, way, UDP) + self.udp())
        yield "three bytes behind the end", send(header(1)) + b"abc"
        yield "one segment left of three", send(header(1, [there, there, here]))
        yield "Segments Left is Last Entry + 1", send(header(2))
        for left in (3, 4, 128, 255):
            yield f"Segments Left {left} beyond Last Entry 1", send(header(left))
        for last in (0, 2, 5, 255):
            yield f"Last Entry {last} of two entries", send(header(1, last=last))
        yield "Last Entry 0 of two entries, Segments Left 2", send(header(2, last=0))
        yield "no entries", send(header(1, [], last=0))
        yield "flags and a tag", send(header(1, flags=0xFF, tag=0xBEEF))
        yield from ((f"behind the list {name}", send(header(1, tlvs=area))) for name, area in TLVS.items())
        yield "an HMAC with its flag", send(header(1, flags=8, tlvs=TLVS["an HMAC"]))
        yield "an HMAC's flag without one", send(header(1, flags=8, tlvs=TLVS["Pad1"] * 5))
        yield "no segment left", send(header(0))
        yield "no segment left, UDP", send(srh(0, way, UDP) + self.udp())
        yield "no segment left, an HMAC", send(header(0, tlvs=TLVS["an HMAC"]))
        for size in (4, 8, 23, 39):
            yield f"the routing header is cut at {size} bytes", send(srh(1, way)[:size])
        yield "the routing header's length is beyond the end", send(header(1, length=50))
        yield "routing type 0, none left, in front", send(srh(0, [there], ROUTING, routing_type=0) + header(1))
        yield "a routing header of type 4, none left, in front", send(srh(0, [there], ROUTING) + header(1))
        yield "next is multicast", send(header(1, [MULTICAST, here]))
        yield "next is the node's address", send(header(1, [str(self.address), here]))
        yield "next is the node's address, a segment left", send(header(2, [there, str(self.address), here]))
        yield "next is unspecified", send(header(1, ["::", here]))
        yield "next is the SID again", send(header(2, [there, here, here]))
        yield "the SID 40 times", send(header(40, [there] + [here] * 40))
        if nowhere := self.unrouted(place_behind(sid).table):
            yield "next has no route", send(header(1, [nowhere, here]))
            yield "next has no route, source multicast", send(header(1, [nowhere, here]), source="ff02::1")
            yield "next has no route, source unspecified", send(header(1, [nowhere, here]), source="::")
            yield "next has no route, 1,400 bytes", send(srh(1, [nowhere, here]) + bytes(1312) + self.mark)
        for link in self.small_links:
            if narrow := self.routed(place_behind(sid).table, 6, link):
                yield f"a segment left, over {link}", send(header(1, [narrow, here]))
        others = [one for one in self.sids if one is not sid and self.met(one) and one.csid == "plain"]
        for other in others[:2]:
            yield f"next is the node's {other.behaviour}", send(header(2, [there, str(self.met(other)), here]))
        if sid.binds:
            yield "a payload of 65,535 bytes", send(srh(1, way) + bytes(65535 - 40 - MARK_SIZE) + self.mark)

    def _shifting(self, sid: Sid) -> Iterator[tuple[str, bytes]]:
        """Packets to a NEXT-CSID with CSIDs behind it."""
        if not (block := self.net.block_of(sid.prefix)):
            return
        here, room = self.met(sid), 128 - sid.prefix.prefixlen
        size = sid.prefix.prefixlen - block.prefix.prefixlen
        onward, nowhere = self._next_csid(sid, block.prefix, size, True), self._next_csid(sid, block.prefix, size, False)
        if here is None or onward is None:
            onward = nowhere
        if here is None or onward is None:
            return
        one = _with(sid, [onward], size)
        yield "shift", self.to(one)
        yield "shift, hop limit 2", self.to(one, hop_limit=2)
        yield "shift, UDP", self.to(one, UDP, self.udp())
        yield "shift, hop limit 1", self.to(one, hop_limit=1)
        yield "shift, hop limit 0", self.to(one, hop_limit=0)
        yield "shift, three bytes behind the end", self.to(one) + b"abc"
        for count in range(2, room // size + 1):
            yield f"shift, {count} CSIDs behind", self.to(_with(sid, [onward] * count, size))
        yield "shift, different CSIDs", self.to(_with(sid, [onward, *range(1, room // size)], size))
        yield "shift, the lowest bit alone", self.to(_with(sid, [0], size) if room < size else self.sid_address(sid, 1))
        yield "shift, a segment left", self.to(one, ROUTING, self.behind(srh(1, [str(one), str(one)])))
        yield "shift, no segment left", self.to(one, ROUTING, self.behind(srh(0, [str(one)])))
        yield "shift, Segments Left beyond", self.to(one, ROUTING, self.behind(srh(9, [str(one)])))
        yield "shift, routing header is cut", self.to(one, ROUTING, srh(1, [str(one)])[:9])
        yield "shift, IPv6 inside", self.to(one, IPV6, self.to(one))
        own = int(sid.prefix.network_address) >> room & ((1 << size) - 1)
        yield "shift, then the SID again", self.to(_with(sid, [own, onward], size)) if room // size > 1 else self.to(one)
        last = _with(sid, [own], size)
        yield "shift, then none is left", self.to(last)
        yield "shift, then none is left, a segment left", self.to(last, ROUTING, self.behind(srh(1, [str(one), str(last)])))
        if nowhere is not None:
            yield "shift, then no route", self.to(_with(sid, [nowhere], size))
            yield "shift, then no route, source multicast", self.to(_with(sid, [nowhere], size), source="ff02::1")
        yield from ((f"shift, {name}", packet) for name, packet in self._chain_cases(one, NOTHING, b""))

    def _next_csid(self, sid: Sid, block: Prefix, size: int, routed: bool) -> int | None:
        """A CSID behind which the node's table has a route, or nothing."""
        table = place_behind(sid).table
        known = [route.prefix for route in self.routes if route.table == table and route.prefix.version == 6]
        tries = [int(one.network_address) >> (128 - block.prefixlen - size) & ((1 << size) - 1) for one in known]
        for csid in [*tries, 0x7777, 0xFF, 0x5A5A, 0x1234]:
            address = IPv6Address(int(block.network_address) | csid << (128 - block.prefixlen - size))
            found = self.found(table, address)
            if csid and (isinstance(found, tuple) if routed else found is None):
                return csid
        return None

    def _replacing(self, sid: Sid) -> Iterator[tuple[str, bytes]]:
        """Packets to a REPLACE-CSID; the CSID of the greatest index stands in an entry's lowest bits."""
        block, here = self.net.block_of(sid.prefix), self.met(sid)
        if block is None or here is None:
            return
        size = sid.prefix.prefixlen - block.prefix.prefixlen
        top = 128 // size - 1
        onward = self._next_csid(sid, block.prefix, size, True) or self._next_csid(sid, block.prefix, size, False) or 1
        full = [_entry([onward + top - at for at in range(top + 1)], size), str(here)]

        def send(left: int, entries: Sequence[str] = full, index: int = 0, **more: Any) -> bytes:
            return self.to(self.sid_address(sid, index), ROUTING, self.behind(srh(left, entries, **more)))

        yield "index 0, a segment left", send(1)
        for index in range(top, 0, -1):
            yield f"index {index}", send(0, index=index)
        for hop_limit in (2, 1, 0):
            packet = self.to(here, ROUTING, self.behind(srh(1, full)), hop_limit=hop_limit)
            yield f"index 0, hop limit {hop_limit}", packet
        last_only = [_entry([0] * top + [onward], size), str(here)]
        yield "index 0, one CSID in the entry", send(1, last_only)
        for name, segment in (("a whole segment", self._onward(sid)), ("multicast", MULTICAST), ("the address", str(self.address))):
            entries = [segment, _entry([0, 0, onward], size), str(here)]
            yield f"index {top}, {name} next", send(1, entries, top)
        entries = [self._onward(sid), str(self.address), _entry([0, 0, onward], size), str(here)]
        yield f"index {top}, the address next, a segment left", send(2, entries, top)
        for link in self.small_links:
            if narrow := self.routed(place_behind(sid).table, 6, link):
                yield f"a whole segment, over {link}", send(1, [narrow, _entry([0, 0, onward], size), str(here)], top)
        yield "index 1, the CSID below is 0, none left", send(0, last_only, 1)
        yield "index 1, the CSID below is 0, one left", send(1, [*full[:1], *last_only], 1)
        yield "no segment left", send(0)
        yield "no entries, index 1", send(0, [], 1, last=0)
        yield "Segments Left is Last Entry + 1, index 0", send(2)
        yield "Segments Left is Last Entry + 1, index 1", send(2, index=1)
        yield "Segments Left beyond", send(3)
        yield "Last Entry beyond the entries", send(1, last=5)
        yield "index 2, UDP behind it", self.to(self.sid_address(sid, 2), ROUTING, srh(0, full, UDP) + self.udp())
        yield "an argument above the index", send(0, index=1 << 8 | 2)
        yield from ((f"behind the list {name}", send(1, tlvs=area)) for name, area in TLVS.items())
        if (nowhere := self._next_csid(sid, block.prefix, size, False)) is not None:
            entries = [_entry([nowhere] * (top + 1), size), str(here)]
            yield "next has no route", send(1, entries)

    def _inside(self, sid: Sid) -> Iterator[tuple[str, bytes]]:
        """Packets with a packet inside; the first are those that the SID is for."""
        here, place = str(self.met(sid)), place_inside(sid)
        families = [family for family in (6, 4) if sid.exposes(family)]
        for family in [*families, *(one for one in (6, 4) if one not in families)]:
            kind, other = (IPV6, IPV4) if family == 6 else (IPV4, IPV6)
            there = self.routed(place.table, family) or self.routed(0, family) or ("2001:db8:2::1" if family == 6 else "192.0.2.1")
            make = self.to if family == 6 else self.to4
            inside = f"IPv{family} inside"
            yield inside, self.to(here, kind, make(there))
            yield f"{inside}, no segment left", self.to(here, ROUTING, srh(0, [here], kind) + make(there))
            if family not in families:
                continue
            yield f"{inside}, a segment left", self.to(here, ROUTING, srh(1, [there if family == 6 else here, here], kind) + make(there))
            yield f"{inside}, Segments Left beyond", self.to(here, ROUTING, srh(9, [here], kind) + make(there))
            yield f"{inside}, routing type 0, none left", self.to(here, ROUTING, srh(0, [], kind, 0, routing_type=0) + make(there))
            yield f"{inside}, an HMAC", self.to(here, ROUTING, srh(0, [here], kind, tlvs=TLVS["an HMAC"]) + make(there))
            for limit in (1, 0):
                yield f"{inside}, outer hop limit {limit}", self.to(here, kind, make(there), hop_limit=limit)
            for limit in (2, 1, 0):
                inner = self.to(there, hop_limit=limit) if family == 6 else self.to4(there, ttl=limit)
                yield f"{inside}, its {'hop limit' if family == 6 else 'TTL'} {limit}", self.to(here, kind, inner)
            yield f"{inside}, called the other family", self.to(here, other, make(there))
            yield f"{inside}, three bytes behind it", self.to(here, kind, make(there) + b"abc")
            yield f"{inside}, cut by one byte", self.to(here, kind, make(there)[:-1])
            yield f"{inside}, of version 5", self.to(here, kind, make(there, version=5))
            yield f"{inside}, cut within its header", self.to(here, kind, make(there)[:15])
            yield f"{inside}, no byte of it", self.to(here, kind)
            for link in self.small_links:
                if narrow := self.routed(place.table, family, link):
                    yield f"{inside}, over {link}", self.to(here, kind, make(narrow))
            if nowhere := self.unrouted(place.table, family):
                yield f"{inside}, without a route", self.to(here, kind, make(nowhere))
            yield from ((f"{inside}, {name}", packet) for name, packet in self._inner(here, there, family))
            only = next((one for one in self.routes if one.table == 0 and one.prefix.version == family), None)
            if place.table and only and (routed := self.routed_by(only, 0, family)):
                yield f"{inside}, to a route of table 0", self.to(here, kind, make(routed))

    def _inner(self, here: str, there: str, family: int) -> Iterator[tuple[str, bytes]]:
        """Packets of one family inside, which are treated as that family is."""
        if family == 4:
            yield "wrong checksum", self.to(here, IPV4, self.to4(there, good_checksum=False))
            yield "a total length below the header's", self.to(here, IPV4, self.to4(there, total=19))
            return
        yield "multicast", self.to(here, IPV6, self.to(MULTICAST))
        yield "its source multicast", self.to(here, IPV6, self.to(there, source="ff02::1"))
        yield "destination option 80", self.to(here, IPV6, self.to(there, DESTINATION, self.behind(options(NOTHING, UNKNOWN))))
        yield "another packet inside", self.to(here, IPV6, self.to(there, IPV6, self.to(there)))
        yield "the node's address", self.to(here, IPV6, self.to(self.address))
        own = self.to(self.address, FRAGMENT, self.behind(fragment(NOTHING)))
        yield "the node's address, a fragment", self.to(here, IPV6, own)

    def _chains(self, sid: Sid) -> Iterator[tuple[str, bytes]]:
        """Chains of headers, and upper layers, at a SID."""
        here = str(self.met(sid))
        onward = self._onward(sid)
        rest = srh(1, [onward, here]) if sid.goes_on and sid.csid != "replace" else b""
        yield "no routing header", self.to(here)
        for layer in dict.fromkeys((UDP, ICMPV6, 6, *self.allow)):
            content = self.udp() if layer == UDP else icmp6(128, 0, self.mark) if layer == ICMPV6 else bytes(20) + self.mark
            yield f"upper layer {layer}", self.to(here, layer, content)
        yield "an ICMPv6 error", self.to(here, ICMPV6, icmp6(1, 0, self.to(here)))
        yield "upper layer 17, source multicast", self.to(here, UDP, self.udp(), source="ff02::1")
        yield "upper layer 17, source unspecified", self.to(here, UDP, self.udp(), source="::")
        yield from self._chain_cases(here, ROUTING if rest else NOTHING, rest)
        if sid.csid == "plain" and int(self.sid_address(sid, 1)) and self.found(0, self.sid_address(sid, 1)) is sid:
            there = self.sid_address(sid, 1)
            yield "an argument, a segment left", self.to(there, ROUTING, self.behind(srh(1, [onward, str(there)])))
            yield "an argument, IPv6 inside", self.to(there, IPV6, self.to(onward))


def _with(sid: Sid, csids: Sequence[int], size: int) -> IPv6Address:
    """The address of a SID with CSIDs behind it, as many as there is room for."""
    number, shift = int(sid.prefix.network_address), 128 - sid.prefix.prefixlen
    for csid in csids:
        shift -= size
        if shift < 0:
            break
        number |= csid % (1 << size) << shift
    return IPv6Address(number)


def _entry(csids: Sequence[int], size: int) -> str:
    """An entry with CSIDs, of which the last has the greatest index and stands in the lowest bits."""
    number = 0
    for csid in csids:
        number = number << size | csid % (1 << size)
    return str(IPv6Address(number))
