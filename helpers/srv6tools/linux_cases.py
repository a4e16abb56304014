"""The packets of bench/linux-differences, for the node of bench/linux-differences.toml."""

from __future__ import annotations

from collections.abc import Iterator

from .packet_parts import (
    DESTINATION, FRAGMENT, HOP_BY_HOP, ICMPV6, IPV4, IPV6, NOTHING, ROUTING, UDP,
    fragment, icmp6, ip4, ip6, options, srh, udp,
)  # fmt: skip

NODE, ADDRESS = "N", "2001:db8::1"
MARK = "fc00:0:ff:ffff::1"
"""A destination that the node sends on over `east`."""

NEXT, AFTER = "fc00:0:ff::", "fc00:0:ff:2::"
NOWHERE = "fd77::1"
INNER, INNER_4 = "2001:db8:2::1", "192.0.2.1"
GOING_ON = {
    "End": "fc00:0:1::",
    "End PSP": "fc00:0:2::",
    "End.X": "fc00:0:5::",
    "End.T": "fc00:0:6::",
    "End.B6.Encaps": "fc00:0:c::",
    "End NEXT-CSID": "fcbb:bb00:c::",
    "End.X NEXT-CSID": "fcbb:bb00:d::",
    "End PSP NEXT-CSID": "fcbb:bb00:e::",
}
SHIFTING = {
    "End NEXT-CSID": "fcbb:bb00:c",
    "End.X NEXT-CSID": "fcbb:bb00:d",
    "End PSP NEXT-CSID": "fcbb:bb00:e",
}
TAKING_6 = {"End.DX6": "fc00:0:7::", "End.DT6": "fc00:0:9::"}
TAKING_4 = {"End.DX4": "fc00:0:8::"}
PAD, SKIPPED, DISCARDED, UNKNOWN = "010400000000", "1e0400000000", "400400000000", "800400000000"
PAD_TLV = bytes([4, 6]) + bytes(6)
HMAC = bytes([5, 38]) + bytes(38)
LONG_TLV = bytes([9, 60]) + bytes(6)

Named = Iterator[tuple[str, bytes]]


def cases() -> Named:
    """All packets, each with a name of its own."""
    yield from _routed()
    yield from _at_the_address()
    for name, sid in GOING_ON.items():
        yield from ((f"{name}: {what}", packet) for what, packet in _going_on(sid))
    for name, sid in SHIFTING.items():
        yield from ((f"{name}: {what}", packet) for what, packet in _shifting(sid))
    for name, sid in TAKING_6.items():
        yield from ((f"{name}: {what}", packet) for what, packet in _taking(sid, 6))
    for name, sid in TAKING_4.items():
        yield from ((f"{name}: {what}", packet) for what, packet in _taking(sid, 4))


def _routed() -> Named:
    """Packets that the node sends on, or has no route for."""
    yield "route", ip6(AFTER)
    yield "route: hop limit 1", ip6(AFTER, hop_limit=1)
    yield "route: hop limit 0", ip6(AFTER, hop_limit=0)
    yield "route: bytes behind the end", ip6(AFTER) + b"abc"
    yield "route: payload is cut", ip6(AFTER, UDP, udp(), length=20)
    yield "route: hop-by-hop options, padding", ip6(AFTER, HOP_BY_HOP, options(NOTHING, PAD))
    yield "route: hop-by-hop option 80", ip6(AFTER, HOP_BY_HOP, options(NOTHING, UNKNOWN))
    yield "route: hop-by-hop option 40", ip6(AFTER, HOP_BY_HOP, options(NOTHING, DISCARDED))
    yield "route: destination option 80", ip6(AFTER, DESTINATION, options(NOTHING, UNKNOWN))
    yield "route: routing header with a segment left", ip6(AFTER, ROUTING, srh(1, [NEXT, AFTER]))
    yield "route: fragment", ip6(AFTER, FRAGMENT, fragment(UDP) + udp())
    yield "route: source is multicast", ip6(AFTER, source="ff02::1")
    yield "route: source is unspecified", ip6(AFTER, source="::")
    yield "multicast destination", ip6("ff05::1")
    yield "no route", ip6(NOWHERE)
    yield "no route: an ICMPv6 error", ip6(NOWHERE, ICMPV6, icmp6(1, 0, ip6(AFTER)))
    yield "no route: an ICMPv6 echo request", ip6(NOWHERE, ICMPV6, icmp6(128))
    yield "no route: source is unspecified", ip6(NOWHERE, source="::")
    yield "no route: 1,400 bytes", ip6(NOWHERE, NOTHING, bytes(1360))
    yield "IPv4 route", ip4(INNER_4)
    yield "IPv4 route: TTL 1", ip4(INNER_4, ttl=1)
    yield "IPv4 route: wrong checksum", ip4(INNER_4, good_checksum=False)
    yield "IPv4 route: bytes behind the end", ip4(INNER_4) + b"abc"
    yield "IPv4 no route", ip4("203.0.113.1")


def _at_the_address() -> Named:
    """Packets to the node's own address."""
    yield "address: nothing behind the header", ip6(ADDRESS)
    yield "address: UDP", ip6(ADDRESS, UDP, udp())
    yield "address: padding", ip6(ADDRESS, DESTINATION, options(NOTHING, PAD))
    yield "address: hop limit 1", ip6(ADDRESS, hop_limit=1)
    yield "address: destination option 80", ip6(ADDRESS, DESTINATION, options(NOTHING, UNKNOWN))
    yield "address: destination option 40", ip6(ADDRESS, DESTINATION, options(NOTHING, DISCARDED))
    late = options(HOP_BY_HOP, PAD) + options(NOTHING, PAD)
    yield "address: late hop-by-hop options", ip6(ADDRESS, DESTINATION, late)
    yield "address: segment left", ip6(ADDRESS, ROUTING, srh(1, [NEXT, ADDRESS]))
    yield "address: no segment left", ip6(ADDRESS, ROUTING, srh(0, [ADDRESS]))
    type_0 = srh(1, [NEXT], routing_type=0)
    yield "address: routing type 0 with a segment left", ip6(ADDRESS, ROUTING, type_0)
    yield "address: fragment", ip6(ADDRESS, FRAGMENT, fragment(UDP, 0, False) + udp())
    yield "address: IPv6 inside", ip6(ADDRESS, IPV6, ip6(INNER))


def _going_on(sid: str) -> Named:
    """Packets to a SID that goes on to the next segment."""
    way = [NEXT, sid]
    header = srh(1, way)
    yield "segment left", ip6(sid, ROUTING, header)
    yield "two segments left", ip6(sid, ROUTING, srh(2, [AFTER, NEXT, sid]))
    yield "UDP behind it", ip6(sid, ROUTING, srh(1, way, UDP) + udp())
    yield "hop limit 2", ip6(sid, ROUTING, header, 2)
    yield "hop limit 1", ip6(sid, ROUTING, header, 1)
    yield "hop limit 0", ip6(sid, ROUTING, header, 0)
    yield "Segments Left beyond the list", ip6(sid, ROUTING, srh(3, way))
    yield "Segments Left one behind Last Entry", ip6(sid, ROUTING, srh(2, way))
    yield "Last Entry beyond the header", ip6(sid, ROUTING, srh(1, way, last=5))
    yield "no segment left", ip6(sid, ROUTING, srh(0, way))
    yield "no segment left, IPv6 inside", ip6(sid, ROUTING, srh(0, way, IPV6) + ip6(INNER))
    yield "no routing header", ip6(sid)
    yield "no routing header, UDP", ip6(sid, UDP, udp())
    yield "padding behind the list", ip6(sid, ROUTING, srh(1, way, tlvs=PAD_TLV))
    yield "HMAC", ip6(sid, ROUTING, srh(1, way, tlvs=HMAC))
    yield "TLV beyond the header", ip6(sid, ROUTING, srh(1, way, tlvs=LONG_TLV))
    for number, content in (("1e", SKIPPED), ("40", DISCARDED), ("80", UNKNOWN)):
        packet = ip6(sid, DESTINATION, options(ROUTING, content) + header)
        yield f"destination option {number}", packet
    yield "hop-by-hop options, padding", ip6(sid, HOP_BY_HOP, options(ROUTING, PAD) + header)
    yield "hop-by-hop option 80", ip6(sid, HOP_BY_HOP, options(ROUTING, UNKNOWN) + header)
    late = options(HOP_BY_HOP, PAD) + options(ROUTING, PAD) + header
    yield "late hop-by-hop options", ip6(sid, DESTINATION, late)
    yield "fragment", ip6(sid, FRAGMENT, fragment(ROUTING) + header)
    yield "routing type 0 with a segment left", ip6(sid, ROUTING, srh(1, [NEXT], routing_type=0))
    first = srh(0, [NEXT], ROUTING, routing_type=0)
    yield "routing type 0 in front", ip6(sid, ROUTING, first + header)
    yield "bytes behind the end", ip6(sid, ROUTING, header) + b"abc"
    yield "routing header is cut", ip6(sid, ROUTING, header[:20])
    yield "routing header beyond the end", ip6(sid, ROUTING, srh(1, way, length=50))
    yield "next segment without a route", ip6(sid, ROUTING, srh(1, [NOWHERE, sid]))
    yield "next segment is multicast", ip6(sid, ROUTING, srh(1, ["ff05::1", sid]))
    yield "next segment is the node's address", ip6(sid, ROUTING, srh(1, [ADDRESS, sid]))
    twice = srh(2, [NEXT, GOING_ON["End"], sid])
    yield "next segment is another SID of the node", ip6(sid, ROUTING, twice)


def _shifting(sid: str) -> Named:
    """Packets to a NEXT-CSID with a CSID behind it."""
    there = f"{sid}:ff::"
    yield "shift", ip6(there)
    yield "shift, UDP", ip6(there, UDP, udp())
    yield "shift, hop limit 2", ip6(there, hop_limit=2)
    yield "shift, hop limit 1", ip6(there, hop_limit=1)
    yield "shift, segment left", ip6(there, ROUTING, srh(1, [NEXT, there]))
    yield "shift, no segment left", ip6(there, ROUTING, srh(0, [there]))
    yield "shift, fragment", ip6(there, FRAGMENT, fragment(UDP) + udp())
    yield "shift, destination option 80", ip6(there, DESTINATION, options(NOTHING, UNKNOWN))
    yield "shift, bytes behind the end", ip6(there) + b"abc"
    yield "shift, then another CSID of the node", ip6(f"{sid}:c:ff::")
    yield "shift, then a CSID without a route", ip6(f"{sid}:77::")
    yield "shift, then none is left", ip6(f"{sid}:e::", ROUTING, srh(1, [NEXT, f"{sid}:e::"]))


def _taking(sid: str, family: int) -> Named:
    """Packets to a SID that takes the packet inside out."""
    kind = IPV6 if family == 6 else IPV4
    inner = ip6(INNER) if family == 6 else ip4(INNER_4)
    yield "packet inside", ip6(sid, kind, inner)
    yield "no segment left", ip6(sid, ROUTING, srh(0, [sid], kind) + inner)
    yield "segment left", ip6(sid, ROUTING, srh(1, [NEXT, sid], kind) + inner)
    yield "outer hop limit 1", ip6(sid, kind, inner, 1)
    yield "no packet inside", ip6(sid)
    yield "UDP", ip6(sid, UDP, udp())
    yield "packet of the other family", ip6(sid, IPV4 if family == 6 else IPV6, inner)
    yield "HMAC", ip6(sid, ROUTING, srh(0, [sid], kind, tlvs=HMAC) + inner)
    yield "destination option 80", ip6(sid, DESTINATION, options(kind, UNKNOWN) + inner)
    yield "fragment", ip6(sid, FRAGMENT, fragment(kind, 0, False) + inner)
    yield "packet inside is empty", ip6(sid, kind)
    yield "packet inside is cut within its header", ip6(sid, kind, inner[:15])
    yield "bytes behind the packet inside", ip6(sid, kind, inner + b"abc")
    if family == 4:
        yield "TTL 1", ip6(sid, kind, ip4(INNER_4, ttl=1))
        yield "wrong checksum", ip6(sid, kind, ip4(INNER_4, good_checksum=False))
        yield "packet inside claims more bytes", ip6(sid, kind, ip4(INNER_4, total=40))
        yield "packet inside of version 5", ip6(sid, kind, ip4(INNER_4, version=5))
        return
    yield "hop limit 1 inside", ip6(sid, kind, ip6(INNER, hop_limit=1))
    yield "packet inside claims more bytes", ip6(sid, kind, ip6(INNER, length=10))
    yield "packet inside of version 5", ip6(sid, kind, ip6(INNER, version=5))
    yield "multicast inside", ip6(sid, kind, ip6("ff05::1"))
    yield "no route inside", ip6(sid, kind, ip6(NOWHERE))
    yield "options inside", ip6(sid, kind, ip6(INNER, DESTINATION, options(NOTHING, UNKNOWN)))
