"""The packets of a covering set for a node: each of its SIDs, its address and its routes, met in every way.

Which of them meet what the program says (`coverage`); here they are laid out, field by field, each with a tag (`tagging`).
"""

from __future__ import annotations

from collections.abc import Iterator
from dataclasses import dataclass

from .packet_parts import DESTINATION, FRAGMENT, HOP_BY_HOP, ICMPV6, IPV6, NOTHING, ROUTING, UDP, fragment, icmp6, options, srh
from .sid_cases import DISCARDED, MULTICAST, PAD, SKIPPED, UNKNOWN, SidMaker
from .tagging import kind_of

BYTES_CHANGED = ", with bytes changed"
ROUTES_AT_MOST = 64
LOOPBACK, LINK_LOCAL = "::1", "fe80::1"


@dataclass(frozen=True, slots=True)
class Case:
    """A packet of a set: its number, which is its tag, what it is sent to, and what it exercises."""

    number: int
    to: str
    exercises: str
    packet: bytes

    @property
    def name(self) -> str:
        """The packet in words."""
        return f"{self.to}: {self.exercises}"


Named = Iterator[tuple[str, str, bytes]]


class Maker(SidMaker):
    """Lays out the packets of a node."""

    def all(self) -> Named:
        """All packets but those by size, each SID that is the first of its kind with all that it can meet."""
        yield from self._arriving()
        yield from (("the address", *named) for named in self._at_the_address())
        seen: set[str] = set()
        for sid in self.sids:
            kind = kind_of(self.net, sid)
            whole, _ = kind not in seen, seen.add(kind)
            yield from ((f"SID {sid.prefix}", *named) for named in self.of_sid(sid, whole))

    def _arriving(self) -> Named:
        """Packets that the node sends on, has no route for, or can't read."""
        for route in [route for route in self.routes if route.table == 0][:ROUTES_AT_MOST]:
            where, family = f"route {route.prefix}", route.prefix.version
            if there := self.routed_by(route, 0, family):
                yield where, "sent on", self.to(there) if family == 6 else self.to4(there)
                for limit in (2, 1, 0):
                    name = f"{'hop limit' if family == 6 else 'TTL'} {limit}"
                    yield where, name, self.to(there, hop_limit=limit) if family == 6 else self.to4(there, ttl=limit)
        if there := self.routed(0):
            yield from (("a route", *named) for named in self._sent_on(there))
        if there := self.routed(0, 4):
            yield from (("an IPv4 route", *named) for named in self._sent_on_4(there))
        yield from (("no entry", *named) for named in self._nowhere())
        yield from (("no address", *named) for named in self._no_address())

    def _sent_on(self, there: str) -> Iterator[tuple[str, bytes]]:
        yield "UDP", self.to(there, UDP, self.udp())
        yield "three bytes behind the end", self.to(there) + b"abc"
        for name, content in (("padding", PAD), ("option 1e", SKIPPED), ("option 40", DISCARDED), ("option 80", UNKNOWN)):
            yield f"hop-by-hop, {name}", self.to(there, HOP_BY_HOP, self.behind(options(NOTHING, content)))
            yield f"destination options, {name}", self.to(there, DESTINATION, self.behind(options(NOTHING, content)))
        yield "a routing header with a segment left", self.to(there, ROUTING, self.behind(srh(1, [there, there])))
        yield "a fragment", self.to(there, FRAGMENT, self.behind(fragment(NOTHING)))
        yield "a source that is multicast", self.to(there, source="ff02::1")
        yield "a source that is unspecified", self.to(there, source="::")
        yield "hop limit 1, source multicast", self.to(there, hop_limit=1, source="ff02::1")
        yield "hop limit 1, an ICMPv6 error", self.to(there, ICMPV6, icmp6(1, 0, self.to(there)), hop_limit=1)
        yield "hop limit 1, an echo request", self.to(there, ICMPV6, icmp6(128, 0, self.mark), hop_limit=1)
        yield "hop limit 1, 1,400 bytes", self.to(there, NOTHING, bytes(1352) + self.mark, hop_limit=1)

    def _sent_on_4(self, there: str) -> Iterator[tuple[str, bytes]]:
        yield "wrong checksum", self.to4(there, good_checksum=False)
        yield "three bytes behind the end", self.to4(there) + b"abc"
        yield "a total length beyond the end", self.to4(there, total=60)
        yield "a total length below the header's", self.to4(there, total=19)
        yield "the header is cut at 19 bytes", self.to4(there)[:19]
        yield "a header's length below 20", bytes([0x44]) + self.to4(there)[1:]

    def _nowhere(self) -> Iterator[tuple[str, bytes]]:
        yield "multicast", self.to(MULTICAST)
        yield "multicast, hop limit 1", self.to(MULTICAST, hop_limit=1)
        if there := self.unrouted(0):
            yield "no route", self.to(there)
            yield "no route, hop limit 1", self.to(there, hop_limit=1)
            yield "no route, an ICMPv6 error", self.to(there, ICMPV6, icmp6(1, 0, self.to(there)))
            yield "no route, an ICMPv6 redirect", self.to(there, ICMPV6, icmp6(137, 0, self.to(there)))
            yield "no route, an echo request", self.to(there, ICMPV6, icmp6(128, 0, self.mark))
            yield "no route, source unspecified", self.to(there, source="::")
            yield "no route, source multicast", self.to(there, source="ff02::1")
            yield "no route, 1,400 bytes", self.to(there, NOTHING, bytes(1352) + self.mark)
            yield "no route, 1,233 bytes", self.to(there, NOTHING, bytes(1185) + self.mark)
            first, later = fragment(NOTHING), fragment(NOTHING, 1)
            yield "no route, first fragment", self.to(there, FRAGMENT, self.behind(first))
            yield "no route, later fragment", self.to(there, FRAGMENT, self.behind(later))
        if there := self.unrouted(0, 4):
            yield "no IPv4 route", self.to4(there)

    def _no_address(self) -> Iterator[tuple[str, bytes]]:
        """Packets that can't be read, or whose destination is no node's."""
        there = self.routed(0) or str(self.address)
        yield "the payload is cut", self.to(there, length=20)
        yield "the payload is cut by one byte", self.to(there)[:-1]
        for size in (1, 39):
            yield f"the header is cut at {size} bytes", self.to(there)[:size]
        for name, text in (("unspecified", "::"), ("the loopback", LOOPBACK), ("link-local", LINK_LOCAL)):
            yield f"to {name}", self.to(text)

    def _at_the_address(self) -> Iterator[tuple[str, bytes]]:
        """Packets to the node's own address."""
        here = self.address
        if self.found(0, here) is not self.net.nodes[self.node]:
            return
        yield "UDP", self.to(here, UDP, self.udp())
        yield "nothing behind the header", self.to(here)
        yield "hop limit 0", self.to(here, hop_limit=0)
        yield "IPv6 inside", self.to(here, IPV6, self.to(here))
        yield "no segment left", self.to(here, ROUTING, self.behind(srh(0, [str(here)])))
        yield "a segment left", self.to(here, ROUTING, self.behind(srh(1, [str(here), str(here)])))
        yield from self._chain_cases(here, NOTHING, b"")
