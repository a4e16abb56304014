"""Packets with a tag, by which what comes of them is known again, and where they go at a node.

The tag is a number: the flow label of each IPv6 header, the identification of each IPv4 header, and a mark in the payload.
"""

from __future__ import annotations

from collections.abc import Iterator
from ipaddress import IPv4Address, IPv6Address
from typing import Any

from .description import MOST_MTU, Network, Route, Sid
from .items import Prefix
from .packet_parts import DESTINATION, HOP_BY_HOP, IPV4, IPV6, NOTHING, ROUTING, UDP, ip4, ip6
from .places import Place, Tables, Via

MARK = b"srv6"
MARK_SIZE = len(MARK) + 4
NOWHERE_6 = ("fd77:77::1", "3fff:77::1", "2001:db8:7777::1", "5f77::1")
NOWHERE_4 = ("203.0.113.77", "198.18.77.1", "10.77.77.1")


class Tagger:
    """Packets with a tag for a node, and where they go there; `tag` is the number of the packet that is being made."""

    def __init__(self, net: Network, node: str) -> None:
        self.net, self.node = net, node
        self.tables = Tables(net)
        self.address = net.nodes[node].address
        self.allow = net.nodes[node].allow
        self.sids = [sid for sid in net.sids if sid.node == node]
        self.routes = [route for route in net.routes if route.node == node]
        self.tag = 1

    # What packets are made of.

    @property
    def mark(self) -> bytes:
        """What stands at the end of a payload."""
        return MARK + self.tag.to_bytes(4)

    def to(self, destination: object, kind: int = NOTHING, payload: bytes = b"", **fields: Any) -> bytes:
        """An IPv6 packet with the tag; without an upper layer the mark is its payload."""
        return ip6(str(destination), kind, payload or (self.mark if kind == NOTHING else b""), flow=self.tag, **fields)

    def to4(self, destination: object, **fields: Any) -> bytes:
        """An IPv4 packet with the tag."""
        payload = self.udp()
        return ip4(str(destination), UDP, payload, identification=self.tag & 0xFFFF, **fields)

    def udp(self) -> bytes:
        """A UDP header without a checksum, and the mark."""
        return (4000).to_bytes(2) + (4001).to_bytes(2) + (8 + MARK_SIZE).to_bytes(2) + bytes(2) + self.mark

    def behind(self, *headers: bytes) -> bytes:
        """Headers of which the last names no upper layer, and the mark."""
        return b"".join(headers) + self.mark

    # Where they go.

    def routed(self, table: int, family: int = 6, link: str | None = None) -> str | None:
        """A destination that a table of the node sends on, over a link where one is told; None where it has none."""
        routes = [route for route in self.routes if link is None or link in route.via]
        return next((found for route in routes if (found := self.routed_by(route, table, family))), None)

    @property
    def small_links(self) -> list[str]:
        """The links of the node that have an MTU."""
        return [link.name for link in self.net.links.values() if link.start == self.node and link.mtu < MOST_MTU]

    def routed_by(self, route: Route, table: int, family: int) -> str | None:
        if route.table != table or route.prefix.version != family:
            return None
        for address in _inside(route.prefix):
            if address.is_multicast or not int(address):
                continue
            if family == 4 or self.found(table, address) == route.via:
                return str(address)
        return None

    def found(self, table: int, address: object) -> object:
        """The links of the route that a table has for an address, else the SID, the node or None."""
        found = self.tables.found_at(Place(self.node, table, None, True), int(IPv6Address(str(address))))
        return found.links if isinstance(found, Via) else found

    def unrouted(self, table: int, family: int = 6) -> str | None:
        """A destination of which a table has nothing; None where it has a default route."""
        if family == 6:
            return next((text for text in NOWHERE_6 if self.found(table, text) is None), None)
        prefixes = [route.prefix for route in self.routes if route.table == table and route.prefix.version == 4]
        return next((text for text in NOWHERE_4 if not any(IPv4Address(text) in one for one in prefixes)), None)

    def sid_address(self, sid: Sid, argument: int = 0) -> IPv6Address:
        """The SID's address, with an argument in its lowest bits."""
        return IPv6Address(int(sid.prefix.network_address) + argument)

    def met(self, sid: Sid) -> IPv6Address | None:
        """An address at which the SID itself is met; None where others hide it."""
        tries = (self.sid_address(sid, argument) for argument in (0, 1 << 8))
        return next((one for one in tries if one in sid.prefix and self.found(0, one) is sid), None)


def lengthened(packet: bytes, more: int) -> bytes:
    """A packet with further bytes in its payload, in front of the mark, and with the lengths that follow; of one that
    holds another one both.
    """
    mark = packet.rfind(MARK)
    content = bytearray(packet[:mark] + bytes(more) + packet[mark:])
    if packet[0] >> 4 == 4:
        _lengthen_4(content, 0, more)
        return bytes(content)
    content[4:6] = (int.from_bytes(packet[4:6]) + more).to_bytes(2)
    at, kind = 40, packet[6]
    while kind in (HOP_BY_HOP, ROUTING, DESTINATION) and at + 8 <= len(packet):
        kind, at = packet[at], at + 8 + 8 * packet[at + 1]
    if kind == IPV6 and at + 6 <= len(packet):
        content[at + 4 : at + 6] = (int.from_bytes(packet[at + 4 : at + 6]) + more).to_bytes(2)
    if kind == IPV4 and at + 20 <= len(packet):
        _lengthen_4(content, at, more)
    return bytes(content)


def _lengthen_4(content: bytearray, at: int, more: int) -> None:
    """Gives the IPv4 header at a place a longer total length, and the checksum that follows."""
    content[at + 2 : at + 4] = (int.from_bytes(content[at + 2 : at + 4]) + more).to_bytes(2)
    content[at + 10 : at + 12] = bytes(2)
    content[at + 10 : at + 12] = checksum(bytes(content[at : at + 20])).to_bytes(2)


def checksum(content: bytes) -> int:
    """The checksum of the internet protocols over bytes (RFC 1071)."""
    content += bytes(len(content) % 2)
    total = sum(int.from_bytes(content[at : at + 2]) for at in range(0, len(content), 2))
    while total > 0xFFFF:
        total = (total & 0xFFFF) + (total >> 16)
    return total ^ 0xFFFF


def kind_of(net: Network, sid: Sid) -> str:
    """The kind of a SID: its behaviour, the form of its CSIDs, and its flavours."""
    words = [sid.behaviour]
    if sid.csid != "plain" and (block := net.block_of(sid.prefix)):
        size = sid.prefix.prefixlen - block.prefix.prefixlen
        words.append(f"{sid.csid.upper()}-CSID of {size} bits")
    return " ".join([*words, *(flavour.upper() for flavour in sorted(sid.flavours))])


def _inside(prefix: Prefix) -> Iterator[IPv6Address | IPv4Address]:
    """A few addresses inside a prefix."""
    first = int(prefix.network_address)
    kind = IPv6Address if prefix.version == 6 else IPv4Address
    for offset in (1, 0, 0x7777, 1 << 64 | 1, 0x2001_0DB8_0BAD << 80 | 1):
        if (address := kind((first + offset) % (1 << prefix.max_prefixlen))) in prefix:
            yield address
