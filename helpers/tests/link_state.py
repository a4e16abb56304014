"""Link-state routes of BGP as bytes (RFC 9552), for tests: nodes, links and prefixes of IS-IS, with SRv6 as RFC 9514 has it."""

from __future__ import annotations

from base64 import b64encode
from ipaddress import IPv6Address, IPv6Network

from srv6tools.protobuf import Schema, encoded

ISIS_LEVEL_2 = 2
NODE, LINK, PREFIX_V6, SRV6_SID = 1, 2, 4, 6
SCHEMA: Schema = {
    "AddPathRequest": {"path": (3, "Path")},
    "Path": {"family": (9, "Family"), "nlri": (20, "bytes"), "attributes": (21, "bytes")},
    "Family": {"afi": (1, "int"), "safi": (2, "int")},
}


def tlv(kind: int, value: bytes) -> bytes:
    """A TLV."""
    return kind.to_bytes(2) + len(value).to_bytes(2) + value


def descriptor(kind: int, router: int, pseudonode: int = 0) -> bytes:
    """The descriptor of a local (256) or remote (257) node of IS-IS, whose identifier ends in a number."""
    system = router.to_bytes(6) + (bytes([pseudonode]) if pseudonode else b"")
    return tlv(kind, tlv(512, (64512).to_bytes(4)) + tlv(515, system))


def nlri(kind: int, content: bytes) -> bytes:
    """A route of a kind."""
    body = bytes([ISIS_LEVEL_2]) + bytes(8) + content
    return kind.to_bytes(2) + len(body).to_bytes(2) + body


def node(router: int, name: str, loopback: str) -> tuple[bytes, bytes]:
    """A node with its name and its IPv6 router identifier."""
    return nlri(NODE, descriptor(256, router)), tlv(1026, name.encode()) + tlv(1029, IPv6Address(loopback).packed)


def link(ends: tuple[int, int], addresses: tuple[str, str], metric: int, more: bytes = b"") -> tuple[bytes, bytes]:
    """A link with the addresses of its interfaces."""
    told = tlv(261, IPv6Address(addresses[0]).packed) + tlv(262, IPv6Address(addresses[1]).packed)
    return nlri(LINK, descriptor(256, ends[0]) + descriptor(257, ends[1]) + told), tlv(1095, metric.to_bytes(3)) + more


def prefix(router: int, text: str, more: bytes = b"") -> tuple[bytes, bytes]:
    """A prefix of a node."""
    whole = IPv6Network(text)
    content = bytes([whole.prefixlen]) + whole.network_address.packed[: (whole.prefixlen + 7) // 8]
    return nlri(PREFIX_V6, descriptor(256, router) + tlv(265, content)), tlv(1155, (10).to_bytes(4)) + more


def locator(router: int, text: str) -> tuple[bytes, bytes]:
    """A prefix with the TLV of an SRv6 locator (RFC 9514 section 5.1)."""
    return prefix(router, text, tlv(1162, bytes(8)))


def srv6_sid(router: int, sid: str, behaviour: int) -> tuple[bytes, bytes]:
    """A SID of a node (RFC 9514 section 6) with its behaviour."""
    topology = tlv(263, (2).to_bytes(2))  # which GoBGP 3.36 ends without
    told = nlri(SRV6_SID, descriptor(256, router) + topology + tlv(518, IPv6Address(sid).packed))
    return told, tlv(1250, behaviour.to_bytes(2) + bytes(2))


def request(route: tuple[bytes, bytes]) -> bytes:
    """The request of GoBGP's API that adds a route."""
    head = len(route[1])
    attribute = bytes([0x90, 29]) + head.to_bytes(2) + route[1]
    reach = bytes([0x80, 14, 9, 0x40, 0x04, 71, 4, 192, 0, 2, 9, 0])
    attributes = [bytes.fromhex("40010100"), _with_nlri(reach, route[0])] + ([attribute] if head else [])
    texts = [b64encode(one).decode() for one in attributes]
    tree = {"family": {"afi": 16388, "safi": 71}, "nlri": b64encode(route[0]).decode(), "attributes": texts}
    return encoded(SCHEMA, {}, "AddPathRequest", {"path": tree})


def _with_nlri(reach: bytes, told: bytes) -> bytes:
    """An attribute MP_REACH_NLRI with a route behind its next hop."""
    content = reach[3:] + told
    return bytes([0x90, 14]) + len(content).to_bytes(2) + content
