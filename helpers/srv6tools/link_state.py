"""Routes of the link-state table of BGP (RFC 9552) with SRv6 (RFC 9514): what their bytes say of nodes, links, prefixes and SIDs."""

from __future__ import annotations

from collections.abc import Iterator, Sequence
from dataclasses import dataclass
from ipaddress import IPv4Address, IPv6Address, IPv6Network

ATTRIBUTE = 29  # BGP-LS, RFC 9552 section 5.3
EXTENDED = 0x10  # of an attribute's flags: two bytes of length (RFC 4271 section 4.3)
NODE, LINK, PREFIX_V4, PREFIX_V6, SRV6_SID = 1, 2, 3, 4, 6  # kinds of routes
LOCAL_NODE, REMOTE_NODE, LINK_IDS, TOPOLOGY, REACH = 256, 257, 258, 263, 265
LOCAL_ADDRESS, REMOTE_ADDRESS, SID_TOLD = 261, 262, 518
ROUTER_ID, NAME, ROUTER_ADDRESS, METRIC = 515, 1026, 1029, 1095
END_X, LOCATOR, BEHAVIOUR, STRUCTURE = 1106, 1162, 1250, 1252  # RFC 9514


@dataclass(frozen=True, slots=True)
class Sid:
    """A SID: its value, the code of its behaviour, and the bits of block, node and function; 0 where they aren't told."""

    value: IPv6Address
    behaviour: int = 0
    lengths: tuple[int, int, int] = (0, 0, 0)


@dataclass(frozen=True, slots=True)
class NodeTold:
    """A node, with its name and its IPv6 router identifier where they are told."""

    router: str
    name: str | None
    address: IPv6Address | None


@dataclass(frozen=True, slots=True)
class LinkTold:
    """A link, with what tells it apart from others between the same nodes, its metric, and the SIDs of its adjacency."""

    start: str
    end: str
    told_by: tuple[object, ...]
    addresses: tuple[IPv6Address, ...]
    topology: int
    metric: int | None
    sids: tuple[Sid, ...]


@dataclass(frozen=True, slots=True)
class PrefixTold:
    """A prefix of a node, and whether it is told to be a locator."""

    router: str
    prefix: IPv6Network
    is_locator: bool


@dataclass(frozen=True, slots=True)
class SidTold:
    """A SID of a node."""

    router: str
    sid: Sid


Told = NodeTold | LinkTold | PrefixTold | SidTold


def told_by(nlri: bytes, attributes: Sequence[bytes]) -> Told | None:
    """What a route says, None where it is of another kind; a ValueError where its bytes have another form."""
    kind, size = int.from_bytes(nlri[:2]), int.from_bytes(nlri[2:4])
    if len(nlri) != size + 4 or size < 9:
        raise ValueError("a route of another length than it says")
    parts = dict(tlvs_of(nlri[13:]))  # behind the protocol and the identifier of the instance
    more = [tlv for attribute in attributes for tlv in tlvs_of(_content(attribute))]
    single = dict(more)
    local = router_of(parts[LOCAL_NODE]) if LOCAL_NODE in parts else ""
    if not local:
        raise ValueError("a route without a local node")
    match kind:
        case 1:
            name = single[NAME].decode("ascii", "replace") if NAME in single else None
            return NodeTold(local, name, IPv6Address(single[ROUTER_ADDRESS]) if ROUTER_ADDRESS in single else None)
        case 2:
            return _link(local, parts, more)
        case 4:
            return PrefixTold(local, _prefix(parts[REACH]) if REACH in parts else IPv6Network("::/0"), LOCATOR in single)
        case 6:
            behaviour, lengths = int.from_bytes(single.get(BEHAVIOUR, b"")[:2]), _lengths(single.get(STRUCTURE, b""))
            return SidTold(local, Sid(IPv6Address(parts[SID_TOLD][:16]), behaviour, lengths))
    return None


def _content(attribute: bytes) -> bytes:
    """What an attribute of link state has; nothing of another."""
    if len(attribute) < 3 or attribute[1] != ATTRIBUTE:
        return b""
    return attribute[4 if attribute[0] & EXTENDED else 3 :]


def tlvs_of(content: bytes) -> Iterator[tuple[int, bytes]]:
    """The TLVs of some bytes."""
    at = 0
    while at < len(content):
        kind, size = int.from_bytes(content[at : at + 2]), int.from_bytes(content[at + 2 : at + 4])
        if at + 4 + size > len(content):
            raise ValueError("a TLV is cut")
        yield kind, content[at + 4 : at + 4 + size]
        at += 4 + size


def router_of(descriptor: bytes) -> str:
    """The identifier of a node; of a pseudonode with what tells it apart behind a dash (RFC 9552 section 5.2.1.4)."""
    router = dict(tlvs_of(descriptor)).get(ROUTER_ID, b"")
    if len(router) in (6, 7):
        text = ".".join(router[at : at + 2].hex() for at in (0, 2, 4))
        return text if len(router) == 6 else f"{text}-{router[6]:02x}"
    if len(router) in (4, 8):
        text = str(IPv4Address(router[:4]))
        return text if len(router) == 4 else f"{text}-{router[4:].hex()}"
    raise ValueError("an identifier of a node of another length")


def _link(local: str, parts: dict[int, bytes], more: Sequence[tuple[int, bytes]]) -> LinkTold:
    if REMOTE_NODE not in parts:
        raise ValueError("a link without a remote node")
    addresses = tuple(IPv6Address(parts[kind]) for kind in (LOCAL_ADDRESS, REMOTE_ADDRESS) if kind in parts)
    metric = next((int.from_bytes(value) for kind, value in more if kind == METRIC), None)
    sids = tuple(_adjacency(value) for kind, value in more if kind == END_X)
    topology = int.from_bytes(parts.get(TOPOLOGY, b"")[:2]) & 0xFFF
    return LinkTold(local, router_of(parts[REMOTE_NODE]), (parts.get(LINK_IDS), addresses), addresses, topology, metric, sids)


def _adjacency(value: bytes) -> Sid:
    """The SID of an adjacency (RFC 9514 section 4.1)."""
    if len(value) < 22:
        raise ValueError("a SID of an adjacency is cut")
    return Sid(IPv6Address(value[6:22]), int.from_bytes(value[:2]), _lengths(dict(tlvs_of(value[22:])).get(STRUCTURE, b"")))


def _lengths(structure: bytes) -> tuple[int, int, int]:
    """The bits of block, node and function (RFC 9514 section 8)."""
    return (structure[0], structure[1], structure[2]) if len(structure) >= 3 else (0, 0, 0)


def _prefix(reach: bytes) -> IPv6Network:
    if not reach or reach[0] > 128:
        raise ValueError("a prefix of another length")
    return IPv6Network((reach[1:17].ljust(16, b"\0"), reach[0]), strict=False)
