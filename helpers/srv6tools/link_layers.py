"""Where the IP packet stands in a frame, by the frame's link type."""

from __future__ import annotations

import enum
from collections.abc import Callable

from .capture_formats import Direction, TakenFrame

ETHERTYPES = {
    0x0806: "ARP",
    0x22F0: "audio and video transport",
    0x8035: "RARP",
    0x8809: "slow protocols",
    0x8847: "MPLS",
    0x8848: "MPLS",
    0x8863: "PPPoE discovery",
    0x8864: "PPPoE",
    0x888E: "EAPOL",
    0x88CC: "LLDP",
    0x88E5: "MACsec",
    0x88F7: "precision time protocol",
    0x893F: "802.1BR tag",
}
FAMILIES = {0x0800: 4, 0x86DD: 6}
TAGS = (0x8100, 0x88A8, 0x9100, 0x9200)
NETLINK = 824


class LinkType(enum.IntEnum):
    """The link types that are taken apart."""

    BSD_LOOPBACK = 0
    ETHERNET = 1
    PPP = 9
    RAW_12 = 12
    RAW_14 = 14
    PPP_HDLC = 50
    RAW = 101
    CISCO_HDLC = 104
    OPENBSD_LOOPBACK = 108
    COOKED = 113
    IPV4 = 228
    IPV6 = 229
    COOKED_2 = 276


OTHER_LINK_TYPES = {
    105: "802.11",
    119: "802.11 with Prism's header",
    127: "802.11 with radiotap's header",
    147: "of private use",
    187: "Bluetooth",
    189: "USB of Linux",
    195: "802.15.4",
    220: "USB of Linux",
    239: "netfilter's log",
    249: "USB of Windows",
    252: "Wireshark's upper layers",
    253: "netlink",
}


class NotIp(Exception):
    """The frame has no IP packet, and why."""


def packet_in(frame: TakenFrame) -> bytes:
    """The bytes of a frame behind its link layer, an IPv6 or IPv4 packet by its first half byte."""
    try:
        taker = _TAKERS[LinkType(frame.link_type)]
    except ValueError:
        raise NotIp(_link_type_text(frame.link_type)) from None
    try:
        at, family = taker(frame.captured)
    except IndexError:
        raise NotIp("cut within the link layer") from None
    packet = frame.captured[at:]
    if not packet:
        raise NotIp("cut within the link layer" if frame.captured else "no bytes")
    version = packet[0] >> 4
    if version not in (4, 6):
        raise NotIp(f"version {version}, and not 4 or 6")
    if family not in (None, version):
        raise NotIp(f"a packet of version {version} that its link layer calls IPv{family}")
    return packet


def interface_of(frame: TakenFrame) -> str | None:
    """The name of the interface of a frame, or of cooked frames of version 2 its number."""
    if frame.link_type == LinkType.COOKED_2 and len(frame.captured) >= 8:
        return str(int.from_bytes(frame.captured[4:8], "big"))
    return frame.interface


def direction_of(frame: TakenFrame) -> Direction | None:
    """Which way a frame went, as far as the capture tells."""
    places = {LinkType.COOKED: 1, LinkType.COOKED_2: 10}
    at = places.get(frame.link_type)
    if at is None or len(frame.captured) <= at:
        return frame.direction
    return Direction.OUT if frame.captured[at] == 4 else Direction.IN


def _link_type_text(link_type: int) -> str:
    name = OTHER_LINK_TYPES.get(link_type)
    return f"link type {link_type}" + (f" ({name})" if name else "")


def _number(frame: bytes, at: int, size: int = 2) -> int:
    if len(frame) < at + size:
        raise IndexError(at)
    return int.from_bytes(frame[at : at + size], "big")


def _by_ethertype(frame: bytes, at: int) -> tuple[int, int]:
    """The packet's place and family, of a frame that has an EtherType at a place."""
    kind = _number(frame, at)
    while kind in TAGS:
        at += 4
        kind = _number(frame, at)
    if kind in FAMILIES:
        return at + 2, FAMILIES[kind]
    if kind < 0x600:
        raise NotIp("802.3 frame without an EtherType")
    name = ETHERTYPES.get(kind)
    raise NotIp(f"EtherType {kind:04x}" + (f" ({name})" if name else ""))


def _ethernet(frame: bytes) -> tuple[int, int]:
    return _by_ethertype(frame, 12)


def _cooked(frame: bytes) -> tuple[int, int]:
    if _number(frame, 2) == NETLINK:
        raise NotIp("a message of netlink")
    return _by_ethertype(frame, 14)


def _cooked_2(frame: bytes) -> tuple[int, int]:
    """The EtherType stands in front, and behind the header of 20 bytes tags and then another."""
    if _number(frame, 8) == NETLINK:
        raise NotIp("a message of netlink")
    kind = _number(frame, 0)
    if kind in TAGS:
        return _by_ethertype(frame, 22)
    _by_ethertype(frame, 0)
    return 20, FAMILIES[kind]


def _loopback(order: str) -> Callable[[bytes], tuple[int, int]]:
    def take(frame: bytes) -> tuple[int, int]:
        _number(frame, 0, 4)
        family = int.from_bytes(frame[:4], "little")
        if order == "big" or family > 0xFFFF:
            family = int.from_bytes(frame[:4], "big")
        if family == 2:
            return 4, 4
        if family in (10, 23, 24, 28, 30):  # what AF_INET6 is on the systems that write these
            return 4, 6
        raise NotIp(f"address family {family}")

    return take


def _ppp(frame: bytes) -> tuple[int, int]:
    at = 2 if frame[:2] == b"\xff\x03" else 0
    protocol = _number(frame, at, 1)
    at += 1
    if not protocol & 1:
        protocol = protocol << 8 | _number(frame, at, 1)
        at += 1
    if protocol not in (0x21, 0x57):
        raise NotIp(f"PPP protocol {protocol:04x}")
    return at, 4 if protocol == 0x21 else 6


def _raw(frame: bytes) -> tuple[int, None]:
    return 0, None


_TAKERS: dict[LinkType, Callable[[bytes], tuple[int, int | None]]] = {
    LinkType.BSD_LOOPBACK: _loopback("little"),
    LinkType.ETHERNET: _ethernet,
    LinkType.PPP: _ppp,
    LinkType.RAW_12: _raw,
    LinkType.RAW_14: _raw,
    LinkType.PPP_HDLC: _ppp,
    LinkType.RAW: _raw,
    LinkType.CISCO_HDLC: lambda frame: _by_ethertype(frame, 2),
    LinkType.OPENBSD_LOOPBACK: _loopback("big"),
    LinkType.COOKED: _cooked,
    LinkType.IPV4: lambda frame: (0, 4),
    LinkType.IPV6: lambda frame: (0, 6),
    LinkType.COOKED_2: _cooked_2,
}
