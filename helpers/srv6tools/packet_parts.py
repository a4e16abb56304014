"""Packets laid out field by field, also those that no sender should send."""

import struct
from collections.abc import Sequence
from ipaddress import IPv4Address, IPv6Address

HOP_BY_HOP, IPV4, UDP, IPV6, ROUTING, FRAGMENT, ICMPV6, NOTHING, DESTINATION = (
    0, 4, 17, 41, 43, 44, 58, 59, 60,
)  # fmt: skip
SOURCE = "2001:db8:1::1"


def ip6(
    destination: str, kind: int = NOTHING, payload: bytes = b"", hop_limit: int = 64,
    source: str = SOURCE, length: int | None = None, version: int = 6, flow: int = 0,
) -> bytes:  # fmt: skip
    """An IPv6 packet; `length` is the payload length that it claims."""
    size = len(payload) if length is None else length
    head = struct.pack(">IHBB", version << 28 | flow, size, kind, hop_limit)
    return head + IPv6Address(source).packed + IPv6Address(destination).packed + payload


def srh(
    left: int, segments: Sequence[str], kind: int = NOTHING, last: int | None = None,
    tlvs: bytes = b"", length: int | None = None, routing_type: int = 4, flags: int = 0, tag: int = 0,
) -> bytes:  # fmt: skip
    """A segment routing header; its last segment stands first."""
    body = b"".join(IPv6Address(segment).packed for segment in segments) + tlvs
    size = len(body) // 8 if length is None else length
    last = len(segments) - 1 if last is None else last
    return struct.pack(">BBBBBBH", kind, size, routing_type, left, last, flags, tag) + body


def options(kind: int, content: str) -> bytes:
    """A header of options of 8 bytes, from 6 bytes in hexadecimal."""
    return bytes([kind, 0]) + bytes.fromhex(content)


def fragment(kind: int, offset: int = 0, more: bool = True) -> bytes:
    """A Fragment header; `offset` counts in 8 bytes."""
    return struct.pack(">BBHI", kind, 0, offset << 3 | more, 1)


def udp() -> bytes:
    """A UDP header without a payload or checksum."""
    return bytes.fromhex("0001000200080000")


def icmp6(kind: int, code: int = 0, content: bytes = b"") -> bytes:
    """An ICMPv6 message without a checksum."""
    return bytes([kind, code, 0, 0]) + bytes(4) + content


def ip4(
    destination: str, kind: int = UDP, payload: bytes = b"", ttl: int = 64,
    total: int | None = None, good_checksum: bool = True, version: int = 4,
    identification: int = 0,
) -> bytes:  # fmt: skip
    """An IPv4 packet without options."""
    size = 20 + len(payload) if total is None else total
    addresses = IPv4Address("198.51.100.1").packed + IPv4Address(destination).packed
    front = version << 4 | 5, 0, size, identification, 0, ttl, kind, 0
    head = struct.pack(">BBHHHBBH", *front) + addresses
    total_sum = sum(struct.unpack(">10H", head))
    while total_sum > 0xFFFF:
        total_sum = (total_sum & 0xFFFF) + (total_sum >> 16)
    checksum = total_sum ^ 0xFFFF if good_checksum else (total_sum ^ 0xFFFF) ^ 1
    return head[:10] + struct.pack(">H", checksum) + head[12:] + payload
