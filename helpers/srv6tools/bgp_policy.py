"""Candidate paths of policies in BGP (RFC 9830): what the bytes of an update say of one."""

from __future__ import annotations

from collections.abc import Iterator, Sequence
from dataclasses import dataclass
from ipaddress import IPv6Address

TUNNEL_ATTRIBUTE = 23  # RFC 9012 section 2
SR_POLICY_TUNNEL = 15  # RFC 9830 section 2.2
PREFERENCE, PATH_NAME, SEGMENT_LIST = 12, 129, 128  # RFC 9830 sections 2.4.1, 2.4.7, 2.4.4
WEIGHT, SEGMENT_TYPE_B = 9, 13  # RFC 9830 section 2.4.4
EXTENDED = 0x10  # of an attribute's flags: two bytes of length (RFC 4271 section 4.3)


@dataclass(frozen=True, slots=True)
class CandidatePath:
    """A candidate path with one segment list of SRv6 SIDs."""

    distinguisher: int
    color: int
    endpoint: IPv6Address
    segments: tuple[IPv6Address, ...]
    preference: int = 100  # RFC 9256 section 2.7
    name: str = ""

    @property
    def key(self) -> tuple[int, int, IPv6Address]:
        """What tells it apart from others (RFC 9830 section 2.1)."""
        return self.distinguisher, self.color, self.endpoint

    def lines(self) -> Iterator[str]:
        """It as lines."""
        name = f" name {self.name}" if self.name else ""
        yield f"policy {self.color} {self.endpoint} distinguisher {self.distinguisher} preference {self.preference}{name}"
        for segment in self.segments:
            yield f"segment {segment}"


def path_of(nlri: bytes, attributes: Sequence[bytes]) -> CandidatePath:
    """The candidate path that an update has; a ValueError where it has another form."""
    if len(nlri) != 25 or nlri[0] != 192:  # RFC 9830 section 2.1: the bits behind the length
        raise ValueError("no policy of an IPv6 endpoint")
    numbers = int.from_bytes(nlri[1:5]), int.from_bytes(nlri[5:9]), IPv6Address(nlri[9:25])
    for attribute in attributes:
        head = 4 if attribute[0] & EXTENDED else 3
        if attribute[1] == TUNNEL_ATTRIBUTE:
            return CandidatePath(*numbers, **_tunnel(attribute[head:]))
    raise ValueError("no tunnel encapsulation attribute")


def _tunnel(content: bytes) -> dict:
    """What the sub-TLVs of the attribute say."""
    if int.from_bytes(content[:2]) != SR_POLICY_TUNNEL or int.from_bytes(content[2:4]) != len(content) - 4:
        raise ValueError("no tunnel of a policy")
    found: dict = {}
    for kind, value in _sub_tlvs(content[4:]):
        if kind == PREFERENCE:
            found["preference"] = int.from_bytes(value[2:6])
        elif kind == PATH_NAME:
            found["name"] = value[1:].decode()
        elif kind == SEGMENT_LIST and "segments" not in found:
            found["segments"] = tuple(IPv6Address(one[2:18]) for kind, one in _sub_tlvs(value[1:]) if kind == SEGMENT_TYPE_B)
        elif kind == SEGMENT_LIST:
            raise ValueError("two segment lists")
    if "segments" not in found:
        raise ValueError("no segment list")
    return found


def _sub_tlvs(content: bytes) -> Iterator[tuple[int, bytes]]:
    """The sub-TLVs; those from type 128 on have two bytes of length (RFC 9012 section 2)."""
    at = 0
    while at < len(content):
        head = 3 if content[at] >= 128 else 2
        size = int.from_bytes(content[at + 1 : at + head])
        if at + head + size > len(content):
            raise ValueError("a sub-TLV is cut")
        yield content[at], content[at + head : at + head + size]
        at += head + size
