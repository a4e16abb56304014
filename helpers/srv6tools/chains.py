"""Headers of IPv6 packets as bytes: where they stand, and packets that are changed or made smaller in one of them."""

from __future__ import annotations

from collections.abc import Collection, Iterator
from dataclasses import dataclass

from .packet_parts import DESTINATION, FRAGMENT, HOP_BY_HOP, ICMPV6, IPV4, IPV6, NOTHING, ROUTING
from .tagging import MARK, MARK_SIZE, checksum

EXTENSIONS = (HOP_BY_HOP, ROUTING, FRAGMENT, DESTINATION)
HEAD = 40
HOP_LIMIT_AT = 7
PADDING = bytes([1, 4, 0, 0, 0, 0])
SRH, HMAC = 4, 5
IGNORED = ("tlv", "hmac", "option", "fragment", "late hop-by-hop")
"""What a device may ignore, by the words of a profile."""


@dataclass(frozen=True, slots=True)
class Extension:
    """An extension header: its kind, where it stands, where it ends, and the field that names it."""

    kind: int
    start: int
    end: int
    named_at: int


@dataclass(frozen=True, slots=True)
class Chain:
    """The extension headers of a packet, the kind of what is behind them, where that stands, and the field that names it."""

    headers: tuple[Extension, ...]
    kind: int
    at: int
    named_at: int


def chain_of(content: bytes, at: int = 0) -> Chain:
    """The headers of the IPv6 packet at a place, up to the upper layer or a header that is cut."""
    headers, place, named = [], at + HEAD, at + 6
    kind = content[named] if len(content) > named else NOTHING
    while kind in EXTENSIONS and place + 8 <= len(content):
        end = place + 8 + (0 if kind == FRAGMENT else 8 * content[place + 1])
        if end > len(content):
            break
        headers.append(Extension(kind, place, end, named))
        kind, named, place = content[place], place, end
    return Chain(tuple(headers), kind, place, named)


def insides_of(content: bytes) -> Iterator[tuple[int, int]]:
    """The place and the family of each packet that others hold or ICMPv6 errors quote, the outermost first."""
    at = 0
    while len(content) >= at + 1:
        if content[at] >> 4 == 4:
            yield at, 4
            return
        if content[at] >> 4 != 6 or len(content) < at + HEAD:
            return
        yield at, 6
        chain = chain_of(content, at)
        if chain.kind in (IPV6, IPV4):
            at = chain.at
        elif chain.kind == ICMPV6 and chain.at < len(content) and content[chain.at] < 128:
            at = chain.at + 8
        else:
            return


def tags_of(content: bytes) -> Iterator[int]:
    """The numbers that a packet may have as its tag: that of the mark, then those of its headers."""
    at = content.rfind(MARK)
    if at >= 0 and at + MARK_SIZE <= len(content):
        yield int.from_bytes(content[at + len(MARK) : at + MARK_SIZE])
    for place, family in insides_of(content):
        number = int.from_bytes(content[place : place + 4]) & 0xFFFFF
        yield number if family == 6 else int.from_bytes(content[place + 4 : place + 6])
    if len(content) >= 4 and content[0] >> 4 != 4:
        yield int.from_bytes(content[:4]) & 0xFFFFF


def retagged(content: bytes, old: int, new: int) -> bytes:
    """A packet with another tag in each place that has it."""
    changed = bytearray(content.replace(MARK + old.to_bytes(4), MARK + new.to_bytes(4)))
    places = list(insides_of(content)) or [(0, 6)]
    for place, family in places:
        if family == 6 and len(changed) >= place + 4:
            front = int.from_bytes(changed[place : place + 4])
            if front & 0xFFFFF == old or place == 0:
                changed[place : place + 4] = (front & ~0xFFFFF | new).to_bytes(4)
        if family == 4 and len(changed) >= place + 20:
            was_good = checksum(bytes(changed[place : place + 20])) == 0
            changed[place + 4 : place + 6] = (new & 0xFFFF).to_bytes(2)
            if was_good:
                changed[place + 10 : place + 12] = bytes(2)
                changed[place + 10 : place + 12] = checksum(bytes(changed[place : place + 20])).to_bytes(2)
    return bytes(changed)


def neutral(content: bytes, what: Collection[str]) -> bytes:
    """A packet, and those inside it, in which what is to be ignored is padding, and all else as it was."""
    changed = bytearray(content)
    for at, family in insides_of(content):
        if family == 6:
            _make_neutral(changed, chain_of(content, at), at, what)
    return bytes(changed)


def _make_neutral(changed: bytearray, chain: Chain, at: int, what: Collection[str]) -> None:
    for header in chain.headers:
        if header.kind == HOP_BY_HOP and header.named_at != at + 6 and "late hop-by-hop" in what:
            changed[header.named_at] = DESTINATION
        if header.kind == FRAGMENT and "fragment" in what:
            changed[header.named_at] = DESTINATION
            changed[header.start + 1 : header.end] = bytes([0]) + PADDING
        if header.kind == DESTINATION and "option" in what:
            _skip_options(changed, header.start + 2, header.end)
        if header.kind == ROUTING and changed[header.start + 2] == SRH:
            _pad_items(changed, header, what)


def _skip_options(changed: bytearray, at: int, end: int) -> None:
    """Gives options types that are skipped."""
    while at < end:
        if changed[at] == 0:
            at += 1
            continue
        size = changed[at + 1] if at + 1 < end else 0
        if at + 2 + size > end:
            changed[at:end] = bytes(end - at)
        elif changed[at] != 1:
            changed[at] &= 0x3F
        at += 2 + size


def _pad_items(changed: bytearray, header: Extension, what: Collection[str]) -> None:
    """Makes the items behind a segment list padding, where they are to be ignored."""
    at = header.start + 8 + 16 * (changed[header.start + 4] + 1)
    while at < header.end:
        kind, size = changed[at], changed[at + 1] if at + 1 < header.end else 0
        if kind == 0:
            at += 1
            continue
        beyond = at + 2 > header.end or at + 2 + size > header.end
        if kind == HMAC and "hmac" in what or beyond and kind != HMAC and "tlv" in what:
            changed[at : min(header.end, at + 2 + size)] = bytes(min(header.end, at + 2 + size) - at)
        at += 2 + size


def with_hop_limits_of(content: bytes, other: bytes, places: Collection[int]) -> bytes:
    """A packet with the hop limits, at some places, of another one."""
    changed = bytearray(content)
    for at in places:
        if at + HOP_LIMIT_AT < min(len(changed), len(other)):
            changed[at + HOP_LIMIT_AT] = other[at + HOP_LIMIT_AT]
    return bytes(changed)


def without_spent_srh(content: bytes) -> bytes | None:
    """A packet without its last segment routing header without segments left; None where it has none."""
    for header in reversed(chain_of(content).headers):
        if header.kind == ROUTING and content[header.start + 2] == SRH and content[header.start + 3] == 0:
            return _without(content, header.start, header.end, {header.named_at: content[header.start]})
    return None


def smaller_than(content: bytes) -> Iterator[bytes]:
    """Packets that are smaller than a packet by one of its parts."""
    if content[:1] == b"" or content[0] >> 4 != 6 or len(content) < HEAD:
        return
    chain = chain_of(content)
    excess = len(content) - HEAD - int.from_bytes(content[4:6])
    if excess > 0:
        yield content[:-excess]
    for header in chain.headers:
        yield _without(content, header.start, header.end, {header.named_at: content[header.start]})
    for header in chain.headers:
        if header.kind == ROUTING:
            yield from _smaller_routing(content, header)
    yield from _smaller_rest(content, chain)


def _without(content: bytes, start: int, end: int, fields: dict[int, int]) -> bytes:
    """A packet without some bytes, with the payload length that follows, and with fields changed before."""
    changed = bytearray(content)
    for at, value in fields.items():
        changed[at] = value
    del changed[start:end]
    length = int.from_bytes(content[4:6]) - (end - start)
    changed[4:6] = max(0, length).to_bytes(2)
    return bytes(changed)


def _smaller_routing(content: bytes, header: Extension) -> Iterator[bytes]:
    """Without an entry of a segment list, the first ones last, or without the items behind it."""
    size, left, last = content[header.start + 1], content[header.start + 3], content[header.start + 4]
    list_end = header.start + 8 + 16 * (last + 1)
    if header.start + 8 < list_end < header.end:
        units = (header.end - list_end) // 8
        yield _without(content, list_end, header.end, {header.start + 1: size - units})
    for entry in range(min(last, size // 2 - 1), -1, -1):
        at = header.start + 8 + 16 * entry
        if at + 16 <= header.end and last:
            fields = {header.start + 1: size - 2, header.start + 4: last - 1, header.start + 3: max(0, left - 1)}
            yield _without(content, at, at + 16, fields)
            yield _without(content, at, at + 16, fields | {header.start + 3: left})


def _smaller_rest(content: bytes, chain: Chain) -> Iterator[bytes]:
    """With less behind the chain: no upper layer, less of it, or less in the packet inside."""
    rest = len(content) - chain.at
    if rest and chain.kind not in (IPV6, IPV4):
        yield _without(content, chain.at, len(content), {chain.named_at: NOTHING} if chain.kind not in EXTENSIONS else {})
        yield _without(content, chain.at, len(content), {})
    if chain.kind == IPV6 and rest > HEAD and content[chain.at] >> 4 == 6:
        inner = content[chain.at :]
        for less in (*smaller_than(inner), inner[:4] + bytes([0, 0, NOTHING]) + inner[7:HEAD]):
            if len(less) < len(inner):
                cut = _without(content, chain.at, chain.at + len(inner) - len(less), {})
                yield cut[: chain.at] + less
    if chain.kind == IPV4 and rest > 20:
        inner = bytearray(content[chain.at : chain.at + 20])
        inner[2:4], inner[10:12] = (20).to_bytes(2), bytes(2)
        inner[10:12] = checksum(bytes(inner)).to_bytes(2)
        yield _without(content, chain.at, chain.at + rest - 20, {})[: chain.at] + bytes(inner)
    for part in (rest // 2 // 8 * 8, 8):
        if 0 < part < rest and chain.kind not in (IPV6, IPV4):
            yield _without(content, chain.at, chain.at + part, {})
