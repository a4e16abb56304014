"""The fields of packets by name; where each header stands `srv6 show` says.

A packet inside another, also one that an ICMPv6 error quotes, is shown in the same way.
"""

from __future__ import annotations

from collections.abc import Callable, Iterator, Sequence
from dataclasses import dataclass, field
from ipaddress import IPv4Address, IPv6Address

from .captures import in_captures
from .command import Fault, Status
from .program import run_program
from .shown import Header, Shown, shown_in

DEPTH = 8
"""How many packets inside one another are looked into."""

TCP, UDP, ICMPV6, IPV6, IPV4, RESERVED = 6, 17, 58, 41, 4, 255
PROTOCOLS = {
    0: "hop-by-hop options", IPV4: "IPv4", TCP: "TCP", UDP: "UDP", IPV6: "IPv6",
    43: "routing header", 44: "fragment header", 50: "ESP", 51: "AH", ICMPV6: "ICMPv6",
    59: "nothing", 60: "destination options", 132: "SCTP", RESERVED: "of a later fragment",
}  # fmt: skip


@dataclass(frozen=True, slots=True)
class Field:
    """A field: its name, and its value in words; of plain bytes the bytes themselves. The fields of
    a packet's parts, one behind the other, are its bits from the first on.
    """

    name: str
    text: str
    content: bytes | None = None
    bits: int = field(default=0, compare=False)


@dataclass(slots=True)
class Part:
    """A header of a packet, an upper layer, or bytes that are none."""

    label: str
    fields: list[Field] = field(default_factory=list)


@dataclass(frozen=True, slots=True)
class _Row:
    """A field in a layout: its name, its bits, and how its value is written."""

    name: str
    bits: int
    text: Callable[[int], str] = str


def _protocol(number: int) -> str:
    name = PROTOCOLS.get(number)
    return f"{number} ({name})" if name else str(number)


def _ip6(number: int) -> str:
    return str(IPv6Address(number))


def _ip4(number: int) -> str:
    return str(IPv4Address(number))


def _hex(number: int) -> str:
    return f"{number:x} in hexadecimal"


_NEXT = _Row("next header", 8, _protocol)
_LENGTH = _Row("header length", 8)
_LAYOUTS: dict[str, tuple[_Row, ...]] = {
    "ip6": (
        _Row("version", 4), _Row("traffic class", 8), _Row("flow label", 20),
        _Row("payload length", 16), _NEXT, _Row("hop limit", 8),
        _Row("source", 128, _ip6), _Row("destination", 128, _ip6),
    ),
    "ip4": (
        _Row("version", 4), _Row("header length", 4), _Row("type of service", 8),
        _Row("total length", 16), _Row("identification", 16), _Row("flags", 3),
        _Row("fragment offset", 13), _Row("TTL", 8), _Row("protocol", 8, _protocol),
        _Row("checksum", 16, _hex), _Row("source", 32, _ip4), _Row("destination", 32, _ip4),
    ),
    "hop-by-hop": (_NEXT, _LENGTH),
    "destination": (_NEXT, _LENGTH),
    "routing": (_NEXT, _LENGTH, _Row("routing type", 8), _Row("Segments Left", 8)),
    "srh": (
        _NEXT, _LENGTH, _Row("routing type", 8), _Row("Segments Left", 8), _Row("Last Entry", 8),
        _Row("flags", 8, _hex), _Row("tag", 16),
    ),
    "fragment": (
        _NEXT, _Row("reserved", 8), _Row("fragment offset", 13), _Row("reserved bits", 2),
        _Row("more fragments", 1), _Row("identification", 32),
    ),
    "udp": (
        _Row("source port", 16), _Row("destination port", 16), _Row("length", 16),
        _Row("checksum", 16, _hex),
    ),
    "tcp": (
        _Row("source port", 16), _Row("destination port", 16), _Row("sequence number", 32),
        _Row("acknowledgement", 32), _Row("header length", 4), _Row("flags", 12, _hex),
        _Row("window", 16), _Row("checksum", 16, _hex), _Row("urgent pointer", 16),
    ),
    "icmp6": (_Row("type", 8), _Row("code", 8), _Row("checksum", 16, _hex)),
    "icmp6 error": (
        _Row("type", 8), _Row("code", 8), _Row("checksum", 16, _hex), _Row("pointer", 32),
    ),
}  # fmt: skip
_LABELS = {
    "ip6": "IPv6 header", "ip4": "IPv4 header", "hop-by-hop": "hop-by-hop options",
    "destination": "destination options", "routing": "routing header",
    "srh": "segment routing header", "fragment": "fragment header",
    "bad chain": "extension header that is cut", "truncated": "packet that is cut",
    "bad version": "packet of another version",
}  # fmt: skip
_OPTIONS = ("hop-by-hop", "destination")
_UPPERS = {UDP: "udp", TCP: "tcp", ICMPV6: "icmp6"}


def laid_out(kind: str, content: bytes) -> list[Field]:
    """The fields of a header's layout, as many as its bytes reach."""
    number, left, fields = int.from_bytes(content), len(content) * 8, []
    for row in _LAYOUTS[kind]:
        left -= row.bits
        if left < 0:
            break
        value = (number >> left) & ((1 << row.bits) - 1)
        fields.append(Field(row.name, row.text(value), bits=row.bits))
    return fields


def _size_of(kind: str) -> int:
    return sum(row.bits for row in _LAYOUTS[kind]) // 8


def dissected(packets: Sequence[bytes]) -> list[list[Part]]:
    """The parts of each packet, in order."""
    found: list[list[Part]] = [[] for _ in packets]
    level = [_Inner(place, "", packet) for place, packet in enumerate(packets)]
    for _ in range(DEPTH):
        level = [
            inner
            for one, shown in zip(level, shown_of([one.content for one in level]))
            for inner in _take(found[one.place], one, shown)
        ]
        if not level:
            break
    for one in level:
        found[one.place].append(_bytes_part(one.where + "bytes", one.content))
    return found


@dataclass(frozen=True, slots=True)
class _Inner:
    """A packet that is to be shown: the packet that it is a part of, and its labels' front."""

    place: int
    where: str
    content: bytes


def shown_of(packets: Sequence[bytes]) -> Iterator[Shown]:
    """What `srv6 show` says of packets."""
    for chunk, capture in in_captures(packets):
        answer = run_program(["show"], capture)
        if answer.status != Status.DONE:
            raise Fault(f"srv6 show ends with status {answer.status}: {answer.err.strip()}")
        shown = list(shown_in(answer.out.decode("latin-1").splitlines(), "srv6 show"))
        if len(shown) != len(chunk):
            raise Fault(f"srv6 show tells of {len(shown)} packets, and {len(chunk)} were given")
        yield from shown


def _take(parts: list[Part], one: _Inner, shown: Shown) -> Iterator[_Inner]:
    """Adds the parts of a packet; gives the packet inside it, where there is one."""
    end = whole = 0
    for header in shown.headers:
        start = header.at
        whole = max(whole, 40 + int(header.values.get("payload", 0)))
        if header.kind == "upper":
            end = start + (header.size or 0)
            yield from _take_upper(parts, one, int(header.values["type"]), one.content[start:end])
        elif header.kind == "ip4":
            start, end = _take_ip4(parts, one, header), int(header.values["total"])
            yield from _take_upper(parts, one, _carried(one, header), one.content[start:end])
        else:
            end = _take_header(parts, one, header)
    if shown.headers and shown.headers[-1].kind == "fragment":
        parts.append(_bytes_part(one.where + "fragment", one.content[end:whole]))
        end = whole
    if rest := one.content[end:]:
        label = "bytes behind the packet's end" if end else "bytes that are no packet"
        parts.append(_bytes_part(one.where + label, rest))


def _take_header(parts: list[Part], one: _Inner, header: Header) -> int:
    """Adds a header; gives where it ends."""
    label = one.where + _LABELS[header.kind]
    content = one.content
    if header.kind in ("truncated", "bad version"):
        kind = "ip4" if content[:1] and content[0] >> 4 == 4 else "ip6"
        size = min(len(content), _size_of(kind))
        parts.append(Part(label, laid_out(kind, content[:size])))
        return size
    if header.kind == "bad chain":
        parts.append(_bytes_part(label, content[header.at :]))
        return len(content)
    size = header.size or 0
    whole = content[header.at : header.at + size]
    part = Part(label, laid_out(header.kind, whole))
    rest = whole[_size_of(header.kind) :]
    if header.kind == "srh":
        part.fields += [
            Field(f"entry {at}", text, bits=128) for at, text in enumerate(header.entries)
        ]
        rest = rest[16 * len(header.entries) :]
        _add_bytes(part, "TLVs", rest)
    else:
        _add_bytes(part, "options" if header.kind in _OPTIONS else "data", rest)
    parts.append(part)
    return header.at + size


def _take_ip4(parts: list[Part], one: _Inner, header: Header) -> int:
    """Adds an IPv4 header; gives where it ends."""
    size = (one.content[0] & 15) * 4
    part = Part(one.where + _LABELS[header.kind], laid_out("ip4", one.content[:size]))
    _add_bytes(part, "options", one.content[_size_of("ip4") : size])
    parts.append(part)
    return size


def _carried(one: _Inner, header: Header) -> int:
    """The protocol that an IPv4 packet carries; a later fragment begins within one."""
    offset = int.from_bytes(one.content[6:8]) & 0x1FFF
    return RESERVED if offset else int(header.values["proto"])


def _take_upper(parts: list[Part], one: _Inner, kind: int, content: bytes) -> Iterator[_Inner]:
    """Adds an upper layer; gives the packet that it is or quotes."""
    if kind in (IPV6, IPV4) and content:
        yield _Inner(one.place, f"{one.where}inner ", content)
        return
    name = _UPPERS.get(kind)
    if name is None:
        parts.append(_bytes_part(f"{one.where}upper layer {_protocol(kind)}", content))
        return
    is_error = kind == ICMPV6 and content[:1] and content[0] < 128
    name = "icmp6 error" if is_error else name
    part = Part(f"{one.where}{_protocol_label(kind)} header", laid_out(name, content))
    parts.append(part)
    rest = content[_size_of(name) :]
    if is_error and rest:
        yield _Inner(one.place, f"{one.where}quoted ", rest)
    else:
        _add_bytes(part, "payload", rest)


def _protocol_label(kind: int) -> str:
    return PROTOCOLS[kind]


def _bytes_part(label: str, content: bytes) -> Part:
    part = Part(label)
    _add_bytes(part, "bytes", content)
    return part


def _add_bytes(part: Part, name: str, content: bytes) -> None:
    if content:
        part.fields.append(Field(name, f"{len(content)} bytes", content, 8 * len(content)))
