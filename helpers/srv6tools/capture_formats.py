"""Frames of the captures that other tools write: classic captures of every link type, and pcapng.

`captures` reads and writes the captures that `srv6` takes; this module reads what has to be
converted first. A stream is read once, front to back, and never more of it than a block at a time.
"""

from __future__ import annotations

import enum
import gzip
import struct
import zlib
from collections.abc import Iterator
from dataclasses import dataclass, field
from typing import BinaryIO

BLOCK_LIMIT = 16 * 2**20
"""A frame or a block that claims more bytes than this is a fault of the file."""

CLASSIC_MAGICS = {
    0xA1B2C3D4: (1000, 16),  # microseconds
    0xA1B23C4D: (1, 16),  # nanoseconds
    0xA1B2CD34: (1000, 24),  # microseconds, with eight further bytes in front of each frame
}
"""Of each magic the nanoseconds of a unit, and the bytes in front of a frame."""

SECTION, INTERFACE, PACKET, SIMPLE_PACKET, ENHANCED_PACKET = 0x0A0D0D0A, 1, 2, 3, 6

OTHER_FILES = {
    b"\x28\xb5\x2f\xfd": "it is compressed by zstd: decompress it first (zstd -d)",
    b"\x04\x22\x4d\x18": "it is compressed by lz4: decompress it first (lz4 -d)",
    b"\xfd7zX": "it is compressed by xz: decompress it first (xz -d)",
    b"BZh": "it is compressed by bzip2: decompress it first (bzip2 -d)",
    b"PK\x03\x04": "it is a zip archive: take the capture out of it first (unzip)",
    b"snoop": "it is of the format snoop: convert it first (editcap -F pcap IN OUT)",
    b"GMBU": "it is of Microsoft's format: convert it first (editcap -F pcap IN OUT)",
}


class NoCapture(Exception):
    """The file isn't a capture that is read here."""


class CutCapture(Exception):
    """The capture ends within a frame, or isn't one from a place on."""


class Direction(enum.Enum):
    """Which way a frame went at the interface where it was captured."""

    IN = "in"
    OUT = "out"


@dataclass(frozen=True)
class TakenFrame:
    """A frame as it was captured, with its link layer."""

    number: int
    link_type: int
    captured: bytes
    original: int
    time: int = 0
    """Nanoseconds since 1970."""
    interface: str | None = None
    direction: Direction | None = None


@dataclass
class Reader:
    """A stream of which a whole number of bytes is wanted at a time."""

    stream: BinaryIO
    front: bytes = b""

    def some(self, wanted: int) -> bytes:
        """The next bytes, fewer than are wanted where the stream ends."""
        taken, self.front = self.front[:wanted], self.front[wanted:]
        while len(taken) < wanted:
            try:
                more = self.stream.read(wanted - len(taken))
            except (EOFError, zlib.error, gzip.BadGzipFile) as fault:
                raise CutCapture(f"the compressed file is damaged or cut: {fault}") from None
            if not more:
                break
            taken += more
        return taken

    def exactly(self, wanted: int, what: str) -> bytes:
        """The next bytes, all that are wanted."""
        if wanted > BLOCK_LIMIT:
            raise CutCapture(f"{what} claims {wanted} bytes")
        taken = self.some(wanted)
        if len(taken) < wanted:
            raise CutCapture(f"the capture ends within {what}")
        return taken


def frames_in(stream: BinaryIO) -> Iterator[TakenFrame]:
    """The frames of a capture, numbered from 1; of one bare IPv6 packet the one frame."""
    reader = Reader(stream)
    reader.front = head = reader.some(4)
    if head[:2] == b"\x1f\x8b":
        reader = Reader(gzip.GzipFile(fileobj=_Joined(reader)))
        try:
            reader.front = head = reader.some(4)
        except CutCapture as fault:
            raise NoCapture(str(fault)) from None
    if head[:1] and head[0] >> 4 == 6:
        yield _bare_packet(reader)
        return
    if len(head) < 4:
        raise NoCapture("it has fewer than 4 bytes" if head else "it is empty")
    big, little = (int.from_bytes(head, order) for order in ("big", "little"))
    if big == SECTION:
        yield from _Sections(reader).frames()
    elif big in CLASSIC_MAGICS or little in CLASSIC_MAGICS:
        order = ">" if big in CLASSIC_MAGICS else "<"
        yield from _classic_frames(reader, order)
    else:
        raise NoCapture(_other_file(head))


class _Joined:
    """A reader as a file object, for the decompression."""

    def __init__(self, reader: Reader) -> None:
        self.reader = reader

    def read(self, size: int = -1) -> bytes:
        return self.reader.some(size if size >= 0 else BLOCK_LIMIT)


def _other_file(head: bytes) -> str:
    for magic, what in OTHER_FILES.items():
        if head.startswith(magic[:4]):
            return what
    return f"it begins with {head.hex(' ')}, as no pcap, pcapng or IPv6 packet does"


def _bare_packet(reader: Reader) -> TakenFrame:
    """The frame of an input that is one IPv6 packet, of link type IPv6."""
    packet = reader.some(BLOCK_LIMIT)
    return TakenFrame(1, 229, packet, len(packet))


def _classic_frames(reader: Reader, order: str) -> Iterator[TakenFrame]:
    head = reader.some(24)
    if len(head) < 24:
        raise NoCapture("it ends within the head of a classic capture")
    magic, major, _, _, _, _, network = struct.unpack(order + "IHHiIII", head)
    unit, front = CLASSIC_MAGICS[magic]
    if major != 2:
        raise NoCapture(f"it is a classic capture of version {major}, and not 2")
    number = 0
    while start := reader.some(front):
        number += 1
        if len(start) < front:
            raise CutCapture(f"the capture ends within frame {number}")
        seconds, fraction, captured, original = struct.unpack_from(order + "IIII", start)
        yield TakenFrame(
            number,
            network & 0xFFFF,
            reader.exactly(captured, f"frame {number}"),
            original,
            seconds * 10**9 + fraction * unit,
        )


@dataclass
class _Interface:
    """An interface of a section of a pcapng file."""

    link_type: int
    snaplen: int
    name: str
    ticks: int = 10**6
    """Units of its clock in a second."""
    offset: int = 0

    def time(self, high: int, low: int) -> int:
        return self.offset * 10**9 + ((high << 32) | low) * 10**9 // self.ticks


@dataclass
class _Sections:
    """The sections of a pcapng file, read one block after the other."""

    reader: Reader
    order: str = "<"
    interfaces: list[_Interface] = field(default_factory=list)
    number: int = 0

    def frames(self) -> Iterator[TakenFrame]:
        blocks = 0
        while start := self.reader.some(8):
            blocks += 1
            what = f"block {blocks}"
            if len(start) < 8:
                raise CutCapture(f"the capture ends within {what}")
            kind, body = self._block(start, what)
            try:
                frame = self._frame(kind, body)
            except struct.error:
                raise CutCapture(f"{what} is shorter than its kind allows") from None
            except IndexError:
                raise CutCapture(f"{what} is of an interface that there isn't") from None
            if frame:
                yield frame

    def _block(self, start: bytes, what: str) -> tuple[int, bytes]:
        """The kind of a block, and what stands between its lengths."""
        mark = b""
        if int.from_bytes(start[:4], "big") == SECTION:
            mark = self.reader.exactly(4, what)
            if mark not in (b"\x1a\x2b\x3c\x4d", b"\x4d\x3c\x2b\x1a"):
                raise CutCapture(f"{what} begins a section without a mark of its byte order")
            self.order = ">" if mark[0] == 0x1A else "<"
        kind, length = struct.unpack(self.order + "II", start)
        if length < 12 + len(mark) or length % 4:
            raise CutCapture(f"{what} claims {length} bytes")
        body = mark + self.reader.exactly(length - 8 - len(mark), what)
        return kind, body[:-4]

    def _frame(self, kind: int, body: bytes) -> TakenFrame | None:
        """The frame of a block that has one; other blocks are taken note of, or passed over."""
        if kind == SECTION:
            self.interfaces = []
        elif kind == INTERFACE:
            self.interfaces.append(self._interface(body))
        elif kind == ENHANCED_PACKET:
            number, high, low, captured, original = self._numbers("IIIII", body)
            return self._packet(number, (high, low), (captured, original), body[20:])
        elif kind == PACKET:
            number, _, high, low, captured, original = self._numbers("HHIIII", body)
            return self._packet(number, (high, low), (captured, original), body[20:])
        elif kind == SIMPLE_PACKET:
            (original,) = self._numbers("I", body)
            snaplen = self.interfaces[0].snaplen or original
            captured = min(original, snaplen, len(body) - 4)
            return self._packet(0, (0, 0), (captured, original), body[4:])
        return None

    def _packet(
        self, number: int, clock: tuple[int, int], lengths: tuple[int, int], body: bytes
    ) -> TakenFrame:
        self.number += 1
        interface = self.interfaces[number]
        captured, original = lengths
        if captured > len(body):
            raise CutCapture(f"frame {self.number} claims more bytes than its block has")
        flags = self._options(body[-(-captured // 4) * 4 :]).get(2, b"")
        way = int.from_bytes(flags, "big" if self.order == ">" else "little") & 3
        return TakenFrame(
            self.number,
            interface.link_type,
            body[:captured],
            original,
            interface.time(*clock),
            interface.name,
            {1: Direction.IN, 2: Direction.OUT}.get(way),
        )

    def _interface(self, body: bytes) -> _Interface:
        link_type, _, snaplen = self._numbers("HHI", body)
        options = self._options(body[8:])
        name = options.get(2, b"").split(b"\0")[0].decode("utf-8", "replace")
        interface = _Interface(link_type, snaplen, name or str(len(self.interfaces)))
        if resolution := options.get(9):
            exponent = resolution[0] & 0x7F
            interface.ticks = 2**exponent if resolution[0] & 0x80 else 10**exponent
        if len(options.get(14, b"")) == 8:
            (interface.offset,) = self._numbers("q", options[14])
        return interface

    def _options(self, body: bytes) -> dict[int, bytes]:
        """The options of a block, the last of each kind; what is cut ends them."""
        options = {}
        while len(body) >= 4:
            kind, length = self._numbers("HH", body)
            if kind == 0 or 4 + length > len(body):
                break
            options[kind] = body[4 : 4 + length]
            body = body[4 + -(-length // 4) * 4 :]
        return options

    def _numbers(self, shape: str, body: bytes) -> tuple[int, ...]:
        return struct.unpack_from(self.order + shape, body)
