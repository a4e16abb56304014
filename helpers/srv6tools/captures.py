"""Captures that `srv6` reads and writes: classic ones, and one bare IPv6 packet."""

import io
import struct
from collections.abc import Iterable, Iterator, Sequence
from dataclasses import dataclass
from typing import BinaryIO

from .command import Fault
from .files import INPUT_LIMIT

MICROSECONDS, NANOSECONDS = 0xA1B2C3D4, 0xA1B23C4D
ETHERNET, RAW, IPV6 = 1, 101, 229
PCAPNG = b"\x0a\x0d\x0d\x0a"
GZIP = b"\x1f\x8b"
SNAPLEN = 262_144
FRAME_LIMIT = 65_536
PACKET_LIMIT = 65_575  # bytes of an IPv6 packet: its header and the longest payload
HEAD_SIZE, FRAME_HEAD_SIZE = 24, 16  # bytes


@dataclass(frozen=True, slots=True)
class Head:
    """The head of a classic capture."""

    order: str  # "<" or ">", as for struct
    magic: int
    version: tuple[int, int]
    link_type: int


@dataclass(frozen=True, slots=True)
class Frame:
    """A frame of a classic capture: its number from 1, its time, its length on the wire, and its
    bytes.
    """

    number: int
    seconds: int
    fraction: int
    length: int
    content: bytes


def head_of(content: bytes, name: str) -> Head:
    """The head of a classic capture."""
    if content[:4] == PCAPNG:
        raise Fault(f"{name}: a capture of the format pcapng, and a classic one is wanted")
    if content[:2] == GZIP:
        raise Fault(f"{name}: compressed by gzip, and a plain capture is wanted")
    for order in "<>":
        if len(content) >= 4:
            magic = struct.unpack_from(order + "I", content)[0]
            if magic in (MICROSECONDS, NANOSECONDS):
                break
    else:
        raise Fault(f"{name}: no classic capture")
    if len(content) < 24:
        raise Fault(f"{name}: the head of the capture is cut")
    major, minor, _, _, _, link_type = struct.unpack_from(order + "HHIIII", content, 4)
    return Head(order, magic, (major, minor), link_type & 0xFFFF)


def frames_of(content: bytes, head: Head, name: str) -> Iterator[Frame]:
    """The frames behind the head, in order."""
    at, number = 24, 1
    while at < len(content):
        if at + 16 > len(content):
            raise Fault(f"{name}: frame {number} is cut")
        seconds, fraction, size, length = struct.unpack_from(head.order + "IIII", content, at)
        at += 16
        if at + size > len(content):
            raise Fault(f"{name}: frame {number} is cut")
        yield Frame(number, seconds, fraction, length, content[at : at + size])
        at += size
        number += 1


def raw_capture(packets: Iterable[tuple[int, int, bytes]]) -> Iterator[bytes]:
    """A capture of raw IP packets, in pieces: of each its seconds, its microseconds and its
    bytes.
    """
    yield struct.pack("<IHHIIII", MICROSECONDS, 2, 4, 0, 0, SNAPLEN, RAW)
    for seconds, microseconds, content in packets:
        yield struct.pack("<IIII", seconds, microseconds, len(content), len(content)) + content


def in_captures(packets: Iterable[bytes]) -> Iterator[tuple[list[bytes], bytes]]:
    """Packets in as many captures as the program's limits need: those of each, and the capture."""
    some: list[bytes] = []
    size = HEAD_SIZE
    for packet in packets:
        size += FRAME_HEAD_SIZE + len(packet)
        if some and (size > INPUT_LIMIT or len(some) == FRAME_LIMIT):
            yield some, _one_capture(some)
            some, size = [], HEAD_SIZE + FRAME_HEAD_SIZE + len(packet)
        some.append(packet)
    if some:
        yield some, _one_capture(some)


def _one_capture(packets: Iterable[bytes]) -> bytes:
    return b"".join(raw_capture((0, 0, packet) for packet in packets))


@dataclass(frozen=True, slots=True)
class Timed:
    """A frame of raw IP that is written with its time, in nanoseconds since 1970."""

    time: int
    length: int  # on the wire
    content: bytes

    @property
    def size(self) -> int:
        """The bytes that it takes in a capture."""
        return FRAME_HEAD_SIZE + len(self.content)


def timed_capture(frames: Sequence[Timed]) -> Iterator[bytes]:
    """A capture of raw IP packets, in pieces; its clock has microseconds where these are enough."""
    magic, unit = MICROSECONDS, 1000
    if any(frame.time % unit for frame in frames):
        magic, unit = NANOSECONDS, 1
    yield struct.pack("<IHHIIII", magic, 2, 4, 0, 0, SNAPLEN, RAW)
    for frame in frames:
        seconds, rest = divmod(max(0, frame.time), 10**9)
        numbers = seconds & 0xFFFFFFFF, rest // unit, len(frame.content), frame.length
        yield struct.pack("<IIII", *numbers) + frame.content


@dataclass(frozen=True, slots=True)
class Sent:
    """A frame of a capture that `srv6 run`, `walk` or `update` wrote."""

    frame: int  # its number, from 1
    packet: int  # the packet's number
    link: int  # the link's number, from 1; 0 of an ICMPv6 error
    content: bytes


def sent_in(content: bytes, name: str) -> Iterator[Sent]:
    """The frames of a capture that `srv6` wrote."""
    return sent_from(io.BytesIO(content), name)


def sent_from(stream: BinaryIO, name: str) -> Iterator[Sent]:
    """The frames of a capture that `srv6` wrote, as they are read."""
    if head_of(stream.read(HEAD_SIZE), name) != Head("<", MICROSECONDS, (2, 4), RAW):
        raise Fault(f"{name}: no capture that srv6 wrote")
    number = 1
    while start := stream.read(FRAME_HEAD_SIZE):
        is_whole = len(start) == FRAME_HEAD_SIZE
        packet, link, size, _ = struct.unpack("<IIII", start.ljust(FRAME_HEAD_SIZE, b"\0"))
        content = stream.read(size) if is_whole and size <= PACKET_LIMIT else b""
        if not is_whole or len(content) < size:
            raise Fault(f"{name}: frame {number} is cut, or no frame that srv6 wrote")
        yield Sent(number, packet, link, content)
        number += 1
