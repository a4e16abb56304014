"""Captures of the kinds that tools write, made by hand for tests: classic ones and pcapng."""

import struct
from ipaddress import IPv4Address, IPv6Address

MICROSECONDS, NANOSECONDS, MODIFIED = 0xA1B2C3D4, 0xA1B23C4D, 0xA1B2CD34
IP6 = bytes.fromhex("6000000000003b40") + IPv6Address("2001:db8:1::1").packed * 2
IP4 = (
    bytes.fromhex("450000140000000040110000")
    + IPv4Address("192.0.2.1").packed
    + IPv4Address("192.0.2.2").packed
)
MACS = bytes(6) + b"\x02" + bytes(5)
ARP = MACS + bytes.fromhex("0806 0001 0800 06 04 0001") + bytes(20)


def ethernet(kind: int, content: bytes, tags: tuple[int, ...] = ()) -> bytes:
    """A frame of Ethernet, with tags of these kinds in front of its EtherType."""
    front = b"".join(struct.pack(">HH", tag, 100) for tag in tags)
    return MACS + front + struct.pack(">H", kind) + content


def cooked(kind: int, content: bytes, way: int = 0, hardware: int = 1) -> bytes:
    """A frame of Linux cooked version 1."""
    return struct.pack(">HHH8sH", way, hardware, 6, bytes(8), kind) + content


def cooked_2(kind: int, content: bytes, interface: int = 2, way: int = 0) -> bytes:
    """A frame of Linux cooked version 2."""
    return struct.pack(">HHIHBB8s", kind, 0, interface, 1, way, 6, bytes(8)) + content


def classic(
    link_type: int, *frames: bytes, order: str = "<", magic: int = MICROSECONDS, cut: int = 0
) -> bytes:
    """A classic capture; each frame was `cut` bytes longer on the wire."""
    pieces = [struct.pack(order + "IHHiIII", magic, 2, 4, 0, 0, 65535, link_type)]
    for number, frame in enumerate(frames, 1):
        pieces.append(struct.pack(order + "IIII", number, 7, len(frame), len(frame) + cut))
        pieces.append((bytes(8) if magic == MODIFIED else b"") + frame)
    return b"".join(pieces)


class PcapNg:
    """Writes a pcapng file, block by block."""

    def __init__(self, order: str = "<"):
        self.order, self.content = order, b""
        self.section()

    def block(self, kind: int, body: bytes) -> "PcapNg":
        body += bytes(-len(body) % 4)
        length = struct.pack(self.order + "I", len(body) + 12)
        self.content += struct.pack(self.order + "I", kind) + length + body + length
        return self

    def section(self, order: str | None = None) -> "PcapNg":
        self.order = order or self.order
        return self.block(0x0A0D0D0A, struct.pack(self.order + "IHHq", 0x1A2B3C4D, 1, 0, -1))

    def option(self, kind: int, content: bytes) -> bytes:
        head = struct.pack(self.order + "HH", kind, len(content))
        return head + content + bytes(-len(content) % 4)

    def interface(self, link_type: int, name: str = "", resolution: int = 6, snaplen: int = 0):
        options = self.option(2, name.encode()) if name else b""
        options += self.option(9, bytes([resolution])) + bytes(4)
        return self.block(1, struct.pack(self.order + "HHI", link_type, 0, snaplen) + options)

    def packet(self, interface: int, frame: bytes, time: int = 0, way: int = 0, cut: int = 0):
        numbers = interface, time >> 32, time & 0xFFFFFFFF, len(frame), len(frame) + cut
        padded = frame + bytes(-len(frame) % 4)
        flags = struct.pack(self.order + "I", way)
        options = self.option(2, flags) + bytes(4) if way else b""
        return self.block(6, struct.pack(self.order + "IIIII", *numbers) + padded + options)

    def simple(self, frame: bytes) -> "PcapNg":
        return self.block(3, struct.pack(self.order + "I", len(frame)) + frame)

    def old(self, interface: int, frame: bytes) -> "PcapNg":
        numbers = interface, 0, 0, 5_000_000, len(frame), len(frame)
        return self.block(2, struct.pack(self.order + "HHIIII", *numbers) + frame)
