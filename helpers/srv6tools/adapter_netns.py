"""The adapter `netns:NAME`: a device whose links' other ends are the interfaces of a namespace.

Each link of the node ends at the interface of its name there; packets go in at the interface `arrive`, or at the first link's where
there is none. Neighbours are answered for: whoever asks for a next hop gets the interface's own address.
"""

from __future__ import annotations

import json
import os
import select
import socket
import subprocess
import sys
import time
from collections.abc import Iterator, Sequence
from dataclasses import dataclass, field
from ipaddress import IPv6Address
from pathlib import Path

from .command import Fault, Status
from .description import Network, read_network
from .linux import interface_name
from .packet_parts import ICMPV6, ip6
from .tagging import Tagger, checksum
from .verdicts import Answer

ENTRY, FOLDER = "arrive", Path("/run/netns")
LARGEST = 1_440
TOGETHER = 32  # packets between two marks
SECONDS, AFTER, WAIT = 5.0, 0.02, 0.1
ALL_NODES = "ff02::1"
SOLICITATION, ADVERTISEMENT, ECHO, ECHO_REPLY = 135, 136, 128, 129
IPV6_TYPE, IPV4_TYPE, ARP_TYPE = bytes.fromhex("86dd"), bytes.fromhex("0800"), bytes.fromhex("0806")
ETH_P_ALL, OUTGOING, LEAST_FRAME = 3, 4, 60


@dataclass
class OfNamespace:
    """The interfaces of a namespace."""

    name: str
    net: Network
    node: str
    largest: int = LARGEST
    left_out: dict[str, str] = field(default_factory=dict)

    def __post_init__(self) -> None:
        if not (FOLDER / self.name).exists():
            raise Fault(f"--dut netns:{self.name}: no namespace has that name (ip netns list)", Status.OUTSIDE_FAULT)
        if Tagger(self.net, self.node).routed(0) is None:
            raise Fault(f"{self.net.path}: node {self.node}: --dut netns needs an IPv6 route in table 0, by which it knows that"
                        " packets are done")  # fmt: skip

    def answers(self, packets: Sequence[tuple[int, bytes]]) -> list[Answer]:
        """What comes out at the interfaces, found by a process of its own in the namespace."""
        given = json.dumps([self.net.path, self.node, [packet.hex() for _, packet in packets]])
        words = ["ip", "netns", "exec", self.name, sys.executable, "-c"]
        place = os.environ | {"PYTHONPATH": os.path.dirname(os.path.dirname(os.path.abspath(__file__)))}
        done = subprocess.run(
            [*words, "from srv6tools.adapter_netns import inside; inside()"], input=given, capture_output=True, text=True, env=place
        )
        if done.returncode:
            raise Fault(f"--dut netns:{self.name}: {' '.join(done.stderr.split())[-200:]}", Status.OUTSIDE_FAULT)
        return [Answer(link, bytes.fromhex(content)) for link, content in json.loads(done.stdout)]


def inside() -> None:
    """Reads packets as JSON, sends them, and writes what comes out."""
    path, node, packets = json.load(sys.stdin)
    try:
        ends = Ends(read_network(path), node)
        found = list(ends.exchanged([bytes.fromhex(packet) for packet in packets]))
    except (Fault, OSError) as fault:
        sys.exit(str(fault))
    json.dump([(link, content.hex()) for link, content in found], sys.stdout)


class Ends:
    """The other ends of a device's links."""

    def __init__(self, net: Network, node: str) -> None:
        links = [link for link in net.links.values() if link.start == node]
        self.sockets: dict[str, socket.socket] = {link.name: _opened(interface_name(link.name, link.number)) for link in links}
        if Path(f"/sys/class/net/{ENTRY}").exists():
            self.sockets[ENTRY] = _opened(ENTRY)
        elif not links:
            raise Fault(f"there is no interface {ENTRY}, and the node has no link")
        self.entry = self.sockets.get(ENTRY) or self.sockets[links[0].name]
        self.mark = Tagger(net, node).routed(0) or ""
        self.device = self._device()
        self.asked = 0

    def exchanged(self, packets: Sequence[bytes]) -> Iterator[tuple[str, bytes]]:
        """Sends packets, and gives what comes out, over which link."""
        for at in range(0, len(packets), TOGETHER):
            for packet in packets[at : at + TOGETHER]:
                self._send(packet)
            yield from self._until_marked()

    def _send(self, packet: bytes) -> None:
        kind = IPV4_TYPE if packet[:1] and packet[0] >> 4 == 4 else IPV6_TYPE
        self.entry.send(self.device + _own(self.entry) + kind + packet)

    def _until_marked(self) -> Iterator[tuple[str, bytes]]:
        """What comes out before a packet that the device sends on, and shortly behind it."""
        self.asked += 1
        source = f"2001:db8:1:ffff::{self.asked:x}"
        self._send(ip6(self.mark, source=source))
        wanted, end = IPv6Address(source).packed, time.monotonic() + SECONDS
        while (left := end - time.monotonic()) > 0:
            for link, content in self._readable(left):
                if content[8:24] == wanted:
                    end = min(end, time.monotonic() + AFTER)
                    wanted = b"found"
                elif not content[24:40].startswith(b"\xff\x02") and not content[8:10] == b"\xfe\x80":
                    yield link, content
        if wanted != b"found":
            raise Fault("the device doesn't send on what it has a route for")

    def _readable(self, seconds: float) -> Iterator[tuple[str, bytes]]:
        """The IP packets that come in; whoever asks for a neighbour is answered."""
        ready, _, _ = select.select(list(self.sockets.values()), [], [], max(0, seconds))
        for name, one in self.sockets.items():
            if one not in ready:
                continue
            frame, (_, _, kind, _, _) = one.recvfrom(70_000)
            if kind == OUTGOING:
                continue
            if reply := _neighbour_reply(frame, _own(one)):
                one.send(reply)
            elif frame[12:14] in (IPV6_TYPE, IPV4_TYPE):
                yield name, _without_padding(frame[14:], len(frame))

    def _device(self) -> bytes:
        """The device's address where packets go in; each interface is asked until the device answers there, for some seconds."""
        found: dict[str, bytes] = {}
        end = time.monotonic() + SECONDS
        while len(found) < len(self.sockets) and time.monotonic() < end:
            for name, one in self.sockets.items():
                if name not in found:
                    one.send(bytes.fromhex("333300000001") + _own(one) + IPV6_TYPE + _ping(_own(one)))
            ready, _, _ = select.select(list(self.sockets.values()), [], [], WAIT)
            for name, one in self.sockets.items():
                if one in ready:
                    frame, (_, _, kind, _, _) = one.recvfrom(70_000)
                    if kind != OUTGOING and _is_of_a_ready_device(frame):
                        found[name] = frame[6:12]
        entry = next(name for name, one in self.sockets.items() if one is self.entry)
        if entry not in found:
            raise Fault("the device answers nothing where packets go in, so its address isn't known")
        return found[entry]


def _ping(own: bytes) -> bytes:
    """An echo request to all nodes of a link."""
    source = IPv6Address(0xFE80 << 112 | int.from_bytes(own))
    return _icmp6(str(source), ALL_NODES, bytes([ECHO, 0, 0, 0, 0, 1, 0, 1]))


def _is_of_a_ready_device(frame: bytes) -> bool:
    """Whether a frame answers a ping, or asks where it came from; a device whose address isn't ready does neither."""
    packet = frame[14:]
    asked = packet[6:7] == bytes([ICMPV6]) and packet[40:41] in (bytes([ECHO_REPLY]), bytes([SOLICITATION]))
    return frame[12:14] == IPV6_TYPE and asked and any(packet[8:24])


def _opened(interface: str) -> socket.socket:
    """A socket for the frames of an interface."""
    try:
        found = socket.socket(socket.AF_PACKET, socket.SOCK_RAW, socket.htons(ETH_P_ALL))
        found.bind((interface, 0))
    except OSError as fault:
        raise Fault(f"interface {interface}: {fault.strerror or fault}") from None
    return found


def _own(one: socket.socket) -> bytes:
    """The address of a socket's interface."""
    return bytes(one.getsockname()[4])


def _icmp6(source: str, destination: str, message: bytes) -> bytes:
    """An ICMPv6 packet with its checksum and hop limit 255."""
    packet = ip6(destination, ICMPV6, message, 255, source)
    pseudo = packet[8:40] + len(message).to_bytes(4) + ICMPV6.to_bytes(4)
    return packet[:42] + checksum(pseudo + message).to_bytes(2) + packet[44:]


def _neighbour_reply(frame: bytes, own: bytes) -> bytes | None:
    """The answer to who asks for a neighbour of IPv6 or IPv4."""
    if frame[12:14] == ARP_TYPE and frame[20:22] == b"\0\1":
        arp = frame[14:20] + b"\0\2" + own + frame[38:42] + frame[22:32]
        return frame[6:12] + own + ARP_TYPE + arp
    packet = frame[14:]
    if frame[12:14] != IPV6_TYPE or packet[6:7] != bytes([ICMPV6]) or packet[40:41] != bytes([SOLICITATION]):
        return None
    source, target = IPv6Address(packet[8:24]), IPv6Address(packet[48:64])
    if not int(source):  # it asks whether an address is free
        return None
    message = bytes([ADVERTISEMENT, 0, 0, 0, 0x60, 0, 0, 0]) + target.packed + bytes([2, 1]) + own
    return frame[6:12] + own + IPV6_TYPE + _icmp6(str(target), str(source), message)


def _without_padding(packet: bytes, frame_size: int) -> bytes:
    """A packet without the zeros that make the shortest frame of Ethernet full."""
    if frame_size != LEAST_FRAME or packet[0] >> 4 not in (4, 6):
        return packet
    size = 40 + int.from_bytes(packet[4:6]) if packet[0] >> 4 == 6 else int.from_bytes(packet[2:4])
    return packet if any(packet[size:]) else packet[:size]
