"""A node of Linux in a network namespace, to which packets are given, and what it sends of them.

A process that is in a namespace of its own makes the interfaces as TUN devices, which give and
take whole IP packets. Behind each packet a further one is given that the node has to send on;
what comes out before it is what came of the packet.
"""

from __future__ import annotations

import os
import select
import struct
import subprocess
import time
from collections.abc import Iterator, Sequence
from dataclasses import dataclass
from ipaddress import IPv6Address

from .command import Fault, Status
from .description import Network
from .linux import interface_name
from .packet_parts import ICMPV6, ip6
from .to_linux import Script

TUNSETIFF = 0x400454CA
IFF_TUN_NO_PI = 0x1001
ENTRY = "arrive"
PACKET_LIMIT = 70_000
SECONDS = 20.0
"""How long a packet may take; a machine that is busy is slow, and none takes so long."""
TRIES = 400
"""How often it is asked for an address, every 0.05 s."""


class NotHere(Exception):
    """This machine can't do it, and what it lacks."""


@dataclass(frozen=True)
class Sent:
    """What a node sends: over a link, or an ICMPv6 error, whichever way it goes."""

    link: str | None
    """None for an ICMPv6 error."""
    content: bytes


def tun_device(name: str) -> int:
    """The TUN device of a name, made where it isn't there."""
    import fcntl

    try:
        device = os.open("/dev/net/tun", os.O_RDWR | os.O_NONBLOCK)
        fcntl.ioctl(device, TUNSETIFF, struct.pack("16sH22x", name.encode(), IFF_TUN_NO_PI))
    except OSError as fault:
        raise NotHere(f"no TUN device can be made: {fault.strerror}") from None
    return device


def in_namespace(words: Sequence[str]) -> list[str]:
    """The words of a command that runs words in a namespace of its own."""
    front = ["unshare", "--net"] if os.geteuid() == 0 else ["unshare", "--net", "--map-root-user"]
    return [*front, *words]


def missing_for_a_lab() -> str | None:
    """What this machine lacks for a namespace with SIDs; None where nothing is missing."""
    probe = (
        "ip link set lo up && ip tuntap add dev probe mode tun && ip link set probe up &&"
        " ip -6 route add fc00::/48 encap seg6local action End dev probe"
    )
    try:
        tried = subprocess.run(
            in_namespace(["sh", "-c", probe]), capture_output=True, text=True, timeout=60
        )
    except FileNotFoundError:
        return "unshare is missing (the Debian package util-linux)"
    except subprocess.TimeoutExpired:
        return "a network namespace takes more than a minute"
    if tried.returncode == 0:
        return None
    reason = " ".join(tried.stderr.split()) or f"status {tried.returncode}"
    if "not found" in reason:
        return "ip is missing (the Debian package iproute2)"
    return f"no network namespace with seg6local: {reason[:120]}"


def until_taken(address: IPv6Address) -> str:
    """Commands that wait until Linux takes packets to an address as its own, which it does a moment after it has the address."""
    shown = f"ip -6 route show table local exact {address}/128"
    return f'tries=0; while [ -z "$({shown})" ] && [ $tries -lt {TRIES} ]; do tries=$((tries + 1)); sleep 0.05; done'


class Lab:
    """The node of a network as Linux in this process's namespace."""

    def __init__(self, net: Network, node: str, script: Script) -> None:
        self.address = net.nodes[node].address
        self.devices: dict[str, int] = {}
        for link in net.links.values():
            if link.start == node:
                self.devices[link.name] = tun_device(interface_name(link.name, link.number))
        self.devices[ENTRY] = tun_device(ENTRY)
        self._run("set -e\n" + "\n".join(script.lines))
        self._run(f"ip link set {ENTRY} up")
        self.asked = 0
        self._run(until_taken(self.address))
        self._drain()

    def _run(self, text: str) -> None:
        done = subprocess.run(["sh", "-c", text], capture_output=True, text=True)
        if done.returncode or done.stderr:
            raise Fault(f"ip says: {' '.join(done.stderr.split())[:200]}", Status.OUTSIDE_FAULT)

    def _drain(self) -> None:
        """Takes what Linux sends by itself when interfaces come up."""
        end = time.monotonic() + 0.3
        while (left := end - time.monotonic()) > 0:
            list(self._readable(left))

    def _readable(self, seconds: float) -> Iterator[tuple[str, bytes]]:
        ready, _, _ = select.select(list(self.devices.values()), [], [], seconds)
        for name, device in self.devices.items():
            if device in ready:
                yield name, os.read(device, PACKET_LIMIT)

    def give(self, packet: bytes, mark: str) -> list[Sent]:
        """What the node sends of a packet that arrives; it sends on what goes to `mark`."""
        self.asked += 1
        last = ip6(mark, source=f"2001:db8:1:ffff::{self.asked:x}")
        os.write(self.devices[ENTRY], packet)
        os.write(self.devices[ENTRY], last)
        wanted = last[:7] + bytes([last[7] - 1]) + last[8:]
        sent, end, found = [], time.monotonic() + SECONDS, False
        while not found and (left := end - time.monotonic()) > 0:
            for name, content in self._readable(left):
                if content == wanted:
                    found = True
                elif not self._is_own(content):
                    sent.append(self._sent(name, content))
        if not found:
            raise Fault("the node doesn't send on any more", Status.OUTSIDE_FAULT)
        for name, content in self._readable(0):
            if not self._is_own(content):
                sent.append(self._sent(name, content))
        return [one for one in sent if one.link != ENTRY]

    def _is_own(self, content: bytes) -> bool:
        """Whether it is a router solicitation or the like, of a link-local or no address."""
        source = IPv6Address(content[8:24]) if len(content) >= 40 else None
        return bool(source and content[0] >> 4 == 6 and (source.is_link_local or int(source) == 0)
                    and content[6] in (0, ICMPV6))  # fmt: skip

    def _sent(self, link: str, content: bytes) -> Sent:
        is_error = (
            len(content) > 41
            and content[0] >> 4 == 6
            and content[6] == ICMPV6
            and content[8:24] == self.address.packed
            and content[40] < 128
        )
        return Sent(None if is_error else link, content)
