"""How packets are given to a device, and what it sends is had back: an adapter for each way."""

from __future__ import annotations

import io
import subprocess
from collections.abc import Iterator, Sequence
from dataclasses import dataclass, field
from typing import Protocol

from .capture_formats import CutCapture, NoCapture, frames_in
from .captures import raw_capture
from .command import Fault, Status
from .description import Network
from .link_layers import NotIp, packet_in
from .trace import trace_of
from .verdicts import Answer, is_error

LONGEST = 65_575
SECONDS = 600
WORDS = "pcap:COMMAND, trace:COMMAND, netns:NAME, linux"


class Adapter(Protocol):
    """A way to a device."""

    largest: int
    """Bytes of the longest packet that it takes."""
    left_out: dict[str, str]
    """SIDs that the device doesn't have, each with the reason."""

    def answers(self, packets: Sequence[tuple[int, bytes]]) -> list[Answer]:
        """What the device sends of packets, each with its number."""


def adapter_of(word: str, net: Network, node: str) -> Adapter:
    """The adapter that a word names."""
    kind, _, rest = word.partition(":")
    if kind == "pcap" and rest:
        return OfCommand(rest, net)
    if kind == "trace" and rest:
        return OfTrace(rest, net)
    if kind == "netns" and rest:
        from .adapter_netns import OfNamespace

        return OfNamespace(rest, net, node)
    if word == "linux":
        from .adapter_linux import OfLinux

        return OfLinux(net, node)
    raise Fault(f"--dut {word}: no adapter; there are {WORDS}", Status.USAGE)


def run_command(command: str, given: bytes, called: str) -> bytes:
    """What a command of a shell writes on `out`; a fault where it ends with another status than 0."""
    try:
        done = subprocess.run(["sh", "-c", command], input=given, capture_output=True, timeout=SECONDS)
    except subprocess.TimeoutExpired:
        raise Fault(f"--dut {called}: it takes more than {SECONDS} s", Status.OUTSIDE_FAULT) from None
    if done.returncode:
        said = " ".join(done.stderr.decode("utf-8", "backslashreplace").split())[-200:]
        raise Fault(f"--dut {called}: it ends with status {done.returncode}: {said or 'nothing is said'}", Status.OUTSIDE_FAULT)
    return done.stdout


def capture_of(packets: Sequence[tuple[int, bytes]]) -> bytes:
    """Packets as a capture of raw IP; the second of each is its number."""
    return b"".join(raw_capture((number, 0, packet) for number, packet in packets))


@dataclass
class OfCommand:
    """A command that reads a capture on its input and writes one on its output.

    The link of a frame is its interface's name in a pcapng file; in a classic one the microsecond is the link's number in the
    description, as `srv6 run` writes it, and 0 where the link isn't told.
    """

    command: str
    net: Network
    largest: int = LONGEST
    left_out: dict[str, str] = field(default_factory=dict)

    def answers(self, packets: Sequence[tuple[int, bytes]]) -> list[Answer]:
        """What the command writes."""
        called = f"pcap:{self.command}"
        written = run_command(self.command, capture_of(packets), called)
        return list(self._frames(written, called))

    def _frames(self, content: bytes, called: str) -> Iterator[Answer]:
        names = [link.name for link in self.net.links.values()]
        try:
            for frame in frames_in(io.BytesIO(content)):
                try:
                    packet = packet_in(frame)
                except NotIp as why:
                    raise Fault(f"--dut {called}: frame {frame.number} of what it writes has no packet: {why}") from None
                if frame.interface is not None:
                    yield Answer(self._link_called(frame.interface, packet, f"--dut {called}: frame {frame.number}"), packet)
                    continue
                link = frame.time // 1000 % 1_000_000
                if link > len(names):
                    raise Fault(f"--dut {called}: frame {frame.number} of what it writes: there is no link {link}")
                yield Answer(names[link - 1] if link else None, packet)
        except (NoCapture, CutCapture) as fault:
            raise Fault(f"--dut {called}: what it writes: {fault}") from None

    def _link_called(self, name: str, packet: bytes, where: str) -> str | None:
        """The link of an interface; an ICMPv6 error may be of any, and one without a name has its number."""
        if name in self.net.links:
            return name
        if name.isdecimal() or is_error(packet):
            return None
        raise Fault(f"{where} of what it writes: no link is called {name!r}")


@dataclass
class OfTrace:
    """A command that reads a capture and writes lines as `srv6 trace` does, by the packets' numbers in the capture."""

    command: str
    net: Network
    largest: int = LONGEST
    left_out: dict[str, str] = field(default_factory=dict)

    def answers(self, packets: Sequence[tuple[int, bytes]]) -> list[Answer]:
        """What the lines say that is sent, up to the first link of each packet."""
        called = f"trace:{self.command}"
        lines = run_command(self.command, capture_of(packets), called).decode("latin-1").splitlines()
        found = []
        for walk in trace_of(lines, f"--dut {called}").walks:
            if not 1 <= walk.number <= len(packets):
                raise Fault(f"--dut {called}: line {walk.line}: there is no packet {walk.number}")
            number = packets[walk.number - 1][0]
            for stage in walk.stages:
                if stage.kind == "send":
                    found.append(Answer(stage.link, stage.packet or b"", number))
                elif stage.kind == "drop" and stage.packet:
                    found.append(Answer(None, stage.packet, number))
                if stage.kind in ("send", "drop", "local", "stages"):
                    break
        return found
