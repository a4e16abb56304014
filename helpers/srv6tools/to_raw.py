"""to-raw: any capture that tools write as a capture of raw IP packets, which `srv6` takes."""

from __future__ import annotations

import argparse
import contextlib
import sys
from collections.abc import Iterable, Iterator, Sequence
from dataclasses import dataclass, field
from typing import BinaryIO

from .capture_formats import CutCapture, Direction, NoCapture, TakenFrame, frames_in
from .captures import FRAME_LIMIT, HEAD_SIZE, Timed, timed_capture
from .command import Fault, Parser, Status, positive, progress, run_tool
from .files import INPUT_LIMIT, STDIN
from .link_layers import NotIp, direction_of, interface_of, packet_in

TOOL = "to-raw"
NAMED = 8
"""How many numbers of frames stand in a line at most."""

DESCRIPTION = """\
Writes the IP packets of a capture as a classic capture of raw IP, which srv6 takes. IN may be a
classic capture or pcapng, also with several interfaces and link types, also compressed by gzip;
its frames may be of Ethernet (with VLAN tags), Linux cooked (version 1 and 2), the loopback of
BSD, PPP, Cisco's HDLC, raw IP, IPv4 or IPv6. Without IN, or with -, it is standard input."""

MORE = """\
What is left out stands on err, a line for each cause with the numbers of the frames. Packets are
numbered anew then; with --keep-numbers an empty frame stands in the place of each that is left out,
which srv6 doesn't read (NotIp), so that the numbers are those of IN.

srv6 takes 65,536 frames and 64 MiB; where IN has more, the frames behind that are left out, and
--from goes on with them.

  to-raw any.pcapng > raw.pcap && srv6 run NET NODE < raw.pcap > out.pcap
  tcpdump -i any -w - | to-raw | srv6 show"""


@dataclass
class Wanted:
    """Which frames are asked for."""

    first: int = 1
    interfaces: frozenset[str] = frozenset()
    direction: Direction | None = None

    def why_not(self, frame: TakenFrame) -> str | None:
        """Why a frame isn't asked for; None where it is."""
        if self.interfaces and interface_of(frame) not in self.interfaces:
            return f"interface {interface_of(frame) or 'without a name'}"
        if self.direction and direction_of(frame) is not self.direction:
            way = direction_of(frame)
            return f"direction {way.value if way else 'not told'}"
        return None


@dataclass
class LeftOut:
    """The frames that are left out, by their causes."""

    frames: dict[str, list[int]] = field(default_factory=dict)

    def add(self, cause: str, number: int) -> None:
        """Takes note of a frame."""
        self.frames.setdefault(cause, []).append(number)

    @property
    def count(self) -> int:
        """How many there are."""
        return sum(len(numbers) for numbers in self.frames.values())

    def lines(self) -> Iterator[str]:
        """A line for each cause, in the order in which they came."""
        for cause, numbers in self.frames.items():
            yield f"left out, {cause}: {frames_text(numbers)}"


@dataclass
class Raw:
    """What becomes of a capture."""

    frames: list[Timed] = field(default_factory=list)
    left_out: LeftOut = field(default_factory=LeftOut)
    short: list[int] = field(default_factory=list)
    size: int = HEAD_SIZE
    next: int | None = None
    """The first frame that has no room any more."""
    fault: str | None = None
    """Where the capture is cut or damaged."""

    @property
    def written(self) -> int:
        """How many packets there are."""
        return sum(1 for frame in self.frames if frame.content)


def frames_text(numbers: Sequence[int]) -> str:
    """Numbers of frames in words, the first of them where they are many."""
    listed = ", ".join(map(str, numbers[:NAMED]))
    more = len(numbers) - NAMED
    called = "frame" if len(numbers) == 1 else "frames"
    return f"{called} {listed}" + (f" and {more} more" if more > 0 else "")


def to_raw(frames: Iterable[TakenFrame], wanted: Wanted, keep_numbers: bool) -> Raw:
    """The packets of frames as frames of raw IP, up to what `srv6` takes."""
    raw = Raw()
    try:
        for frame in frames:
            if frame.number < wanted.first:
                continue
            if not _takes(raw, frame, wanted, keep_numbers):
                raw.next = frame.number
                break
    except CutCapture as fault:
        raw.fault = str(fault)
    return raw


def _takes(raw: Raw, frame: TakenFrame, wanted: Wanted, keep_numbers: bool) -> bool:
    """Adds what a frame gives; whether there was room for it."""
    cause = wanted.why_not(frame)
    content, missing = b"", 0
    if cause is None:
        try:
            content = packet_in(frame)
            missing = max(0, frame.original - len(frame.captured))
        except NotIp as fault:
            cause = str(fault)
    if cause is not None and not keep_numbers:
        raw.left_out.add(cause, frame.number)
        return True
    made = Timed(frame.time, len(content) + missing, content)
    if len(raw.frames) == FRAME_LIMIT or raw.size + made.size > INPUT_LIMIT:
        return False
    raw.frames.append(made)
    raw.size += made.size
    if cause is not None:
        raw.left_out.add(cause, frame.number)
    elif missing:
        raw.short.append(frame.number)
    return True


def said(raw: Raw, keep_numbers: bool) -> Iterator[str]:
    """The lines on `err`."""
    total = raw.written + raw.left_out.count
    yield f"{total} frames, {raw.written} written, {raw.left_out.count} left out"
    yield from raw.left_out.lines()
    if raw.short:
        cut = frames_text(raw.short)
        yield f"cut by the capture, so srv6 doesn't read them (ShortFrame): {cut}"
    if raw.left_out.count and not keep_numbers and raw.written:
        yield "packets are numbered anew; --keep-numbers keeps the numbers of frames"
    if raw.next:
        yield (
            f"frames from {raw.next} on are left out, beyond the {FRAME_LIMIT} frames or"
            f" {INPUT_LIMIT} bytes that srv6 takes; --from {raw.next} goes on there"
        )


@contextlib.contextmanager
def opened(name: str) -> Iterator[BinaryIO]:
    """A file, or standard input for `-`."""
    if name == "-":
        yield sys.stdin.buffer
        return
    try:
        stream = open(name, "rb")  # noqa: SIM115
    except OSError as fault:
        raise Fault(f"{name}: {fault.strerror}", Status.OUTSIDE_FAULT) from None
    except ValueError as fault:  # a zero byte in the name
        raise Fault(f"{name!r}: {fault}", Status.OUTSIDE_FAULT) from None
    with stream:
        yield stream


def converted(name: str, wanted: Wanted, keep_numbers: bool) -> Raw:
    """What becomes of the capture of a name."""
    called = STDIN if name == "-" else name
    try:
        with opened(name) as stream, progress(TOOL, f"reads {called}"):
            return to_raw(frames_in(stream), wanted, keep_numbers)
    except NoCapture as fault:
        raise Fault(f"{called}: {fault}") from None
    except OSError as fault:
        raise Fault(f"{called}: {fault.strerror or fault}", Status.OUTSIDE_FAULT) from None


def work(words: argparse.Namespace) -> int:
    """Reads the capture, writes the packets, and says what was left out."""
    if sys.stdout.isatty():
        raise Fault("a capture isn't written to a terminal: put > OUT behind it", Status.USAGE)
    if words.capture == "-" and sys.stdin.isatty():
        raise Fault("a capture isn't read from a terminal: name a file", Status.USAGE)
    direction = Direction(words.direction) if words.direction else None
    wanted = Wanted(words.first, frozenset(words.interface or ()), direction)
    raw = converted(words.capture, wanted, words.keep_numbers)
    for piece in timed_capture(raw.frames):
        sys.stdout.buffer.write(piece)
    sys.stdout.buffer.flush()
    for line in said(raw, words.keep_numbers):
        print(f"{TOOL}: {line}", file=sys.stderr)
    if raw.fault:
        called = STDIN if words.capture == "-" else words.capture
        raise Fault(f"{called}: {raw.fault}")
    return Status.DONE


def main(words: Sequence[str] | None = None) -> int:
    """The command."""
    parser = Parser(TOOL, DESCRIPTION, MORE)
    parser.add_argument("capture", metavar="IN", nargs="?", default="-", help="the capture")
    parser.add_argument(
        "--keep-numbers", action="store_true", help="write an empty frame for each left out"
    )
    parser.add_argument(
        "--interface", action="append", metavar="NAME",
        help="take frames of this interface alone (pcapng: its name, or its number from 0 where it"
        " has none; cooked of version 2: its number); may stand more than once",
    )  # fmt: skip
    parser.add_argument(
        "--direction", choices=[way.value for way in Direction],
        help="take frames that came in, or went out, alone (pcapng and cooked captures)",
    )  # fmt: skip
    parser.add_argument(
        "--from", dest="first", type=positive, default=1, metavar="FRAME",
        help="begin with this frame of IN, from 1",
    )  # fmt: skip
    return run_tool(parser, work, sys.argv[1:] if words is None else words)
