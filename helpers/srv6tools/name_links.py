"""name-links: a capture that `srv6` wrote as pcapng with an interface for each link."""

import argparse
import functools
import struct
import sys
from collections.abc import Iterable, Iterator, Sequence
from ipaddress import IPv6Address

from .captures import RAW, SNAPLEN, Sent, sent_from
from .command import Fault, Parser, progress, run_tool
from .description import Link, Network, read_network
from .files import STDIN

SECTION, INTERFACE, FRAME = 0x0A0D0D0A, 1, 6
COMMENT, NAME, ABOUT, FLAGS, APPLICATION = 1, 2, 3, 2, 4  # options, by the block that has them
OUTBOUND = 2
ERRORS = "ICMPv6 errors"
DESCRIPTION = """\
Writes a capture that `srv6 run`, `walk` or `update` wrote anew as pcapng, for Wireshark and tshark:

  srv6 walk NET INTENT < INPUT | name-links NET > OUT.pcapng

Each link of the description is an interface, with its name (the column or field
frame.interface_name), and there is one more for ICMPv6 errors; each frame has a comment
(frame.comment) with the packet, the number of the send, the node and the link. A frame's time is
the packet's number in seconds, and the number of the send in microseconds."""


def _padded(content: bytes) -> bytes:
    return content + bytes(-len(content) % 4)


def _options(options: Iterable[tuple[int, bytes]]) -> bytes:
    """Options of a block, and their end."""
    written = (struct.pack("<HH", code, len(value)) + _padded(value) for code, value in options)
    return b"".join(written) + struct.pack("<HH", 0, 0)


def _block(kind: int, body: bytes) -> bytes:
    size = len(body) + 12
    return struct.pack("<II", kind, size) + body + struct.pack("<I", size)


def section() -> bytes:
    """The head of the file."""
    options = _options([(APPLICATION, b"name-links of srv6")])
    return _block(SECTION, struct.pack("<IHHq", 0x1A2B3C4D, 1, 0, -1) + options)


def interface(name: str, about: str) -> bytes:
    """The head of an interface; its frames are raw IP, with times in microseconds."""
    options = _options([(NAME, name.encode()), (ABOUT, about.encode())])
    return _block(INTERFACE, struct.pack("<HHI", RAW, 0, SNAPLEN) + options)


def frame(number: int, time: int, content: bytes, comment: str) -> bytes:
    """A frame of an interface, numbered from 0, at a time in microseconds."""
    head = struct.pack("<IIIII", number, time >> 32, time & 0xFFFFFFFF, len(content), len(content))
    options = _options([(COMMENT, comment.encode()), (FLAGS, struct.pack("<I", OUTBOUND))])
    return _block(FRAME, head + _padded(content) + options)


def about(link: Link) -> str:
    """A link's ends, in words."""
    return f"{link.start} to {link.end}" if link.end else f"{link.start}, out of the network"


class Named:
    """The frames of a capture over a network, each with its interface and its comment."""

    def __init__(self, net: Network):
        self.links = list(net.links.values())
        self.nodes = {node.address: node.name for node in net.nodes.values()}
        self.sends: dict[int, int] = {}  # by packet

    def heads(self) -> Iterator[bytes]:
        """What stands in front of the frames."""
        yield section()
        for link in self.links:
            yield interface(link.name, about(link))
        yield interface(ERRORS, "what nodes send about packets that they drop")

    def frame(self, sent: Sent) -> bytes:
        """A frame as it is written."""
        if sent.link > len(self.links):
            which = f"link {sent.link}, which the network doesn't have"
            raise Fault(f"{STDIN}: frame {sent.frame} is on {which}")
        number = self.sends[sent.packet] = self.sends.get(sent.packet, 0) + 1
        place = sent.link - 1 if sent.link else len(self.links)
        time = sent.packet * 1_000_000 + number
        return frame(place, time, sent.content, self._comment(sent, number))

    def _comment(self, sent: Sent, number: int) -> str:
        if not sent.link:
            sender = self._sender(sent.content)
            return f"packet {sent.packet}: {sender} drops it and sends this error"
        link = self.links[sent.link - 1]
        to = f"to {link.end}" if link.end else "out of the network"
        return f"packet {sent.packet}, send {number}: {link.start} over {link.name} {to}"

    def _sender(self, error: bytes) -> str:
        source = IPv6Address(error[8:24].ljust(16, b"\0"))
        return self.nodes.get(source, str(source))


def main(words: Sequence[str]) -> int:
    """Runs the tool."""
    parser = Parser("name-links", DESCRIPTION)
    parser.usage = "name-links NET < CAPTURE > OUT.pcapng"
    parser.add_argument("net", metavar="NET", help="the description of its network")
    return run_tool(parser, functools.partial(_work, parser.prog), words)


def _work(tool: str, words: argparse.Namespace) -> None:
    out = sys.stdout.buffer
    with progress(tool, "writing the frames"):
        named = Named(read_network(words.net))
        frames = sent_from(sys.stdin.buffer, STDIN)
        first = next(frames, None)  # a fault of the head comes before anything is written
        for piece in named.heads():
            out.write(piece)
        if first:
            out.write(named.frame(first))
        for sent in frames:
            out.write(named.frame(sent))
        out.flush()
