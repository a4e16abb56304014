#!/usr/bin/env python3
"""Devices that are wrong in one way each: `srv6 run` over a capture, with its input, its output or the description changed.

    wrong_device.py FAULT NET NODE < IN > OUT
"""

import io
import struct
import sys
import tempfile
from collections.abc import Callable
from pathlib import Path

sys.path.insert(0, str(Path(__file__).resolve().parents[1]))

from srv6tools.captures import Sent, frames_of, head_of, raw_capture, sent_from  # noqa: E402
from srv6tools.tagging import checksum  # noqa: E402
from srv6tools.packet_parts import ICMPV6  # noqa: E402
from srv6tools.program import run_program  # noqa: E402

Frame = Callable[[Sent, bytes], bytes]
GOOD = bytes.fromhex("20010db8000100000000000000000001")


def is_error(sent: Sent) -> bool:
    """Whether a frame is an ICMPv6 error."""
    return sent.link == 0


def with_checksum(content: bytes) -> bytes:
    """An ICMPv6 error with the right checksum."""
    plain = content[:42] + bytes(2) + content[44:]
    pseudo = plain[8:40] + struct.pack(">IHBB", len(plain) - 40, 0, 0, ICMPV6)
    return plain[:42] + struct.pack(">H", checksum(pseudo + plain[40:])) + plain[44:]


def hop_limit_kept(sent: Sent, given: bytes) -> bytes:
    """The hop limit isn't lowered."""
    if is_error(sent) or sent.content[0] >> 4 != 6 or given[0] >> 4 != 6 or sent.content[:4] != given[:4]:
        return sent.content
    return sent.content[:7] + given[7:8] + sent.content[8:]


def argument_shifted_too_far(sent: Sent, given: bytes) -> bytes:
    """A CSID too many is shifted out."""
    content = sent.content
    if is_error(sent) or content[24:28] != bytes.fromhex("fcbbbb00") or content[30:32] == bytes(2):
        return content
    return content[:28] + content[30:40] + bytes(2) + content[40:]


def bad_checksum(sent: Sent, given: bytes) -> bytes:
    """The checksum of errors is wrong."""
    return sent.content[:42] + bytes([sent.content[42] ^ 1]) + sent.content[43:] if is_error(sent) else sent.content


def pointer_off_by_one(sent: Sent, given: bytes) -> bytes:
    """The pointer of a Parameter Problem is one too high."""
    content = sent.content
    if not is_error(sent) or content[40] != 4:
        return content
    return with_checksum(content[:44] + struct.pack(">I", int.from_bytes(content[44:48]) + 1) + content[48:])


def byte_lost(sent: Sent, given: bytes) -> bytes:
    """Where bytes stand behind a packet's end one byte too many is cut."""
    behind = given[0] >> 4 == 6 and len(given) > 40 + int.from_bytes(given[4:6])
    return sent.content[:-1] if behind and not is_error(sent) else sent.content


def same(sent: Sent, given: bytes) -> bytes:
    """Nothing is changed."""
    return sent.content


FRAMES: dict[str, Frame] = {
    "hop limit not lowered": hop_limit_kept,
    "argument shifted by one unit more": argument_shifted_too_far,
    "checksum of errors wrong": bad_checksum,
    "pointer off by one": pointer_off_by_one,
    "a byte lost behind the packet's end": byte_lost,
    "an error to a multicast source": same,
    "nothing": same,
}
TEXTS = {
    "PSP late": ('flavours = ["psp"]', "flavours = []"),
    "USD ignored": ('flavours = ["usd"]', "flavours = []"),
    "next hop wrong": ('links = ["west"]', 'links = ["east"]'),
    "DT into table 0": ("table = 20 }", "table = 0 }"),
}
"""What is changed in the description, at SIDs."""
FAULTS = [name for name in (*FRAMES, *TEXTS) if name != "nothing"]


def changed_text(text: str, fault: str) -> str:
    """The description with a fault."""
    old, new = TEXTS[fault]
    front, sids, rest = text.partition("\nsid = [")
    assert old in rest, fault
    return front + sids + rest.replace(old, new)


def main(fault: str, net: str, node: str) -> None:
    """Reads a capture, runs it with the fault, and writes what is sent."""
    content = sys.stdin.buffer.read()
    packets = [frame.content for frame in frames_of(content, head_of(content, "IN"), "IN")]
    loud = fault == "an error to a multicast source"
    given = [one[:8] + GOOD + one[24:] if loud and one[8:9] == b"\xff" and one[0] >> 4 == 6 else one for one in packets]
    text = Path(net).read_text()
    with tempfile.NamedTemporaryFile("w", suffix=".toml") as file:
        file.write(changed_text(text, fault) if fault in TEXTS else text)
        file.flush()
        answer = run_program(["run", file.name, node], b"".join(raw_capture((0, 0, one) for one in given)))
    out = []
    for sent in sent_from(io.BytesIO(answer.out), "srv6 run"):
        packet = packets[sent.packet - 1]
        frame = FRAMES.get(fault, same)(sent, packet)
        if loud and packet[8:9] == b"\xff":
            frame = frame.replace(GOOD, packet[8:24])
            frame = with_checksum(frame) if is_error(sent) else frame
        out.append((0, sent.link, frame))
    sys.stdout.buffer.write(b"".join(raw_capture(out)))


if __name__ == "__main__":
    main(*sys.argv[1:])
