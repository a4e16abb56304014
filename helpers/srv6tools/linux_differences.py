"""What Linux and `srv6` do with the same packets: the check behind docs/LINUX.md.

It needs a kernel with seg6local, ip, unshare and a TUN device, and is skipped by name where one
is missing.
"""

from __future__ import annotations

import argparse
import enum
import hashlib
import json
import os
import subprocess
import sys
from collections import Counter
from collections.abc import Iterator, Sequence
from dataclasses import dataclass
from pathlib import Path

from .captures import raw_capture, sent_in
from .command import Fault, Parser, Status, run_tool
from .description import Network, read_network
from .differences import packet_differences
from .err_lines import PacketLine, err_line_of
from .files import read_lines
from .linux import Kernel, kernel_of
from .linux_cases import MARK, NODE, cases
from .linux_lab import Lab, NotHere, Sent, in_namespace, missing_for_a_lab
from .program import REPOSITORY, find_program, run_program
from .to_linux import script_for

TOOL = "linux-differences"
NET = REPOSITORY / "bench" / "linux-differences.toml"
TABLE = REPOSITORY / "bench" / "linux-differences.table"
INSIDE = "SRV6_TOOLS_IN_A_NAMESPACE"

DESCRIPTION = """\
Gives the packets of srv6tools/linux_cases.py to a node of Linux, in a network namespace, and to
srv6 run, and says how many there are of each kind of difference; docs/LINUX.md tells of them.
bench/linux-differences.table has what Linux 6.18 sent of each; where it sends something else now,
that is shown, and the status is 4. Where this machine can't do it, the line on out says what is
missing, and the status is 0."""


class Kind(enum.Enum):
    """How what is done differs."""

    SAME = "same"
    SILENT = "no error"
    PASSED = "sent on"
    CHANGED = "other bytes"
    ERRORS = "other error"
    LOUD = "error"
    LOST = "dropped"

    @property
    def meaning(self) -> str:
        """The kind in words."""
        return _MEANINGS[self]


_MEANINGS = {
    Kind.SAME: "both do the same",
    Kind.SILENT: "srv6 drops and sends an error, Linux drops and sends none",
    Kind.PASSED: "srv6 drops, Linux sends on",
    Kind.CHANGED: "both send on, and bytes differ",
    Kind.ERRORS: "both send an error, and they differ",
    Kind.LOUD: "srv6 drops without an error, Linux sends one",
    Kind.LOST: "srv6 sends on, Linux drops",
}


@dataclass(frozen=True)
class Result:
    """What is sent of a packet, and whether an upper layer took it."""

    sent: tuple[Sent, ...]
    delivered: bool = False

    @property
    def errors(self) -> bool:
        """Whether an ICMPv6 error is sent."""
        return any(one.link is None for one in self.sent)

    @property
    def passes(self) -> bool:
        """Whether the packet is sent on."""
        return any(one.link is not None for one in self.sent)

    def __str__(self) -> str:
        said = [_said(one) for one in self.sent]
        if not said:
            return "delivered" if self.delivered else "dropped"
        return ", ".join(said)


def _said(sent: Sent) -> str:
    if sent.link is not None:
        return f"over {sent.link}"
    pointer = int.from_bytes(sent.content[44:48])
    at = f" at {pointer}" if sent.content[40] == 4 else ""
    return f"error {sent.content[40]}/{sent.content[41]}{at}"


def results_of_program(net: Path, packets: Sequence[bytes]) -> list[Result]:
    """What `srv6 run` does with each packet."""
    links = {link.number: link.name for link in read_network(net).links.values()}
    capture = b"".join(raw_capture((0, 0, packet) for packet in packets))
    answer = run_program(["run", net, NODE], capture)
    if answer.status != Status.DONE:
        raise Fault(f"srv6 run ends with status {answer.status}: {answer.err.strip()[-200:]}")
    sent: list[list[Sent]] = [[] for _ in packets]
    for one in sent_in(answer.out, "srv6 run"):
        sent[one.packet - 1].append(Sent(links.get(one.link), one.content))
    delivered = set()
    for line in answer.err.splitlines():
        said = err_line_of(line)
        if isinstance(said, PacketLine) and said.outcome == "delivered":
            delivered.add(said.number)
    return [Result(tuple(one), number in delivered) for number, one in enumerate(sent, 1)]


def results_of_linux(net: Network, packets: Sequence[bytes], kernel: Kernel) -> list[Result]:
    """What Linux does with each packet, in the namespace of this process."""
    lab = Lab(net, NODE, script_for(net, NODE, kernel))
    return [Result(tuple(lab.give(packet, MARK))) for packet in packets]


def kind_of(ours: Result, linux: Result) -> Kind:
    """How two results differ."""
    if ours.delivered:  # what an upper layer then answers is not of the node's SIDs
        return Kind.PASSED if linux.passes else Kind.SAME
    if ours == linux:
        return Kind.SAME
    if ours.passes:
        return Kind.CHANGED if linux.passes else Kind.LOST
    if linux.passes:
        return Kind.PASSED
    if ours.errors:
        return Kind.ERRORS if linux.errors else Kind.SILENT
    return Kind.LOUD


def lines_of(
    names: Sequence[str], ours: Sequence[Result], linux: Sequence[Result]
) -> Iterator[str]:
    """A line of the table for each packet: kind, name, what srv6 does, what Linux does, what
differs."""
    kinds = [kind_of(one, other) for one, other in zip(ours, linux)]
    pairs = [
        (one.sent[0].content, other.sent[0].content)
        if kind in (Kind.CHANGED, Kind.ERRORS) and one.sent and other.sent
        else (b"", b"")
        for kind, one, other in zip(kinds, ours, linux)
    ]
    differing = packet_differences(pairs)
    for kind, name, one, other, fields in zip(kinds, names, ours, linux, differing):
        words = [kind.value, name, f"srv6 {one}", f"Linux {other}"]
        shown = [field for field in fields if "checksum" not in field]
        more = "; ".join(shown).replace(" in A alone", " by srv6 alone").replace(" in A", "")
        more = more.replace(" in B alone", " by Linux alone").replace(" in B", " by Linux")
        yield " | ".join(words + ([more] if more else []))


def record_of(name: str, result: Result) -> str:
    """What Linux sends of a packet, as a line of the table: in words, and a digest of the bytes."""
    content = b"".join(one.content for one in result.sent)
    digest = hashlib.sha256(content).hexdigest()[:12] if result.sent else "-"
    return f"{name} | {result} | {digest}"


def compared(lines: Sequence[str], table: Sequence[str]) -> Iterator[str]:
    """Where the lines differ from those of the table; of a packet that has several there each is right."""
    known = [line for line in table if line and not line.startswith("#")]
    met = {line.split(" | ")[0] for line in lines if line in known}
    yield from (f"is    {line}" for line in lines if line not in known)
    yield from (f"known {line}" for line in known if line.split(" | ")[0] not in met)


def summary(lines: Sequence[str]) -> Iterator[str]:
    """How many packets there are of each kind."""
    count = Counter(line.split(" | ")[0] for line in lines)
    for kind in Kind:
        yield f"{count[kind.value]:5}  {kind.meaning}"


def missing() -> str | None:
    """What this machine lacks; None where nothing is missing."""
    return missing_for_a_lab() if sys.platform.startswith("linux") else "this is no Linux"


def inside() -> int:
    """Runs the packets in this process's namespace, and writes what Linux sends as JSON."""
    kernel = kernel_of(os.uname().release)
    results = results_of_linux(read_network(NET), [packet for _, packet in cases()], kernel)
    sent = [[[one.link, one.content.hex()] for one in result.sent] for result in results]
    json.dump(sent, sys.stdout)
    return Status.DONE


def from_inside() -> list[Result]:
    """What Linux sends of each packet, found in a namespace of its own."""
    done = subprocess.run(
        in_namespace([sys.executable, *sys.argv[:1]]), capture_output=True, text=True,
        env=os.environ | {INSIDE: "1"},
    )  # fmt: skip
    if done.returncode:
        raise NotHere(" ".join(done.stderr.split())[:200])
    return [
        Result(tuple(Sent(link, bytes.fromhex(content)) for link, content in sent))
        for sent in json.loads(done.stdout)
    ]


def work(words: argparse.Namespace) -> int:
    """Compares Linux with srv6, packet by packet."""
    if os.environ.get(INSIDE):
        return inside()
    if reason := missing():
        print(f"skipped  {reason}")
        return Status.DONE
    try:
        linux = from_inside()
    except NotHere as reason:
        print(f"skipped  {reason}")
        return Status.DONE
    names = [name for name, _ in cases()]
    records = [record_of(name, result) for name, result in zip(names, linux)]
    if words.write:
        print("\n".join(records))
        return Status.DONE
    print(f"{len(names)} packets, Linux {os.uname().release}")
    if find_program():
        ours = results_of_program(NET, [packet for _, packet in cases()])
        lines = list(lines_of(names, ours, linux))
        print("\n".join(lines if words.all else summary(lines)))
    else:
        print("the program srv6 isn't there, so Linux isn't compared with it")
    differing = list(compared(records, read_lines(TABLE)))
    print("\n".join(differing) or "Linux sends what bench/linux-differences.table says")
    return Status.SAYS_NO if differing else Status.DONE


def main(words: Sequence[str] | None = None) -> int:
    """The command."""
    parser = Parser(TOOL, DESCRIPTION)
    parser.add_argument("--all", action="store_true", help="a line for each packet")
    parser.add_argument("--write", action="store_true", help="write the table anew, on out")
    return run_tool(parser, work, sys.argv[1:] if words is None else words)
