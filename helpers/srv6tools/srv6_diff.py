"""srv6-diff: where two captures or traces differ, or a trace from the right one, in words."""

from __future__ import annotations

import argparse
import io
import sys
from collections.abc import Iterator, Sequence
from dataclasses import dataclass, replace

from .aligning import aligned
from .capture_formats import CutCapture, NoCapture, TakenFrame, frames_in
from .captures import FRAME_LIMIT, Sent, sent_in
from .command import Fault, Parser, Status, progress, run_tool
from .description import read_network
from .differences import packet_differences
from .files import INPUT_LIMIT, STDIN, read_bytes, read_input
from .link_layers import NotIp, packet_in
from .program import run_program
from .trace import HEAD as TRACE_HEAD
from .trace import Stage, Walk, stage_of, trace_of

TOOL = "srv6-diff"
MOST = 100
FEW = 2
"""Where no more frames differ they are those that stand at one place."""
LINK_LIMIT = 4096
OUTPUT_LIMIT = 4 * INPUT_LIMIT
"""The bytes of a file; what `srv6` writes is longer than its input."""


DESCRIPTION = """\
Says where two captures or two traces differ: which field of which header of which packet. With
--replay NET it runs srv6 replay on one trace and says how the first wrong line differs from the
right one; with one trace alone it reads the answer of srv6 replay on standard input.

Captures that srv6 wrote are compared packet by packet, of others the IP packets of their frames
one by one, of each kind of capture that to-raw reads. Where frames are missing or stand in another
order they are found again by their bytes, their tag or their payload. A is the first file, B the
second, or what srv6 expects."""

MORE = """\
Status 0 says that nothing differs, 4 that something does.

  srv6-diff before.pcap after.pcap
  srv6-diff --replay NET trace
  srv6 replay NET trace | srv6-diff trace

Headers are told apart by srv6 show; what differs is compared byte by byte."""


@dataclass(frozen=True)
class Item:
    """A frame or a line of a trace: what it is called, what is said of it, and its packet."""

    name: str
    facts: dict[str, str]
    packet: bytes


Key = tuple[int, ...]


@dataclass
class Names:
    """Names of links, where a description tells them."""

    links: Sequence[str] = ()

    @classmethod
    def of(cls, net: str | None) -> "Names":
        """The names that a description has; none without one."""
        return cls(list(read_network(net).links) if net else [])

    def link(self, number: int) -> str:
        """The link of a number."""
        if number == 0:
            return "none, as an ICMPv6 error"
        known = number <= len(self.links)
        return f"{number} ({self.links[number - 1]})" if known else str(number)


def items_of_captures(
    contents: Sequence[bytes], paths: Sequence[str], names: Names
) -> list[dict[Key, Item]]:
    """The frames of captures: by packet and place where `srv6` wrote them, else by number."""
    written = [sent_by_srv6(content, path) for content, path in zip(contents, paths)]
    if all(written):
        return [dict(_numbered(sent, names)) for sent in written]
    return [dict(_by_frame(content, path)) for content, path in zip(contents, paths)]


def sent_by_srv6(content: bytes, name: str) -> list[Sent]:
    """The frames of a capture that `srv6` may have written; none of another one."""
    try:
        sent = list(sent_in(content, name))
    except Fault:
        return []
    return sent if all(map(_is_written, sent)) else []


def _by_frame(content: bytes, name: str) -> Iterator[tuple[Key, Item]]:
    """The packets of the frames of a capture of any kind, or one bare IPv6 packet."""
    try:
        for frame in frames_in(io.BytesIO(content)):
            if frame.number > FRAME_LIMIT:
                raise Fault(f"{name}: more than {FRAME_LIMIT} frames")
            yield (frame.number, 0), _item_of_frame(frame)
    except (NoCapture, CutCapture) as fault:
        raise Fault(f"{name}: {fault}") from None


def _item_of_frame(frame: TakenFrame) -> Item:
    facts = {"captured": "in part"} if len(frame.captured) < frame.original else {}
    try:
        return Item(f"frame {frame.number}", facts, packet_in(frame))
    except NotIp as why:
        return Item(f"frame {frame.number}", facts | {"no packet": str(why)}, frame.captured)


def _is_written(sent: Sent) -> bool:
    """Whether a frame may be one that `srv6` wrote: over a link, or an ICMPv6 error."""
    is_error = sent.content[6:7] == b"\x3a" and sent.content[40:41] < b"\x80"
    return is_error if sent.link == 0 else sent.link <= LINK_LIMIT


def _numbered(sent: Sequence[Sent], names: Names) -> Iterator[tuple[Key, Item]]:
    count: dict[int, int] = {}
    for one in sent:
        place = count[one.packet] = count.get(one.packet, 0) + 1
        called = f"packet {one.packet}, send {place}" if one.link else f"packet {one.packet}, error"
        item = Item(f"{called} (frame {one.frame})", {"link": names.link(one.link)}, one.content)
        yield (one.packet, place), item


def items_of_trace(content: bytes, name: str) -> dict[Key, Item]:
    """The lines of a trace, by packet and stage."""
    lines = content.decode("latin-1").split("\n")
    trace = trace_of(lines[:-1] if lines[-1] == "" else lines, name)
    items: dict[Key, Item] = {}
    count: dict[int, int] = {}
    for walk in trace.walks:
        place = count[walk.number] = count.get(walk.number, 0) + 1
        items[walk.number, place, 0] = item_of_walk(walk)
        for number, stage in enumerate(walk.stages, 1):
            items[walk.number, place, number] = item_of_stage(walk, number, stage)
    return items


def item_of_walk(walk: Walk) -> Item:
    """How a packet enters."""
    facts = {"number": str(walk.number), "family": f"IPv{walk.family}", "node": walk.node}
    return Item(f"line {walk.line} (packet {walk.number} as it enters)", facts, walk.packet)


def item_of_stage(walk: Walk, number: int, stage: Stage) -> Item:
    """A stage of a packet."""
    called = f"line {stage.line} (packet {walk.number}, stage {number})"
    return Item(called, facts_of(stage), stage.packet or b"")


def facts_of(stage: Stage) -> dict[str, str]:
    """What a stage's line says beside the packet."""
    facts = {"outcome": stage.kind}
    if stage.sid is not None:
        facts["SID"] = stage.sid
        facts["way on"] = "through its links" if stage.table is None else f"table {stage.table}"
    if stage.link is not None:
        facts["link"] = stage.link
    if stage.reason is not None:
        facts["reason"] = stage.reason
        facts["ICMPv6 error"] = "none" if stage.packet is None else "one"
    if stage.family is not None:
        facts["family"] = f"IPv{stage.family}"
    return facts


Pair = tuple[Item | None, Item | None]


def by_place(one: dict[Key, Item], other: dict[Key, Item]) -> list[Pair]:
    """The items that differ, in the order of their places, each with that of the same place."""
    keys = sorted(one.keys() | other.keys())
    return [(one.get(key), other.get(key)) for key in keys if _differ(one.get(key), other.get(key))]


def by_content(one: dict[Key, Item], other: dict[Key, Item]) -> list[Pair]:
    """The items that differ, each with the one that belongs to it by its bytes, its tag or its payload."""
    items = [[rows[key] for key in sorted(rows)] for rows in (one, other)]
    found: list[Pair] = []
    for here, there, moved in aligned(*([item.packet for item in row] for row in items)):
        left = None if here is None else items[0][here]
        right = None if there is None else items[1][there]
        if left and right and moved:
            left, right = (replace(item, facts=item.facts | {"order": f"as {item.name}"}) for item in (left, right))
        if _differ(left, right):
            found.append((left, right))
    return found


def compared(one: dict[Key, Item], other: dict[Key, Item], most: int, is_capture: bool = False) -> Iterator[str]:
    """What differs between two files; of captures by content where far less differs so."""
    unequal = by_place(one, other)
    if is_capture and len(unequal) > FEW:
        better = by_content(one, other)
        if better and len(unequal) > 2 * len(better) + FEW:
            unequal = better
    both = [place for place, (left, right) in enumerate(unequal[:most]) if left and right]
    packets = packet_differences([(unequal[place][0].packet, unequal[place][1].packet) for place in both])
    said = dict(zip(both, packets))
    for place, (left, right) in enumerate(unequal[:most]):
        yield from _lines_of(left, right, said.get(place, []))
    if len(unequal) > most:
        yield f"and {len(unequal) - most} more that differ (--most N says how many are shown)"


def _differ(one: Item | None, other: Item | None) -> bool:
    if one is None or other is None:
        return True
    return one.packet != other.packet or one.facts != other.facts


def _lines_of(one: Item | None, other: Item | None, packets: list[str]) -> Iterator[str]:
    if one is None or other is None:
        where, found = ("A", one) if one else ("B", other)
        facts = [f"{name} {text}" for name, text in found.facts.items()]
        yield f"{found.name}: in {where} alone: {', '.join([*facts, f'{len(found.packet)} bytes'])}"
        return
    yield one.name if one.name == other.name else f"{one.name}, in B {other.name}"
    for name in dict.fromkeys([*one.facts, *other.facts]):
        left, right = one.facts.get(name, "none"), other.facts.get(name, "none")
        if left != right:
            yield f"  {name} {left} in A, {right} in B"
    yield from (f"  {line}" for line in packets)


def is_trace(content: bytes) -> bool:
    """Whether a file begins as a trace does."""
    return content.startswith(TRACE_HEAD.encode() + b"\n")


def differences_of(paths: Sequence[str], names: Names, most: int) -> list[str]:
    """What differs between two files of one kind."""
    contents = [read_bytes(path, OUTPUT_LIMIT) for path in paths]
    kinds = [is_trace(content) for content in contents]
    if kinds[0] != kinds[1]:
        trace = paths[0] if kinds[0] else paths[1]
        raise Fault(f"{trace} is a trace, and the other file isn't")
    if kinds[0]:
        one, other = (items_of_trace(content, path) for content, path in zip(contents, paths))
        return list(compared(one, other, most))
    one, other = items_of_captures(contents, paths, names)
    return list(compared(one, other, most, is_capture=True))


def explained(path: str, answer: str) -> list[str]:
    """What the answer of `replay` says of a trace, in words; no lines where each line is right."""
    words = answer.split(" ", 2)
    if words[0] == "ok" and len(words) == 3:
        return []
    if words[0] != "no" or len(words) != 3 or not _is_number(words[1]):
        raise Fault(f"{STDIN}: no answer of srv6 replay: {answer[:60]!r}")
    lines = read_bytes(path).decode("latin-1").split("\n")
    number, expected = int(words[1]), words[2]
    if not 1 < number <= len(lines):
        raise Fault(f"{path}: there is no line {number}, of which the answer speaks")
    return list(_explained_line(lines, number, expected))


def _is_number(text: str) -> bool:
    return text.isascii() and text.isdecimal() and len(text) < 10


def _explained_line(lines: list[str], number: int, expected: str) -> Iterator[str]:
    """How a line differs from the right one."""
    walk = next((line for line in reversed(lines[: number - 1]) if line.startswith("packet ")), "")
    packet = walk.split(" ")[1] if walk.count(" ") else "?"
    line, found, right = lines[number - 1], stage_of(lines[number - 1]), stage_of(expected)
    called = f"line {number} (packet {packet})"
    if expected == "ended":
        yield f"{called}: the packet's walk has ended, and a further line follows: {line[:40]!r}"
    elif right is None:
        yield f"{called}: {expected[:60]!r} should stand there"
    elif found is None:
        said = ", ".join(f"{name} {text}" for name, text in facts_of(right).items())
        yield f"{called}: the walk goes on, and {line[:40]!r} stands there; it should be: {said}"
    else:
        items = [Item(called, facts_of(stage), stage.packet or b"") for stage in (found, right)]
        packets = packet_differences([(items[0].packet, items[1].packet)])[0]
        yield from _lines_of(*items, packets)


def replayed(net: str, path: str) -> list[str]:
    """What `replay` says of a trace, in words."""
    answer = run_program(["replay", net, path])
    if answer.status not in (Status.DONE, Status.SAYS_NO):
        said = answer.err.strip() or "a file can't be read"
        raise Fault(f"srv6 replay: {said}", Status(answer.status))
    return explained(path, answer.out.decode("latin-1").rstrip("\n"))


def work(words: argparse.Namespace) -> int:
    """Compares what the words name."""
    names = Names.of(words.net)
    with progress(TOOL, "compares"):
        if words.replay:
            if words.other:
                raise Fault("--replay NET takes one trace", Status.USAGE)
            lines = replayed(words.replay, words.one)
        elif words.other:
            lines = differences_of([words.one, words.other], names, words.most)
        else:
            answer = read_input().decode("latin-1").rstrip("\n")
            lines = explained(words.one, answer)
    for line in lines:
        print(line)
    return Status.SAYS_NO if lines else Status.DONE


def count(text: str) -> int:
    """A number from 1 on."""
    if not _is_number(text) or int(text) < 1:
        raise argparse.ArgumentTypeError(f"{text!r} is no number from 1 on")
    return int(text)


def main(words: Sequence[str] | None = None) -> int:
    """The command."""
    parser = Parser(TOOL, DESCRIPTION, MORE)
    parser.add_argument("one", metavar="A", help="a capture or a trace")
    parser.add_argument("other", metavar="B", nargs="?", help="another one of the same kind")
    parser.add_argument("--replay", metavar="NET", help="run srv6 replay NET A")
    parser.add_argument("--net", metavar="NET", help="the description that has the names of links")
    parser.add_argument(
        "--most", metavar="N", type=count, default=MOST, help=f"items that are shown ({MOST})"
    )
    return run_tool(parser, work, sys.argv[1:] if words is None else words)
