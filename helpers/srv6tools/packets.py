"""packets: a covering set of packets for a node, with what the node does of each."""

from __future__ import annotations

import argparse
import json
import random
import sys
from collections.abc import Iterator, Sequence
from dataclasses import dataclass, field
from pathlib import Path
from typing import Any

from .captures import FRAME_LIMIT, raw_capture
from .chains import retagged
from .command import Fault, Parser, Status, positive, progress, run_tool, tool_name
from .coverage import Doing, Pair, Seer, Universe
from .description import MOST_MTU, Network, read_network
from .node_cases import BYTES_CHANGED, Case, Maker
from .program import judge_description
from .tagging import lengthened

TOOL = "packets"
NOT_SHOWN = "no packet of this set shows it"

DESCRIPTION = """\
Writes a capture of packets for one node of a network: to each SID, to its address, over its routes, and to nowhere, with
headers, segments, options, items, hop limits, sizes and inner packets at and beyond each bound. What the node does with each
the program says (srv6 trace). With --manifest a file says of each packet what it exercises and what the node sends; and which
pairs of what is met and what comes of it are shown, and which can't be, and why."""

MORE = """\
Each packet has its number as a tag: in the flow label, in the identification of IPv4, and behind the mark "srv6" in the
payload. With --more N as many further packets follow, which are packets of the set with bytes changed by --seed.

  helpers/packets --manifest set.json examples/behaviours.toml N > set.pcap
  srv6 run examples/behaviours.toml N < set.pcap > out.pcap"""


@dataclass
class CoveringSet:
    """The packets of a set, what the node does of each, and which pairs they show."""

    net: Network
    node: str
    seed: int = 0
    cases: list[Case] = field(default_factory=list)
    doings: list[list[Doing]] = field(default_factory=list)

    @property
    def met(self) -> dict[Pair, list[int]]:
        """The pairs that are shown, with the packets that show them."""
        found: dict[Pair, list[int]] = {}
        for case, doings in zip(self.cases, self.doings):
            for pair in dict.fromkeys(pair for doing in doings for pair in doing.pairs):
                found.setdefault(pair, []).append(case.number)
        return found

    def unmet(self) -> list[tuple[Pair, str]]:
        """The pairs that aren't shown, each with the reason."""
        met, universe = self.met, Universe(self.net, self.node)
        return [(pair, why or NOT_SHOWN) for pair, why in universe.pairs() if pair not in met]

    def capture(self) -> bytes:
        """The packets as a capture."""
        return b"".join(raw_capture((case.number, 0, case.packet) for case in self.cases))


def covering_set(net: Network, node: str, path: str | Path, seed: int = 0, more: int = 0) -> CoveringSet:
    """The covering set of a node, found by asking the program."""
    if node not in net.nodes:
        names = ", ".join(list(net.nodes)[:12])
        raise Fault(f"{path}: no node is called {node!r}; there are {names or 'none'}")
    made, seer, maker = CoveringSet(net, node, seed), Seer(net, node, path), Maker(net, node)
    for to, exercises, packet in maker.all():
        made.cases.append(Case(maker.tag, to, exercises, packet))
        maker.tag += 1
    if len(made.cases) + more > FRAME_LIMIT:
        raise Fault(f"{path}: node {node}: {len(made.cases)} packets and {more} more, and a capture has {FRAME_LIMIT}")
    made.doings = seer.doings([case.packet for case in made.cases])
    sized = list(_of_sizes(made, maker))
    further = list(_further(made, maker, random.Random(seed), more))
    made.doings += seer.doings([case.packet for case in (*sized, *further)])
    made.cases += [*sized, *further]
    if len(made.cases) > FRAME_LIMIT:
        raise Fault(f"{path}: node {node}: {len(made.cases)} packets, and a capture has {FRAME_LIMIT}")
    return made


SIZED = {"a segment left", "shift", "index 0, a segment left", "a whole segment", "IPv6 inside", "IPv4 inside", "sent on"}
"""What packets exercise that are made as long as an MTU; behind it a link may be named."""


def _of_sizes(made: CoveringSet, maker: Maker) -> Iterator[Case]:
    """Packets that are as long as a link's MTU where they are sent on it, and longer by one byte."""
    for case, doings in list(zip(made.cases, made.doings)):
        if case.exercises.split(", over ")[0] not in SIZED:
            continue
        for link, content in dict.fromkeys((doing.link, doing.content) for doing in doings if doing.outcome == "sent"):
            mtu = made.net.links[link or ""].mtu
            if mtu == MOST_MTU or content is None:
                continue
            for size in (mtu, mtu + 1):
                more = size - len(content)
                if more >= 0 and len(case.packet) + more <= MOST_MTU:
                    packet = lengthened(retagged(case.packet, case.number, maker.tag), more)
                    yield Case(maker.tag, case.to, f"{case.exercises}, {size} bytes over {link}", packet)
                    maker.tag += 1


def _further(made: CoveringSet, maker: Maker, chance: random.Random, more: int) -> Iterator[Case]:
    """Packets of the set in which some bytes are changed."""
    small = [case for case in made.cases if len(case.packet) <= 400]
    for _ in range(more):
        case = chance.choice(small)
        content = bytearray(retagged(case.packet, case.number, maker.tag))
        places = [at for at in range(4, len(content)) if not 24 <= at < 32]
        for _ in range(chance.randint(1, 3)):
            if places:
                content[chance.choice(places)] = chance.choice((0, 1, 2, 4, 41, 43, 44, 60, 255, chance.randrange(256)))
        yield Case(maker.tag, case.to, case.exercises + BYTES_CHANGED, bytes(content))
        maker.tag += 1


def manifest_of(made: CoveringSet) -> dict[str, Any]:
    """The set as JSON."""
    met = made.met
    return {
        "srv6": "packets 1",
        "net": made.net.path,
        "node": made.node,
        "seed": made.seed,
        "packets": [
            {
                "packet": case.number, "to": case.to, "exercises": case.exercises, "bytes": case.packet.hex(),
                "expected": [_expected(doing) for doing in doings],
            }
            for case, doings in zip(made.cases, made.doings)
        ],
        "met": [{"met": pair.met, "outcome": pair.outcome, "packets": met[pair]} for pair in sorted(met)],
        "unmet": [{"met": pair.met, "outcome": pair.outcome, "why": why} for pair, why in made.unmet()],
    }  # fmt: skip


def _expected(doing: Doing) -> dict[str, Any]:
    """What the node does under one choice, as JSON."""
    said: dict[str, Any] = {"outcome": doing.outcome}
    if doing.outcome == "sent":
        said |= {"link": doing.link, "bytes": (doing.content or b"").hex()}
    if doing.outcome == "dropped":
        said |= {"reason": doing.reason, "error": doing.content.hex() if doing.content else None}
    return said | {"pairs": [str(pair) for pair in doing.pairs]}


def work(words: argparse.Namespace) -> int:
    """Writes the capture on `out`, and what isn't shown on `err`."""
    with progress(TOOL, f"asks srv6 what {words.node} does"):
        judge_description(words.net)
        made = covering_set(read_network(words.net), words.node, words.net, words.seed, words.more)
    if words.manifest:
        text = json.dumps(manifest_of(made), indent=1) + "\n"
        try:
            Path(words.manifest).write_text(text)
        except OSError as fault:
            raise Fault(f"{words.manifest}: {fault.strerror or fault}", Status.OUTSIDE_FAULT) from None
    sys.stdout.buffer.write(made.capture())
    sys.stdout.flush()
    unmet = made.unmet()
    open_ones = [pair for pair, why in unmet if why == NOT_SHOWN]
    print(f"{TOOL}: {len(made.cases)} packets; {len(made.met)} pairs are met, {len(unmet) - len(open_ones)} can't be,"
          f" {len(open_ones)} aren't", file=sys.stderr)  # fmt: skip
    for pair in open_ones:
        print(f"{TOOL}: not met: {pair}", file=sys.stderr)
    return Status.DONE


def number(text: str) -> int:
    """A number from 0 on."""
    return 0 if text == "0" else positive(text)


def main(words: Sequence[str] | None = None) -> int:
    """The command."""
    parser = Parser(TOOL, DESCRIPTION, MORE.replace("helpers/packets", tool_name(TOOL)))
    parser.add_argument("net", metavar="NET", help="the description")
    parser.add_argument("node", metavar="NODE", help="the name of a node")
    parser.add_argument("--manifest", metavar="FILE", help="write what each packet is for, as JSON")
    parser.add_argument("--seed", metavar="N", type=number, default=0, help="the seed of --more (0)")
    parser.add_argument("--more", metavar="N", type=number, default=0, help="further packets, with bytes changed (0)")
    return run_tool(parser, work, sys.argv[1:] if words is None else words)
