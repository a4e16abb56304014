"""conform: a device's data plane held against a node, packet by packet."""

from __future__ import annotations

import argparse
import json
import sys
from collections.abc import Sequence
from pathlib import Path

from .adapters import WORDS, Adapter, adapter_of
from .captures import raw_capture
from .command import Fault, Parser, Status, progress, run_tool, tool_name
from .conform_report import Report, decoded, json_of, junit_of, table_of
from .coverage import Doing, Seer
from .description import Network, read_network
from .node_cases import Case
from .packets import covering_set, number
from .profiles import SHIPPED, Profile, read_profile
from .program import judge_description
from .shrinking import Shown, shrunk
from .verdicts import DIFFERS, NOT_ASKED, Answer, Got, Judge, Verdict, sorted_answers

TOOL = "conform"
MOST = 50

DESCRIPTION = f"""\
Gives a device the packets of helpers/packets for a node, and compares what it sends of each with what the node does (srv6
trace), by content and not by order. It goes on after a difference. The report says by behaviour, flavour and reason how many
packets are treated the same; of each difference the smallest packet that shows it. ADAPTER is one of
{WORDS}; docs/CONFORMANCE.md has them."""

MORE = """\
A profile declares what the device does otherwise on purpose; what it declares is counted apart. There are none and linux, or it
is a file. Status 0 says that nothing else differs, 1 that something does, or that a file is refused.

  helpers/conform examples/behaviours.toml N --dut linux --profile linux
  helpers/conform NET NODE --dut pcap:./my-plane --junit report.xml --keep differences"""


class Bench:
    """A device beside a node."""

    def __init__(self, net: Network, node: str, path: str, adapter: Adapter, profile: Profile) -> None:
        self.net, self.node, self.adapter, self.profile = net, node, adapter, profile
        self.seer = Seer(net, node, path)
        self.address = net.nodes[node].address
        self.judge = Judge(self.seer, profile, self.address)
        self.strays: list[Answer] = []  # what the device sent last of no packet

    def why_not(self, case: Case, doings: Sequence[Doing]) -> str | None:
        """Why a packet isn't given to the device; None where it is."""
        if len(case.packet) > self.adapter.largest:
            return f"the adapter takes packets of at most {self.adapter.largest} bytes"
        for doing in doings:
            if doing.outcome in ("unending", "not read"):
                return "the node's treatment has no end" if doing.outcome == "unending" else "it is no packet of a capture"
            for sid in doing.sids:
                if why := self.adapter.left_out.get(sid):
                    return f"the device has no SID {sid}: {why}"
        return None

    def tried(self, cases: Sequence[Case], doings: Sequence[Sequence[Doing]]) -> list[Shown]:
        """What comes of packets."""
        whys = [self.why_not(case, some) for case, some in zip(cases, doings)]
        asked = [place for place, why in enumerate(whys) if why is None]
        answers = self.adapter.answers([(cases[place].number, cases[place].packet) for place in asked]) if asked else []
        expected = {cases[place].number: doings[place] for place in asked}
        got, self.strays = sorted_answers(expected, answers, self.address)
        verdicts = self.judge.verdicts([cases[place] for place in asked], [doings[place] for place in asked], got)
        by_place = dict(zip(asked, verdicts))
        shown = []
        for place, (case, some) in enumerate(zip(cases, doings)):
            verdict = by_place.get(place) or Verdict(NOT_ASKED, why=whys[place] or "")
            shown.append(Shown(case, tuple(some), got.get(case.number, Got()), verdict))
        return shown

    def again(self, cases: Sequence[Case]) -> list[Shown]:
        """What comes of packets of which the program is asked too."""
        return self.tried(cases, self.seer.doings([case.packet for case in cases]))


def reported(bench: Bench, cases: Sequence[Case], doings: Sequence[Sequence[Doing]], report: Report, most: int) -> Report:
    """Fills in the report of a set of packets."""
    report.shown = bench.tried(cases, doings)
    report.strays = list(bench.strays)
    first: dict[tuple[str, str, str], Shown] = {}
    for one in sorted(report.shown, key=lambda shown: len(shown.case.packet)):
        if one.verdict.said == DIFFERS:
            first.setdefault(one.fault, one)
    faults = sorted(first.values(), key=lambda one: one.case.number)
    report.faults = shrunk(faults[:most], bench.again) + faults[most:]
    return report


def keep(folder: Path, report: Report) -> None:
    """Writes of each difference the packet and both answers."""
    try:
        folder.mkdir(parents=True, exist_ok=True)
        for at, fault in enumerate(report.faults, 1):
            packet = b"".join(raw_capture([(fault.case.number, 0, fault.case.packet)]))
            (folder / f"difference-{at}.pcap").write_bytes(packet)
            (folder / f"difference-{at}.txt").write_text(decoded(fault))
    except OSError as fault:
        raise Fault(f"{fault.filename or folder}: {fault.strerror or fault}", Status.OUTSIDE_FAULT) from None


def write_text(path: str, text: str) -> None:
    """Writes a file."""
    try:
        Path(path).write_text(text)
    except OSError as fault:
        raise Fault(f"{path}: {fault.strerror or fault}", Status.OUTSIDE_FAULT) from None


def work(words: argparse.Namespace) -> int:
    """Compares, and reports."""
    profile = read_profile(words.profile)
    with progress(TOOL, f"gives packets to {words.dut}"):
        judge_description(words.net)
        net = read_network(words.net)
        if words.node not in net.nodes:
            raise Fault(f"{words.net}: no node is called {words.node!r}; there are {', '.join(list(net.nodes)[:12]) or 'none'}")
        adapter = adapter_of(words.dut, net, words.node)
        made = covering_set(net, words.node, words.net, words.seed, words.more)
        bench = Bench(net, words.node, words.net, adapter, profile)
        report = Report(words.net, words.node, words.dut, profile.name, seed=words.seed)
        reported(bench, made.cases, made.doings, report, words.most)
    if words.junit:
        write_text(words.junit, junit_of(report))
    if words.keep:
        keep(Path(words.keep), report)
    if words.json:
        print(json.dumps(json_of(report), indent=1))
    else:
        print("\n".join(table_of(report, words.pairs)))
    return Status.REFUSED if report.failed else Status.DONE


def main(words: Sequence[str] | None = None) -> int:
    """The command."""
    parser = Parser(TOOL, DESCRIPTION.replace("helpers/packets", tool_name("packets")), MORE.replace("helpers/conform", tool_name(TOOL)))
    parser.add_argument("net", metavar="NET", help="the description")
    parser.add_argument("node", metavar="NODE", help="the name of a node")
    parser.add_argument("--dut", metavar="ADAPTER", required=True, help="the way to the device")
    parser.add_argument("--profile", metavar="PROFILE", default="none", help=f"a file, or {' or '.join(SHIPPED)} (none)")
    parser.add_argument("--pairs", action="store_true", help="a row of the table for what comes of each, by reason, too")
    parser.add_argument("--json", action="store_true", help="the report as JSON")
    parser.add_argument("--junit", metavar="FILE", help="write the report as JUnit XML too")
    parser.add_argument("--keep", metavar="FOLDER", help="write of each difference the packet, and both answers side by side")
    parser.add_argument("--seed", metavar="N", type=number, default=0, help="the seed of --more (0)")
    parser.add_argument("--more", metavar="N", type=number, default=0, help="further packets, with bytes changed (0)")
    parser.add_argument("--most", metavar="N", type=number, default=MOST, help=f"differences that are made small ({MOST})")
    return run_tool(parser, work, sys.argv[1:] if words is None else words)
