"""linux-route: the list of `srv6 compile` as the route that makes Linux a headend of it."""

from __future__ import annotations

import argparse
import shlex
import sys
from collections.abc import Iterator, Sequence

from .command import Parser, run_tool
from .given_list import add_route_words, destinations_of, device_of, given_lines, given_report, write_text
from .intent import Intent, read_intent
from .linux import Kernel, wanted_kernel
from .report import Report

TOOL = "linux-route"
MODES = {"full": "encap", "reduced": "encap.red"}

DESCRIPTION = """\
Turns the list that srv6 compile prints into the route that makes Linux a headend of it. PREFIX
holds the destinations of the inner packets and is of the intent's family; DEV is a network
interface. The one line on out is for Linux' ip; it isn't run. On err stands where Linux as a
headend differs from the intent's headend, of which alone the program speaks."""

MORE = """\
  srv6 compile NET INTENT | linux-route INTENT PREFIX DEV

What it says of the headend stands in ip-route(8) and ip-sr(8) of iproute2 6.1, and in Linux 6.1
in Documentation/networking/seg6-sysctl.rst and net/ipv6/seg6_iptunnel.c; on Linux 6.18 packets
showed the same."""


def route_of(intent: Intent, report: Report, prefix: str, dev: str) -> str:
    """The words of the route."""
    destinations, dev = destinations_of(intent, prefix), device_of(dev)
    listed = ",".join(map(str, report.containers))
    words = ["ip", f"-{intent.family}", "route", "add", str(destinations), "encap", "seg6"]
    return shlex.join([*words, "mode", MODES[intent.mode], "segs", listed, "dev", dev])


def differences(intent: Intent, report: Report, kernel: Kernel) -> Iterator[str]:
    """Where Linux differs, one each, and where it says so."""
    yield (
        f"the outer source is {intent.source} only behind 'ip sr tunsrc set {intent.source}', which"
        " holds for all routes; else it is an address of DEV (ip-sr(8), seg6_iptunnel.c)"
    )
    said = f"whatever the intent says ({intent.hop_limit}; seg6_iptunnel.c)"
    classed = f"whatever the intent says ({intent.traffic_class}; seg6_iptunnel.c)"
    if intent.family == 6:
        yield f"the outer hop limit is the inner packet's, {said}"
        yield f"the outer traffic class is the inner packet's, {classed}"
    else:
        yield f"the outer hop limit is a setting of the route or of the interface, {said}"
        yield f"the outer traffic class is 0, {classed}"
    yield (
        "of a packet that it forwards the headend lowers the outer hop limit, and not the inner"
        f" one: before that the outer one has to be above {report.need + 1} (seg6_iptunnel.c)"
    )
    label = "the inner packet's, 0 or a hash" if intent.family == 6 else "0 or a hash"
    yield (
        f"the outer flow label is {label}, as net.ipv6.seg6_flowlabel says, whatever the intent"
        f" says ({intent.flow_label}; seg6-sysctl.rst)"
    )
    yield (
        f"the encapsulated packet is looked up anew: a route to {report.containers[0]} has to lead"
        " over the first link, and DEV doesn't choose it (seg6_iptunnel.c)"
    )
    yield compressed(kernel)


def compressed(kernel: Kernel) -> str:
    """Which compressed SIDs nodes may have that run this kernel too."""
    if kernel.next_at_end_x:
        return (
            f"of compressed SIDs Linux {kernel.known_as} runs End and End.X with NEXT-CSID, without"
            " PSP, and none of REPLACE-CSID (seen on it)"
        )
    return (
        f"of compressed SIDs Linux {kernel.known_as} runs End with NEXT-CSID alone: no End.X with"
        " it, and none of REPLACE-CSID (ip-route(8)); 6.18 runs End.X too"
    )


def work(words: argparse.Namespace) -> int:
    """Writes the route, and where Linux differs."""
    kernel = wanted_kernel(words.kernel)
    intent = read_intent(words.intent)
    report = given_report(intent, given_lines(words.intent))
    line = route_of(intent, report, words.prefix, words.dev)
    return write_text(TOOL, line, differences(intent, report, kernel))


def main(words: Sequence[str] | None = None) -> int:
    """The command."""
    parser = Parser(TOOL, DESCRIPTION, MORE)
    add_route_words(parser)
    return run_tool(parser, work, sys.argv[1:] if words is None else words)
