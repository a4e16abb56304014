"""to-frr: the list of `srv6 compile` as the static route that makes a router of FRR a headend of it."""

from __future__ import annotations

import argparse
import sys
from collections.abc import Iterator, Sequence
from ipaddress import IPv6Address

from .command import Fault, Parser, Status, run_tool
from .given_list import add_route_words, destinations_of, device_of, given_lines, given_report, write_text
from .intent import Intent, read_intent
from .linux import wanted_kernel
from .linux_route import differences as linux_differences
from .report import Report
from .words import address_word

TOOL = "to-frr"
MOST_SEGMENTS = 8

DESCRIPTION = """\
Turns the list that srv6 compile prints into a static route of FRR, a line of its configuration.
PREFIX holds the destinations of the inner packets; DEV is a network interface. It is for FRR 10.3,
as Debian 13 has it; FRR 8.4, of Debian 12, has no such command, and linux-route makes the route
there. On err stands where a headend of FRR differs from the intent's, of which alone the program
speaks."""

MORE = """\
  srv6 compile NET INTENT | to-frr INTENT PREFIX DEV > list.conf
  vtysh -f list.conf

Seen on FRR 10.3 with Linux 6.18: the route is taken, shown, and put into the kernel. A route of IPv4
with segments is not taken. One of more than 8 segments is taken and isn't put into the kernel, and
of more than 11 the rest is cut: such a list has status 3."""


def route_of(intent: Intent, report: Report, prefix: str, dev: str, via: IPv6Address | None) -> str:
    """The line of the route."""
    destinations = destinations_of(intent, prefix)
    hop = [str(via), device_of(dev)] if via else [device_of(dev)]
    segments = "/".join(map(str, report.containers))
    return " ".join(["ipv6", "route", str(destinations), *hop, "segments", segments])


def judge(intent: Intent, report: Report) -> None:
    """A fault where FRR takes no such list."""
    if intent.family == 4:
        why = "ip route .. segments is an unknown command"
        raise Fault(f"FRR 10.3 takes segments in routes of IPv6 alone ({why})", Status.NO_ANSWER)
    if (count := len(report.containers)) > MOST_SEGMENTS:
        why = "a longer one fails to install, and is cut behind the 11th"
        what = f"FRR 10.3 puts lists of {MOST_SEGMENTS} segments at most into the kernel"
        raise Fault(f"{what}, and this one has {count}; {why}", Status.NO_ANSWER)


def differences(intent: Intent, report: Report, kernel: str | None) -> Iterator[str]:
    """Where a headend of FRR differs: its routes are Linux' in the end."""
    if intent.mode == "reduced":
        header = 48 + 16 * len(report.containers)
        what = "FRR puts on the whole header, mode encap, and the intent says reduced"
        yield f"{what}: it has {header} bytes, not {report.header} (seen on 10.3)"
    yield from linux_differences(intent, report, wanted_kernel(kernel))


def work(words: argparse.Namespace) -> int:
    """Writes the route, and where the headend differs."""
    wanted_kernel(words.kernel)
    intent = read_intent(words.intent)
    report = given_report(intent, given_lines(words.intent))
    line = route_of(intent, report, words.prefix, words.dev, words.via)
    judge(intent, report)
    return write_text(TOOL, line, differences(intent, report, words.kernel))


def main(words: Sequence[str] | None = None) -> int:
    """The command."""
    parser = Parser(TOOL, DESCRIPTION, MORE)
    add_route_words(parser)
    parser.add_argument("--via", metavar="ADDRESS", type=address_word, help="the next hop over DEV")
    return run_tool(parser, work, sys.argv[1:] if words is None else words)
