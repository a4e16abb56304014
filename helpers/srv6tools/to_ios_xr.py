"""to-ios-xr: the list of `srv6 compile` as a policy in the configuration of IOS XR."""

from __future__ import annotations

import argparse
import sys
from collections.abc import Iterator, Sequence
from ipaddress import IPv6Address, IPv6Network

from .command import Fault, Parser, Status, run_tool
from .files import STDIN
from .given_list import add_policy_words, given_lines, given_report, write_text
from .headends import unsaid
from .intent import read_intent
from .report import Report, certificate_of
from .words import name_word, number_word

TOOL = "to-ios-xr"
BLOCK, CSID, CONTAINER = 32, 16, 128  # bits, by the format F3216
FIRST_LINE = "!! NO TEST LOADS THIS: it has the forms of Cisco's guide to SRv6 traffic engineering with uSIDs"

DESCRIPTION = """\
Turns the list that srv6 compile prints into a policy of COLOR and ENDPOINT in the configuration of
IOS XR, by the forms that its guide to SRv6 traffic engineering has; no test loads it. The list's SIDs
stand each on a line, since IOS XR packs them by itself; so they have to be uSIDs of the format F3216, a
block of 32 bits and 16 for each, and what IOS XR makes of them has to be the list: else the status is 3.
On err stands what a policy doesn't say, and its headend therefore chooses."""

MORE = """\
  srv6 compile NET INTENT | to-ios-xr INTENT 10 2001:db8::4 --locator MAIN"""


def packed(sids: Sequence[IPv6Network]) -> list[IPv6Address]:
    """The containers of uSIDs: each as full as can be, behind the block of the first one in it."""
    values: list[int] = []
    left = 0
    for sid in sids:
        value, width = int(sid.network_address), sid.prefixlen - BLOCK
        block = value >> CONTAINER - BLOCK
        if left >= width and values[-1] >> CONTAINER - BLOCK == block:
            values[-1] |= (value << BLOCK & (1 << CONTAINER) - 1) >> CONTAINER - left
        else:
            values.append(value)
            left = CONTAINER - BLOCK
        left -= width
    return [IPv6Address(value) for value in values]


def usids(report: Report, sids: Sequence[IPv6Network]) -> None:
    """A fault where the SIDs are none of F3216, or packed make another list."""
    for sid in sids:
        if sid.prefixlen not in (BLOCK + CSID, BLOCK + 2 * CSID):
            raise Fault(f"{sid} is no uSID of the format F3216, which has {BLOCK} and {CSID} bits", Status.NO_ANSWER)
    if (made := packed(sids)) != report.containers:
        listed = ", ".join(map(str, made))
        raise Fault(f"IOS XR would pack these SIDs into other segments: {listed}", Status.NO_ANSWER)


def policy_lines(words: argparse.Namespace, sids: Sequence[IPv6Network]) -> Iterator[str]:
    """The lines of the configuration, each with its depth in front as blanks."""
    yield FIRST_LINE
    yield "segment-routing"
    yield " traffic-eng"
    yield "  segment-lists"
    yield "   srv6"
    yield "    sid-format usid-f3216"
    yield "   !"
    yield f"   segment-list {words.name}"
    yield "    srv6"
    for number, sid in enumerate(sids, 1):
        yield f"     index {10 * number} sid {sid.network_address}"
    yield from ("    !", "   !", "  !")
    yield f"  policy {words.name}"
    if words.locator:
        yield "   srv6"
        yield f"    locator {words.locator} binding-sid dynamic behavior ub6-insert-reduced"
        yield "   !"
    yield f"   color {words.color} end-point ipv6 {words.endpoint}"
    yield "   candidate-paths"
    yield f"    preference {words.preference}"
    yield f"     explicit segment-list {words.name}"
    yield from ("     !", "    !", "   !", "  !", " !", "!")


def work(words: argparse.Namespace) -> int:
    """Writes the configuration, and what it doesn't say."""
    intent = read_intent(words.intent)
    lines = given_lines(words.intent)
    report = given_report(intent, lines)
    sids = [step.prefix for step in certificate_of(lines, STDIN).path]
    usids(report, sids)
    return write_text(TOOL, "\n".join(policy_lines(words, sids)), unsaid(intent, report))


def main(words: Sequence[str] | None = None) -> int:
    """The command."""
    parser = Parser(TOOL, DESCRIPTION, MORE)
    add_policy_words(parser)
    parser.add_argument("--preference", metavar="N", type=number_word, default=100, help="of the candidate path; 100")
    parser.add_argument("--locator", metavar="NAME", type=name_word, help="the locator of the policy's binding SID")
    return run_tool(parser, work, sys.argv[1:] if words is None else words)
