"""to-junos: the list of `srv6 compile` as a policy in the configuration of Junos."""

from __future__ import annotations

import argparse
import sys
from collections.abc import Iterator, Sequence

from .command import Fault, Parser, Status, run_tool
from .files import STDIN
from .given_list import add_policy_words, given_lines, given_report, write_text
from .headends import unsaid
from .intent import read_intent
from .report import Report, certificate_of

TOOL = "to-junos"
FIRST_LINE = "# NO TEST LOADS THIS: it has the forms of Juniper's guide to static SRv6 traffic engineering"
AT = "set protocols source-packet-routing"

DESCRIPTION = """\
Turns the list that srv6 compile prints into a policy of COLOR and ENDPOINT as set commands of Junos, by
the forms that its guide to SRv6 traffic engineering has; no test loads them. Each segment of the list is
a SID there, also one that is a container of NEXT-CSIDs; of a list with a container that is no address of
a SID, of REPLACE-CSIDs, the status is 3. On err stands what a policy doesn't say, and its headend
therefore chooses."""

MORE = """\
  srv6 compile NET INTENT | to-junos INTENT 10 2001:db8::4 --name red"""


def judge(report: Report, lines: Sequence[str]) -> None:
    """A fault where a segment isn't an address of the SID that begins in it."""
    begins = [step.prefix for step in certificate_of(lines, STDIN).path if not step.stays]
    for segment, sid in zip(report.containers, begins, strict=False):
        if segment not in sid:
            why = "packed REPLACE-CSIDs, which Junos' guide doesn't have"
            raise Fault(f"the segment {segment} is no address of a SID: {why}", Status.NO_ANSWER)


def policy_lines(words: argparse.Namespace, report: Report) -> Iterator[str]:
    """The commands."""
    path, listed = f"{AT} source-routing-path {words.name}", f"{AT} segment-list {words.name}"
    yield FIRST_LINE
    yield f"{AT} srv6"
    yield f"{listed} srv6"
    for number, segment in enumerate(report.containers, 1):
        yield f"{listed} hop{number} srv6-sid {segment}"
    yield f"{path} srv6"
    yield f"{path} to {words.endpoint}"
    yield f"{path} color {words.color}"
    yield f"{path} primary {words.name}"


def work(words: argparse.Namespace) -> int:
    """Writes the commands, and what they don't say."""
    intent = read_intent(words.intent)
    lines = given_lines(words.intent)
    report = given_report(intent, lines)
    judge(report, lines)
    return write_text(TOOL, "\n".join(policy_lines(words, report)), unsaid(intent, report))


def main(words: Sequence[str] | None = None) -> int:
    """The command."""
    parser = Parser(TOOL, DESCRIPTION, MORE)
    add_policy_words(parser)
    return run_tool(parser, work, sys.argv[1:] if words is None else words)
