"""The list on standard input that tools for headends turn into the words of one: `srv6 compile` printed it. And what these
tools share as commands.
"""

import re
import sys
from collections.abc import Iterable
from ipaddress import IPv4Network, IPv6Network
from pathlib import Path

from .command import Fault, Parser, Status
from .files import FILE_LIMIT, STDIN, decoded, read_input
from .intent import Intent
from .items import Prefix
from .linux import KERNEL_HELP
from .lists_file import is_lists, lists_of
from .report import Report, report_of
from .words import address_word, name_word, number_word

NETWORKS = {6: IPv6Network, 4: IPv4Network}
DEVICE = re.compile(r"[A-Za-z0-9_.-]{1,15}")


def given_lines(intent: str) -> list[str]:
    """The lines of the report and the certificate on the input; of a file of lists the report of the
    list that has the name of the intent's file.
    """
    content = read_input()
    if is_lists(content):
        name = Path(intent).stem
        for one in lists_of(decoded(content, STDIN), STDIN):
            if one.name == name:
                return one.report().splitlines()
        raise Fault(f"{STDIN}: no list is called {name!r}, as the file of the intent is")
    if len(content) > FILE_LIMIT:
        raise Fault(f"{STDIN}: more than {FILE_LIMIT} bytes")
    return decoded(content, STDIN).splitlines()


def given_report(intent: Intent, lines: list[str]) -> Report:
    """The report of a list that keeps the intent's limits; a fault where there is none."""
    report = report_of(lines, STDIN)
    if not report.has_list:
        raise Fault("the intent has no list", Status.NO_ANSWER)
    if len(report.containers) > intent.max_containers or report.need >= intent.hop_limit:
        raise Fault("the list is outside the intent's limits", Status.NO_ANSWER)
    return report


def destinations_of(intent: Intent, prefix: str) -> Prefix:
    """The prefix of the inner packets' destinations, which is of the intent's family."""
    try:
        return NETWORKS[intent.family](prefix)
    except ValueError as fault:
        raise Fault(f"no prefix of the intent's family: {fault}", Status.USAGE) from None


def device_of(dev: str) -> str:
    """The name of a network interface of Linux."""
    if not DEVICE.fullmatch(dev):
        raise Fault(f"no name of an interface: {dev!r}", Status.USAGE)
    return dev


def add_route_words(parser: Parser) -> None:
    """The words of a tool that writes a route of Linux."""
    parser.add_argument("intent", metavar="INTENT", help="the intent of the list")
    parser.add_argument("prefix", metavar="PREFIX", help="the destinations of inner packets")
    parser.add_argument("dev", metavar="DEV", help="an interface of the headend")
    parser.add_argument("--kernel", metavar="VERSION", help=KERNEL_HELP)


def add_policy_words(parser: Parser) -> None:
    """The words of a tool that writes a policy with a name as text."""
    parser.add_argument("intent", metavar="INTENT", help="the intent of the list")
    parser.add_argument("color", metavar="COLOR", type=number_word, help="the policy's color, a number")
    parser.add_argument("endpoint", metavar="ENDPOINT", type=address_word, help="the policy's endpoint, an IPv6 address")
    parser.add_argument("--name", metavar="NAME", type=name_word, default="compiled", help="of the policy and its list; compiled")


def write_text(tool: str, text: str, remarks: Iterable[str]) -> Status:
    """Writes what a headend takes, and on `err` where it does something else, or chooses by itself."""
    print(text, flush=True)
    return remark(tool, remarks)


def remark(tool: str, remarks: Iterable[str]) -> Status:
    """Writes remarks on `err`, a line each."""
    for one in remarks:
        print(f"{tool}: {one}", file=sys.stderr)
    return Status.DONE
