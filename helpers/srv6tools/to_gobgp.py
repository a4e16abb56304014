"""to-gobgp: the list of `srv6 compile` as a candidate path of a policy in BGP, for GoBGP."""

from __future__ import annotations

import argparse
import json
import re
import sys
from collections.abc import Sequence
from ipaddress import IPv4Address

from .bgp_policy import CandidatePath
from .command import Fault, Parser, Status, progress, run_tool
from .given_list import given_lines, given_report, remark
from .gobgp_api import Api, add_request
from .headends import unsaid
from .intent import read_intent
from .words import address_word, number_word, place_word

TOOL = "to-gobgp"
NAME = re.compile(r"[!-~]{1,255}")

DESCRIPTION = """\
Turns the list that srv6 compile prints into a candidate path of the policy of COLOR and ENDPOINT
(RFC 9830) for the router HEADEND, and prints the request of GoBGP's API that adds it, AddPath, as
JSON. With --send it adds it to a GoBGP that runs, reads it back as the bytes that neighbours get, and
prints what these say.
On err stands what a candidate path doesn't say, and its headend therefore chooses."""

MORE = """\
  srv6 compile NET INTENT | to-gobgp INTENT 192.0.2.1 10 2001:db8::4 --send localhost:50051

It is for GoBGP 3.10, as Debian 12 has it, whose own command takes no policies: so --send speaks to the
API, and needs the Debian package python3-grpcio. Where the table has another path than was sent the
status is 4."""


def headend_word(text: str) -> IPv4Address:
    """The BGP identifier of a router."""
    try:
        return IPv4Address(text)
    except ValueError:
        raise argparse.ArgumentTypeError(f"{text!r} is no BGP identifier such as 192.0.2.1") from None


def name_word(text: str) -> str:
    """The name of a candidate path."""
    if not NAME.fullmatch(text):
        raise argparse.ArgumentTypeError(f"{text!r} is no name of printable ASCII")
    return text


def work(words: argparse.Namespace) -> int:
    """Writes the request, or sends it and writes what the table has."""
    intent = read_intent(words.intent)
    report = given_report(intent, given_lines(words.intent))
    path = CandidatePath(words.distinguisher, words.color, words.endpoint, tuple(report.containers), words.preference, words.name or "")
    request = add_request(path, words.headend, str(words.next_hop))
    if words.send is None:
        print(json.dumps(request, indent=1), flush=True)
    else:
        send(path, request, words.send)
    return remark(TOOL, unsaid(intent, report))


def send(path: CandidatePath, request: dict, place: str) -> None:
    """Adds the path, and writes what the table has of it."""
    with progress(TOOL, f"asks {place}"):
        api = Api(place)
        api.add(request)
        held = [one for one in api.paths() if one.key == path.key]
    for one in held:
        print("\n".join(one.lines()), flush=True)
    if held != [path]:
        raise Fault(f"GoBGP at {place} has another path than was sent", Status.SAYS_NO)


def main(words: Sequence[str] | None = None) -> int:
    """The command."""
    parser = Parser(TOOL, DESCRIPTION, MORE)
    parser.add_argument("intent", metavar="INTENT", help="the intent of the list")
    parser.add_argument("headend", metavar="HEADEND", type=headend_word, help="the BGP identifier of the router that is to have it")
    parser.add_argument("color", metavar="COLOR", type=number_word, help="the policy's color, a number")
    parser.add_argument("endpoint", metavar="ENDPOINT", type=address_word, help="the policy's endpoint, an IPv6 address")
    parser.add_argument("--distinguisher", metavar="N", type=number_word, default=1, help="tells candidate paths apart; 1")
    parser.add_argument("--preference", metavar="N", type=number_word, default=100, help="the higher one is taken; 100")
    parser.add_argument("--name", metavar="TEXT", type=name_word, help="the candidate path's name")
    parser.add_argument("--next-hop", metavar="ADDRESS", type=address_word, default="::", help="of the update; ::, GoBGP itself")
    parser.add_argument("--send", metavar="HOST:PORT", type=place_word, help="adds it to the GoBGP there")
    return run_tool(parser, work, sys.argv[1:] if words is None else words)
