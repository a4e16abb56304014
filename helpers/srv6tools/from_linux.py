"""from-linux: the routes of a Linux router, as `ip -j` writes them, as a node of a description."""

from __future__ import annotations

import argparse
import re
import sys
from collections.abc import Iterable, Iterator, Sequence
from ipaddress import IPv6Address

from .command import Fault, Parser, Status, progress, run_tool
from .files import INPUT_LIMIT, STDIN, read_bytes, read_input
from .ip_json import LOCAL, LinuxRoute, LinuxRule, Unread, routes_in, rules_in
from .items import address_of
from .linux_reading import Links, Reading, tables_of
from .linux_rules import Vrfs, put_before_main, rules_before_main, vrfs_in
from .toml_writer import lined_text

TOOL = "from-linux"
NAME = re.compile(r"[A-Za-z0-9_.-]{1,32}")

DESCRIPTION = """\
Writes the routes and SIDs of a Linux router as a node of a description, from the JSON of
`ip -6 -j route show table all`, which is IN, or standard input without one. Each interface is a
link, and where routes name several neighbours on one, each of them is; it leaves the network where
--link names no node. What a description doesn't have is left out, and named on err; docs/LINUX.md
says where Linux differs in what it does."""

MORE = """\
Several nodes make a network: their texts one after the other, where --link says where links lead.

  ip -6 -j route show table all > six; ip -4 -j route show table all > four
  from-linux --node A --ipv4 four --link eth0=ab:B six > a.toml

Routes of other tables than the main one, as of VRFs, are routes of tables of these numbers. Where
rules lead packets to some destinations into a table before the main one, `ip -6 -j rule > rules` and
--rules rules put what they find there into table 0 too; other rules are named. `ip -d -j link > links`
and --vrfs links say which interfaces belong to VRFs: packets that come in there are looked up in
their tables, which a description can't say. Where all SIDs are left out for their tables the status
is 3.

What is known of Linux is that of 6.18, whose output was read, with iproute2 6.1."""


def own_address(routes: Iterable[LinuxRoute]) -> IPv6Address:
    """The one address that the router has beside those of its links and of loopback."""
    found = {
        route.prefix[0]
        for route in routes
        if route.kind == LOCAL and route.prefix.version == 6 and route.prefix.prefixlen == 128
        and not route.prefix.is_link_local and not route.prefix.is_loopback
        and all(hop.interface == "lo" for hop in route.hops)
    }  # fmt: skip
    if len(found) != 1:
        listed = ", ".join(sorted(map(str, found))[:6]) or "none in IN"
        raise Fault(f"--address has to say which address the node has: {listed}", Status.USAGE)
    return found.pop()


def link_word(text: str) -> tuple[str, tuple[str, str | None]]:
    """INTERFACE[@NEIGHBOUR]=LINK[:NODE]."""
    interface, equals, rest = text.partition("=")
    name, colon, end = rest.partition(":")
    words = [name, end] if colon else [name]
    if not equals or not interface or not all(NAME.fullmatch(word) for word in words):
        raise argparse.ArgumentTypeError(f"{text!r} is no INTERFACE=LINK or INTERFACE=LINK:NODE")
    return interface, (name, end or None)


def address_word(text: str) -> IPv6Address:
    """An IPv6 address."""
    try:
        return address_of(text)
    except ValueError:
        raise argparse.ArgumentTypeError(f"{text!r} is no IPv6 address") from None


def node_word(text: str) -> str:
    """The name of a node."""
    if not NAME.fullmatch(text):
        raise argparse.ArgumentTypeError(f"{text!r} is no name of a node")
    return text


def listed(name: str, family: int, notes: list[str]) -> Iterator[LinuxRoute]:
    """The routes of a file of `ip`; those that can't be read are noted."""
    content = read_input() if name == "-" else read_bytes(name, INPUT_LIMIT)
    called = STDIN if name == "-" else name
    for route in routes_in(content, called, family):
        if isinstance(route, Unread):
            notes.append(f"{called}: route {route.number}: {route.why}")
        else:
            yield route


def asked_first(words: argparse.Namespace, notes: list[str]) -> list[LinuxRule]:
    """The rules that lead into tables before the main one."""
    found = []
    for path, family in ((words.rules, 6), (words.ipv4_rules, 4)):
        if path:
            rules = rules_in(read_bytes(path, INPUT_LIMIT), path, family)
            found += rules_before_main(rules, path, bool(words.vrfs), notes)
    return found


def described(words: argparse.Namespace, notes: list[str]) -> tuple[str, bool]:
    """The description of the router that the words name, and whether it lacks SIDs that stand in other tables."""
    routes = list(listed(words.routes, 6, notes))
    if words.ipv4:
        routes += listed(words.ipv4, 4, notes)
    address = words.address or own_address(routes)
    vrfs = vrfs_in(read_bytes(words.vrfs, INPUT_LIMIT), words.vrfs) if words.vrfs else Vrfs()
    notes += vrfs.notes(words.vrfs)
    routes = put_before_main(routes, asked_first(words, notes), notes)
    links = Links(words.node, dict(words.link or ()))
    reading = Reading(words.node, address, words.source or address, links, routes, frozenset(words.sid_table or ()), vrfs.tables)
    reading.made.notes = notes
    reading.read()
    return lined_text(tables_of(reading)), bool(reading.made.elsewhere and not reading.made.sids)


def work(words: argparse.Namespace) -> int:
    """Reads the routes and writes the description."""
    notes: list[str] = []
    with progress(TOOL, "reads the routes"):
        text, lacks_sids = described(words, notes)
    sys.stdout.write(text)
    sys.stdout.flush()
    for note in notes:
        print(f"{TOOL}: {note}", file=sys.stderr)
    if lacks_sids:
        raise Fault("no SID is taken, since all stand in other tables than the main one", Status.NO_ANSWER)
    return Status.DONE


def table_word(text: str) -> int:
    """The number of a table."""
    if not text.isascii() or not text.isdecimal() or not 0 < int(text) < 2**32:
        raise argparse.ArgumentTypeError(f"{text!r} is no number of a table")
    return int(text)


def main(words: Sequence[str] | None = None) -> int:
    """The command."""
    parser = Parser(TOOL, DESCRIPTION, MORE)
    parser.add_argument("routes", metavar="IN", nargs="?", default="-", help="the JSON of ip")
    parser.add_argument("--ipv4", metavar="FILE", help="JSON of ip -4 -j route show table all")
    parser.add_argument("--rules", metavar="FILE", help="JSON of ip -6 -j rule, which may lead into other tables")
    parser.add_argument("--ipv4-rules", metavar="FILE", help="JSON of ip -4 -j rule")
    parser.add_argument("--vrfs", metavar="FILE", help="JSON of ip -d -j link, which has the VRFs")
    parser.add_argument(
        "--sid-table", metavar="N", type=table_word, action="append",
        help="a table beside the main one whose SIDs are taken",
    )  # fmt: skip
    parser.add_argument("--node", metavar="NAME", type=node_word, default="router", help="its name")
    parser.add_argument(
        "--address", type=address_word,
        help="its address; without it the one that the interface lo has",
    )  # fmt: skip
    parser.add_argument(
        "--source", metavar="ADDRESS", type=address_word,
        help="the source of policies (ip sr tunsrc show); without it the node's address",
    )  # fmt: skip
    parser.add_argument(
        "--link", metavar="INTERFACE[@NEIGHBOUR]=LINK[:NODE]", type=link_word, action="append",
        help="the name of a link, and the node where it leads",
    )  # fmt: skip
    return run_tool(parser, work, sys.argv[1:] if words is None else words)
