"""from-frr: a network of routers of FRR, from what they write, as a description."""

from __future__ import annotations

import argparse
import sys
from collections.abc import Sequence
from pathlib import Path

from .command import Fault, Parser, Status, progress, run_tool
from .frr_files import COMMANDS, NEEDED, read_folder
from .frr_reading import SUBSTITUTES, Planned, Reading, Tables, tables_of
from .toml_writer import lined_text, list_text
from .words import block_word, substitutes_word

TOOL = "from-frr"

DESCRIPTION = """\
Writes a network of routers of FRR as a description. FOLDER has a folder for each router, with what the
router's vtysh writes. An interface is a link, and leads to the router that has the next hop's address,
or that IS-IS knows behind the SID of the adjacency. What a description doesn't have is left out and
named on err, and what had to be assumed is said there.

A loopback that lies inside its locator can't be a node's address where the locator is a SID (41 Nested):
another address stands in for it, and the routes to it are left out."""

MORE = (
    "The files of a router, of which the last two may be absent:\n\n"
    + "\n".join(f"  {name:16} {command}" for name, command in COMMANDS.items())
    + "\n\nSeen on FRR 10.3 of Debian 13; bench/frr-network makes such a network of six routers."
)


def plan_text(made: Tables, planned: Planned) -> str:
    """The plan by which `routes` finds what the routing protocol found."""
    metrics = [{"name": name, "metric": metric} for name, metric in made.metrics.items()]
    locators = [{"prefix": str(prefix), "nodes": nodes} for prefix, nodes in planned.locators.items()]
    first = "# The metrics of IS-IS or OSPFv3; the prefix of each End SID is a locator.\n"
    addresses = "addresses = true\n" if planned.addresses else ""
    return first + addresses + list_text("link", metrics) + (list_text("locator", locators) if locators else "")


def work(words: argparse.Namespace) -> int:
    """Reads the routers and writes the description."""
    with progress(TOOL, "reads the routers"):
        reading = Reading(read_folder(words.folder), words.addresses, list(words.block or []))
        reading.read()
    planned = Planned.of(reading.made) if words.plan else None
    if planned:
        try:
            Path(words.plan).write_text(plan_text(reading.made, planned))
        except OSError as fault:
            raise Fault(f"{words.plan}: {fault.strerror}", Status.OUTSIDE_FAULT) from None
    sys.stdout.write(lined_text(tables_of(reading.made, planned)))
    sys.stdout.flush()
    for line in reading.made.lines():
        print(f"{TOOL}: {line}", file=sys.stderr)
    return Status.DONE


def main(words: Sequence[str] | None = None) -> int:
    """The command."""
    parser = Parser(TOOL, DESCRIPTION, MORE)
    parser.add_argument("folder", metavar="FOLDER", help=f"a folder for each router, with {', '.join(NEEDED)} and more")
    parser.add_argument(
        "--addresses", metavar="PREFIX", type=substitutes_word, default=SUBSTITUTES,
        help=f"where addresses stand in for loopbacks inside locators; {SUBSTITUTES}",
    )  # fmt: skip
    parser.add_argument(
        "--block", metavar="PREFIX", type=block_word, action="append",
        help="a block of uSIDs, where no locator has the behavior usid",
    )  # fmt: skip
    parser.add_argument("--plan", metavar="FILE", help="writes the metrics as a plan, and leaves the routes of IS-IS and OSPFv3 to it")
    return run_tool(parser, work, sys.argv[1:] if words is None else words)
