"""from-bgp-ls: the link-state table of BGP, as GoBGP has it, as a description and a plan."""

from __future__ import annotations

import argparse
import base64
import json
import sys
from collections.abc import Iterator, Sequence
from pathlib import Path
from typing import Any

from .command import Fault, Parser, Status, progress, run_tool
from .files import INPUT_LIMIT, STDIN, decoded, read_bytes, read_input
from .frr_reading import SUBSTITUTES
from .gobgp_api import LINK_STATE, Api, text_of
from .link_state import ATTRIBUTE, Told, told_by
from .ls_reading import Reading
from .toml_writer import list_text
from .words import block_word, place_word, substitutes_word

TOOL = "from-bgp-ls"

DESCRIPTION = """\
Writes the link-state table of BGP as a description without routes, and with --plan the plan from which
routes finds them. The table is asked of a GoBGP that runs (--ask), or is IN, JSON of the answers of its
call ListPath with enable_nlri_binary and enable_attribute_binary, which --keep writes. What a
description doesn't have is left out and named on err, and what had to be assumed is said there.

A loopback that lies inside a SID, as inside its locator, can't be a node's address (41 Nested): another
address stands in for it, and no route leads to it."""

MORE = """\
  from-bgp-ls --ask localhost:50051 --block fcbb:bb00::/32 --plan plan.toml > base.toml
  routes base.toml plan.toml > net.toml

Seen on GoBGP 3.10, as Debian 12 has it: of SRv6 it keeps prefixes alone, so --block says where
locators are; its own command writes no routes of link state (nlri is null). GoBGP 3.36, of Debian 13,
keeps SIDs of nodes too, and not their behaviours. --ask needs the Debian package python3-grpcio."""

Route = tuple[bytes, list[bytes]]


def routes_in(content: bytes, name: str) -> Iterator[Route]:
    """The routes of JSON: answers in a list, or one after the other."""
    text, decoder, at = decoded(content, name).strip(), json.JSONDecoder(), 0
    while at < len(text):
        try:
            one, at = decoder.raw_decode(text, at)
        except (ValueError, RecursionError) as fault:
            raise Fault(f"{name}: no JSON: {str(fault)[:80]}") from None
        for answer in one if isinstance(one, list) else [one]:
            yield from _of_answer(answer, name)
        while at < len(text) and text[at].isspace():
            at += 1


def _of_answer(answer: Any, name: str) -> Iterator[Route]:
    if isinstance(answer, dict) and any(key.startswith("NLRI {") for key in answer):
        raise Fault(f"{name}: GoBGP's command writes no routes of link state; --ask takes them from its API")
    try:
        for path in answer["destination"]["paths"]:
            attributes = [base64.b64decode(one, validate=True) for one in path.get("pattrsBinary", ())]
            yield base64.b64decode(path["nlriBinary"], validate=True), attributes
    except (KeyError, TypeError, AttributeError, ValueError):
        raise Fault(f"{name}: no answers of ListPath with enable_nlri_binary") from None


def kept_text(routes: Sequence[Route]) -> str:
    """The routes as JSON."""
    answers = [
        {"destination": {"paths": [{"nlriBinary": text_of(nlri), "pattrsBinary": list(map(text_of, attributes))}]}}
        for nlri, attributes in routes
    ]
    return json.dumps(answers, indent=1) + "\n"


def told_in(routes: Sequence[Route], notes: list[str]) -> Iterator[Told]:
    """What the routes say; others are noted."""
    for number, (nlri, attributes) in enumerate(routes, 1):
        try:
            told = told_by(nlri, attributes)
        except (ValueError, IndexError, KeyError) as why:
            notes.append(f"route {number}: {why}")
            continue
        if told is None:
            notes.append(f"route {number}: a description has nothing of kind {int.from_bytes(nlri[:2])} of link state")
        else:
            yield told


def written(path: str, text: str) -> None:
    """Writes a file."""
    try:
        Path(path).write_text(text)
    except (OSError, ValueError) as fault:
        raise Fault(f"{path}: {getattr(fault, 'strerror', None) or fault}", Status.OUTSIDE_FAULT) from None


def given_routes(words: argparse.Namespace) -> list[Route]:
    """The routes that the words name."""
    if words.ask:
        found = sorted(Api(words.ask).routes(LINK_STATE))
        return [(nlri, [one for one in attributes if one[1] == ATTRIBUTE]) for nlri, attributes in found]
    content = read_input() if words.routes == "-" else read_bytes(words.routes, INPUT_LIMIT)
    return list(routes_in(content, STDIN if words.routes == "-" else words.routes))


def work(words: argparse.Namespace) -> int:
    """Reads the table and writes the description."""
    notes: list[str] = []
    with progress(TOOL, "reads the table"):
        routes = given_routes(words)
        reading = Reading(list(told_in(routes, notes)), list(words.block or []), words.addresses)
        reading.read()
    if not reading.nodes:
        raise Fault("the table has no node")
    if words.keep:
        written(words.keep, kept_text(routes))
    if words.plan:
        written(words.plan, "".join(list_text(table, items) for table, items in reading.plan().items() if items))
    sys.stdout.write("\n".join(list_text(table, items) for table, items in reading.tables().items()))
    sys.stdout.flush()
    for note in [*notes, *reading.notes]:
        print(f"{TOOL}: {note}", file=sys.stderr)
    return Status.DONE


def main(words: Sequence[str] | None = None) -> int:
    """The command."""
    parser = Parser(TOOL, DESCRIPTION, MORE)
    parser.add_argument("routes", metavar="IN", nargs="?", default="-", help="answers of ListPath as JSON; else standard input")
    parser.add_argument("--ask", metavar="HOST:PORT", type=place_word, help="asks the GoBGP there")
    parser.add_argument("--keep", metavar="FILE", help="writes the answers, which IN takes")
    parser.add_argument("--plan", metavar="FILE", help="writes the metrics and locators as a plan")
    parser.add_argument(
        "--block", metavar="PREFIX", type=block_word, action="append",
        help="a block of uSIDs: its prefixes with 16 bits more are locators",
    )  # fmt: skip
    parser.add_argument(
        "--addresses", metavar="PREFIX", type=substitutes_word, default=SUBSTITUTES,
        help=f"where addresses stand in for loopbacks inside locators; {SUBSTITUTES}",
    )  # fmt: skip
    return run_tool(parser, work, sys.argv[1:] if words is None else words)
