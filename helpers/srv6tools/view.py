"""view: a page to look at: a network, the walks of packets, lists, and failures by intents."""

import argparse
import functools
import json
import sys
import tempfile
from collections.abc import Iterator, Sequence
from dataclasses import dataclass, field
from pathlib import Path
from typing import Any

from .captures import GZIP
from .command import Fault, Parser, Status, positive, progress, run_tool, tool_name
from .decisions import sid_rfc
from .description import MOST_MTU, Network, read_network
from .files import INPUT_LIMIT, parse_toml, read_bytes, read_text
from .layout import commented, ends, positions
from .page_groups import Group, along, arriving, count_fans, enter_group, most_calls
from .page_lists import (
    Compiled, as_capture, as_data, compiled, each_preference, network_like, probe, walks_of,
)  # fmt: skip
from .page_packets import Entered, Pages
from .plan import make_links, read_plan
from .program import judge_description
from .say_items import near
from .trace import Stage, Walk
from .what_if_table import STATES, Cell, Traffic, WhatIf, read_what_if

PAGE = Path(__file__).resolve().parent / "page"
SCRIPTS = ("base.js", "map.js", "packets.js", "lists.js", "whatif.js", "main.js")
MOST_PACKETS = 1000
DESCRIPTION = """\
Writes one page of HTML to look at with a browser: from disk, without a network, and with nothing
else beside it.

  view NET > page.html                            the map of a network
  view NET CAPTURE --at NODE > page.html          walks of packets that arrive at NODE
  view NET INTENT.. [CAPTURE] > page.html         lists of intents, and inner packets along them
  view --new NEW NET INTENT > page.html           a list before and after an update
  view --preferences NET INTENT > page.html       the lists by `prefer = "need"` and `"sids"`
  view NET WHAT-IF.json > page.html               a table of failures by intents

Which kind a file is, is found by its first bytes. Positions of nodes are taken from comments
(`# NAME x = 1, y = 2`) of the description and of the plan, else found so that the map is the same
each time. What the page says of packets and lists are the answers of `srv6 trace`, `run`, `walk`,
`show`, `compile` and `check`; the page works nothing out by itself."""


@dataclass(slots=True)
class Asked:
    """What the words ask for."""

    net: Network
    intents: list[str] = field(default_factory=list)
    captures: list[str] = field(default_factory=list)
    tables: list[str] = field(default_factory=list)


def kind_of(path: str) -> str:
    """Which kind a file is: capture, table or intent."""
    content = read_bytes(path, INPUT_LIMIT)
    if content[:2] == GZIP:
        raise Fault(f"{path}: compressed by gzip; `{tool_name('to-raw')}` makes one that is taken")
    if b"\0" in content or content[:4] == b"\x0a\x0d\x0d\x0a":
        return "capture"
    return "table" if content.lstrip()[:1] == b"{" else "intent"


def network_data(net: Network, plan: str | None) -> dict[str, Any]:
    """The network, for the page."""
    text = read_text(net.path)
    given, metrics = commented(text, net.nodes, True), {}
    if plan:
        given = commented(read_text(plan), net.nodes, False) | given
        metrics = make_links(parse_toml(text, net.path), net.path, read_plan(plan)).metrics
        default = read_plan(plan).metric
        inside = [link.name for link in net.links.values() if link.end]
        metrics = {name: metrics.get(name, default) for name in inside}
    place = positions(net, given)
    out = ends(net, place)
    numbers = {name: at for at, name in enumerate(net.nodes)}
    own: dict[str, list[int]] = {name: [] for name in net.nodes}
    routes = dict.fromkeys(net.nodes, 0)
    for sid in net.sids:
        own[sid.node].append(sid.number - 1)
    for route in net.routes:
        routes[route.node] += 1
    return {
        "path": net.path,
        "nodes": [
            {"name": node.name, "address": str(node.address), "x": place[node.name][0],
             "y": place[node.name][1], "allow": list(node.allow), "sids": own[node.name],
             "routes": routes[node.name]}
            for node in net.nodes.values()
        ],
        "links": [
            {"name": link.name, "from": numbers[link.start],
             "to": -1 if link.end is None else numbers[link.end],
             "mtu": None if link.mtu == MOST_MTU else link.mtu, "metric": metrics.get(link.name),
             **({"end": out[link.name]} if link.end is None else {})}
            for link in net.links.values()
        ],
        "sids": [
            {"prefix": str(sid.prefix), "node": numbers[sid.node], "what": sid.what,
             "rfc": sid_rfc(sid)}
            for sid in net.sids
        ],
        "blocks": [f"{one.prefix} ({one.kind}, CSIDs of {one.csid} bits)" for one in net.blocks],
        "counts": {"nodes": len(net.nodes), "links": len(net.links), "routes": len(net.routes),
                   "sids": len(net.sids), "policies": len(net.policies)},
        "placed": len(given),
    }  # fmt: skip


def list_data(pages: Pages, one: Compiled, label: str, same_net: bool) -> dict[str, Any]:
    """A list, with a packet along it."""
    data = as_data(one, label, pages.sids if same_net else {}, pages.nodes)
    if not one.is_kept:
        return data
    holder = pages if same_net else Pages(one.net)
    group = along(one.net, one.intent.path, "0", as_capture(probe(one)), f"along {label}", 1)
    enter_group(holder, group)
    walk = holder.walks[-1]
    if not same_net:
        walk = _moved(pages, holder, walk)
    data["walk"] = len(pages.walks) - 1
    at = 0
    for number, row in enumerate(walk["stages"]):
        if at < len(data["sids"]) and row[9] >= 0:
            sid = one.net.sids[row[9]]
            wanted = data["sids"][at]
            if (sid.node, str(sid.prefix)) == (wanted["name"], wanted["prefix"]):
                wanted["stage"] = number
                at += 1
    return data


def _moved(pages: Pages, holder: Pages, walk: dict[str, Any]) -> dict[str, Any]:
    """Adds a walk of another description, whose nodes and links are those of this one."""
    packets = {place: packet for packet, place in holder.views._places.items()}
    pages.read(packets.values())
    texts = holder.texts.values
    stages = []
    before = holder._packets[walk["view"]]
    for node, kind, words, entry, rfc, link, view, _, changed, sid in walk["stages"]:
        after = packets.get(view)
        mark = -1
        if after is not None and texts[kind] != "drop":
            mark, _words = pages.mark(before, after)
            before = after
        stages.append([
            node, pages.text(texts[kind]), pages.text(texts[words]), pages.text(texts[entry]),
            pages.text(texts[rfc]), link, pages.view(after) if after is not None else -1, mark,
            pages.text(texts[changed]), sid,
        ])  # fmt: skip
    moved = {
        **walk, "view": pages.view(packets[walk["view"]]), "end": pages.text(texts[walk["end"]]),
        "stages": stages,
    }  # fmt: skip
    # The SIDs are another description's, so that the page names none of them by number.
    pages.walks.append({**moved, "stages": [[*row[:9], -1] for row in stages]})
    return moved


def table_data(pages: Pages, table: WhatIf) -> dict[str, Any]:
    """A table of failures by intents, with the walks that its cells have."""
    rows = []
    for failure, cells in zip(table.failures, table.cells):
        rows.append({
            "name": failure.name,
            "links": [pages.links[name] for name in failure.links],
            "nodes": [pages.nodes[name] for name in failure.nodes],
            "cells": [
                _cell_data(pages, cell, f"{failure.name} failed, {intent}")
                for cell, intent in zip(cells, table.intents)
            ],
        })  # fmt: skip
    return {
        "path": table.path, "intents": table.intents, "failures": rows, "states": STATES,
    }  # fmt: skip


def _cell_data(pages: Pages, cell: Cell, label: str) -> dict[str, Any]:
    return {
        "state": cell.state, "answer": cell.answer, "containers": cell.containers, "need": cell.need,
        "why": cell.why, "largest_inner": cell.largest_inner,
        "at_once": _traffic_data(pages, cell.at_once, f"{label}, at first"),
        "traffic": _traffic_data(pages, cell.traffic, label),
    }  # fmt: skip


def _traffic_data(pages: Pages, traffic: Traffic | None, label: str) -> dict[str, Any] | None:
    if traffic is None:
        return None
    data = {"end": traffic.end, "arrives": traffic.arrives, "walk": -1}
    if entered := _entered(traffic):
        enter_group(pages, Group(label, [entered], []))
        data["walk"] = len(pages.walks) - 1
    return data


def _entered(traffic: Traffic) -> Entered | None:
    """The packet of a cell, where its walk is told."""
    if traffic.walk:
        return Entered(
            traffic.walk, traffic.end, traffic.inner, traffic.link, traffic.headend, False
        )
    if traffic.link:
        return None
    reason = traffic.end.partition("dropped ")[2].partition(" ")[0] or None
    family = 4 if traffic.inner[:1] and traffic.inner[0] >> 4 == 4 else 6
    walk = Walk(0, 1, family, traffic.headend, traffic.inner, [Stage(0, "drop", reason=reason)])
    return Entered(walk, traffic.end, looks_up=False)


def page_text(data: dict[str, Any], title: str) -> str:
    """The page: the parts of the folder `page` put into one, and the data."""
    text = (PAGE / "page.html").read_text()
    shown = json.dumps(data, separators=(",", ":")).replace("<", "\\u003c")
    safe = title.replace("&", "&amp;").replace("<", "&lt;").replace(">", "&gt;")
    pieces = {
        "/*STYLE*/": (PAGE / "page.css").read_text(),
        "/*SCRIPT*/": "\n".join((PAGE / name).read_text() for name in SCRIPTS),
        "/*DATA*/": shown,
        "/*TITLE*/": safe,
    }
    whole = []
    for line in text.split("\n"):
        for mark, piece in pieces.items():
            if mark in line:
                front, _, behind = line.partition(mark)
                line = front + piece + behind
                break
        whole.append(line)
    return "\n".join(whole)


def _groups(asked_for: Asked, words: argparse.Namespace, pages: Pages) -> Iterator[dict[str, Any]]:
    net = asked_for.net
    for path in asked_for.captures:
        for intent in asked_for.intents:
            given = read_bytes(path, INPUT_LIMIT)
            label = f"{Path(path).name} along {Path(intent).name}"
            try:
                group = along(net, intent, words.choices, given, label, words.most)
            except Fault as fault:
                if fault.status != Status.NO_ANSWER:  # else the lists say so
                    raise
                continue
            if not words.no_fans:
                count_fans(pages, group, None, intent)
            yield enter_group(pages, group)
        if words.at is not None:
            group = arriving(net, words.at, words.choices, path, words.most)
            if not words.no_fans:
                count_fans(pages, group, words.at, None)
            yield enter_group(pages, group)


def _lists(asked_for: Asked, words: argparse.Namespace, pages: Pages) -> Iterator[dict[str, Any]]:
    """The lists of each intent: before and after an update, each of these by both preferences."""
    nets = {"": asked_for.net}
    if words.new:
        nets = {", before": asked_for.net, ", after": network_like(words.new, asked_for.net)}
    for intent in asked_for.intents:
        for when, net in nets.items():
            label = f"{Path(intent).name}{when}"
            if not words.preferences:
                yield _list(pages, compiled(net, intent), label, words)
                continue
            with tempfile.TemporaryDirectory() as folder:
                yield from _by_preference(pages, net, intent, label, words, Path(folder))


def _by_preference(
    pages: Pages, net: Network, intent: str, label: str, words: argparse.Namespace, folder: Path
) -> Iterator[dict[str, Any]]:
    """The lists of an intent by each preference; of one that is like an earlier one it is said."""
    paths = dict(each_preference(intent, folder))
    # The intent's own first, so that what is refused is so by its own file.
    found = {one: compiled(net, paths[one]) for one in sorted(paths, key=lambda one: paths[one] != intent)}
    met: dict[Any, str] = {}
    for preference in paths:
        one = found[preference]
        data = _list(pages, one, f"{label}, {preference}", words)
        if one.report.has_list:
            data["same"] = met.get(one.segments, "")
            met.setdefault(one.segments, data["label"])
        yield data


def _list(pages: Pages, one: Compiled, label: str, words: argparse.Namespace) -> dict[str, Any]:
    """A list, and over how many walks it spreads packets where that may be counted."""
    data = list_data(pages, one, label, one.net is pages.net)
    if not words.no_fans:
        walks = walks_of(one, most_calls(len(one.net.routes) + len(one.net.sids)))
        data["walks"] = "" if walks is None else str(walks)
    return data


def _sorted(words: argparse.Namespace) -> Asked:
    """The files of the words, by their kinds."""
    found = Asked(read_network(words.net))
    for path in words.files:
        kinds = {"capture": found.captures, "table": found.tables, "intent": found.intents}
        kinds[kind_of(path)].append(path)
    if words.at is not None and words.at not in found.net.nodes:
        what = near(words.at, found.net.nodes, "nodes", most=256)
        raise Fault(f'{words.net} has no node "{words.at}"; {what}')
    if found.captures and not found.intents and words.at is None:
        raise Fault("where do the packets arrive? Give --at NODE, or an intent", Status.USAGE)
    if words.new and not found.intents:
        raise Fault("--new needs an intent, whose list is shown before and after", Status.USAGE)
    if words.preferences and not found.intents:
        raise Fault("--preferences needs an intent, whose lists are shown by each", Status.USAGE)
    return found


def _work(tool: str, words: argparse.Namespace) -> None:
    with progress(tool, "asking srv6"):
        asked_for = _sorted(words)
        judge_description(words.net)
        pages = Pages(asked_for.net)
        data: dict[str, Any] = {"net": network_data(asked_for.net, words.plan)}
        data["lists"] = list(_lists(asked_for, words, pages))
        data["groups"] = list(_groups(asked_for, words, pages))
        tables = [read_what_if(path, asked_for.net) for path in asked_for.tables]
        data["tables"] = [table_data(pages, table) for table in tables]
        data |= pages.data()
        title = words.title or Path(words.net).name
        data["title"] = title
        text = page_text(data, title)
    sys.stdout.write(text)


def _choices(text: str) -> str:
    """A list of choices, as `srv6` reads it."""
    if not all(one.isascii() and one.isdecimal() for one in text.split(",")):
        raise argparse.ArgumentTypeError(f"{text!r} is no list of numbers")
    return text


def main(words: Sequence[str]) -> int:
    """Runs the tool."""
    parser = Parser("view", DESCRIPTION, any_order=True)
    parser.usage = "view [OPTION].. NET [CAPTURE|INTENT|WHAT-IF.json].. > page.html"
    parser.add_argument("net", metavar="NET", help="a description")
    parser.add_argument(
        "files", metavar="FILE", nargs="*", help="captures, intents, tables of failures"
    )
    parser.add_argument("--at", metavar="NODE", help="where the packets of a capture arrive")
    parser.add_argument(
        "--choices", metavar="N,..", type=_choices, default="0",
        help="choices among equal next hops (0)",
    )  # fmt: skip
    parser.add_argument("--new", metavar="NEW", help="the new description of an update")
    parser.add_argument(
        "--preferences", action="store_true", help="lists by need and by SIDs, whichever is preferred"
    )
    parser.add_argument("--plan", metavar="PLAN", help="the plan, for metrics and positions")
    parser.add_argument(
        "--most", metavar="N", type=positive, default=MOST_PACKETS,
        help=f"packets of a capture that are shown ({MOST_PACKETS})",
    )  # fmt: skip
    parser.add_argument(
        "--no-fans", action="store_true", help="don't count the walks over all choices"
    )
    parser.add_argument("--title", metavar="TEXT", help="the page's title")
    return run_tool(parser, functools.partial(_work, parser.prog), words)
