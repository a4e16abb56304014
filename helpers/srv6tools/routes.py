"""routes: fills in the links and routes of a description from a plan."""

import argparse
import sys
import tempfile
from collections.abc import Iterator, Mapping, Sequence
from dataclasses import dataclass
from ipaddress import IPv6Address, IPv6Network
from pathlib import Path
from typing import Any

from .command import Fault, Parser, progress, run_tool
from .description import TABLES, Network, Route, network_of
from .files import FILE_LIMIT, parse_toml, read_text
from .items import Prefix
from .paths import Topology
from .plan import LinkMaker, Locator, Plan, Site, make_links, read_plan
from .program import find_program, judge_description
from .toml_places import Lines
from .toml_writer import compact_text, lined_text, list_text

MOST_LINKS = 64  # of a route
MOST_ROUTES = 65_536
LATER = ("link", "route", "policy", "sid")  # what may name links that the plan adds
MOST_READABLE = 40_000  # items that fit into a file otherwise than in few bytes
TABLE_FAMILIES = {"End.T": (6,), "End.DT6": (6,), "End.DT4": (4,), "End.DT46": (6, 4)}
DESCRIPTION = """\
Prints the description NET with links and routes added, as PLAN has them: two links for each cable,
and at each node a route along the shortest ways to each locator, with all equal next hops; to each
site a route out of the network. Says on standard error what was added, and what is missing still.
What NET has stays as it is: a link that is there is not added, and a route of the same node, table
and prefix is kept. Without PLAN each link has the metric 10, and the locators are the prefixes of
the End SIDs. srv6(5) has the form of a plan."""


class Routes:
    """The routes of a network: those that are there, and those that are added."""

    def __init__(self, net: Network) -> None:
        self.net = net
        # the nodes that have a route, by its table and prefix
        self.there: dict[tuple[int, Prefix], set[str]] = {}
        for route in net.routes:
            self.there.setdefault((route.table, route.prefix), set()).add(route.node)
        self.added: list[Route] = []
        self.kept = 0
        self.cut: list[Route] = []  # with more than 64 links
        self.without: dict[Prefix, list[str]] = {}  # nodes without a way to a prefix

    def enter(self, table: int, prefix: Prefix, ways: Mapping[str, Sequence[str]]) -> None:
        """Adds the routes of nodes to a prefix, where the description has none of the node, table and prefix."""
        there = self.there.setdefault((table, prefix), set())
        for node, via in ways.items():
            if node in there:
                self.kept += 1
            elif not via:
                self.without.setdefault(prefix, []).append(node)
            else:
                route = Route(node, table, prefix, tuple(via[:MOST_LINKS]))
                there.add(node)
                self.added.append(route)
                if len(via) > MOST_LINKS:
                    self.cut.append(route)

    @property
    def count(self) -> int:
        """How many routes there are."""
        return sum(map(len, self.there.values()))

    def out(self, sites: Sequence[Site]) -> None:
        """The routes by which nodes send to their sites; of one prefix they are equal next hops."""
        links: dict[tuple[str, int, Prefix], dict[str, None]] = {}
        for site in sites:
            for prefix in site.prefixes:
                links.setdefault((site.node, site.table, prefix), {})[site.link] = None
        for (node, table, prefix), via in links.items():
            self.enter(table, prefix, {node: list(via)})

    def to(self, locators: Sequence[Locator], topology: Topology) -> None:
        """The routes to locators, at each node that isn't one of the locator's own."""
        known: dict[frozenset[str], dict[str, list[str]]] = {}
        for locator in locators:
            if locator.nodes not in known:
                known[locator.nodes] = topology.next_links(locator.nodes)
            self.enter(locator.table, locator.prefix, known[locator.nodes])

    def in_order(self) -> list[Route]:
        """What is added: node by node as in the description, table by table."""
        place = {node: number for number, node in enumerate(self.net.nodes)}
        return sorted(self.added, key=lambda route: (place[route.node], route.table))


def locators_of(net: Network, plan: Plan) -> list[Locator]:
    """The locators of a plan, of the End SIDs that none of them holds and that aren't nested in a
    SID of their node, of addresses and sites.
    """
    locators = list(plan.locators)
    owners: dict[tuple[int, Prefix], set[str]] = {}
    if plan.ends:
        at = {(sid.node, sid.prefix) for sid in net.sids}
        for sid in net.sids:
            if sid.behaviour != "End" or (sid.node, _outer(sid.prefix)) in at:
                continue
            if not _is_held(sid.node, sid.prefix, plan.locators):
                owners.setdefault((0, sid.prefix), set()).add(sid.node)
    if plan.addresses:
        for node in net.nodes.values():
            owners.setdefault((0, _as_prefix(node.address)), set()).add(node.name)
    for site in plan.sites:
        for prefix in site.prefixes if site.table == 0 else ():
            owners.setdefault((0, prefix), set()).add(site.node)
    for (table, prefix), nodes in owners.items():
        locators.append(Locator(prefix, frozenset(nodes), table))
    return locators


def _outer(prefix: Prefix) -> Prefix | None:
    """The prefix of a SID that another one may be nested in: with 16 bits less."""
    return prefix.supernet(16) if prefix.prefixlen > 16 else None


def _is_held(node: str, prefix: Prefix, locators: Sequence[Locator]) -> bool:
    """Whether a locator of the node in table 0 holds a prefix."""
    return any(
        locator.table == 0
        and node in locator.nodes
        and locator.prefix.version == prefix.version
        and prefix.subnet_of(locator.prefix)
        for locator in locators
    )


def _as_prefix(address: IPv6Address) -> IPv6Network:
    return IPv6Network((address, 128))


def route_item(route: Route) -> dict[str, Any]:
    """A route as an item of a description."""
    table = {"table": route.table} if route.table else {}
    return {"node": route.node, **table, "prefix": str(route.prefix), "via": list(route.via)}


def result_text(root: dict[str, Any], text: str, added: dict[str, list], compact: bool) -> str:
    """The description with what is added, behind its text where it can be so.

    Where the description has its links or routes as one list the whole of it is written anew,
    without its comments; where it is asked for or that is too long for a file, in few bytes.
    """
    whole = {table: root.get(table, []) + added.get(table, []) for table in TABLES}
    if not compact and sum(map(len, whole.values())) <= MOST_READABLE:
        result = _behind(root, text, added) or lined_text(whole)
        if len(result.encode()) <= FILE_LIMIT:
            return result
    return compact_text(whole)


def _behind(root: dict[str, Any], text: str, added: dict[str, list]) -> str | None:
    """The text with lists or else tables behind it; None where it has a list of that name."""
    tables = {table: items for table, items in added.items() if items}
    text = text.rstrip("\n") + "\n\n"
    lists = "".join(f"{table} = []\n" for table in tables)
    if _reads(text + lists, root | dict.fromkeys(tables, [])):
        return text + "\n".join(list_text(table, items) for table, items in tables.items())
    heads = "".join(f"[[{table}]]\n" for table in tables)
    if _reads(text + heads, root | {table: [*root.get(table, []), {}] for table in tables}):
        return text + lined_text(tables)
    return None


def _reads(text: str, root: dict[str, Any]) -> bool:
    """Whether a text is TOML of this root."""
    try:
        return parse_toml(text, "") == root
    except Fault:
        return False


def missing(routes: Routes) -> Iterator[str]:
    """What a user should know of the result: ways and tables that there aren't, nested prefixes."""
    for prefix, nodes in routes.without.items():
        yield f"no way to {prefix} from {_some(nodes)}"
    for route in routes.cut:
        more = f"more than {MOST_LINKS} equal links to {route.prefix}"
        yield f"{route.node}: {more}; the first are taken"
    yield from _missing_tables(routes)
    yield from _nested(routes)


def _missing_tables(routes: Routes) -> Iterator[str]:
    """SIDs that look up in a table that has no route of their family."""
    there = {(node, table, prefix.version) for (table, prefix), nodes in routes.there.items() for node in nodes}
    for sid in routes.net.sids:
        families = TABLE_FAMILIES.get(sid.behaviour, ()) if sid.table else ()
        for family in families:
            if (sid.node, sid.table, family) not in there:
                kind = f"IPv{family}"
                yield f"sid {sid.number} at {sid.node}: {sid}: that table has no {kind} route"


def _nested(routes: Routes) -> Iterator[str]:
    """SIDs with the prefix of a route strictly inside, which `compile` refuses."""
    lengths = sorted({sid.prefix.prefixlen for sid in routes.net.sids})
    sids = {sid.prefix: sid for sid in routes.net.sids}
    seen = {prefix for (_, prefix), nodes in routes.there.items() if nodes and prefix.version == 6}
    for prefix in sorted(seen):
        for length in lengths:
            outer = prefix.supernet(new_prefix=length) if length < prefix.prefixlen else None
            if outer in sids:
                yield f"{prefix} lies inside sid {sids[outer].number}, {outer}: Nested for compile"


def kept_mtus(made: LinkMaker) -> Iterator[str]:
    """The links of the description whose MTU stays, though a cable of the plan has another."""
    for name, mtu in made.other_mtus.items():
        yield f"link {name} is there, and keeps its mtu {made.mtus[name]}; the plan has {mtu}"


def _some(names: list[str]) -> str:
    more = f" and {len(names) - 8} more" if len(names) > 8 else ""
    return ", ".join(names[:8]) + more


def summary(routes: Routes, links: int, locators: list[Locator]) -> Iterator[str]:
    """What was added."""
    several = sum(len(route.via) > 1 for route in routes.added)
    yield f"{links} links added, {len(routes.net.links)} in all"
    yield (
        f"{len(routes.added)} routes added to {len(locators)} locators and out of the network,"
        f" {several} of them with equal next hops; {routes.kept} kept that were there"
    )
    tables: dict[int, int] = {}
    for route in routes.added:
        tables[route.table] = tables.get(route.table, 0) + 1
    for table, count in sorted(tables.items()):
        yield f"table {table}: {count} routes"


@dataclass(frozen=True)
class Filled:
    """A description with its routes, and what is said of it."""

    text: str
    lines: list[str]


def fill(path: str | Path, plan_path: str | Path | None = None, compact: bool = False) -> Filled:
    """The description of a file with the links and routes that a plan gives."""
    with progress("routes", f"reading {path}"):
        text = read_text(path)
        root = parse_toml(text, str(path))
        lines = Lines(text)
        network_of({table: root[table] for table in root if table not in LATER}, str(path), lines)
        plan = read_plan(plan_path) if plan_path else Plan()
        made = make_links(root, str(path), plan)
        net = network_of(root | {"link": root.get("link", []) + made.added}, str(path), lines)
    with progress("routes", "finding the shortest ways"):
        routes, locators = Routes(net), locators_of(net, plan)
        routes.out(plan.sites)
        routes.to(locators, Topology(net, made.metrics, plan.metric))
    count = routes.count
    if count > MOST_ROUTES:
        raise Fault(f"{count} routes, and a description has at most {MOST_ROUTES}")
    with progress("routes", f"writing {count} routes"):
        items = [route_item(route) for route in routes.in_order()]
        result = result_text(root, text, {"link": made.added, "route": items}, compact)
    if (size := len(result.encode())) > FILE_LIMIT:
        raise Fault(f"the result has {size} bytes, and a description has at most {FILE_LIMIT}")
    said = [*summary(routes, len(made.added), locators), *missing(routes), *kept_mtus(made)]
    return Filled(result, said)


def work(words: argparse.Namespace) -> None:
    """Prints the description with its routes."""
    filled = fill(words.net, words.plan, words.compact)
    if not words.unjudged:
        _judge(filled.text)
    sys.stdout.write(filled.text)
    sys.stdout.flush()
    for line in filled.lines:
        print(f"routes: {line}", file=sys.stderr)


def _judge(result: str) -> None:
    """Lets the program read the result, where it is there; a fault where it refuses it."""
    if not find_program():
        print("routes: no program srv6, so the result isn't judged", file=sys.stderr)
        return
    with tempfile.NamedTemporaryFile("w", encoding="utf-8", prefix="routes-") as file:
        file.write(result)
        file.flush()
        judge_description(file.name, "the result")


def main(words: Sequence[str] | None = None) -> int:
    """The command."""
    parser = Parser("routes", DESCRIPTION)
    parser.add_argument("net", metavar="NET", help="a description")
    parser.add_argument("plan", metavar="PLAN", nargs="?", help="cables, metrics, locators, sites")
    parser.add_argument("--compact", action="store_true", help="write as few bytes as it takes")
    parser.add_argument("--unjudged", action="store_true", help="don't let srv6 read the result")
    return run_tool(parser, work, sys.argv[1:] if words is None else words)
