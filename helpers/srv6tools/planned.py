"""A network with its plan, whose links may be down: what is left of it at once, as `docs/FORMATS.md` has
it ('Lines of `srv6-pce`', `without`), and what routing finds again over the links that are up.
"""

import dataclasses
import functools
from collections.abc import Collection
from pathlib import Path
from typing import Any

from .description import TABLES, Network, Route, network_of
from .files import parse_toml, read_text
from .items import items_of
from .paths import Topology
from .plan import make_links, read_plan
from .routes import Routes, locators_of
from .toml_places import Lines
from .toml_writer import compact_text, quoted


class Planned:
    """A description, whose routes are static, and a plan if there is one."""

    def __init__(self, path: str | Path, plan_path: str | Path | None = None) -> None:
        text = read_text(path)
        root = parse_toml(text, str(path))
        self.path, self.plan_path = str(path), plan_path
        self.plan, self.pairs, metrics = None, [], {}
        lines = Lines(text)
        self._root = {table: [item.values for item in items_of(root, table, str(path), lines)] for table in TABLES}
        self._root |= {key: root[key] for key in root if key not in TABLES}
        if plan_path:
            network_of({key: root[key] for key in root if key in ("block", "node")}, str(path), lines)
            self.plan = read_plan(plan_path)
            made = make_links(root, str(path), self.plan)
            self._root["link"] = [*self._root["link"], *made.added]
            self.pairs, metrics = made.pairs, made.metrics
        self.static = network_of(self._root, str(path), lines)
        self._metrics = metrics
        self.locators = locators_of(self.static, self.plan) if self.plan else []

    @functools.cached_property
    def whole(self) -> Network:
        """The network in which all links are up."""
        return self.again(frozenset())

    def down(self, links: Collection[str], nodes: Collection[str]) -> frozenset[str]:
        """The links that are down with these, and with all links of these nodes."""
        ends = set(nodes)
        own = (link.name for link in self.static.links.values() if link.start in ends or link.end in ends)
        return frozenset([*links, *own])

    def again(self, down: frozenset[str]) -> Network:
        """The network without links, and with the routes of the plan found over the others; without a
        plan all routes are static.
        """
        left = without(self.static, down)
        if self.plan is None:
            return left
        routes, up = Routes(left), {name: link for name, link in left.links.items() if name not in down}
        routes.out([site for site in self.plan.sites if site.link in up])
        topology = Topology(dataclasses.replace(left, links=up), self._metrics, self.plan.metric)
        routes.to(self.locators, topology)
        return dataclasses.replace(left, routes=[*left.routes, *routes.in_order()])

    def topology(self) -> Topology:
        """The links that are there with their metrics; each has 10 where there is no plan."""
        return Topology(self.static, self._metrics, self.plan.metric if self.plan else 10)

    def text(self, net: Network) -> str:
        """The description of what `again` gives."""
        up = {sid.number: sid for sid in net.sids}
        sids = []
        for number, row in enumerate(self._root["sid"], 1):
            if number in up:
                sid = up[number]
                sids.append(row | {"links": list(sid.links)} if sid.links else row)
        tables: dict[str, Any] = {table: self._root[table] for table in TABLES if table != "route"}
        front = compact_text(tables | {"sid": sids})
        prefixes = {id(route.prefix): route.prefix for route in net.routes}  # many routes share one
        texts = {key: quoted(str(prefix)) for key, prefix in prefixes.items()}
        rows = ",\n".join(_route_text(route, texts[id(route.prefix)]) for route in net.routes)
        return f"{front}route=[\n{rows}\n]\n" if rows else front


def without(net: Network, down: frozenset[str]) -> Network:
    """What is left where links are down: a route or a SID keeps its links that are up, and is gone where
    it has none left.
    """
    if not down:
        return net
    routes = [_left(route, route.via, down, "via") for route in net.routes]
    sids = [sid if not sid.links else _left(sid, sid.links, down, "links") for sid in net.sids]
    return dataclasses.replace(net, routes=[row for row in routes if row], sids=[row for row in sids if row])


def _left(row: Any, links: tuple[str, ...], down: frozenset[str], key: str) -> Any:
    if down.isdisjoint(links):
        return row
    up = tuple(name for name in links if name not in down)
    if not up:
        return None
    return row._replace(**{key: up}) if isinstance(row, Route) else dataclasses.replace(row, **{key: up})


_node_text = functools.lru_cache(65_536)(quoted)


@functools.lru_cache(65_536)
def _links_text(via: tuple[str, ...]) -> str:
    return "[" + ",".join(map(quoted, via)) + "]"


def _route_text(route: Route, prefix: str) -> str:
    table = f",table={route.table}" if route.table else ""
    return f"{{node={_node_text(route.node)}{table},prefix={prefix},via={_links_text(route.via)}}}"
