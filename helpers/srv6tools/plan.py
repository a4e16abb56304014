"""The plan of a network, from which `routes` fills in a description; srv6(5) has its form."""

from dataclasses import dataclass, field
from pathlib import Path
from typing import Any

from .description import LEAST_MTU, MOST_MTU
from .files import parse_toml, read_text
from .items import Item, Prefix, items_of
from .toml_places import Lines

MOST_METRIC = 2**32 - 1
MOST_TABLE = 65535
TABLES = ("cable", "link", "locator", "site")
BothWays = tuple[int | None, int | None]  # of a cable's links, where it says something of them


@dataclass(frozen=True, slots=True)
class Cable:
    """Two links between two nodes, one each way, with their metrics, MTUs and names."""

    item: Item = field(repr=False, compare=False)
    ends: tuple[str, str]
    metrics: BothWays
    mtus: BothWays
    links: tuple[str, str] | None


@dataclass(frozen=True, slots=True)
class LinkMetric:
    """The metric of one link."""

    item: Item = field(repr=False, compare=False)
    link: str
    metric: int


@dataclass(frozen=True, slots=True)
class Locator:
    """A prefix that routes lead to; with several nodes it is anycast."""

    prefix: Prefix
    nodes: frozenset[str]
    table: int = 0
    item: Item | None = field(default=None, repr=False, compare=False)  # of the plan


@dataclass(frozen=True, slots=True)
class Site:
    """Prefixes that a node sends out of the network over a link, by one of its tables."""

    item: Item = field(repr=False, compare=False)
    node: str
    link: str
    table: int
    prefixes: tuple[Prefix, ...]


@dataclass(slots=True)
class Plan:
    """What a plan says."""

    metric: int = 10  # of a link of which the plan says nothing
    mtu: int | None = None  # of a cable that has none
    ends: bool = True  # whether the prefix of each End SID is a locator
    addresses: bool = False  # whether the address of each node is one
    cables: list[Cable] = field(default_factory=list)
    metrics: list[LinkMetric] = field(default_factory=list)
    locators: list[Locator] = field(default_factory=list)
    sites: list[Site] = field(default_factory=list)


def read_plan(path: str | Path) -> Plan:
    """The plan of a file."""
    text = read_text(path)
    root, lines = parse_toml(text, str(path)), Lines(text)
    whole = Item(str(path), "the root", 0, root, lines)
    whole.only(("metric", "mtu", "ends", "addresses", *TABLES))
    items = {table: list(items_of(root, table, str(path), lines)) for table in TABLES}
    return Plan(
        whole.integer("metric", 10, low=1, high=MOST_METRIC),
        whole.integer("mtu", None, low=LEAST_MTU, high=MOST_MTU),
        whole.flag("ends", True),
        whole.flag("addresses", False),
        [_cable(item) for item in items["cable"]],
        [_metric(item) for item in items["link"]],
        [_locator(item) for item in items["locator"]],
        [_site(item) for item in items["site"]],
    )


def _cable(item: Item) -> Cable:
    item.only(("nodes", "metric", "mtu", "links"))
    metrics = _both_ways(item, "metric", 1, MOST_METRIC)
    mtus = _both_ways(item, "mtu", LEAST_MTU, MOST_MTU)
    links = _two(item, "links") if item.has("links") else None
    return Cable(item, _two(item, "nodes"), metrics, mtus, links)


def _both_ways(item: Item, key: str, low: int, high: int) -> BothWays:
    """A number for both ways of a cable, or a list of two; None where there is none."""
    if not item.has(key):
        return None, None
    value: Any = item.values[key]
    both = value if isinstance(value, list) else [value, value]
    if len(both) != 2 or not all(type(one) is int and low <= one <= high for one in both):
        raise item.fault(f"`{key}` is no number from {low} to {high}, and no list of two", key)
    return both[0], both[1]


def _two(item: Item, key: str) -> tuple[str, str]:
    names = item.texts(key)
    if len(names) != 2 or names[0] == names[1]:
        raise item.fault(f"`{key}` is no list of two names that differ", key)
    return names[0], names[1]


def _metric(item: Item) -> LinkMetric:
    item.only(("name", "metric"))
    metric = item.integer("metric", low=1, high=MOST_METRIC)
    return LinkMetric(item, item.text("name"), metric)


def _locator(item: Item) -> Locator:
    item.only(("prefix", "nodes", "table"))
    nodes = frozenset(item.texts("nodes"))
    if not nodes:
        raise item.fault("`nodes` is empty", "nodes")
    table = item.integer("table", 0, high=MOST_TABLE)
    return Locator(item.prefix("prefix"), nodes, table, item)


def _site(item: Item) -> Site:
    item.only(("node", "link", "table", "prefixes"))
    prefixes = tuple(item.as_prefix("prefixes", text) for text in item.texts("prefixes"))
    if not prefixes:
        raise item.fault("`prefixes` is empty", "prefixes")
    table = item.integer("table", 0, high=MOST_TABLE)
    return Site(item, item.text("node"), item.text("link"), table, prefixes)


class LinkMaker:
    """Adds the links of a plan to those of a description, which stay as they are."""

    def __init__(self, root: dict[str, Any], path: str) -> None:
        self.nodes = {item.text("name") for item in items_of(root, "node", path)}
        self.there = {
            item.text("name"): (item.text("from"), item.text("to", None))
            for item in items_of(root, "link", path)
        }
        self.mtus = {
            item.text("name"): item.integer("mtu", MOST_MTU)
            for item in items_of(root, "link", path)
        }
        self.added: list[dict[str, Any]] = []
        self.other_mtus: dict[str, int] = {}  # of links that are there with another one
        self.metrics: dict[str, int] = {}
        self.cables: dict[frozenset[str], int] = {}  # how many there are between two nodes
        self.pairs: list[tuple[str, str]] = []  # the links of each cable

    def cable(self, cable: Cable, default_mtu: int | None) -> None:
        """The two links of a cable, named after its ends where it gives no names."""
        names = cable.links or self._names(cable.ends)
        self.pairs.append(names)
        for name, ends, metric, mtu in zip(
            names,
            (cable.ends, cable.ends[::-1]),
            cable.metrics,
            cable.mtus,
        ):
            self._enter(cable.item, "nodes", name, ends, mtu or default_mtu)
            if metric is not None:
                self.metrics[name] = metric
            if mtu is not None and self.mtus[name] != mtu:
                self.other_mtus[name] = mtu

    def _names(self, ends: tuple[str, str]) -> tuple[str, str]:
        """A-B and B-A; of the second cable between the same two nodes with -2 behind that."""
        number = self.cables[frozenset(ends)] = self.cables.get(frozenset(ends), 0) + 1
        more = f"-{number}" if number > 1 else ""
        return f"{ends[0]}-{ends[1]}{more}", f"{ends[1]}-{ends[0]}{more}"

    def site(self, site: Site) -> None:
        """The link of a site."""
        self._enter(site.item, "node", site.link, (site.node, None), None)

    def metric(self, metric: LinkMetric) -> None:
        """The metric of a link that is there or was added."""
        if metric.link not in self.there:
            raise metric.item.fault(f"no link is called {metric.link!r}", "name")
        self.metrics[metric.link] = metric.metric

    def locator(self, locator: Locator) -> None:
        """Judges the names of a locator's nodes."""
        for node in sorted(locator.nodes) if locator.item else ():
            self._known(locator.item, "nodes", node)

    def _known(self, item: Item, key: str, node: str) -> None:
        if node not in self.nodes:
            raise item.fault(f"no node is called {node!r}", key)

    def _enter(
        self, item: Item, key: str, name: str, ends: tuple[str, str | None], mtu: int | None
    ) -> None:
        """Adds a link of an item whose nodes stand at a key, if it isn't there."""
        start, end = ends
        for node in (start, end) if end is not None else (start,):
            self._known(item, key, node)
        if name not in self.there:
            self.there[name], self.mtus[name] = ends, mtu or MOST_MTU
            link: dict[str, Any] = {"name": name, "from": start}
            self.added.append(
                link | ({"to": end} if end else {}) | ({"mtu": mtu} if mtu is not None else {})
            )
        elif self.there[name] != ends:
            where = "link" if item.has("link") else "links" if item.has("links") else key
            raise item.fault(f"there is a link {name!r} already, with other ends", where)


def make_links(root: dict[str, Any], path: str, plan: Plan) -> LinkMaker:
    """The links and metrics of a plan; a fault where it names what the description hasn't."""
    maker = LinkMaker(root, path)
    for cable in plan.cables:
        maker.cable(cable, plan.mtu)
    for site in plan.sites:
        maker.site(site)
    for metric in plan.metrics:
        maker.metric(metric)
    for locator in plan.locators:
        maker.locator(locator)
    return maker
