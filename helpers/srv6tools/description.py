"""The description of a network, as `docs/FORMATS.md` has it.

What is read here has its keys of the right kinds, its texts of the right form, and names that are
there. All other rules are `srv6`'s to judge.
"""

import functools
from collections.abc import Iterable
from dataclasses import dataclass, field
from ipaddress import IPv6Address, IPv6Network
from pathlib import Path
from typing import Any, NamedTuple

from .command import Fault
from .files import parse_toml, read_text
from .items import Item, Prefix, items_of
from .toml_places import Lines

BEHAVIOURS = (
    "End", "End.X", "End.T", "End.DX6", "End.DX4", "End.DT6", "End.DT4", "End.DT46",
    "End.B6.Encaps", "End.B6.Encaps.Red",
)  # fmt: skip
LEAST_MTU, MOST_MTU = 1_280, 65_575  # bytes; the most is what a link has that says nothing
TABLES = ("block", "node", "link", "route", "policy", "sid")


@dataclass(frozen=True, slots=True)
class Block:
    """A block of compressed SIDs."""

    prefix: IPv6Network
    kind: str  # next or replace
    csid: int  # bits


@dataclass(frozen=True, slots=True)
class Node:
    """A node, with the upper layers that it takes at its SIDs."""

    name: str
    address: IPv6Address
    allow: tuple[int, ...] = ()

    @property
    def prefix(self) -> IPv6Network:
        """The address as a prefix of 128 bits."""
        return IPv6Network(self.address)


@dataclass(frozen=True, slots=True)
class Link:
    """A link; one without an end leaves the network."""

    number: int  # from 1
    name: str
    start: str
    end: str | None
    mtu: int = MOST_MTU  # bytes of the longest packet that it carries


class Route(NamedTuple):
    """A route of a node's table over equal next hops."""

    node: str
    table: int
    prefix: Prefix
    via: tuple[str, ...]


@dataclass(frozen=True, slots=True)
class Policy:
    """A policy that a SID binds."""

    name: str
    source: IPv6Address
    segments: tuple[IPv6Address, ...]
    traffic_class: int = 0
    flow_label: int = 0
    hop_limit: int = 64


@dataclass(frozen=True, slots=True)
class Sid:
    """A SID of a node, with the keys that its behaviour takes."""

    number: int  # from 1
    node: str
    prefix: IPv6Network
    behaviour: str
    csid: str = "plain"  # plain, next or replace
    flavours: tuple[str, ...] = ()
    title: str | None = None
    links: tuple[str, ...] | None = None
    table: int | None = None
    policy: str | None = None

    def __str__(self) -> str:
        return f"{self.prefix} ({self.what})"

    @property
    def what(self) -> str:
        """The behaviour with its keys, in words."""
        words = [self.behaviour]
        if self.csid != "plain":
            words.append(f"{self.csid.upper()}-CSID")
        words += [flavour.upper() for flavour in self.flavours]
        if self.links:
            words.append(f"over {', '.join(self.links)}")
        if self.table is not None:
            words.append(f"table {self.table}")
        if self.policy:
            words.append(f"policy {self.policy}")
        return " ".join(words) + (f", titled {self.title}" if self.title else "")

    @property
    def goes_on(self) -> bool:
        """Whether a list may go on behind it."""
        return self.behaviour in ("End", "End.X", "End.T") or self.binds

    @property
    def binds(self) -> bool:
        """Whether it is a binding SID."""
        return self.behaviour.startswith("End.B6.")

    def exposes(self, family: int) -> bool:
        """Whether it exposes a packet of the family, 6 or 4."""
        return family in _EXPOSED.get(self.behaviour, ()) or "usd" in self.flavours


_EXPOSED = {
    "End.DX6": (6,), "End.DT6": (6,), "End.DX4": (4,), "End.DT4": (4,), "End.DT46": (6, 4),
}  # fmt: skip


@dataclass(slots=True)
class Network:
    """A network as its description has it, each table in the order of the file."""

    path: str
    blocks: list[Block] = field(default_factory=list)
    nodes: dict[str, Node] = field(default_factory=dict)  # by name
    links: dict[str, Link] = field(default_factory=dict)  # by name
    routes: list[Route] = field(default_factory=list)
    policies: dict[str, Policy] = field(default_factory=dict)  # by name
    sids: list[Sid] = field(default_factory=list)

    def link_of(self, number: int) -> Link | None:
        """The link of a number, from 1, where there is one."""
        return list(self.links.values())[number - 1] if 1 <= number <= len(self.links) else None

    def node_number(self, name: str) -> int:
        """The number of a node, from 1."""
        return list(self.nodes).index(name) + 1

    def block_of(self, prefix: IPv6Network) -> Block | None:
        """The block that a prefix lies strictly inside."""
        for block in self.blocks:
            if block.prefix.prefixlen < prefix.prefixlen and prefix.subnet_of(block.prefix):
                return block
        return None


def read_network(path: str | Path) -> Network:
    """The network that a file describes."""
    text = read_text(path)
    return network_of(parse_toml(text, str(path)), str(path), Lines(text))


def network_of(root: dict[str, Any], path: str, lines: Lines | None = None) -> Network:
    """The network of a TOML root, of which faults name the lines where they are known."""
    for key in root:
        if key not in TABLES:
            raise Fault(f"{path}: no table of a description is called {key!r}; {_choices(TABLES)}")
    items = functools.partial(items_of, root, path=path, lines=lines)
    net = Network(path)
    net.blocks = [_block(item) for item in items("block")]
    net.nodes = _by_name((item, _node(item)) for item in items("node"))
    net.links = _by_name((item, _link(item, net)) for item in items("link"))
    net.routes = [_route(item, net) for item in items("route")]
    net.policies = _by_name((item, _policy(item)) for item in items("policy"))
    net.sids = [_sid(item, net) for item in items("sid")]
    return net


def _choices(words: Iterable[str]) -> str:
    return "there are " + ", ".join(words)


def _by_name(rows: Iterable[tuple[Item, Any]]) -> dict[str, Any]:
    found: dict[str, Any] = {}
    for item, row in rows:
        if row.name in found:
            raise item.fault(f"an earlier one has the name {row.name!r}", "name")
        found[row.name] = row
    return found


def _known(item: Item, key: str, name: str, names: dict[str, Any]) -> str:
    if name not in names:
        raise item.fault(f"`{key}` names {name!r}, which there isn't", key)
    return name


def _links(item: Item, key: str, net: Network) -> tuple[str, ...]:
    names = item.texts(key)
    if not names:
        raise item.fault(f"`{key}` has no links", key)
    for name in names:
        _known(item, key, name, net.links)
    return tuple(names)


def _block(item: Item) -> Block:
    kind = item.word("kind", ("next", "replace"))
    return Block(item.prefix6("prefix"), kind, item.integer("csid"))


def _node(item: Item) -> Node:
    return Node(item.text("name"), item.address("address"), tuple(item.integers("allow", ())))


def _link(item: Item, net: Network) -> Link:
    start = _known(item, "from", item.text("from"), net.nodes)
    end = _known(item, "to", item.text("to"), net.nodes) if item.has("to") else None
    mtu = item.integer("mtu", MOST_MTU, LEAST_MTU, MOST_MTU)
    return Link(item.number, item.text("name"), start, end, mtu)


def _route(item: Item, net: Network) -> Route:
    node = _known(item, "node", item.text("node"), net.nodes)
    table = item.integer("table", 0, high=65535)
    return Route(node, table, item.prefix("prefix"), _links(item, "via", net))


def _policy(item: Item) -> Policy:
    return Policy(
        item.text("name"),
        item.address("source"),
        tuple(item.as_address("segments", text) for text in item.texts("segments")),
        item.integer("traffic_class", 0, high=255),
        item.integer("flow_label", 0, high=1_048_575),
        item.integer("hop_limit", 64, low=1, high=255),
    )


def _sid(item: Item, net: Network) -> Sid:
    policy = item.text("policy", None)
    if item.prefix6("prefix").prefixlen == 0:
        raise item.fault("a SID's prefix has 1 to 128 bits", "prefix")
    return Sid(
        item.number,
        _known(item, "node", item.text("node"), net.nodes),
        item.prefix6("prefix"),
        item.word("behaviour", BEHAVIOURS),
        item.word("csid", ("plain", "next", "replace"), "plain"),
        tuple(item.texts("flavours", ())),
        item.text("title", None),
        _links(item, "links", net) if item.has("links") else None,
        item.integer("table", None, high=65535),
        policy if policy is None else _known(item, "policy", policy, net.policies),
    )
