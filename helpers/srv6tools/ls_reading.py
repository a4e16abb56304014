"""The link-state table of BGP as tables of a description and a plan; what is left out or assumed is said."""

from __future__ import annotations

import re
from collections.abc import Iterable
from dataclasses import dataclass, field
from ipaddress import IPv6Address, IPv6Network
from typing import Any

from .link_state import LinkTold, NodeTold, PrefixTold, Sid, SidTold, Told

METRIC = 10  # of a link whose metric isn't told
IPV6_TOPOLOGY = 2  # of IS-IS (RFC 5120 section 7.5)
_FLAVOURS = (
    (), ("psp",), ("usp",), ("psp", "usp"), ("usd",), ("psp", "usd"), ("usp", "usd"), ("psp", "usp", "usd"),
)  # fmt: skip
_FIRST = {"End": (1, 28), "End.X": (5, 32)}
BEHAVIOURS: dict[int, dict[str, Any]] = {
    16: {"behaviour": "End.DX6"}, 17: {"behaviour": "End.DX4"}, 18: {"behaviour": "End.DT6"}, 19: {"behaviour": "End.DT4"},
    20: {"behaviour": "End.DT46"}, 62: {"behaviour": "End.DT6"}, 63: {"behaviour": "End.DT4"}, 64: {"behaviour": "End.DT46"},
}  # fmt: skip
"""By the code of a behaviour (RFC 8986 section 10.2, RFC 9800 section 12): those with a table or a link; below, End and End.X."""
for _name, _codes in _FIRST.items():
    for _number, _flavours in enumerate(_FLAVOURS):
        _code = _codes[_number // 4] + _number % 4
        BEHAVIOURS[_code] = {"behaviour": _name} | ({"flavours": list(_flavours)} if _flavours else {})
        BEHAVIOURS[{"End": 43, "End.X": 52}[_name] + _number] = BEHAVIOURS[_code] | {"csid": "next"}


@dataclass
class Reading:
    """Turns what routes say into tables."""

    told: list[Told]
    blocks: list[IPv6Network]
    """Blocks whose prefixes with 16 bits more are the locators of uSIDs."""
    substitutes: IPv6Network
    """Where nodes have addresses that can't have their own."""
    nodes: dict[str, dict[str, str]] = field(default_factory=dict)  # by identifier
    links: list[dict[str, str]] = field(default_factory=list)
    metrics: list[dict[str, Any]] = field(default_factory=list)
    sids: list[dict[str, Any]] = field(default_factory=list)
    locators: dict[IPv6Network, list[str]] = field(default_factory=dict)
    notes: dict[str, None] = field(default_factory=dict)
    names: set[str] = field(default_factory=set)  # of links
    prefixes: set[str] = field(default_factory=set)  # of SIDs

    def note(self, text: str) -> None:
        """Takes note of what is left out or assumed."""
        self.notes[text] = None

    def of(self, kind: type) -> list[Any]:
        """What is told of a kind."""
        return [one for one in self.told if isinstance(one, kind)]

    def read(self) -> None:
        """Goes through what is told."""
        self._nodes()
        for link in self._links():
            self._link(link)
        self._locators()
        for told in self.of(SidTold):
            self._sid(told.router, told.sid, None)
        self.prefixes = {sid["prefix"] for sid in self.sids}
        self._addresses()
        self._others()

    # ---- nodes and links

    def _nodes(self) -> None:
        names: set[str] = set()
        for told in self.of(NodeTold):
            if "-" in told.router or told.router in self.nodes:
                continue
            name = re.sub(r"[^A-Za-z0-9_.-]", "_", told.name or told.router)[:32]
            if name in names:
                self.note(f"node {told.router}: another node has the name {name}, so the identifier is taken")
                name = told.router
            names.add(name)
            self.nodes[told.router] = {"name": name}

    def _links(self) -> list[LinkTold]:
        """The links, each once, those of a shared network as one for each pair of its nodes; of topologies the one of IPv6."""
        found: dict[tuple, LinkTold] = {}
        for link in sorted(self.of(LinkTold), key=lambda link: link.topology != IPV6_TOPOLOGY):
            found.setdefault((link.start, link.end, link.told_by), link)
        shared: dict[str, list[LinkTold]] = {}
        for link in found.values():
            if "-" in link.end:
                shared.setdefault(link.end, []).append(link)
        straight = [link for link in found.values() if "-" not in link.end and "-" not in link.start]
        for name, links in shared.items():
            self.note(f"shared network {name}: taken for a link from each of its {len(links)} nodes to each other")
            straight += [
                LinkTold(one.start, other.start, (name,), one.addresses, one.topology, one.metric, ())
                for one in links for other in links if one.start != other.start
            ]  # fmt: skip
        return straight

    def _link(self, told: LinkTold) -> None:
        if told.start not in self.nodes or told.end not in self.nodes:
            self.note(f"link {told.start} to {told.end}: no node is told of one end")
            return
        start, end = self.nodes[told.start]["name"], self.nodes[told.end]["name"]
        base, number = f"{start}-{end}"[:28], 1
        name = base
        while name in self.names:
            number += 1
            name = f"{base}-{number}"
        self.names.add(name)
        self.links.append({"name": name, "from": start, "to": end})
        if told.metric is None:
            self.note(f"link {name}: its metric isn't told, and {METRIC} is taken")
        self.metrics.append({"name": name, "metric": told.metric or METRIC})
        for sid in told.sids:
            self._sid(told.start, sid, name)

    # ---- SIDs

    def _locators(self) -> None:
        for told in self.of(PrefixTold):
            block = next((one for one in self.blocks if self._is_locator(told.prefix, one)), None)
            if block is None or told.router not in self.nodes:
                continue
            name = self.nodes[told.router]["name"]
            item = {"node": name, "prefix": str(told.prefix), "behaviour": "End", "csid": "next"}
            if item not in self.sids:
                self.sids.append(item)
                self.note(f"locators in {block} (--block): taken for End SIDs with NEXT-CSID")

    def _is_locator(self, prefix: IPv6Network, block: IPv6Network) -> bool:
        return prefix.prefixlen == block.prefixlen + 16 and prefix.subnet_of(block)

    def _sid(self, router: str, sid: Sid, link: str | None) -> None:
        """A SID of a node, over a link where it is that of an adjacency."""
        if router not in self.nodes:
            return
        what, name = f"SID {sid.value} of {self.nodes[router]['name']}", self.nodes[router]["name"]
        keys = BEHAVIOURS.get(sid.behaviour)
        if keys is None:
            why = f"a description has no behaviour of code {sid.behaviour}" if sid.behaviour else "its behaviour isn't told"
            self.note(f"{what}: {why}")
        elif not sum(sid.lengths):
            self.note(f"{what}: its structure isn't told, so its length isn't known")
        elif keys["behaviour"] in ("End.X", "End.DX6", "End.DX4") and link is None:
            self.note(f"{what}: it isn't told over which link it sends")
        else:
            prefix = IPv6Network((sid.value, sum(sid.lengths)), strict=False)
            item: dict[str, Any] = {"node": name, "prefix": str(prefix)} | keys
            if link and keys["behaviour"] != "End":
                item["links"] = [link]
            if keys["behaviour"].startswith("End.DT"):
                item |= {"table": 0, "title": f"{name}-{keys['behaviour'][4:]}"}
                self.note(f"{what}: its table isn't told, and 0 is taken")
            if keys.get("csid"):
                self.blocks += [block for block in [prefix.supernet(new_prefix=sid.lengths[0])] if block not in self.blocks]
            self.sids = [one for one in self.sids if (one["node"], one["prefix"]) != (name, str(prefix))] + [item]

    def _around(self, prefix: IPv6Network) -> str | None:
        """A SID that a prefix lies strictly inside."""
        lengths = (length for length in range(1, prefix.prefixlen))
        return next((text for length in lengths if (text := str(prefix.supernet(new_prefix=length))) in self.prefixes), None)

    # ---- addresses, and prefixes that are no locators

    def _addresses(self) -> None:
        own = {told.router: told.address for told in self.of(NodeTold) if told.address}
        hosts: dict[str, list[IPv6Address]] = {}
        for told in self.of(PrefixTold):
            if told.prefix.prefixlen == 128:
                hosts.setdefault(told.router, []).append(told.prefix[0])
        for number, (router, node) in enumerate(self.nodes.items(), 1):
            address = own.get(router) or next(iter(hosts.get(router, [])), None)
            other = self.substitutes[number]
            if address is None:
                self.note(f"node {node['name']}: no address is told, and {other} stands in for it")
            elif sid := self._around(IPv6Network(address)):
                self.note(f"address {address} of {node['name']}: it lies inside SID {sid} (41 Nested), so {other} stands in for it")
                address = None
            node["address"] = str(address or other)

    def _others(self) -> None:
        """The prefixes that become locators of the plan."""
        addresses = {address for link in self.of(LinkTold) for address in link.addresses}
        taken = {sid["prefix"] for sid in self.sids} | {f"{node['address']}/128" for node in self.nodes.values()}
        for told in self.of(PrefixTold):
            if told.router not in self.nodes or str(told.prefix) in taken:
                continue
            if told.prefix.prefixlen < 128 and any(address in told.prefix for address in addresses):
                self.note(f"prefix {told.prefix}: the addresses of links aren't in a description")
            elif sid := self._around(told.prefix):
                self.note(f"prefix {told.prefix}: it lies inside SID {sid} (41 Nested)")
            else:
                nodes = self.locators.setdefault(told.prefix, [])
                nodes += [name for name in [self.nodes[told.router]["name"]] if name not in nodes]

    # ---- what comes of it

    def tables(self) -> dict[str, Iterable[dict[str, Any]]]:
        """The tables of the description."""
        compressed = [IPv6Network(sid["prefix"]) for sid in self.sids if sid.get("csid")]
        used = [block for block in self.blocks if any(prefix.subnet_of(block) for prefix in compressed)]
        keys = ("node", "prefix", "behaviour", "csid", "flavours", "title", "links", "table")
        tables = {
            "block": [{"prefix": str(block), "kind": "next", "csid": 16} for block in used],
            "node": list(self.nodes.values()),
            "link": self.links,
            "sid": [{key: sid[key] for key in keys if key in sid} for sid in self.sids],
        }
        return {table: items for table, items in tables.items() if items}

    def plan(self) -> dict[str, list[dict[str, Any]]]:
        """The tables of the plan."""
        return {"link": self.metrics, "locator": [{"prefix": str(prefix), "nodes": nodes} for prefix, nodes in self.locators.items()]}
