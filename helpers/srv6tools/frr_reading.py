"""A network of routers of FRR as tables of a description: where links lead, addresses that can't stay, and what is left out."""

from __future__ import annotations

import re
from collections.abc import Iterable, Iterator
from dataclasses import dataclass, field
from ipaddress import IPv6Address, IPv6Network
from typing import Any

from .frr_files import INTERFACES, FrrRoute, NextHop, RouterFiles
from .linux import MAIN_TABLE

IGP = ("isis", "ospf6", "openfabric")
OWN = ("connected", "local")
SUBSTITUTES = "fdff:ffff:ffff:fffe::/64"
ISIS_METRIC = 10  # where the configuration has none
MOST_PREFIX = 1  # bits of a SID's prefix, at least
BEHAVIOURS = {"End.B6.Encap": "End.B6.Encaps"}
BLOCK_LENGTHS = (16, 32, 48, 64)


class LeftOut(Exception):
    """The entry isn't in the description, and why."""


@dataclass
class Tables:
    """The tables of a description, and what is said of them."""

    blocks: dict[IPv6Network, int] = field(default_factory=dict)
    nodes: dict[str, IPv6Address] = field(default_factory=dict)
    links: dict[tuple[str, str], dict[str, Any]] = field(default_factory=dict)
    """By router and interface."""
    routes: list[dict[str, Any]] = field(default_factory=list)
    sids: list[dict[str, Any]] = field(default_factory=list)
    metrics: dict[str, int] = field(default_factory=dict)
    """Of the links between routers, by name."""
    notes: dict[tuple[str, str], list[str]] = field(default_factory=dict)
    """What is left out or assumed, and why, with the routers where it is so."""

    def note(self, where: str, what: str, why: str) -> None:
        """Takes note of what is left out or assumed at a router."""
        listed = self.notes.setdefault((what, why), [])
        if where not in listed:
            listed.append(where)

    def lines(self) -> Iterator[str]:
        """The notes as lines."""
        for (what, why), where in self.notes.items():
            some = ", ".join(where[:6]) + (f" and {len(where) - 6} more" if len(where) > 6 else "")
            yield f"{some}: {what}: {why}"


@dataclass
class Reading:
    """Turns what routers wrote into tables."""

    routers: list[RouterFiles]
    substitutes: IPv6Network
    """Where nodes have addresses that can't have their own."""
    blocks: list[IPv6Network] = field(default_factory=list)
    """Blocks of uSIDs of which no locator says so."""
    made: Tables = field(default_factory=Tables)
    names: set[str] = field(default_factory=set)  # of links

    def __post_init__(self) -> None:
        self.by_system_id = {router.system_id: router.name for router in self.routers if router.system_id}
        self.owners: dict[IPv6Address, str] = {}
        for router in self.routers:
            addresses = [one.ip for interface in router.interfaces.values() for one in interface.addresses]
            self.owners |= dict.fromkeys([*addresses, *router.link_locals], router.name)

    def read(self) -> None:
        """Goes through the routers."""
        for router in self.routers:
            for what in router.left_out:
                self.made.note(router.name, *what.split(": ", 1))
            for interface, end in sorted(self._ends(router).items(), key=lambda one: _in_order(one[0])):
                self._link(router, interface, end)
        for router in self.routers:
            self._sids(router)
        self._addresses()
        self._routes()
        self._inside_sids()

    # ---- links

    def _ends(self, router: RouterFiles) -> dict[str, str | None]:
        """The interfaces over which packets leave, each with the router where it leads; None out of the network."""
        found: dict[str, set[str]] = {}
        for route in router.routes:
            for hop in route.hops:
                if hop.interface is None or hop.interface == "lo" or not self._leaves(route, hop):
                    continue
                ends = found.setdefault(hop.interface, set())
                for end in self._end(router, route, hop):
                    ends.add(end)
        for interface in found:
            found[interface] |= self._on_the_same_link(router, interface)
        for interface, ends in found.items():
            if len(ends) > 1:
                why = f"it leads to several routers, {', '.join(sorted(ends))}: the first is taken"
                self.made.note(router.name, f"interface {interface}", why)
        for interface in self._of_igp(router):
            if not found.get(interface):
                why = f"no router is known behind it, so its link leaves the network ({INTERFACES} would tell)"
                self.made.note(router.name, f"interface {interface}", why)
        return {interface: min(ends, default=None) for interface, ends in found.items()}

    def _of_igp(self, router: RouterFiles) -> list[str]:
        """The interfaces over which a routing protocol found routes."""
        hops = (hop for route in router.routes if route.protocol in IGP for hop in route.hops if not hop.action)
        return sorted({hop.interface for hop in hops if hop.interface})

    def _leaves(self, route: FrrRoute, hop: NextHop) -> bool:
        """Whether packets leave over a next hop: not at a SID that looks up or goes on, nor to an own address."""
        if route.prefix.is_link_local or route.prefix.is_multicast or route.protocol == "local":
            return False
        return hop.action in (None, "End.X", "End.DX6", "End.DX4")

    def _end(self, router: RouterFiles, route: FrrRoute, hop: NextHop) -> Iterator[str]:
        """The router that a next hop names: by its address, or by the SID of the adjacency."""
        gateway = hop.gateway
        if hop.action and "nh6" in hop.context:
            gateway = IPv6Address(hop.context["nh6"])
        if gateway in self.owners and self.owners[gateway] != router.name:
            yield self.owners[gateway]
        elif hop.action == "End.X":
            neighbour = router.adjacency_sids.get(route.prefix[0], "")
            name = self.by_system_id.get(neighbour, neighbour)
            if name != router.name and any(one.name == name for one in self.routers):
                yield name

    def _on_the_same_link(self, router: RouterFiles, interface: str) -> set[str]:
        """The routers with an address of the interface's prefix."""
        there = router.interfaces.get(interface)
        prefixes = [one.network for one in there.addresses if one.network.prefixlen < 128] if there else []
        return {name for address, name in self.owners.items() if name != router.name and any(address in one for one in prefixes)}

    def _link(self, router: RouterFiles, interface: str, end: str | None) -> None:
        base = f"{router.name}-{end or interface}"
        name, number = _name(base), 1
        while name in self.names:
            number += 1
            name = _name(base, f"-{number}")
        self.names.add(name)
        self.made.links[router.name, interface] = {"name": name, "from": router.name} | ({"to": end} if end else {})
        if end:
            self.made.metrics[name] = self._metric(router, interface)

    def _metric(self, router: RouterFiles, interface: str) -> int:
        """The metric of an interface, as the configuration has it, or the default of IS-IS."""
        there = router.interfaces.get(interface)
        if there and there.metric:
            return there.metric
        if router.runs_ospf6:
            why = "its configuration has no cost of OSPFv3, and 10 is taken for the plan"
            self.made.note(router.name, f"interface {interface}", why)
        return ISIS_METRIC

    # ---- SIDs

    def _sids(self, router: RouterFiles) -> None:
        for route in router.routes:
            hop = next((hop for hop in route.hops if hop.action), None)
            if hop is None:
                continue
            try:
                self.made.sids.append(self._sid(router, route, hop))
            except LeftOut as why:
                self.made.note(router.name, f"SID {route.prefix} ({hop.action})", str(why))

    def _sid(self, router: RouterFiles, route: FrrRoute, hop: NextHop) -> dict[str, Any]:
        behaviour = BEHAVIOURS.get(hop.action or "", hop.action)
        item: dict[str, Any] = {"node": router.name, "prefix": str(route.prefix), "behaviour": behaviour}
        match behaviour:
            case "End":
                pass
            case "End.X" | "End.DX6" | "End.DX4":
                item["links"] = [self._link_name(router, hop)]
            case "End.T" | "End.DT6" | "End.DT4" | "End.DT46":
                item["table"] = self._table(hop)
            case _:
                raise LeftOut("a description has no such behaviour, or FRR doesn't say its policy")
        if behaviour not in ("End", "End.X", "End.T"):
            item["title"] = self._title(router.name, behaviour or "")
        return item | self._csid(router, route, behaviour or "")

    def _link_name(self, router: RouterFiles, hop: NextHop) -> str:
        if (router.name, hop.interface) not in self.made.links:
            raise LeftOut(f"it leads over {hop.interface or 'no interface'}, which is no link")
        return self.made.links[router.name, hop.interface or ""]["name"]

    def _table(self, hop: NextHop) -> int:
        table = hop.context.get("table", hop.context.get("vrftable"))
        if not isinstance(table, int) or not 0 < table < 65536:
            raise LeftOut(f"FRR doesn't say its table: {hop.context}")
        return 0 if table == MAIN_TABLE else table

    def _title(self, node: str, behaviour: str) -> str:
        taken = [sid.get("title") for sid in self.made.sids]
        base, number = f"{node}-{behaviour.removeprefix('End.')}", 1
        title = _name(base)
        while title in taken:
            number += 1
            title = _name(base, f"-{number}")
        return title

    def _csid(self, router: RouterFiles, route: FrrRoute, behaviour: str) -> dict[str, Any]:
        """Whether it is a uSID: an End or End.X in a block that is told, or in a locator of uSIDs, with its block."""
        if behaviour not in ("End", "End.X"):
            return {}
        for block in self.blocks:
            if route.prefix.prefixlen in (block.prefixlen + 16, block.prefixlen + 32) and route.prefix.subnet_of(block):
                self.made.blocks[block] = 16
                self.made.note(router.name, f"SIDs in {block} (--block)", "taken for NEXT-CSIDs")
                return {"csid": "next"}
        locator = next((one for one in router.locators if one.is_usid and route.prefix.subnet_of(one.prefix)), None)
        if locator is None:
            return {}
        own = locator.prefix.prefixlen - locator.block
        if locator.block not in BLOCK_LENGTHS or own not in (16, 32):
            raise LeftOut(f"a description has no block of {locator.block} bits with CSIDs of {own}")
        self.made.blocks[locator.block_prefix] = own
        self.made.note(router.name, f"SIDs of locator {locator.name}", "taken for NEXT-CSIDs, since its behavior is usid")
        return {"csid": "next"}

    # ---- addresses

    def _addresses(self) -> None:
        for number, router in enumerate(self.routers, 1):
            loopback = router.interfaces.get("lo")
            own = [one.ip for one in loopback.addresses if not one.ip.is_link_local] if loopback else []
            address = own[0] if own else None
            if address is None:
                self.made.note(router.name, "no address of lo", f"{self.substitutes[number]} stands in for it")
            elif sid := self._sid_around(IPv6Network(address)):
                other = self.substitutes[number]
                why = f"it lies inside SID {sid} (41 Nested), so {other} stands in for it, and packets to it meet the SID"
                self.made.note(router.name, f"address {address}", why)
                address = None
            for other in own[1:]:
                self.made.note(router.name, f"address {other}", "a node has one address")
            self.made.nodes[router.name] = address or self.substitutes[number]

    def _sid_around(self, prefix: IPv6Network) -> IPv6Network | None:
        """A SID that a prefix lies strictly inside."""
        prefixes = self._sid_prefixes()
        for length in range(prefix.prefixlen - 1, MOST_PREFIX - 1, -1):
            if (outer := prefix.supernet(new_prefix=length)) in prefixes:
                return outer
        return None

    def _sid_prefixes(self) -> set[IPv6Network]:
        if not hasattr(self, "_known_prefixes"):
            self._known_prefixes = {IPv6Network(sid["prefix"]) for sid in self.made.sids}
        return self._known_prefixes

    # ---- routes

    def _routes(self) -> None:
        inner = self._inner_prefixes()
        for router in self.routers:
            for route in router.routes:
                try:
                    if item := self._route(router, route, inner):
                        self.made.routes.append(item)
                except LeftOut as why:
                    self.made.note(router.name, str(route), str(why))

    def _inner_prefixes(self) -> set[IPv6Network]:
        """The prefixes of the links between routers."""
        found = set()
        for router in self.routers:
            for interface in router.interfaces.values():
                if "to" in self.made.links.get((router.name, interface.name), {}):
                    found |= {one.network for one in interface.addresses}
        return found

    def _route(self, router: RouterFiles, route: FrrRoute, inner: Iterable[IPv6Network]) -> dict[str, Any] | None:
        """A route, none where it only tells of an own address or is a SID."""
        prefix = route.prefix
        if prefix.is_link_local or prefix.is_multicast or route.protocol == "local" or any(hop.action for hop in route.hops):
            return None
        if route.protocol in OWN and all(hop.interface == "lo" for hop in route.hops):
            return None
        if prefix in inner:
            raise LeftOut("the addresses of links between routers aren't in a description")
        if any(hop.segments for hop in route.hops):
            raise LeftOut("it puts a list on; `srv6 walk` does so by an intent")
        if route.table != MAIN_TABLE:
            raise LeftOut(f"it is of table {route.table}")
        if sid := self._sid_around(prefix):
            raise LeftOut(f"it lies inside SID {sid} (41 Nested)")
        links = [self.made.links.get((router.name, hop.interface or "")) for hop in route.hops]
        if not links or None in links:
            raise LeftOut("it names no interface that is a link")
        if len({hop.weight for hop in route.hops}) > 1:
            self.made.note(router.name, str(route), "the weights of its next hops are left out; they are equal here")
        there = {link["name"] for link in links if link}
        via = [link["name"] for link in self.made.links.values() if link["name"] in there]
        return {"node": router.name, "prefix": str(prefix), "via": via, "protocol": route.protocol}

    # ---- what compile will say

    def _inside_sids(self) -> None:
        """Notes of SIDs that are nested otherwise than a description may have it."""
        by_prefix = {IPv6Network(sid["prefix"]): sid for sid in self.made.sids}
        for prefix, sid in by_prefix.items():
            outer = self._sid_around(prefix)
            if outer and (prefix.prefixlen != outer.prefixlen + 16 or by_prefix[outer].get("csid") != "next"):
                self.made.note(sid["node"], f"SID {prefix}", f"it lies inside SID {outer}, which `compile` refuses (41 Nested)")


def _in_order(interface: str) -> tuple[str, int]:
    """The order of interfaces: eth2 before eth10."""
    match = re.fullmatch(r"(.*?)([0-9]{0,9})", interface)
    return (match[1], int(match[2] or 0)) if match else (interface, 0)


def _name(base: str, more: str = "") -> str:
    """A name of the letters and the length that a description takes."""
    return re.sub(r"[^A-Za-z0-9_.-]", "_", base)[: 32 - len(more)] + more


@dataclass
class Planned:
    """What a plan finds again of the routes that routing protocols found."""

    ends: set[str]
    """The prefixes of End SIDs."""
    addresses: bool
    """Whether the addresses of nodes are reached."""
    locators: dict[str, list[str]]
    """Other prefixes, with the nodes that have them otherwise."""

    @staticmethod
    def of(made: Tables) -> Planned:
        """The plan of a description; a prefix that no node has otherwise isn't planned, and its routes stay."""
        found = [route for route in made.routes if route["protocol"] in IGP]
        ends = {sid["prefix"] for sid in made.sids if sid["behaviour"] == "End"}
        own = {f"{address}/128" for address in made.nodes.values()}
        locators: dict[str, list[str]] = {}
        for prefix in dict.fromkeys(route["prefix"] for route in found if route["prefix"] not in ends | own):
            nodes = [route["node"] for route in made.routes if route["prefix"] == prefix and route["protocol"] not in IGP]
            if nodes:
                locators[prefix] = nodes
                made.note(", ".join(nodes), f"prefix {prefix}", "a locator of the plan, as it stands in their tables otherwise")
            else:
                made.note("the plan", f"prefix {prefix}", "it isn't known which node has it, so the routes to it stay")
        return Planned(ends, any(route["prefix"] in own for route in found), locators)

    def finds(self, route: dict[str, Any], addresses: set[str]) -> bool:
        """Whether the plan finds a route."""
        prefix = route["prefix"]
        return route["protocol"] in IGP and (prefix in self.ends or prefix in addresses or prefix in self.locators)


def tables_of(made: Tables, planned: Planned | None) -> dict[str, list[dict[str, Any]]]:
    """The tables of the description, without those that are empty, and without routes that a plan finds."""
    own = {f"{address}/128" for address in made.nodes.values()}
    routes = [
        {key: value for key, value in route.items() if key != "protocol"}
        for route in made.routes
        if not (planned and planned.finds(route, own))
    ]
    keys = ("node", "prefix", "behaviour", "csid", "title", "links", "table")
    tables = {
        "block": [{"prefix": str(block), "kind": "next", "csid": own} for block, own in sorted(made.blocks.items())],
        "node": [{"name": name, "address": str(address)} for name, address in made.nodes.items()],
        "link": list(made.links.values()),
        "route": routes,
        "sid": [{key: sid[key] for key in keys if key in sid} for sid in made.sids],
    }
    return {table: items for table, items in tables.items() if items}
