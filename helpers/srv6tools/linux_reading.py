"""Routes of a Linux router as tables of a description: its links, routes, SIDs, policies, and what is left out."""

from __future__ import annotations

import functools
import re
from collections.abc import Iterable, Iterator
from dataclasses import dataclass, field
from ipaddress import IPv4Address, IPv6Address, IPv6Network, ip_address
from typing import Any

from .ip_json import LOCAL, UNICAST, LinuxRoute, NextHop, Prefix, object_of, table_of
from .linux import LOCAL_TABLE, MAIN_TABLE, OWN_TABLES

BLOCK_LENGTHS = (16, 32, 48, 64)
Address = IPv6Address | IPv4Address


class LeftOut(Exception):
    """The route isn't in the description, and why."""


class BestMatch:
    """Finds the route of the main table with the longest prefix that holds an address."""

    def __init__(self, routes: Iterable[LinuxRoute]) -> None:
        self.routes: dict[tuple[int, int, int], LinuxRoute] = {}
        for route in routes:
            is_main = route.table == MAIN_TABLE and route.kind == UNICAST
            if is_main and route.hops and not route.encap:
                key = self._key(route.prefix[0], route.prefix.prefixlen)
                earlier = self.routes.setdefault(key, route)
                if route.metric < earlier.metric:
                    self.routes[key] = route

    def _key(self, address: Address, length: int) -> tuple[int, int, int]:
        return address.version, length, int(address) >> address.max_prefixlen - length

    def of(self, address: Address) -> LinuxRoute | None:
        """The route of an address, none where no prefix holds it."""
        for length in range(address.max_prefixlen, -1, -1):
            if found := self.routes.get(self._key(address, length)):
                return found
        return None


@dataclass
class Links:
    """The links of the node: an interface, and the neighbour that routes name on it."""

    node: str
    named: dict[str, tuple[str, str | None]]
    """By interface, or interface@neighbour: the link's name and the node where it leads."""
    parted: frozenset[str] = frozenset()
    """The interfaces with several neighbours of a family; each neighbour there is a link."""
    found: dict[tuple[str, str | None], str] = field(default_factory=dict)
    items: list[dict[str, Any]] = field(default_factory=list)

    def of(self, interface: str, neighbour: str | None) -> str:
        """The name of the link over an interface to a neighbour."""
        key = interface, neighbour if interface in self.parted else None
        if key not in self.found:
            self.found[key] = self._new(*key)
        return self.found[key]

    def _new(self, interface: str, neighbour: str | None) -> str:
        given = self.named.get(f"{interface}@{neighbour}") or self.named.get(interface)
        wanted, end = given or (interface, None)
        name = self._free(wanted)
        self.items.append({"name": name, "from": self.node} | ({"to": end} if end else {}))
        return name

    def _free(self, wanted: str) -> str:
        """A name that no other link has, of the letters that a description takes."""
        base = re.sub(r"[^A-Za-z0-9_.-]", "_", wanted)[:26] or "link"
        taken = {item["name"] for item in self.items}
        number, name = 1, base
        while name in taken:
            number += 1
            name = f"{base}.{number}"
        return name


@dataclass
class Made:
    """The tables of a description, and what is left out."""

    blocks: dict[IPv6Network, int] = field(default_factory=dict)
    routes: dict[tuple[int, Any], dict[str, Any]] = field(default_factory=dict)
    policies: list[dict[str, Any]] = field(default_factory=list)
    sids: dict[IPv6Network, dict[str, Any]] = field(default_factory=dict)
    notes: list[str] = field(default_factory=list)
    elsewhere: int = 0
    """SIDs that are left out for the table in which they stand."""

    def note(self, what: object, why: str) -> None:
        """Takes note of what is left out or changed."""
        self.notes.append(f"{what}: {why}")


@dataclass
class Reading:
    """Turns the routes of a router into tables."""

    node: str
    address: IPv6Address
    source: IPv6Address
    links: Links
    routes: list[LinuxRoute]
    sid_tables: frozenset[int] = frozenset()
    """The tables beside the main one whose SIDs are taken."""
    vrfs: dict[str, int] = field(default_factory=dict)
    """The tables of VRFs, by the device."""
    made: Made = field(default_factory=Made)

    def __post_init__(self) -> None:
        self.matches = BestMatch(self.routes)
        self.dropped: dict[tuple[int, Prefix], int] = {}
        self.in_main = {(route.number, route.prefix.version) for route in self.routes if route.table == MAIN_TABLE}
        self.neighbours = set(self._neighbours())
        count: dict[tuple[str, int], int] = {}
        for interface, address in self.neighbours:
            key = interface, address.version
            count[key] = count.get(key, 0) + 1
        self.links.parted = frozenset(key[0] for key, number in count.items() if number > 1)

    def _neighbours(self) -> Iterator[tuple[str, Address]]:
        """The interfaces with the next hops that routes and SIDs name on them."""
        for route in self.routes:
            for hop in route.hops:
                if (address := _address_of(hop.gateway)) is not None:
                    yield hop.interface, address
            for key in ("nh6", "nh4"):
                address = _address_of(route.action.get(key))
                if address and int(address) and (found := self._interface_to(route, address)):
                    yield found, address

    def read(self) -> None:
        """Goes through the routes, those of the lowest metric of a prefix first."""
        for route in sorted(self.routes, key=lambda route: route.metric):
            try:
                self._take(route)
            except LeftOut as why:
                self.made.note(route, str(why))

    def _take(self, route: LinuxRoute) -> None:
        if self._is_linux_own(route):
            return
        if route.kind != UNICAST:
            self._take_drop(route)
            return
        if route.encap == "seg6local":
            self._take_sid(route)
        elif route.encap or any(hop.encap for hop in route.hops):
            encap = route.encap or next(hop.encap for hop in route.hops if hop.encap)
            raise LeftOut(f"it encapsulates ({encap}); `srv6 walk` does so by an intent")
        elif not self._is_of_a_neighbour(route):
            self._take_route(route)

    def _take_drop(self, route: LinuxRoute) -> None:
        """A route by which packets are dropped: at the end of a table that is what becomes of them anyway."""
        key = 0 if route.table == MAIN_TABLE else route.table, route.prefix
        self.dropped.setdefault(key, route.metric)
        if route.kind != "unreachable" or route.prefix.prefixlen:
            raise LeftOut(f"a description has no {route.kind} routes")

    def _is_linux_own(self, route: LinuxRoute) -> bool:
        """Whether each router of Linux has it, or it only tells of an address of its own."""
        prefix = route.prefix
        first = prefix.network_address
        if first.is_multicast or first.is_link_local or first.is_loopback:
            return True
        if route.kind in (LOCAL, "anycast", "broadcast") or route.table == LOCAL_TABLE:
            if route.kind == LOCAL and prefix.prefixlen == 128 and prefix[0] != self.address:
                self.made.note(route, "an address of Linux; a node has one, which is --address")
            return True
        is_host = prefix.prefixlen == prefix.max_prefixlen
        on_lo = all(hop.interface == "lo" for hop in route.hops)
        return is_host and on_lo and route.encap is None

    def _is_of_a_neighbour(self, route: LinuxRoute) -> bool:
        """Whether the route only says where a neighbour that other routes name is."""
        prefix = route.prefix
        return (
            prefix.prefixlen == prefix.max_prefixlen
            and route.table == MAIN_TABLE
            and len(route.hops) == 1
            and route.hops[0].gateway is None
            and (route.hops[0].interface, prefix[0]) in self.neighbours
        )

    def _take_route(self, route: LinuxRoute) -> None:
        if not route.hops:
            raise LeftOut("it names no interface")
        table = self._table(route.table)
        if self.dropped.get((table, route.prefix), route.metric) < route.metric:
            raise LeftOut("a route of a lower metric drops packets to the prefix")
        if route.table in self.sid_tables:
            self.made.note(route, "it stays in that table, of which SIDs alone are taken (--sid-table)")
        if len({hop.weight for hop in route.hops}) > 1:
            self.made.note(route, "the weights of its next hops are left out; they are equal here")
        via = list(dict.fromkeys(self._link_of(hop) for hop in route.hops))
        key = table, route.prefix
        if earlier := self.made.routes.get(key):
            if earlier["metric"] != route.metric:
                raise LeftOut("another route to the prefix has a lower metric")
            via = list(dict.fromkeys(earlier["via"] + via))
        item = {"node": self.node} | ({"table": table} if table else {})
        item |= {"prefix": str(route.prefix), "via": via, "metric": route.metric}
        self.made.routes[key] = item

    def _link_of(self, hop: NextHop) -> str:
        if hop.interface == "lo":
            raise LeftOut("it leads to the interface lo")
        return self._link(hop.interface, hop.gateway)

    def _link(self, interface: str, neighbour: str | None) -> str:
        if interface in self.vrfs:
            raise LeftOut(f"it leads into table {self.vrfs[interface]}, of the VRF {interface}, and a description has no such links")
        return self.links.of(interface, neighbour)

    def _table(self, table: int) -> int:
        """The number that a description has for a table of Linux."""
        if table == MAIN_TABLE:
            return 0
        if table in OWN_TABLES or not 0 < table < 65536:
            raise LeftOut(f"a description has no table {OWN_TABLES.get(table, table)}")
        return table

    def _take_sid(self, route: LinuxRoute) -> None:
        if route.table != MAIN_TABLE and route.table not in self.sid_tables:
            if (route.number, route.prefix.version) in self.in_main:
                return  # a rule leads there
            self.made.elsewhere += 1
            raise LeftOut("SIDs of a description are in table 0, Linux' main table (--rules and --sid-table take those of others)")
        if not isinstance(route.prefix, IPv6Network) or route.prefix.prefixlen == 0:
            raise LeftOut("a SID has an IPv6 prefix of 1 to 128 bits")
        if route.prefix in self.made.sids:
            raise LeftOut("another SID of the prefix has a lower metric")
        item: dict[str, Any] = {"node": self.node, "prefix": str(route.prefix)}
        self.made.sids[route.prefix] = item | self._behaviour(route) | self._flavours(route)

    def _behaviour(self, route: LinuxRoute) -> dict[str, Any]:
        action, words = str(route.action.get("action")), route.action
        match action:
            case "End":
                return {"behaviour": "End"}
            case "End.T":
                return {"behaviour": "End.T", "table": self._table_in(words, "table")}
            case "End.X" | "End.DX6" | "End.DX4":
                return self._over_a_link(route, action)
            case "End.DT6":
                key = "vrftable" if "vrftable" in words else "table"
                return {"behaviour": action, "table": self._table_in(words, key)}
            case "End.DT4" | "End.DT46":
                return {"behaviour": action, "table": self._table_in(words, "vrftable")}
            case "End.B6.Encaps":
                return {"behaviour": action, "policy": self._policy(route)}
        raise LeftOut(f"a description has no behaviour {action}")

    def _table_in(self, words: dict[str, Any], key: str) -> int:
        try:
            return self._table(table_of(words.get(key)))
        except ValueError as fault:
            raise LeftOut(str(fault)) from None

    def _over_a_link(self, route: LinuxRoute, action: str) -> dict[str, Any]:
        key = "nh4" if action == "End.DX4" else "nh6"
        text = route.action.get(key)
        neighbour = _address_of(text)
        if neighbour is None:
            raise LeftOut(f"`{key}` is no address: {text!r}")
        if int(neighbour) == 0:
            if action == "End.X":
                raise LeftOut("it looks the packet up, which is End's work")
            table = {"End.DX6": "End.DT6", "End.DX4": "End.DT4"}[action]
            why = f"{action} without a next hop looks up, so it is {table} of table 0"
            self.made.note(route, why)
            return {"behaviour": table, "table": 0}
        interface = self._interface_to(route, neighbour)
        if interface is None:
            raise LeftOut(f"no route leads to its next hop {neighbour}")
        return {"behaviour": action, "links": [self._link(interface, str(neighbour))]}

    def _interface_to(self, route: LinuxRoute, neighbour: Address) -> str | None:
        """The interface over which a next hop is reached: `oif`, or that of the best match."""
        if isinstance(oif := route.action.get("oif"), str):
            return oif
        if neighbour.is_link_local and neighbour.version == 6:
            return route.hops[0].interface if route.hops else None
        best = self.matches.of(neighbour)
        return best.hops[0].interface if best else None

    def _policy(self, route: LinuxRoute) -> str:
        segments = object_of(route.action.get("srh")).get("segs")
        if not isinstance(segments, list) or not segments or None in map(_address_of, segments):
            raise LeftOut("it has no segments")
        for policy in self.made.policies:
            if policy["segments"] == segments:
                return policy["name"]
        name = f"policy{len(self.made.policies) + 1}"
        policy = {"name": name, "source": str(self.source), "segments": segments}
        self.made.policies.append(policy)
        self.made.note(route, f"the source of {name} is {self.source} (--source), its hop limit 64")
        return name

    def _flavours(self, route: LinuxRoute) -> dict[str, Any]:
        flavours = route.action.get("flavors", [])
        if not isinstance(flavours, list) or not all(isinstance(one, str) for one in flavours):
            raise LeftOut("`flavors` is no list of words")
        known = [one for one in ("psp", "usp", "usd") if one in flavours]
        if left := set(flavours) - {"psp", "usp", "usd", "next-csid"}:
            raise LeftOut(f"a description has no flavour {', '.join(sorted(left))}")
        found: dict[str, Any] = {"flavours": known} if known else {}
        if "next-csid" in flavours:
            self._block(route)
            found["csid"] = "next"
        return found

    def _block(self, route: LinuxRoute) -> None:
        """The block of a SID with NEXT-CSID: as many bits as Linux shifts past."""
        words, length = route.action, route.prefix.prefixlen
        lengths = words.get("lblen", 32), words.get("nflen", 16)
        if any(type(one) is not int for one in lengths):
            raise LeftOut("`lblen` or `nflen` is no number")
        block_length, own = lengths
        if block_length + own != length:
            sum_ = block_length + own
            raise LeftOut(f"its prefix has {length} bits, and lblen and nflen are {sum_}")
        if block_length not in BLOCK_LENGTHS or own not in (16, 32):
            raise LeftOut(f"a description has no block of {block_length} bits with CSIDs of {own}")
        block = IPv6Network((int(route.prefix[0]) >> 128 - block_length << 128 - block_length,
                             block_length))  # fmt: skip
        self.made.blocks[block] = min(own, self.made.blocks.get(block, own))


def _address_of(value: Any) -> Address | None:
    return _read_address(value) if isinstance(value, str) else None


@functools.lru_cache(4096)
def _read_address(text: str) -> Address | None:
    try:
        return ip_address(text)
    except ValueError:
        return None


def tables_of(reading: Reading) -> dict[str, list[dict[str, Any]]]:
    """The tables of the description, without those that are empty."""
    made = reading.made
    routes = [
        {key: value for key, value in item.items() if key != "metric"}
        for (table, prefix), item in made.routes.items()
        if not (table == 0 and prefix in made.sids)
    ]
    tables = {
        "block": [
            {"prefix": str(block), "kind": "next", "csid": csid}
            for block, csid in made.blocks.items()
        ],
        "node": [{"name": reading.node, "address": str(reading.address)}],
        "link": reading.links.items,
        "route": routes,
        "policy": made.policies,
        "sid": [_in_order(item) for item in made.sids.values()],
    }
    return {table: items for table, items in tables.items() if items}


def _in_order(sid: dict[str, Any]) -> dict[str, Any]:
    """A SID with its keys in the order of the format."""
    keys = ("node", "prefix", "behaviour", "csid", "flavours", "links", "table", "policy")
    return {key: sid[key] for key in keys if key in sid}
