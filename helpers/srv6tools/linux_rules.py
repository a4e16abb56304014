"""Rules and VRFs of a Linux router: which tables packets look up before the main one, and which interfaces belong to which table."""

from __future__ import annotations

import dataclasses
from collections.abc import Iterable, Iterator, Sequence
from dataclasses import dataclass, field
from typing import Any

from .command import Fault
from .ip_json import LinuxRoute, LinuxRule, Prefix, Unread, objects_in, table_of
from .linux import LOCAL_TABLE, MAIN_TABLE


def rules_before_main(rules: Iterable[LinuxRule | Unread], name: str, has_vrfs: bool, notes: list[str]) -> list[LinuxRule]:
    """The rules by which packets to some destinations look up a table before the main one, in the order in which they are asked;
    what other rules do is noted.
    """
    read = []
    for rule in rules:
        if isinstance(rule, Unread):
            notes.append(f"{name}: rule {rule.number}: {rule.why}")
        else:
            read.append(rule)
    found: list[LinuxRule] = []
    for rule in sorted(read, key=lambda rule: rule.priority):
        if why := _left_out(rule, has_vrfs):
            notes.append(f"{name}: {rule}: {why}")
        elif rule.table == MAIN_TABLE and not rule.prefix.prefixlen:
            break
        elif rule.table not in (None, LOCAL_TABLE):
            found.append(rule)
    return found


def _left_out(rule: LinuxRule, has_vrfs: bool) -> str:
    """Why a description lacks what a rule does; nothing where it doesn't."""
    if rule.action == "l3mdev":
        return "" if has_vrfs else (
            "packets that come in on an interface of a VRF are looked up in its table, and a description has no such ports"
            " (--vrfs names them)"
        )  # fmt: skip
    if rule.action != "lookup":
        return f"a description has no rules that do so ({rule.action})"
    if rule.more and rule.table != LOCAL_TABLE:
        return f"it asks for more than a destination ({', '.join(rule.more)})"
    return ""


class Covers:
    """Prefixes, of which some may cover another one."""

    def __init__(self, prefixes: Iterable[Prefix]):
        self._keys = {(one.version, one.prefixlen, int(one.network_address)) for one in prefixes}

    def __contains__(self, prefix: Prefix) -> bool:
        first, most = int(prefix.network_address), prefix.max_prefixlen
        return any(
            (prefix.version, length, first >> most - length << most - length) in self._keys
            for length in range(prefix.prefixlen + 1)
        )


def put_before_main(routes: Sequence[LinuxRoute], rules: Sequence[LinuxRule], notes: list[str]) -> list[LinuxRoute]:
    """The routes with those of rules' tables in the main table too, as packets find them: each where its rule's destinations
    are, and without what stands behind it in tables that are asked later.
    """
    main = [route for route in routes if route.table == MAIN_TABLE]
    for rule in reversed(rules):
        over = list(_within(routes, rule, notes))
        hidden = Covers(route.prefix for route in over)
        seen = [route for route in main if route.prefix not in hidden]
        if len(seen) < len(main):
            what = f"{len(main) - len(seen)} entries that are asked later are left out of table 0"
            notes.append(f"{rule}: {what}, since packets find others first")
        main = [*over, *seen]
    return [*(route for route in routes if route.table != MAIN_TABLE), *main]


def _within(routes: Iterable[LinuxRoute], rule: LinuxRule, notes: list[str]) -> Iterator[LinuxRoute]:
    """What packets to a rule's destinations find in its table, as routes of the main table."""
    wide: list[LinuxRoute] = []  # those that hold all of the destinations, and more
    is_met = False
    for route in routes:
        if route.table != rule.table or route.prefix.version != rule.prefix.version or not route.prefix.overlaps(rule.prefix):
            continue
        if route.kind == "throw":
            notes.append(f"{route}: packets to it go on to the next rule, which a description can't say")
        elif route.prefix.prefixlen < rule.prefix.prefixlen:
            wide.append(route)
        else:
            is_met |= route.prefix == rule.prefix
            yield dataclasses.replace(route, table=MAIN_TABLE)
    if not is_met:
        longest = max((route.prefix.prefixlen for route in wide), default=0)
        for route in wide:
            if route.prefix.prefixlen == longest:
                yield dataclasses.replace(route, table=MAIN_TABLE, prefix=rule.prefix)


@dataclass
class Vrfs:
    """The VRFs of a router: the table of each by its device, and the device by interface."""

    tables: dict[str, int] = field(default_factory=dict)
    members: dict[str, str] = field(default_factory=dict)

    def notes(self, name: str) -> Iterator[str]:
        """What a description lacks of them, by interface."""
        for interface, vrf in self.members.items():
            yield (
                f"{name}: packets that come in on {interface}, of the VRF {vrf}, are looked up in table {self.tables[vrf]};"
                " a description has no ports of tables, so here it is table 0"
            )


def vrfs_in(content: bytes, name: str) -> Vrfs:
    """The VRFs in the JSON of `ip -d -j link`."""
    found, listed = Vrfs(), objects_in(content, name, "interfaces", "ip -d -j link")
    for one in listed:
        info = _object(one.get("linkinfo"))
        if info.get("info_kind") == "vrf":
            try:
                found.tables[str(one.get("ifname"))] = table_of(_object(info.get("info_data")).get("table"))
            except ValueError as fault:
                raise Fault(f"{name}: the VRF {one.get('ifname')}: {fault}") from None
    for one in listed:
        if (master := str(one.get("master"))) in found.tables:
            found.members[str(one.get("ifname"))] = master
    return found


def _object(value: Any) -> dict[str, Any]:
    return value if isinstance(value, dict) else {}
