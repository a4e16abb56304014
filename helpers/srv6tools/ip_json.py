"""Routes as `ip -j route` writes them, where the order of keys tells what belongs to `encap`."""

import json
from collections.abc import Iterator
from dataclasses import dataclass, field
from ipaddress import IPv4Network, IPv6Network
from typing import Any

from .command import Fault
from .files import decoded

UNICAST, LOCAL = "unicast", "local"
_KINDS = {
    "0": "unspec", "1": UNICAST, "2": LOCAL, "3": "broadcast", "4": "anycast", "5": "multicast",
    "6": "blackhole", "7": "unreachable", "8": "prohibit", "9": "throw",
}  # fmt: skip
_BEHIND_ENCAP = ("tos", "via", "gateway", "dev", "nexthops", "table", "protocol", "metric", "flags")
_TABLES = {"main": 254, "local": 255, "default": 253, "unspec": 0}

Prefix = IPv6Network | IPv4Network


@dataclass(frozen=True)
class NextHop:
    """A next hop: an interface, and the neighbour's address where the route names it."""

    interface: str
    gateway: str | None = None
    weight: int = 1
    encap: str | None = None


@dataclass
class LinuxRoute:
    """A route of Linux."""

    number: int  # in the list, from 1
    kind: str
    prefix: Prefix
    table: int
    hops: tuple[NextHop, ...]
    metric: int = 0
    protocol: str = ""
    encap: str | None = None
    action: dict[str, Any] = field(default_factory=dict)
    """What stands behind `encap`: of seg6local the action and its words."""

    def __str__(self) -> str:
        kind = f"{self.kind} " if self.kind != UNICAST else ""
        table = "" if self.table == 254 else f" in table {self.table}"
        return f"{kind}route {self.number} to {self.prefix}{table}"


@dataclass(frozen=True)
class LinuxRule:
    """A rule of Linux: for which destinations, what it does, and what more it asks for."""

    number: int  # in the list, from 1
    priority: int
    prefix: Prefix
    table: int | None  # in which packets are looked up; None where it does something else
    more: tuple[str, ...] = ()
    """What it asks for beside the destination, in words."""
    action: str = "lookup"
    """`lookup`, `l3mdev`, `goto N`, or how it drops."""

    def __str__(self) -> str:
        does = f"which names table {self.table}" if self.table is not None else self.action
        return f"rule {self.number} to {self.prefix}, {does}"


@dataclass(frozen=True)
class Unread:
    """A route that can't be read, and why."""

    number: int
    why: str


def routes_in(content: bytes, name: str, family: int) -> Iterator[LinuxRoute | Unread]:
    """The routes of the JSON of `ip`; `family` is that of `default`."""
    try:
        listed = json.loads(decoded(content, name), object_pairs_hook=list)
    except json.JSONDecodeError as fault:
        where = f"line {fault.lineno}, column {fault.colno}"
        raise Fault(f"{name}: no JSON: {fault.msg} at {where}") from None
    except (ValueError, RecursionError):
        raise Fault(f"{name}: no JSON of ip: a number or a list that is too great") from None
    if not isinstance(listed, list) or not all(map(_is_object, listed)):
        raise Fault(f"{name}: no list of routes, as `ip -6 -j route show table all` writes it")
    for number, pairs in enumerate(listed, 1):
        if not pairs:  # ip writes {} for what it doesn't show
            continue
        try:
            yield _route(number, pairs, family)
        except ValueError as fault:
            yield Unread(number, str(fault))


def objects_in(content: bytes, name: str, what: str, command: str) -> list[dict[str, Any]]:
    """The objects of the list that a command of `ip` wrote, of what it lists."""
    try:
        listed = json.loads(decoded(content, name))
    except (ValueError, RecursionError):
        raise Fault(f"{name}: no JSON, as `{command}` writes it") from None
    if not isinstance(listed, list) or not all(isinstance(one, dict) for one in listed):
        raise Fault(f"{name}: no list of {what}, as `{command}` writes it")
    return listed


def rules_in(content: bytes, name: str, family: int = 6) -> Iterator[LinuxRule | Unread]:
    """The rules of the JSON of `ip`."""
    for number, values in enumerate(objects_in(content, name, "rules", "ip -6 -j rule"), 1):
        try:
            yield _rule(number, values, family)
        except ValueError as fault:
            yield Unread(number, str(fault))


def _rule(number: int, values: dict[str, Any], family: int) -> LinuxRule:
    prefix = "default"
    if (address := values.get("dst", "all")) != "all":
        prefix = f"{address}/{values['dstlen']}" if "dstlen" in values else str(address)
    known = ("priority", "dst", "dstlen", "table", "protocol", "l3mdev", "goto", "action")
    more = [key for key in values if key not in known and not (key == "src" and values[key] == "all")]
    priority, table = _number(values.get("priority", 0), "priority"), None
    action = "l3mdev" if "l3mdev" in values else f"goto {values['goto']}" if "goto" in values else str(values.get("action", "lookup"))
    if action == "lookup":
        table = table_of(values.get("table"))
    return LinuxRule(number, priority, _prefix(prefix, family), table, tuple(more), action)


def _is_object(value: Any) -> bool:
    """Whether a value is an object, which is read as a list of pairs."""
    return isinstance(value, list) and all(
        isinstance(pair, tuple) and len(pair) == 2 for pair in value
    )


def object_of(value: Any) -> dict[str, Any]:
    """An object that was read as a list of pairs; an empty one where it is none."""
    return dict(value) if _is_object(value) else {}


def _route(number: int, pairs: list[tuple[str, Any]], family: int) -> LinuxRoute:
    encap, action, rest = _parted(pairs)
    kind = str(rest.get("type", UNICAST))
    return LinuxRoute(
        number,
        _KINDS.get(kind, kind),
        _prefix(rest.get("dst"), family),
        table_of(rest.get("table", "main")),
        tuple(_hops(rest)),
        _number(rest.get("metric", 0), "metric"),
        str(rest.get("protocol", "")),
        encap,
        action,
    )


def _parted(pairs: list[tuple[str, Any]]) -> tuple[str | None, dict[str, Any], dict[str, Any]]:
    """The encapsulation, its words, and the route's own; `table` may stand among both."""
    encap, action, rest, inside = None, {}, {}, False
    for key, value in pairs:
        if key == "encap":
            encap, inside = str(value), True
        elif inside and (key == "table" or key not in _BEHIND_ENCAP):
            action[key] = value
        else:
            inside = False
            rest[key] = value
    return encap, action, rest


def _prefix(value: Any, family: int) -> Prefix:
    if value == "default":
        return IPv6Network("::/0") if family == 6 else IPv4Network("0.0.0.0/0")
    if not isinstance(value, str):
        raise ValueError("it has no `dst`")
    try:
        return IPv6Network(value) if ":" in value else IPv4Network(value)
    except ValueError:
        raise ValueError(f"`dst` is no prefix: {value!r}") from None


def table_of(value: Any) -> int:
    """The number of a table, also of one of Linux' own names."""
    if isinstance(value, str) and value in _TABLES:
        return _TABLES[value]
    return _number(value, "table", " (ip -N writes numbers for names)")


def _number(value: Any, key: str, more: str = "") -> int:
    if type(value) is int and 0 <= value < 2**32:
        return value
    if isinstance(value, str) and value.isascii() and value.isdecimal() and len(value) <= 10:
        return int(value)
    raise ValueError(f"`{key}` is no number: {value!r}{more}")


def _hops(rest: dict[str, Any]) -> Iterator[NextHop]:
    listed = rest.get("nexthops")
    if listed is None:
        if "dev" in rest:
            yield _hop(rest)
        return
    if not isinstance(listed, list) or not all(map(_is_object, listed)):
        raise ValueError("`nexthops` is no list")
    for pairs in listed:
        yield _hop(dict(pairs))


def _hop(values: dict[str, Any]) -> NextHop:
    interface = values.get("dev")
    if not isinstance(interface, str):
        raise ValueError("a next hop has no `dev`")
    gateway = object_of(values.get("via")).get("host") or values.get("gateway")
    if gateway is not None and not isinstance(gateway, str):
        raise ValueError("`gateway` is no address")
    encap = values.get("encap")
    weight = _number(values.get("weight", 1), "weight")
    return NextHop(interface, gateway, weight, None if encap is None else str(encap))
