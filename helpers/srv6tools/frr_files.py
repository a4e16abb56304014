"""What routers of FRR write, each in a folder of its own: configuration, routes, locators, and what IS-IS and interfaces tell."""

from __future__ import annotations

import json
import re
from collections.abc import Callable, Iterator
from dataclasses import dataclass, field
from ipaddress import IPv6Address, IPv6Interface, IPv6Network
from pathlib import Path
from typing import Any

from .command import Fault, Status
from .files import INPUT_LIMIT, decoded, read_bytes

CONFIG, ROUTES, LOCATORS = "running-config", "routes.json", "locators.json"
ISIS, INTERFACES = "isis.json", "interfaces.json"
COMMANDS = {
    CONFIG: "show running-config",
    ROUTES: "show ipv6 route json",
    LOCATORS: "show segment-routing srv6 locator json",
    ISIS: "show isis database detail json",
    INTERFACES: "show interface json",
}
"""The files of a router, and what writes each; the last two may be absent."""
NEEDED = (CONFIG, ROUTES, LOCATORS)
NAME = re.compile(r"[A-Za-z0-9_.-]{1,32}")


@dataclass(slots=True)
class Locator:
    """A locator: its prefix, where the block ends, and whether its SIDs are uSIDs."""

    name: str
    prefix: IPv6Network
    block: int  # bits
    is_usid: bool

    @property
    def block_prefix(self) -> IPv6Network:
        """The block."""
        return self.prefix.supernet(new_prefix=self.block)


@dataclass(slots=True)
class Interface:
    """An interface as the configuration has it."""

    name: str
    addresses: list[IPv6Interface] = field(default_factory=list)
    metric: int | None = None  # of IS-IS, or the cost of OSPFv3, where the configuration has one


@dataclass(slots=True)
class NextHop:
    """A next hop of a route: an interface, a neighbour's address, and what is done with packets."""

    interface: str | None
    gateway: IPv6Address | None
    weight: int
    action: str | None  # of a SID
    context: dict[str, Any]
    segments: bool  # whether a list is put on


@dataclass(slots=True)
class FrrRoute:
    """A route that is selected."""

    prefix: IPv6Network
    protocol: str
    table: int
    hops: list[NextHop]

    def __str__(self) -> str:
        return f"{self.protocol} route to {self.prefix}"


@dataclass(slots=True)
class RouterFiles:
    """What a router wrote."""

    name: str
    interfaces: dict[str, Interface]
    system_id: str | None
    routes: list[FrrRoute]
    locators: list[Locator]
    adjacency_sids: dict[IPv6Address, str]
    """The SIDs of adjacencies that IS-IS knows, of all routers, each with the neighbour's identifier."""
    link_locals: dict[IPv6Address, str]
    """The router's addresses of links, each with its interface."""
    runs_ospf6: bool = False
    left_out: list[str] = field(default_factory=list)


def read_folder(folder: str | Path) -> list[RouterFiles]:
    """The routers of a folder."""
    try:
        places = sorted(place for place in Path(folder).iterdir() if place.is_dir())
    except OSError as fault:
        raise Fault(f"{folder}: {fault.strerror}", Status.OUTSIDE_FAULT) from None
    if not places:
        raise Fault(f"{folder}: no folder of a router in it")
    return [_read_router(place) for place in places]


def _read_router(place: Path) -> RouterFiles:
    if not NAME.fullmatch(place.name):
        raise Fault(f"{place}: no name of a node: {place.name!r}")
    for name in NEEDED:
        if not (place / name).exists():
            raise Fault(f"{place}: no file {name}, which {COMMANDS[name]!r} writes", Status.OUTSIDE_FAULT)
    router = RouterFiles(place.name, {}, None, [], [], {}, {})
    _read_config(router, decoded(read_bytes(place / CONFIG, INPUT_LIMIT), str(place / CONFIG)))
    for name, read in ((ROUTES, _read_routes), (LOCATORS, _read_locators), (ISIS, _read_isis), (INTERFACES, _read_interfaces)):
        if name in NEEDED or (place / name).exists():
            _as_json(place / name, read, router)
    return router


def _as_json(path: Path, read: Callable[[RouterFiles, Any], None], router: RouterFiles) -> None:
    """Reads a file of JSON; a fault where it has another form."""
    try:
        read(router, json.loads(decoded(read_bytes(path, INPUT_LIMIT), str(path))))
    except json.JSONDecodeError as fault:
        raise Fault(f"{path}: no JSON: {fault.msg} at line {fault.lineno}") from None
    except (KeyError, TypeError, AttributeError, ValueError, RecursionError) as fault:
        raise Fault(f"{path}: not what {COMMANDS[path.name]!r} writes: {type(fault).__name__} {fault}") from None


# ---- the configuration


def _read_config(router: RouterFiles, text: str) -> None:
    """Takes the interfaces' addresses and metrics, and the identifier of IS-IS."""
    inside: Interface | None = None
    for line in text.splitlines():
        words = line.split()
        if line[:1] not in ("", " ", "!"):
            inside = None
            router.runs_ospf6 |= words[:2] == ["router", "ospf6"]
            if words[:1] == ["interface"] and len(words) > 1:
                inside = router.interfaces.setdefault(words[1], Interface(words[1]))
            elif words[:2] == ["ipv6", "route"] and "segments" in words:
                router.left_out.append(f"{line.strip()}: it puts a list on; `srv6 walk` does so by an intent")
        elif inside and words[:2] == ["ipv6", "address"]:
            inside.addresses.append(_interface_address(router, words[2:3]))
        elif inside and (words[:2] == ["isis", "metric"] or words[:3] == ["ipv6", "ospf6", "cost"]) and words[-1].isdecimal():
            inside.metric = int(words[-1]) or None
        elif words[:1] == ["net"] and len(words) == 2 and words[1].count(".") >= 4:
            router.system_id = ".".join(words[1].split(".")[-4:-1])


def _interface_address(router: RouterFiles, words: list[str]) -> IPv6Interface:
    try:
        return IPv6Interface(words[0])
    except (IndexError, ValueError):
        raise Fault(f"{router.name}: {CONFIG}: no address of an interface: {' '.join(words)!r}") from None


# ---- JSON


def _read_routes(router: RouterFiles, root: Any) -> None:
    for entries in root.values():
        for entry in entries:
            if entry.get("selected") or (entry.get("installed") and entry.get("destSelected")):
                hops = [_hop(hop) for hop in entry.get("nexthops", ()) if hop.get("fib") and not hop.get("recursive")]
                router.routes.append(FrrRoute(IPv6Network(entry["prefix"]), entry["protocol"], int(entry.get("table", 254)), hops))


def _hop(hop: dict[str, Any]) -> NextHop:
    local, encap = hop.get("seg6local", {}), hop.get("seg6", {})
    action = local.get("action", "unspec")
    segments = [encap.get("segs", "::")] if isinstance(encap, dict) else encap
    return NextHop(
        hop.get("interfaceName"),
        IPv6Address(hop["ip"]) if ":" in hop.get("ip", "") else None,
        int(hop.get("weight", 1)),
        None if action == "unspec" else action,
        hop.get("seg6localContext", {}),
        any(IPv6Address(one) != IPv6Address("::") for one in segments),
    )


def _read_locators(router: RouterFiles, root: Any) -> None:
    for one in root["locators"]:
        prefix = IPv6Network(one["prefix"])
        block = int(one.get("blockBitsLength", 40))
        is_usid = one.get("behavior") == "usid" and block < prefix.prefixlen
        router.locators.append(Locator(one["name"], prefix, min(block, prefix.prefixlen), is_usid))


def _read_isis(router: RouterFiles, root: Any) -> None:
    for neighbour, reach in _reaches(root):
        for key in ("srv6EndXSID", "srv6LanEndXSID"):
            for sid in reach.get(key, ()):
                router.adjacency_sids[IPv6Address(sid["sid"])] = neighbour


def _reaches(root: Any) -> Iterator[tuple[str, dict[str, Any]]]:
    """The adjacencies of all routers, each with the identifier of where it leads."""
    for area in root["areas"]:
        for level in area["levels"]:
            for lsp in level.get("lsps", ()):
                for reach in lsp.get("extReach", ()):
                    yield reach["id"].rpartition(".")[0], reach


def _read_interfaces(router: RouterFiles, root: Any) -> None:
    for name, one in root.items():
        for address in one.get("ipAddresses", ()):
            if ":" in address["address"]:
                router.link_locals[IPv6Interface(address["address"]).ip] = name
