"""to-linux: a node of a description as commands of `ip` for a namespace of Linux."""

from __future__ import annotations

import argparse
import shlex
import sys
from collections.abc import Callable, Sequence
from dataclasses import dataclass, field
from typing import Any

from .command import Fault, Parser, Status, progress, run_tool
from .description import MOST_MTU, Link, Network, Node, Policy, Route, Sid, read_network
from .linux import (
    KERNEL_HELP, OWN_TABLES, Kernel, interface_name, next_hop_4, next_hop_6, table_number,
    wanted_kernel,
)  # fmt: skip

TOOL = "to-linux"
ICMP_MESSAGES = 10_000_000  # a second, so that no error is held back
LAST_METRIC = 4_278_198_272  # what Linux' documentation of VRF devices gives a route that ends a look-up

DESCRIPTION = """\
Writes a node of a description as commands that make a network namespace of Linux treat packets as
the node does, as far as Linux can. They aren't run. What Linux can't do is left out, and named on
err and in a comment; docs/LINUX.md says where it differs in what it does."""

MORE = """\
Each link of the node is an interface of its name, or of link and its number where the name is too
long for Linux. It has to be there, unless --tun makes it. The next hop over a link is an address
of its own, fdff:ffff:ffff:ffff:: and the link's number (for End.DX4 169.254.0.0 and the number);
on Ethernet it has to be the neighbour's, or a neighbour entry has to lead there. Table 0 is
Linux' main table.

  helpers/to-linux --tun NET NODE > node.sh && unshare -n sh -e node.sh

What it says of Linux 6.18 was seen there, but for VRF devices, and of 6.1 it stands in
ip-route(8)."""


@dataclass
class Script:
    """The commands, and what can't be done."""

    namespace: str | None = None
    lines: list[str] = field(default_factory=list)
    cannot: list[str] = field(default_factory=list)

    def note(self, text: str) -> None:
        """Adds a comment."""
        self.lines.append("# " + " ".join(text.split()))

    def ip(self, *words: object) -> None:
        """Adds a command of `ip`."""
        front = ["ip", "-n", self.namespace] if self.namespace else ["ip"]
        self.lines.append(shlex.join([*front, *map(str, words)]))

    def sysctl(self, name: str, value: int | str, if_there: bool = False) -> None:
        """Adds a setting of the namespace; one that some kernels lack may fail."""
        inside = ["ip", "netns", "exec", self.namespace] if self.namespace else []
        more = " 2>/dev/null || true" if if_there else ""
        self.lines.append(shlex.join([*inside, "sysctl", "-qw", f"{name}={value}"]) + more)

    def refuse(self, what: str, why: str) -> None:
        """Takes note of what Linux can't do."""
        self.cannot.append(f"{what}: {why}")
        self.note(f"left out: {what}: {why}")


class NotDone(Exception):
    """Linux can't do it, and why."""


@dataclass
class Writer:
    """Writes a node of a network for a kernel."""

    net: Network
    node: Node
    kernel: Kernel
    script: Script

    def __post_init__(self) -> None:
        self.links = [link for link in self.net.links.values() if link.start == self.node.name]
        self.routes = [route for route in self.net.routes if route.node == self.node.name]
        self.sids = [sid for sid in self.net.sids if sid.node == self.node.name]
        self.sid_prefixes = {sid.prefix for sid in self.sids}

    def write(self, tun: bool) -> None:
        """All commands, in an order in which they can be run."""
        script = self.script
        node = f"node {self.node.name} of {self.net.path}"
        script.note(f"{node} in a namespace of Linux {self.kernel}")
        self._settings()
        for link in self.links:
            self._interface(link, tun)
        script.ip("-6", "address", "add", f"{self.node.address}/128", "dev", "lo", "nodad")
        if self.node.allow:
            numbers = ", ".join(map(str, self.node.allow))
            script.refuse(f"upper layers {numbers}", "Linux takes no upper layer at a SID")
        self._vrfs()
        self._sources()
        for route in self.routes:
            self._try(f"route to {route.prefix} in table {route.table}", self._route, route)
        for sid in self.sids:
            self._try(f"SID {sid.prefix} ({sid.what})", self._sid, sid)

    def _try(self, what: str, write: Callable[[Any], None], entry: Any) -> None:
        try:
            write(entry)
        except NotDone as why:
            self.script.refuse(what, str(why))

    def _settings(self) -> None:
        script = self.script
        script.sysctl("net.ipv6.conf.all.forwarding", 1)
        if any(route.prefix.version == 4 for route in self.routes) or any(
            sid.exposes(4) for sid in self.sids
        ):
            script.sysctl("net.ipv4.ip_forward", 1)
            script.sysctl("net.ipv4.conf.all.rp_filter", 0)
            script.sysctl("net.ipv4.conf.default.rp_filter", 0)
        script.note("errors without a limit of their rate, and with flow label 0")
        script.sysctl("net.ipv6.icmp.ratelimit", 0)
        script.sysctl("net.ipv6.icmp.ratemask", "")
        for name in ("msgs_per_sec", "msgs_burst"):  # of all namespaces in earlier kernels
            script.sysctl(f"net.ipv4.icmp_{name}", ICMP_MESSAGES, if_there=True)
        script.sysctl("net.ipv6.auto_flowlabels", 0)
        script.ip("link", "set", "dev", "lo", "up")

    def _interface(self, link: Link, tun: bool) -> None:
        name = interface_name(link.name, link.number)
        if tun:
            self.script.ip("tuntap", "add", "dev", name, "mode", "tun")
        if link.mtu < MOST_MTU:
            self.script.ip("link", "set", "dev", name, "mtu", link.mtu)
        self.script.ip("link", "set", "dev", name, "up")
        self.script.ip("-6", "route", "add", f"{next_hop_6(link.number)}/128", "dev", name)
        if any(sid.behaviour == "End.DX4" and link.name in (sid.links or ()) for sid in self.sids):
            self.script.ip("-4", "route", "add", f"{next_hop_4(link.number)}/32", "dev", name)

    def _vrfs(self) -> None:
        """End.DT4 and End.DT46 look up in the table of a VRF device."""
        tables = {sid.table for sid in self.sids if sid.behaviour in ("End.DT4", "End.DT46")}
        for table in sorted(table for table in tables if table and table not in OWN_TABLES):
            self.script.ip("link", "add", f"vrf{table}", "type", "vrf", "table", table)
            self.script.ip("link", "set", "dev", f"vrf{table}", "up")
            self.script.sysctl("net.vrf.strict_mode", 1)
            for family in ("-6", "-4"):  # else what the table doesn't have is looked up in the main one
                words = ["unreachable", "default", "table", table, "metric", LAST_METRIC]
                self.script.ip(family, "route", "add", *words)

    def _sources(self) -> None:
        """All headers that Linux puts in front have one source."""
        policies = [self.net.policies[sid.policy] for sid in self.sids if sid.policy]
        sources = list(dict.fromkeys(policy.source for policy in policies))
        if sources:
            self.script.ip("sr", "tunsrc", "set", sources[0])
        for source in sources[1:]:
            self.script.refuse(
                f"source {source} of policies", f"Linux has one source, which is {sources[0]}"
            )

    def _device(self) -> str:
        """The interface that a SID's route has to name; `lo` would make it unreachable."""
        if not self.links:
            raise NotDone("its route has to name an interface, and the node has no link")
        return interface_name(self.links[0].name, self.links[0].number)

    def _interface_of(self, link: str) -> tuple[str, int]:
        number = self.net.links[link].number
        return interface_name(link, number), number

    def _table_words(self, table: int) -> list[str]:
        if table in OWN_TABLES:
            raise NotDone(f"table {table} is Linux' own table {OWN_TABLES[table]}")
        return ["table", str(table)] if table else []

    def _route(self, route: Route) -> None:
        if route.table == 0 and route.prefix in self.sid_prefixes:
            raise NotDone("a SID has this prefix, which comes before the route")
        words = ["via", "inet6"] if route.prefix.version == 4 else ["via"]
        hops: list[object] = []
        for link in route.via:
            name, number = self._interface_of(link)
            front = ["nexthop"] if len(route.via) > 1 else []
            hops += [*front, *words, next_hop_6(number), "dev", name, "onlink"]
        family = f"-{route.prefix.version}"
        self.script.ip(family, "route", "add", route.prefix, *self._table_words(route.table), *hops)

    def _sid(self, sid: Sid) -> None:
        if sid.prefix.prefixlen == 128 and sid.prefix[0] == self.node.address:
            raise NotDone("it is the node's address, which Linux looks up before")
        action = [*self._action(sid), *self._flavours(sid)]
        self.script.ip(
            "-6", "route", "add", sid.prefix, "encap", "seg6local", "action", *action,
            "dev", self._device(),
        )  # fmt: skip

    def _action(self, sid: Sid) -> list[str]:
        match sid.behaviour:
            case "End":
                return ["End"]
            case "End.T" | "End.DT6":
                return [sid.behaviour, "table", str(self._table_of(sid))]
            case "End.X" | "End.DX6":
                return [sid.behaviour, "nh6", next_hop_6(self._only_link(sid))]
            case "End.DX4":
                return [sid.behaviour, "nh4", next_hop_4(self._only_link(sid))]
            case "End.DT4" | "End.DT46":
                if not sid.table:
                    raise NotDone("it needs a VRF device, which table 0 hasn't")
                return [sid.behaviour, "vrftable", str(self._table_of(sid))]
            case "End.B6.Encaps":
                policy = self.net.policies[sid.policy or ""]
                self._policy(sid, policy)
                return [sid.behaviour, "srh", "segs", ",".join(map(str, policy.segments))]
            case _:
                raise NotDone("Linux has no such behaviour")

    def _table_of(self, sid: Sid) -> int:
        self._table_words(sid.table or 0)
        return table_number(sid.table or 0)

    def _only_link(self, sid: Sid) -> int:
        if len(sid.links or ()) != 1:
            raise NotDone("Linux takes one next hop there, and no set of equal ones")
        return self.net.links[sid.links[0]].number

    def _policy(self, sid: Sid, policy: Policy) -> None:
        """What of a policy's header Linux doesn't take from it."""
        self.script.refuse(
            f"hop limit {policy.hop_limit}, traffic class {policy.traffic_class} and flow label"
            f" {policy.flow_label} of policy {policy.name}",
            f"Linux takes those of the packet at SID {sid.prefix}",
        )

    def _flavours(self, sid: Sid) -> list[str]:
        if sid.csid == "replace":
            raise NotDone("Linux runs no REPLACE-CSID")
        if left := [flavour.upper() for flavour in sid.flavours if flavour != "psp"]:
            raise NotDone(f"Linux has no {' and '.join(left)}")
        if "psp" in sid.flavours and (sid.behaviour != "End" or not self.kernel.psp_at_end):
            raise NotDone(f"Linux {self.kernel.known_as} has no PSP at {sid.behaviour}")
        words = [*sid.flavours]
        if sid.csid == "plain":
            return ["flavors", ",".join(words)] if words else []
        if sid.behaviour != "End" and not (sid.behaviour == "End.X" and self.kernel.next_at_end_x):
            raise NotDone(f"Linux {self.kernel.known_as} runs no NEXT-CSID at {sid.behaviour}")
        if "psp" in sid.flavours:
            self.script.refuse(
                f"PSP of SID {sid.prefix}",
                "beside NEXT-CSID Linux takes the word and takes no header out",
            )
        block = self.net.block_of(sid.prefix)
        if block is None:
            raise NotDone("it lies in no block")
        lengths = block.prefix.prefixlen, sid.prefix.prefixlen - block.prefix.prefixlen
        flavours = ",".join(["next-csid", *words])
        return ["flavors", flavours, "lblen", str(lengths[0]), "nflen", str(lengths[1])]


def script_for(
    net: Network, node: str, kernel: Kernel, tun: bool = False, namespace: str | None = None
) -> Script:
    """The commands for a node of a network."""
    if node not in net.nodes:
        names = ", ".join(list(net.nodes)[:12])
        raise Fault(f"{net.path}: no node is called {node!r}; there are {names or 'none'}")
    script = Script(namespace)
    Writer(net, net.nodes[node], kernel, script).write(tun)
    return script


def work(words: argparse.Namespace) -> int:
    """Writes the commands on `out`, and what can't be done on `err` too."""
    kernel = wanted_kernel(words.kernel)
    with progress(TOOL, f"reads {words.net}"):
        net = read_network(words.net)
        script = script_for(net, words.node, kernel, words.tun, words.namespace)
    sys.stdout.writelines(f"{line}\n" for line in script.lines)
    sys.stdout.flush()
    for line in script.cannot:
        print(f"{TOOL}: {line}", file=sys.stderr)
    return Status.DONE


def main(words: Sequence[str] | None = None) -> int:
    """The command."""
    parser = Parser(TOOL, DESCRIPTION, MORE)
    parser.add_argument("net", metavar="NET", help="the description")
    parser.add_argument("node", metavar="NODE", help="the name of a node")
    parser.add_argument("--kernel", metavar="VERSION", help=KERNEL_HELP)
    parser.add_argument("--tun", action="store_true", help="make each interface as a TUN device")
    parser.add_argument(
        "--namespace", metavar="NAME", help="commands for a named namespace, from outside it"
    )
    return run_tool(parser, work, sys.argv[1:] if words is None else words)
