"""A packet with a list in front of it, as the headend of an intent sends it, and its walk by the engine."""

from collections.abc import Sequence
from ipaddress import IPv6Address
from typing import NamedTuple

from .description import Network
from .engine import Engine
from .intent import Intent
from .items import Prefix
from .packet_parts import IPV4, IPV6, ip4, ip6, srh
from .trace import Walk, trace_of

MOST_CHOICES = 4096


class Sent(NamedTuple):
    """A packet that the headend sends: as it enters, and as one that arrives at the headend with the
    header in front, whose hop limit is one higher where it isn't 255.
    """

    headend: str
    inner: bytes
    packet: bytes


class Went(NamedTuple):
    """What becomes of it: its walk from the headend on, and in the words of `srv6 run`."""

    text: str
    walk: Walk
    end: str


class Targets:
    """Where inner packets are sent that a function takes out."""

    def __init__(self, net: Network) -> None:
        self._first: dict[tuple[str, int, int], Prefix] = {}
        for route in net.routes:
            self._first.setdefault((route.node, route.table, route.prefix.version), route.prefix)
        self._titled = {(sid.title, sid.node): sid for sid in net.sids if sid.title}

    def inner(self, net: Network, intent: Intent, lowered: int = 0) -> bytes:
        """An inner packet, to where the table of the last function has a route, if it has one; with its
        hop limit lowered as often.
        """
        last = self._titled.get((intent.steps[-1].function, ends_at(net, intent)))
        table = (last.table or 0) if last else 0
        prefix = self._first.get((last.node, table, intent.family)) if last else None
        if prefix is None:
            target = "2001:db8:ffff::1" if intent.family == 6 else "198.51.100.2"
        else:
            target = str(prefix.network_address + (prefix.prefixlen < prefix.max_prefixlen - 1))
        if intent.family == 6:
            return ip6(target, hop_limit=64 - lowered)
        return ip4(target, ttl=64 - lowered)

    def sent(self, net: Network, intent: Intent, segments: Sequence[IPv6Address]) -> Sent:
        """What the headend sends."""
        inner = self.inner(net, intent, 1)
        return Sent(intent.headend, self.inner(net, intent), encapsulated(intent, segments, inner))


def ends_at(net: Network, intent: Intent) -> str:
    """The node of an intent's last function."""
    node = intent.headend
    for step in intent.steps:
        node = (net.links[step.links[0]].end if step.links else step.reach) or node
    return node


def encapsulated(intent: Intent, segments: Sequence[IPv6Address], inner: bytes) -> bytes:
    """An inner packet with the header of a list in front, as one that arrives at the headend."""
    kind = IPV6 if intent.family == 6 else IPV4
    texts = [str(one) for one in reversed(segments)]
    entries = texts if intent.mode == "full" else texts[:-1]
    payload = srh(len(segments) - 1, entries, kind) + inner if entries else inner
    head = ip6(
        str(segments[0]), 43 if entries else kind, payload, min(intent.hop_limit + 1, 255),
        str(intent.source), flow=intent.traffic_class << 20 | intent.flow_label,
    )  # fmt: skip
    return head


def went(engine: Engine, name: str, net: Network, node: str, packet: bytes, choices: Sequence[int]) -> Went:
    """The walk of a packet that arrives at a node of a network that the engine holds."""
    text = engine.trace(name, node, packet, tuple(choices[:MOST_CHOICES]) or None)
    walk = trace_of(text.splitlines(), "srv6-pce").walks[0]
    return Went(text, walk, end_of(net, walk))


def end_of(net: Network, walk: Walk) -> str:
    """What becomes of a packet, in the words of `srv6 run`."""
    node = walk.node
    for stage in walk.stages:
        if stage.kind == "send":
            end = net.links[str(stage.link)].end
            if end is None:
                return f"left {stage.link}"
            node = end
    last = walk.stages[-1]
    match last.kind:
        case "local":
            return f"delivered at {node}"
        case "drop":
            return f"dropped {last.reason} at {node}"
    return f"stopped after {len(walk.stages)} stages"
