"""Over how many walks the list of an intent spreads: those that its packets may take from the
headend to their hand-over, under all choices among equal next hops.
"""

from collections.abc import Iterator, Sequence
from dataclasses import dataclass
from typing import Any

from .captures import raw_capture
from .command import Fault
from .description import Network
from .fans import Fan, fan_of
from .intent import Intent, read_intent
from .packet_parts import ip4, ip6
from .walks import Hop, Start, Walks, visits_from

VISITS = 100_000  # of a packet at nodes


@dataclass(frozen=True, slots=True)
class Spread:
    """The walks of an intent's list, up to the hand-over."""

    intent: str
    fan: Fan

    @property
    def common(self) -> list[str]:
        """The links that each walk crosses, in the order in which it does."""
        return [name for name, walks in self.fan.links.items() if walks == self.fan.walks]

    @property
    def said(self) -> str:
        """The links in words."""
        names = f": {', '.join(self.common)}" if self.common else ""
        return f"{len(self.fan.links)} links, of which all walks cross {len(self.common)}{names}"

    def as_json(self) -> dict[str, Any]:
        """The same for other programs."""
        links = [{"link": name, "walks": walks} for name, walks in self.fan.links.items()]
        return {"walks": self.fan.walks, "links": links}


def spread_of(net: Network, path: str, calls: int | None = None) -> Spread:
    """The walks of the list that the program finds for an intent, where it may be asked so often."""
    inner = _inner(read_intent(path))
    walks = Walks(net, VISITS, calls)
    (start,) = walks.from_intent(path, b"".join(raw_capture([(0, 0, inner)])))
    if walks.is_cut:
        raise Fault(f"{path}: a packet comes to more than {VISITS} visits at nodes")
    _end_at_hand_over(walks, start, len(inner))
    return Spread(path, fan_of(walks, start))


def spreads_of(net: Network, paths: Sequence[str]) -> Iterator[Spread | Fault]:
    """The walks of the list of each intent, or its fault."""
    for path in paths:
        try:
            yield spread_of(net, path)
        except Fault as fault:
            yield fault


def _inner(intent: Intent) -> bytes:
    """An inner packet: whichever it is, the list takes it to the hand-over on the same walks."""
    return ip6("2001:db8:ffff::1") if intent.family == 6 else ip4("198.51.100.2")


def _end_at_hand_over(walks: Walks, start: Start, length: int) -> None:
    """Cuts walks where the inner packet of a length comes out: it goes on by routes of its own."""
    for visit in visits_from(walks, start):
        hops = walks.hops[visit]
        if any(hop.link and len(hop.packet) <= length for hop in hops):
            walks.hops[visit] = [Hop(hops[0].sids, end="handed over")]
