"""Shortest paths over the links of a network, by metrics, and the equal next hops on them."""

import heapq
import math
from collections.abc import Iterable, Mapping

from .description import Link, Network


class Topology:
    """The links of a network with their metrics, from each node and to each."""

    def __init__(self, net: Network, metrics: Mapping[str, int], metric: int) -> None:
        """`metric` is that of each link of which `metrics` says nothing."""
        self.out: dict[str, list[tuple[Link, int]]] = {node: [] for node in net.nodes}
        self.into: dict[str, list[tuple[Link, int]]] = {node: [] for node in net.nodes}
        for link in net.links.values():
            if link.end is not None:
                costed = (link, metrics.get(link.name, metric))
                self.out[link.start].append(costed)
                self.into[link.end].append(costed)

    def distances(self, owners: Iterable[str]) -> dict[str, int]:
        """How far each node is from the nearest of the owners; one without a way is left out."""
        found: dict[str, int] = {}
        queue = [(0, owner) for owner in sorted(owners)]
        while queue:
            distance, node = heapq.heappop(queue)
            if node in found:
                continue
            found[node] = distance
            for link, metric in self.into[node]:
                if link.start not in found:
                    heapq.heappush(queue, (distance + metric, link.start))
        return found

    def next_links(self, owners: frozenset[str]) -> dict[str, list[str]]:
        """The links on which each other node's shortest ways to the nearest owner begin.

        They come in the order of the description; a node without a way has none.
        """
        far = self.distances(owners)
        found: dict[str, list[str]] = {}
        for node, links in self.out.items():
            if node not in owners:
                own = far.get(node)
                ways = () if own is None else links
                found[node] = [link.name for link, metric in ways if far.get(link.end or "", math.inf) + metric == own]
        return found
