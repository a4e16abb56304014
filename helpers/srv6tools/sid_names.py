"""SIDs by the names that operators give them: `uN pe3`, `uA p1 -> p3`, `uDT red`.

The first letter tells the kind: `u` stands for a SID of a NEXT-CSID block, `r` for one of a REPLACE-CSID
block; a SID outside of blocks has its behaviour's own name, as in `End pe3` and `End.X p1 -> p3`. Behind
it stand the node, of a cross-connect its node and where its links lead, of a function its title.
"""

import collections
from collections.abc import Iterable, Sequence

from .description import Network, Sid
from .items import Prefix

KINDS = {"next": "u", "replace": "r"}
SHORT = {
    "End": "N", "End.X": "A", "End.T": "T", "End.DX6": "DX", "End.DX4": "DX", "End.DT6": "DT",
    "End.DT4": "DT", "End.DT46": "DT", "End.B6.Encaps": "B6", "End.B6.Encaps.Red": "B6",
}  # fmt: skip


class SidNames:
    """The names of the SIDs of a network."""

    def __init__(self, net: Network) -> None:
        self._net = net
        self._on: dict[Prefix, list[Sid]] = {}
        for sid in net.sids:
            self._on.setdefault(sid.prefix, []).append(sid)
        self._twins = _twins((link.start, link.end) for link in net.links.values())

    def name(self, sid: Sid) -> str:
        """The name of a SID."""
        return f"{self._kind(sid)} {self._where(sid)}"

    def on(self, prefix: Prefix, nodes: Iterable[str] = ()) -> str:
        """The name of the SID on a prefix: that of these nodes where some have one, else of all; one that
        is gone has its prefix.
        """
        sids = self._on.get(prefix, [])
        wanted = set(nodes)
        some = [sid for sid in sids if sid.node in wanted] or sids
        return " or ".join(self.name(sid) for sid in some) or str(prefix)

    def listed(self, prefixes: Sequence[Prefix], stands: Sequence[str] = ()) -> list[str]:
        """The names of a list's SIDs; `stands` are the nodes of the SIDs, where they are known."""
        nodes = list(stands) + [""] * (len(prefixes) - len(stands))
        return [self.on(prefix, [node]) for prefix, node in zip(prefixes, nodes)]

    def _kind(self, sid: Sid) -> str:
        block = self._net.block_of(sid.prefix)
        return KINDS[block.kind] + SHORT[sid.behaviour] if block else sid.behaviour

    def _where(self, sid: Sid) -> str:
        if sid.policy:
            return f"{sid.node} policy {sid.policy}"
        if sid.title:
            return sid.title
        if sid.links:
            return f"{sid.node} -> {self._over(sid.links)}"
        table = f" table {sid.table}" if sid.table is not None else ""
        return f"{sid.node}{table}"

    def _over(self, links: Sequence[str]) -> str:
        """Where links lead: to a node, where all of these to it are meant or there is one; else the
        links by name.
        """
        ends = {self._net.links[name].end for name in links}
        pair = (self._net.links[links[0]].start, next(iter(ends)))
        if len(ends) > 1 or None in ends or (len(links) == 1 and pair in self._twins):
            return ", ".join(links)
        return str(pair[1])


def _twins(pairs: Iterable[tuple[str, str | None]]) -> set[tuple[str, str | None]]:
    """The pairs that stand there more than once."""
    return {pair for pair, count in collections.Counter(pairs).items() if count > 1}
