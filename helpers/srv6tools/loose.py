"""How packets come from SID to SID along an intent that has loose steps, each to a node over any
links, by `docs/FORMATS.md` ('States, edges and rooms').

There a packet may go different ways under different choices among equal next hops, so what is
found is what all of them come to. It is found by going through all of them.
"""

from collections.abc import Sequence
from typing import NamedTuple

from .description import Network, Sid
from .intent import Intent, Step
from .legs import Legs, Transit
from .places import Halt, Place, Stop, Via, arrival, halt_at
from .pushed_headers import Origin


class Vertex(NamedTuple):
    """Where a packet has come over a link: the steps done, and the node."""

    position: int
    node: str


def legs_of(net: Network, intent: Intent) -> Legs:
    """The legs of an intent; where some step is loose, the loose ones."""
    return (LooseLegs if intent.is_loose else Legs)(net, intent)


class LooseLegs(Legs):
    """The legs and finishes of a network along an intent with loose steps; no list executes a
    binding SID.
    """

    def __init__(self, net: Network, intent: Intent):
        super().__init__(net, intent)
        self._transits: dict[int, dict[Vertex, Transit]] = {}  # by address

    def goes_on(self, sid: Sid) -> bool:
        return sid.goes_on and not sid.binds

    def standing_at(self, position: int) -> list[Sid]:
        reach = self._reach_of(position)
        if reach is None:
            return super().standing_at(position)
        return [sid for sid in self.sids if sid.node != reach]

    def sids_ahead(self, position: int) -> list[Sid]:
        return self.sids

    def _reach_of(self, position: int) -> str | None:
        """The node that the step behind a position reaches, where it is such a step."""
        step = self._step(position)
        return step.reach if step else None

    def _step(self, position: int) -> Step | None:
        return self.steps[position] if position < len(self.steps) else None

    def transit(self, origin: Origin, sid: Sid) -> Transit:
        address = self._address(sid)
        met = self._met(origin.position, origin.place, address)
        if isinstance(met, Transit):
            return met
        for vertex in met[1]:
            self._find_transits(vertex, address)
        return self._joined(origin.position, origin.place, met, address)

    def crosses(self, origin: Origin, sid: Sid) -> bool:
        return not isinstance(self._met(origin.position, origin.place, self._address(sid)), Transit)

    def links_on(self, origin: Origin, sid: Sid) -> dict[str, int]:
        address = self._address(sid)
        links: dict[str, int] = {}
        todo: list[tuple[int, Place]] = [(origin.position, origin.place)]
        met: set[Vertex] = set()
        for position, place in todo:
            found = self._met(position, place, address)
            if isinstance(found, Transit):
                continue
            via, vertices = found
            for name in via.links:
                links.setdefault(name, position + 1)
            todo += [(it.position, arrival(it.node)) for it in vertices if it not in met]
            met.update(vertices)
        return links

    @staticmethod
    def _address(sid: Sid) -> int:
        return int(sid.prefix.network_address)

    def _met(self, position: int, place: Place, address: int) -> Transit | tuple[Via, list[Vertex]]:
        """What a packet meets at a place: a SID, which ends its transit, or the links that it may
        take and where these lead; or why it goes no further.
        """
        found = self._tables.found_at(place, address)
        if isinstance(found, Sid):
            return Transit(position, 0, found)
        if not isinstance(found, Via):
            return Transit(position, 0, None, halt_at(place, found, address, ()))
        vertices = []
        for name in found.links:
            vertex = self._over(position, name)
            if isinstance(vertex, Stop):
                return Transit(position, 0, None, Halt(vertex, place, found))
            vertices.append(vertex)
        return found, vertices

    def _over(self, position: int, link: str) -> Vertex | Stop:
        """Where a link leads along the steps, or why it doesn't."""
        step, end = self._step(position), self.net.links[link].end
        if step is None:
            return Stop.NO_STEP
        if step.function:
            return Stop.FUNCTION
        if end is None:
            return Stop.LEAVES if step.reach else Stop.LINKS
        if step.reach:
            return Vertex(position + (end == step.reach), end)
        return Vertex(position + 1, end) if link in step.links else Stop.LINKS

    def _find_transits(self, first: Vertex, address: int) -> None:
        """Finds the transits from a vertex and from all that come behind it; each is found once
        those behind it are, and one that is come to again before is on a loop.
        """
        transits = self._transits.setdefault(address, {})
        todo, entered = [first], set()
        while todo:
            vertex = todo[-1]
            if vertex in transits:
                todo.pop()
                continue
            place = arrival(vertex.node)
            met = self._met(vertex.position, place, address)
            if isinstance(met, Transit):
                transits[vertex] = met
            elif vertex not in entered:
                entered.add(vertex)
                todo += [then for then in met[1] if then not in transits and then not in entered]
            else:
                transits[vertex] = self._joined(vertex.position, place, met, address)

    def _joined(
        self, position: int, place: Place, met: tuple[Via, Sequence[Vertex]], address: int
    ) -> Transit:
        """What all choices among links come to, with the most lowerings; one that is lost or
        differs from the others leaves nothing.
        """
        via, vertices = met
        transits = [self._transits[address].get(vertex) for vertex in vertices]
        if None in transits:
            return Transit(position, 0, None, Halt(Stop.LOOP, place, via))
        if lost := next((transit for transit in transits if transit.sid is None), None):
            return lost
        if len({(transit.position, transit.sid.number) for transit in transits}) > 1:
            return Transit(position, 0, None, Halt(Stop.DIFFER, place, via))
        most = max(transit.lowered for transit in transits)
        return transits[0]._replace(lowered=most + place.lowers)
