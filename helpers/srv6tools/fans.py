"""All walks of a packet over all choices, counted: how many there are, over which links how many
of them go, and how they end.

They are counted from visit to visit, never one by one, since their number may double at each node.
"""

from collections.abc import Iterator
from dataclasses import dataclass

from .walks import Hop, Start, Visit, Walks, counts_of, visits_from

Way = tuple[tuple[Visit, Hop], ...]  # a walk: visits with the hop that is taken there


@dataclass(frozen=True, slots=True)
class Fan:
    """The walks of a packet: their number, and how many of them go over each link, by name, and
    have each end, in words.
    """

    walks: int
    links: dict[str, int]
    ends: dict[str, int]


def fan_of(walks: Walks, start: Start) -> Fan:
    """Counts the walks of a packet. One that comes to a visit for a second time ends there."""
    counts = counts_of(walks, start)
    come, links, ends = {start.visit: 1}, {}, {}
    for visit in _in_order(walks, start):
        times = come.get(visit, 0)
        for hop in walks.hops[visit]:
            then = walks.next_visit(hop)
            if hop.link:
                share = times * (1 if then is None else max(1, counts.get(then, 1)))
                links[hop.link] = links.get(hop.link, 0) + share
            if then is None:
                end = end_words(visit, hop)
                ends[end] = ends.get(end, 0) + times
            else:
                come[then] = come.get(then, 0) + times
    return Fan(counts[start.visit], links, ends)


def is_known(walks: Walks, start: Start) -> bool:
    """Whether all walks of a packet are found, where the search for walks was cut."""
    if start.visit not in walks.hops:
        return False
    hops = (hop for visit in visits_from(walks, start) for hop in walks.hops[visit])
    thens = (walks.next_visit(hop) for hop in hops)
    return all(then is None or then in walks.hops for then in thens)


def end_words(visit: Visit, hop: Hop) -> str:
    """How a walk ends whose last hop is this."""
    end = hop.end or ".."
    return end if end.startswith("left ") else f"{end} at {visit.node}"


def each_walk(walks: Walks, start: Start) -> Iterator[Way]:
    """The walks of a packet one by one, each a row of visits with the hop that is taken there."""
    todo: list[tuple[Visit | None, Way]] = [(start.visit, ())]
    while todo:
        visit, way = todo.pop()
        if visit is None:
            yield way
            continue
        for hop in reversed(walks.hops.get(visit) or [Hop((), end="..")]):
            todo.append((walks.next_visit(hop), (*way, (visit, hop))))


def _in_order(walks: Walks, start: Start) -> list[Visit]:
    """The visits of a packet, each behind all from which it is come to."""
    visits = visits_from(walks, start)
    before = dict.fromkeys(visits, 0)
    for visit in visits:
        for then in _thens(walks, visit, before):
            before[then] += 1
    ready, found = [visit for visit in visits if not before[visit]], []
    while ready:
        visit = ready.pop()
        found.append(visit)
        for then in _thens(walks, visit, before):
            before[then] -= 1
            if not before[then]:
                ready.append(then)
    return found


def _thens(walks: Walks, visit: Visit, known: dict[Visit, int]) -> Iterator[Visit]:
    """What follows a visit, as often as it does."""
    for hop in walks.hops[visit]:
        if (then := walks.next_visit(hop)) in known:
            yield then
