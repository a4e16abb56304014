"""Which frames of two captures belong together: by their bytes, then by tag or payload, and what is left by place."""

from __future__ import annotations

import bisect
from collections.abc import Callable, Hashable, Iterator, Sequence

from .chains import chain_of, tags_of

Place = int | None
LEAST_PAYLOAD = 8  # bytes that tell a packet apart


def aligned(one: Sequence[bytes], other: Sequence[bytes]) -> list[tuple[Place, Place, bool]]:
    """Pairs of places in two rows of packets, in order; None where a packet is in one row alone. The last says whether
    it stands elsewhere in the order than the others do.
    """
    pairs: dict[int, int] = {}
    for key in (_content, _tag, _payload):
        left = [place for place in range(len(one)) if place not in pairs]
        taken = set(pairs.values())
        right = [place for place in range(len(other)) if place not in taken]
        pairs |= dict(_paired(one, left, other, right, key))
    steady = set(_longest_run(pairs))
    for start, end in _gaps(steady, pairs, len(one), len(other)):
        left = [place for place in range(*start) if place not in pairs]
        taken = set(pairs.values())
        right = [place for place in range(*end) if place not in taken]
        fresh = dict(zip(left, right))
        pairs |= fresh
        steady |= set(fresh)
    return _in_order(pairs, steady, len(one), len(other))


def _content(packet: bytes) -> Hashable:
    return packet


def _tag(packet: bytes) -> Hashable | None:
    """What tells a packet apart also where a device has changed it: a number that isn't 0."""
    return next((number for number in tags_of(packet) if number), None)


def _payload(packet: bytes) -> Hashable | None:
    """The bytes of the upper layer, where they are enough."""
    if len(packet) < 40 or packet[0] >> 4 != 6:
        return None
    rest = packet[chain_of(packet).at :]
    return rest if len(rest) >= LEAST_PAYLOAD else None


def _paired(
    one: Sequence[bytes], left: Sequence[int], other: Sequence[bytes], right: Sequence[int], key: Callable[[bytes], Hashable | None]
) -> Iterator[tuple[int, int]]:
    """Places with one key, the first with the first, the second with the second and so on."""
    found: dict[Hashable, list[int]] = {}
    for place in reversed(right):
        if (known := key(other[place])) is not None:
            found.setdefault(known, []).append(place)
    for place in left:
        if places := found.get(key(one[place])):
            yield place, places.pop()


def _longest_run(pairs: dict[int, int]) -> Iterator[int]:
    """The places of the longest row of pairs that stand in one order on both sides."""
    ends: list[int] = []  # of each length the least place at which such a row ends
    at: list[int] = []
    before: dict[int, int | None] = {}
    for place in sorted(pairs):
        length = bisect.bisect_left(ends, pairs[place])
        before[place] = at[length - 1] if length else None
        ends[length : length + 1] = [pairs[place]]
        at[length : length + 1] = [place]
    last = at[-1] if at else None
    while last is not None:
        yield last
        last = before[last]


def _gaps(
    steady: set[int], pairs: dict[int, int], size: int, other: int
) -> Iterator[tuple[tuple[int, int], tuple[int, int]]]:
    """The places between neighbours of the row, on both sides."""
    start, end = 0, 0
    for place in [*sorted(steady), size]:
        there = pairs[place] if place < size else other
        if place > start and there > end:
            yield (start, place), (end, there)
        start, end = place + 1, there + 1


def _in_order(pairs: dict[int, int], steady: set[int], size: int, other: int) -> list[tuple[Place, Place, bool]]:
    """The pairs by their places on the first side, and what the second has alone where it stands there."""
    alone = sorted(set(range(other)) - set(pairs.values()))
    rows: list[tuple[Place, Place, bool]] = []
    for place in range(size):
        there = pairs.get(place)
        if place in steady and there is not None:
            while alone and alone[0] < there:
                rows.append((None, alone.pop(0), False))
        rows.append((place, there, there is not None and place not in steady))
    return rows + [(None, place, False) for place in alone]
