"""Where the nodes of a network stand on a map: where comments say so, else by a layout that is the
same from run to run.

The layout takes the distance of two nodes on the map for that in links between them, as nearly as
it can (stress majorization, pair by pair). It has only the four operations and square roots in it,
which give the same numbers on each machine.
"""

import collections
import math
import random
import re
from collections.abc import Iterable, Mapping

from .command import Fault
from .description import Network
from .toml_places import Places

LINK = 120.0
"""How long a link is on the map, where no comment says where its ends are."""

ROUNDS = 40
_NUMBER = r"(-?[0-9]{1,6}(?:\.[0-9]{1,6})?)"
_XY = rf"x\s*=\s*{_NUMBER}\s*,?\s*y\s*=\s*{_NUMBER}"
_OWN = re.compile(rf"#\s*{_XY}")
_NAMED = re.compile(rf"#\s*([A-Za-z0-9_.-]{{1,32}})\s*:?\s+{_XY}")

Point = tuple[float, float]


def commented(text: str, nodes: Iterable[str], own: bool) -> dict[str, Point]:
    """The positions that comments of a text give: `# NAME x = 1, y = 2` on any line, and in a
    description `# x = 1, y = 2` on a line of the node itself.
    """
    names, found = list(nodes), {}
    known = set(names)
    for match in _NAMED.finditer(text):
        if match[1] in known:
            found[match[1]] = float(match[2]), float(match[3])
    if own and _OWN.search(text):
        places, lines = Places(text), text.split("\n")
        for number, name in enumerate(names, 1):
            if place := places.item("node", number):
                first, last = places.line_of(place.start), places.line_of(place.end)
                for line in lines[first - 1 : last]:
                    if match := _OWN.search(line):
                        found[name] = float(match[1]), float(match[2])
    return found


def distances(net: Network) -> dict[str, dict[str, int]]:
    """For each node how many links each other one is away, in either direction."""
    near: dict[str, dict[str, None]] = {name: {} for name in net.nodes}
    for link in net.links.values():
        if link.end is not None:
            near[link.start][link.end] = near[link.end][link.start] = None
    found = {}
    for name in net.nodes:
        far, todo = {name: 0}, collections.deque([name])
        while todo:
            one = todo.popleft()
            for other in near[one]:
                if other not in far:
                    far[other] = far[one] + 1
                    todo.append(other)
        found[name] = far
    return found


def _first_places(names: list[str]) -> dict[str, list[float]]:
    """Places that fill a square evenly (Halton)."""

    def part(number: int, base: int) -> float:
        found, share = 0.0, 1.0
        while number:
            share /= base
            number, digit = divmod(number, base)
            found += digit * share
        return found

    side = math.sqrt(len(names))
    return {name: [part(n, 2) * side, part(n, 3) * side] for n, name in enumerate(names, 1)}


def spread(net: Network, fixed: Mapping[str, Point]) -> dict[str, Point]:
    """A place for each node, in links; those that are fixed keep theirs."""
    names = list(net.nodes)
    far = distances(net)
    most = max((max(row.values()) for row in far.values()), default=0)
    place = _first_places(names)
    for name, (x, y) in fixed.items():
        place[name] = [x, y]
    pairs = [
        (a, b, far[a].get(b, most + 2), b in far[a])
        for at, a in enumerate(names)
        for b in names[at + 1 :]
        if a not in fixed or b not in fixed
    ]
    chance = random.Random(1)
    widest = float((most + 2) ** 2)
    for turn in range(ROUNDS):
        chance.shuffle(pairs)
        step = widest / (1 + turn * turn * widest / (ROUNDS * 4.0))
        for a, b, wanted, joined in pairs:
            one, other = place[a], place[b]
            dx, dy = one[0] - other[0], one[1] - other[1]
            now = math.sqrt(dx * dx + dy * dy) or 1e-6
            weight = min(1.0, step / (wanted * wanted)) * (1.0 if joined else 0.1)
            move = weight * (now - wanted) / now / (1 if a in fixed or b in fixed else 2)
            if a not in fixed:
                one[0] -= dx * move
                one[1] -= dy * move
            if b not in fixed:
                other[0] += dx * move
                other[1] += dy * move
    return {name: (x, y) for name, (x, y) in place.items()}


def _laid_flat(place: dict[str, Point]) -> dict[str, Point]:
    """The places turned so that the map is wide, with the first node on the left."""
    count = len(place)
    mx = sum(x for x, _ in place.values()) / count
    my = sum(y for _, y in place.values()) / count
    moved = {name: (x - mx, y - my) for name, (x, y) in place.items()}
    a = sum(x * x for x, _ in moved.values())
    b = sum(x * y for x, y in moved.values())
    c = sum(y * y for _, y in moved.values())
    great = (a + c) / 2 + math.sqrt((a - c) * (a - c) / 4 + b * b)
    vx, vy = (b, great - a) if abs(b) > 1e-9 else ((1.0, 0.0) if a >= c else (0.0, 1.0))
    size = math.sqrt(vx * vx + vy * vy) or 1.0
    vx, vy = vx / size, vy / size
    first = next(iter(moved.values()))
    side = -1.0 if first[0] * vx + first[1] * vy > 0 else 1.0
    vx, vy = vx * side, vy * side
    return {name: (x * vx + y * vy, y * vx - x * vy) for name, (x, y) in moved.items()}


def positions(net: Network, given: Mapping[str, Point]) -> dict[str, Point]:
    """Where each node stands on the map."""
    if not net.nodes:
        raise Fault(f"{net.path}: no nodes, so there is nothing to show")
    if len(given) == len(net.nodes):
        return {name: given[name] for name in net.nodes}
    if not given:
        flat = _laid_flat(spread(net, {}))
        return {name: (round(x * LINK), round(y * LINK)) for name, (x, y) in flat.items()}
    scale = _link_length(net, given)
    fixed = {name: (x / scale, y / scale) for name, (x, y) in given.items()}
    place = spread(net, fixed)
    return {
        name: given.get(name) or (round(place[name][0] * scale), round(place[name][1] * scale))
        for name in net.nodes
    }


def _link_length(net: Network, given: Mapping[str, Point]) -> float:
    """How long the links between given places are, at the middle one."""
    sizes = []
    for link in net.links.values():
        if link.end in given and link.start in given:
            (ax, ay), (bx, by) = given[link.start], given[link.end]
            sizes.append(math.sqrt((ax - bx) ** 2 + (ay - by) ** 2))
    return sorted(sizes)[len(sizes) // 2] or LINK if sizes else LINK


def ends(net: Network, place: Mapping[str, Point]) -> dict[str, Point]:
    """Where each link ends on the map that leaves the network: away from the node's neighbours."""
    near: dict[str, list[Point]] = {}
    for link in net.links.values():
        if link.end is not None:
            near.setdefault(link.start, []).append(place[link.end])
            near.setdefault(link.end, []).append(place[link.start])
    found, used = {}, collections.Counter()
    length = _link_length(net, place) * 0.55
    for link in net.links.values():
        if link.end is None:
            x, y = place[link.start]
            dx, dy = _away(place[link.start], near.get(link.start, []))
            turns = used[link.start]
            used[link.start] += 1
            for _ in range((turns + 1) // 2):  # by the angle of the triangle 3, 4, 5
                sine = 0.6 if turns % 2 else -0.6
                dx, dy = dx * 0.8 - dy * sine, dx * sine + dy * 0.8
            found[link.name] = round(x + dx * length, 1), round(y + dy * length, 1)
    return found


def _away(place: Point, near: list[Point]) -> Point:
    """The direction away from neighbours, of length 1."""
    dx = dy = 0.0
    for x, y in near:
        ox, oy = place[0] - x, place[1] - y
        size = math.sqrt(ox * ox + oy * oy)
        if size:
            dx, dy = dx + ox / size, dy + oy / size
    size = math.sqrt(dx * dx + dy * dy)
    return (dx / size, dy / size) if size > 1e-6 else (0.0, 1.0)
