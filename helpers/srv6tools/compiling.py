"""What `srv6 compile` prints, by the rules of lists and certificates alone: slow, for tests of
small networks.

By `docs/FORMATS.md` ('Report of `compile`', 'Certificate', 'States, edges and rooms'). That the
description keeps its rules, and that the network is flat, is taken for granted.
"""

import heapq
from collections.abc import Iterator, Sequence
from dataclasses import dataclass
from ipaddress import IPv6Address

from .check_certificate import NOTHING, START, Checker, Cost, State, added
from .description import Network, Sid
from .intent import Intent, Step
from .legs import Edge, Rooms
from .loose import legs_of
from .report import HEADS, NO_LIST

END = None
MOST_LOOSE = 128  # SIDs of a description over which an intent may have a loose step


@dataclass(frozen=True, slots=True)
class Answer:
    """What comes of an intent: the lines on `out` and on `err`, and the exit status."""

    out: tuple[str, ...]
    err: str
    status: int


def compiled(net: Network, intent: Intent) -> Answer:
    """What `srv6 compile` answers."""
    if fault := intent_fault(net, intent):
        return Answer((), f"refused {fault}", 1)
    checker = Checker(legs_of(net, intent))
    left = _potentials(checker)
    lines = [
        f"potential {checker.name(state)} {checker.cost_text(cost)}"
        for state in checker.states
        if (cost := left.get(state)) is not None
    ]
    head = HEADS[checker.form]
    if START not in left:
        return Answer((NO_LIST, head, *lines, "none", "end"), "no answer NoList", 3)
    path = list(_path(checker, left))
    steps = [f"path {'stay' if edge.stays else 'new'} {edge.sid.prefix}" for edge in path]
    containers, _, need = left[START]
    report = _report(checker.rooms, intent, path, need)
    out = *report, head, *lines, *steps, "end"
    if containers > intent.max_containers:
        return Answer(out, f"no answer TooLong {containers}", 3)
    if need >= intent.hop_limit:
        return Answer(out, f"no answer HopLimit {need}", 3)
    return Answer(out, "", 0)


def _potentials(checker: Checker) -> dict[State, Cost]:
    """The least cost from each state to the end, of those from which a path leads there."""
    into: dict[State | None, list[tuple[State, Cost]]] = {}
    for state in checker.states:
        for edge in checker.edges.of(*state):
            to = END if edge.is_last else (edge.position, edge.sid, edge.room)
            into.setdefault(to, []).append((state, checker.own_cost(edge)))
    left: dict[State | None, Cost] = {}
    queue: list[tuple[Cost, int, State | None]] = [(NOTHING, 0, END)]
    count = 0
    while queue:
        cost, _, state = heapq.heappop(queue)
        if state in left:
            continue
        left[state] = cost
        for before, own in into.get(state, ()):
            count += 1
            heapq.heappush(queue, (added(cost, own), count, before))
    del left[END]
    return left


def _path(checker: Checker, left: dict[State, Cost]) -> Iterator[Edge]:
    """The first path of the least cost, by prefixes, and on one prefix `stay` before `new`."""
    state: State = START
    while True:
        tight = []
        for edge in checker.edges.of(*state):
            to = NOTHING if edge.is_last else left.get((edge.position, edge.sid, edge.room))
            if to and left[state] == added(to, checker.own_cost(edge)):
                tight.append(edge)
        edge = min(tight, key=lambda edge: (edge.sid.prefix, not edge.stays))
        yield edge
        if edge.is_last:
            return
        state = edge.position, edge.sid, edge.room


# ---- the report


def _report(rooms: Rooms, intent: Intent, path: Sequence[Edge], need: int) -> Iterator[str]:
    containers = containers_of(rooms, [(edge.stays, edge.sid) for edge in path])
    for container in containers:
        yield f"# container {IPv6Address(container)}"
    count = len(containers)
    reduced = 40 if count == 1 else 32 + 16 * count
    yield f"# containers {count}"
    if intent.prefer == "sids":
        yield f"# sids {len(path)}"
    yield f"# header {reduced if intent.mode == 'reduced' else 48 + 16 * count}"
    yield f"# need {need}"


def containers_of(rooms: Rooms, path: Sequence[tuple[bool, Sid]]) -> list[int]:
    """The values of the containers of a list, whose SIDs each stay in a container or begin one."""
    values: list[int] = []
    before: Sid | None = None
    room, bit = 0, 0  # what is left, and where the next SID goes
    for stays, sid in path:
        block = rooms.block(sid)
        start = block.prefixlen if block else 0
        width, value = sid.prefix.prefixlen - start, int(sid.prefix.network_address)
        own = value >> 128 - sid.prefix.prefixlen & (1 << width) - 1
        is_packed = before is not None and before.csid == "replace"
        left = rooms.behind(stays, before, room, sid) or 0
        if not stays and is_packed and room == 0:
            values.append(own)  # at the greatest index, which is the lowest
            bit = width
        elif not stays:
            values.append(value)
            bit = sid.prefix.prefixlen
        elif is_packed:
            values[-1] |= own << bit
            bit += width
        else:
            values[-1] |= own << 128 - bit - width
            bit += width
        before, room = sid, left
    return values


# ---- refusals of steps


def intent_fault(net: Network, intent: Intent) -> str:
    """The number, name and fields of the first fault of an intent's headend and steps; none where
    they keep the rules.
    """
    if intent.headend not in net.nodes:
        return "34 UnknownName 0"
    node = intent.headend
    for step in intent.steps:
        if fault := _step_fault(net, step, node):
            return f"{fault} {step.number}"
        if step.links:
            node = net.links[step.links[0]].end or ""
        node = step.reach or node
    if not intent.steps[-1].function:
        return "37 NotFunctionLast"
    if intent.is_loose and len(net.sids) > MOST_LOOSE:
        return f"46 LooseLimit {MOST_LOOSE}"
    return ""


def _step_fault(net: Network, step: Step, node: str) -> str:
    if step.reach:
        if step.reach not in net.nodes:
            return "34 UnknownName"
        return "35 Broken" if step.reach == node else ""
    if step.function:
        titled = [sid for sid in net.sids if sid.title == step.function and sid.node == node]
        return "" if titled else "36 NoFunction"
    if any(name not in net.links for name in step.links):
        return "34 UnknownName"
    if len(set(step.links)) < len(step.links):
        return "38 DoubleLink"
    links = [net.links[name] for name in step.links]
    ends = {link.end for link in links}
    broken = any(link.start != node for link in links) or len(ends) > 1 or None in ends
    return "35 Broken" if broken else ""
