"""largest-inner: the longest inner packet that goes over each link of an intent's steps."""

import argparse
import functools
import json
import os
from collections.abc import Iterable, Iterator, Sequence
from concurrent.futures import ThreadPoolExecutor
from dataclasses import dataclass
from typing import Any

from .command import Fault, Parser, Status, judge_all, progress, run_tool
from .description import MOST_MTU, Network, read_network
from .intent import Intent, read_intent
from .legs import Legs
from .loose import legs_of
from .program import judge_answer, run_program
from .pushed_headers import Lost, Stage
from .report import PathStep, Report, certificate_in, report_of

MOST_NAMES = 4  # links that one line names
LEAST_BYTES = {6: 40, 4: 20}  # of a packet: its header
UNASKED = 1280  # bytes that an IPv6 node may send without a look at the path (RFC 8200 section 5)
DESCRIPTION = """\
Prints `largest-inner N` for the list of `srv6 compile NET INTENT`: the headers in front and a
packet inside of at most N bytes are within the MTU of each link of each step, whichever equal next
hop is chosen; where SIDs of the list bind policies, with the headers that they push. Of a step
that reaches a node these are the links that the list may take. The next line says which links
leave the least room. A longer packet is dropped where its bytes there are more
than the MTU of the link taken; behind a SID that took the routing header out it may still pass.
Where no packet passes, or there is no list, the status is 3.

Of several intents there is a line for each, `largest-inner N INTENT: WHY`, with `none` in place of N
where there is none; the status is 0 where each has one, else that of the first without."""


@dataclass(frozen=True, slots=True)
class Pushed:
    """The bytes of the headers that are pushed along a list, by the step that is done under them,
    from 1, and the most at once, also where none is done.
    """

    by_step: dict[int, int]
    most: int


@dataclass(frozen=True, slots=True)
class Least:
    """The least that links of an intent's steps carry beside pushed headers, and the links."""

    room: int
    links: tuple[tuple[str, int], ...] = ()  # each with the first of its steps, from 1
    pushed: int = 0  # the most bytes of pushed headers at once

    def __str__(self) -> str:
        if not self.links and not self.pushed:
            return f"no step has links, and a packet has at most {self.room} bytes"
        if not self.links:
            return f"a packet has at most {MOST_MTU} bytes, {self.pushed} of pushed headers"
        names = [f"{name} (step {number})" for name, number in self.links[:MOST_NAMES]]
        more = len(self.links) - len(names)
        listed = ", ".join(names) + (f" and {more} more" if more else "")
        if self.pushed:
            return f"beside pushed headers the steps' links carry at least {self.room}: {listed}"
        return f"the least MTU of the steps' links is {self.room}: {listed}"


def pushed_along(net: Network, intent: Intent, path: Sequence[PathStep]) -> Pushed:
    """The headers that SIDs of a list push."""
    found = Pushed({}, 0)
    if intent.is_loose or not any(sid.binds for sid in net.sids):
        return found
    legs, most = Legs(net, intent), 0
    for leg in legs.along([step.prefix for step in path]):
        for stage in legs.headers.stages(leg.position, leg.sid) if leg.sid.binds else ():
            if isinstance(stage, Stage) and stage.header:
                most = max(most, stage.header.length)
                if stage.sid is None:
                    found.by_step[stage.position] = stage.header.length
    return Pushed(found.by_step, most)


def links_of(net: Network, intent: Intent, path: Sequence[PathStep]) -> Iterator[tuple[str, int]]:
    """The links of each step, each with its step, from 1; where a step is loose, those that the
    list may take.
    """
    if not intent.is_loose:
        yield from ((name, step.number) for step in intent.steps for name in step.links)
        return
    legs: Legs = legs_of(net, intent)
    position, sid = 0, None
    for leg in legs.along([step.prefix for step in path]):
        origin = legs.origin(position, sid)
        if not isinstance(origin, Lost):
            yield from legs.links_on(origin, leg.sid).items()
        position, sid = leg.position, leg.sid


def least_of(net: Network, links: Iterable[tuple[str, int]], pushed: Pushed) -> Least:
    """The least that any of the links carries beside pushed headers, in bytes."""
    rooms: dict[str, tuple[int, int]] = {}
    for name, number in links:
        if name not in net.links:
            raise Fault(f"{net.path}: no link is called {name!r}, which step {number} has")
        room = net.links[name].mtu - pushed.by_step.get(number, 0)
        rooms[name] = min(rooms.get(name, (room, number)), (room, number))
    least = min((room for room, _ in rooms.values()), default=MOST_MTU)
    if not rooms or MOST_MTU - pushed.most < least:
        return Least(MOST_MTU - pushed.most, (), pushed.most)
    narrow = ((name, step) for name, (room, step) in rooms.items() if room == least)
    return Least(least, tuple(narrow), pushed.most)


@dataclass(frozen=True, slots=True)
class Room:
    """What is found of the list of an intent."""

    intent: Intent
    header: int  # bytes in front of the inner packet
    pushed: Pushed
    least: Least

    @property
    def most(self) -> int:
        """The bytes of the longest inner packet."""
        return self.least.room - self.header

    @property
    def why(self) -> str:
        """Where that comes from."""
        return f"the header takes {self.header} bytes, and {self.least}"

    def lines(self) -> Iterator[str]:
        """What is said of it, behind the number."""
        yield self.why
        for step, size in sorted(self.pushed.by_step.items()):
            yield f"over the links of step {step} pushed headers take {size} bytes"
        if self.intent.family == 6 and self.most < UNASKED:
            wanted = UNASKED + self.header
            beside = ", and what pushed headers take there" if self.pushed.by_step else ""
            yield (
                f"IPv6 nodes send packets of {UNASKED} bytes without a look at the path (RFC 8200"
                f" section 5); for these each link needs an MTU of {wanted}{beside}"
            )

    def as_json(self) -> dict[str, Any]:
        """The same for other programs."""
        pushed = sorted(self.pushed.by_step.items())
        return {
            "largest": self.most,
            "header": self.header,
            "room": self.least.room,
            "links": [{"link": name, "step": step} for name, step in self.least.links],
            "pushed": [{"step": step, "bytes": size} for step, size in pushed],
        }


def room_of(net: Network, intent: Intent, report: Report, path: Sequence[PathStep]) -> Room:
    """What is found of a list; a fault where no packet passes."""
    pushed = pushed_along(net, intent, path)
    room = Room(intent, report.header, pushed, least_of(net, links_of(net, intent, path), pushed))
    if room.most < LEAST_BYTES[intent.family]:
        raise Fault(f"no {intent.inner} packet passes: {room.why}", Status.NO_ANSWER)
    return room


def compiled(net: str, intent: str) -> tuple[Report, list[PathStep]]:
    """The report of `srv6 compile` and the path behind it; a fault where it has no list."""
    words = ["compile", net, intent]
    answer = run_program(words)
    judge_answer(words, answer)
    text = answer.out.decode("latin-1")
    report = report_of(text.splitlines(), "srv6 compile")
    if not report.has_list:
        raise Fault("the intent has no list", Status.NO_ANSWER)
    return report, certificate_in(text).path


def rooms_of(net_path: str, intents: Sequence[str]) -> Iterator[Room | Fault]:
    """What is found of each intent, or its fault; the program runs on all processors."""
    with ThreadPoolExecutor(os.cpu_count()) as aside:
        answers = [aside.submit(compiled, net_path, intent) for intent in intents]
    net = None
    for intent, answer in zip(intents, answers):
        try:
            report, path = answer.result()
            net = net or read_network(net_path)
            yield room_of(net, read_intent(intent), report, path)
        except Fault as fault:
            yield fault


def _json_of(intent: str, found: Room | Fault) -> dict[str, Any]:
    if isinstance(found, Fault):
        return {"intent": intent, "largest": None, "why": str(found)}
    return {"intent": intent, **found.as_json()}


def _line_of(intent: str, found: Room | Fault) -> str:
    if isinstance(found, Fault):
        return f"largest-inner none {intent}: {found}"
    return f"largest-inner {found.most} {intent}: {'; '.join(found.lines())}"


def _work(tool: str, words: argparse.Namespace) -> int:
    with progress(tool, "asking srv6 for the lists"):
        found = list(rooms_of(words.net, words.intents))
    if words.json:
        rows = [_json_of(*one) for one in zip(words.intents, found)]
        print(json.dumps({"kind": "largest-inner", "net": words.net, "intents": rows}, indent=1))
    elif len(found) > 1:
        print("\n".join(_line_of(*one) for one in zip(words.intents, found)))
    elif isinstance(found[0], Room):
        print("\n".join([f"largest-inner {found[0].most}", *found[0].lines()]))
    judge_all(found, "intents have none")
    return Status.DONE


def main(words: Sequence[str]) -> int:
    """Runs the tool."""
    parser = Parser("largest-inner", DESCRIPTION)
    parser.add_argument("net", metavar="NET", help="a description")
    parser.add_argument("intents", metavar="INTENT", nargs="+", help="an intent")
    parser.add_argument("--json", action="store_true", help="the same as JSON")
    return run_tool(parser, functools.partial(_work, parser.prog), words)
