"""What becomes of intents where a part of a network fails: each in one case for each failure."""

import dataclasses
import enum
import functools
from collections.abc import Iterator, Sequence
from dataclasses import dataclass
from typing import Any

from .command import Fault
from .description import MOST_MTU, Network, Sid
from .engine import BadRequest, Compiled, Engine, EngineError, Refused
from .failures import Failure
from .intent import Intent
from .items import Prefix
from .judged import REFUSED, Judging, Situation, Verdict
from .lists_file import OneList
from .loose import legs_of
from .mesh import started
from .named_lists import list_of
from .planned import Planned, without
from .sent_packets import Targets, Went, ends_at, went
from .why_no_list import Reasons, Search

WHOLE, ONCE, AFTER = "whole", "once", "after"
CANT_JUDGE = "srv6-pce has no `judge` yet: lists are judged by this tool's own model, which is not proved"
CANT_AGAIN = "srv6-pce finds no routes again yet: they are found as `routes` finds them, and loaded"
MOST_SEARCHED = 128  # SIDs of a network in which it is searched why there is no list


@dataclass(frozen=True, slots=True)
class Named:
    """An intent with the list that is installed."""

    name: str
    text: str
    intent: Intent
    installed: OneList | None


class Outcome(enum.Enum):
    """What becomes of an intent, by the words of a what-if table."""

    KEPT = "kept"
    OTHER = "other"
    NONE = "none"
    LEFT_OUT = "refused"  # it can't be asked, or its own node fails


@dataclass(frozen=True, slots=True)
class Case:
    """An intent and a failure."""

    outcome: Outcome
    answer: str
    at_once: Verdict
    after: Verdict
    names: tuple[str, ...] = ()  # of the SIDs of the installed list
    containers: int = 0  # of the installed list
    new: OneList | None = None  # where the installed list breaks
    why: str = ""  # there is none
    largest_inner: int | None = None
    shows_inner: bool = False  # some link has an MTU
    traffic: tuple[dict[str, Any] | None, dict[str, Any] | None] = (None, None)  # at once, after

    @property
    def has_none(self) -> bool:
        """Whether no list realizes the intent any longer."""
        return self.outcome is Outcome.NONE

    @property
    def said(self) -> str:
        """In words."""
        once, after = (self._said(verdict) for verdict in (self.at_once, self.after))
        both = f"at once and after: {once}" if once == after else f"at once: {once}; after: {after}"
        if self.new:
            return f"{both}; the list then: {self.new.said}"
        return f"{both}; no list: {self.why}" if self.has_none else both

    def _said(self, verdict: Verdict) -> str:
        if verdict.holds:
            return "holds"
        if verdict.answer != "no":
            return f"{verdict.answer}: {verdict.why}"
        sid = f"breaks at SID {verdict.sid} ({self._name(verdict.sid)})" if verdict.sid else "breaks"
        return f"{sid}, {verdict.cause}: {verdict.why}".removesuffix(": ")

    def _name(self, sid: int) -> str:
        return self.names[sid - 1] if sid <= len(self.names) else "?"

    def as_json(self) -> dict[str, Any]:
        """As a what-if table has it."""
        new = self.new
        need = new.need if new else self.after.need if self.after.holds else None
        return {
            "state": self.outcome.value, "answer": self.answer,
            "containers": None if need is None else len(new.segments) if new else self.containers,
            "need": need, "why": self.why,
            "largest_inner": self.largest_inner,
            "judged_at_once": self.at_once.as_json(), "judged": self.after.as_json(),
            "segments": [str(one) for one in new.segments] if new else None,
            "names": list(new.names) if new else None,
            "at_once": self.traffic[0], "traffic": self.traffic[1],
        }  # fmt: skip


@dataclass(frozen=True, slots=True)
class _Untouched:
    """The verdict of the model on a list that holds in the whole network, and on what it stands: the links that some choice
    crosses, the prefixes of its SIDs, the intent's functions. Where these stay it is the same, as each look-up on the way is.
    """

    verdict: Verdict
    links: frozenset[str]
    prefixes: frozenset[Prefix]
    functions: frozenset[str]

    def stays(self, down: frozenset[str], gone: Sequence[Sid]) -> bool:
        """Whether links that are down, and the SIDs that are gone with them, are others."""
        return self.links.isdisjoint(down) and not any(
            sid.prefix in self.prefixes or sid.title in self.functions for sid in gone
        )


class Failing:
    """Intents in a network whose parts fail, one after the other."""

    def __init__(self, planned: Planned, intents: Sequence[Named], with_traffic: bool, least: bool) -> None:
        self.planned, self.intents = planned, intents
        self.whole = planned.whole
        self.with_traffic, self.least = with_traffic, least
        self.judging = Judging()
        self.can_again: bool | None = None
        self.shows_inner = any(link.mtu < MOST_MTU for link in self.whole.links.values())
        self.ends = [ends_at(self.whole, one.intent) for one in intents]
        self.targets = Targets(self.whole) if with_traffic else None
        self.engine: Engine | None = None
        self.untouched: list[_Untouched | None] = [None for _ in intents]

    def probe(self) -> Iterator[str]:
        """What the engine can't do, and what is static, each in a line. It is asked once, before processes
        part; a fault where the network isn't flat.
        """
        with started() as engine:
            self.judging.engine_can = _has(engine, "do", "judge", **{"in": "none", "intent": "", "list": []})
            if self.planned.plan:
                self.can_again = _has(engine, "plan", "load", **{"as": "none", "network": "", "plan": ""})
            self._load(engine)
            if not self.judging.engine_can:
                whole = Situation(engine, WHOLE, lambda: self.whole)
                self.untouched = [self._in_whole(whole, one) for one in self.intents]
        if not self.judging.engine_can:
            yield CANT_JUDGE
        if self.planned.plan is None:
            yield "no plan: all routes are static, and none is found again"
            return
        if not self.can_again:
            yield CANT_AGAIN
        if static := len(self.planned.static.routes):
            yield f"{self.planned.path} has {static} routes: they are static, and none of them is found again"

    def _in_whole(self, whole: Situation, one: Named) -> _Untouched | None:
        """What the model says of a list in the whole network; nothing where it doesn't hold, or pushes headers on the way."""
        verdict = self._judged(whole, one)
        course = verdict.course
        if not verdict.holds or course is None or course.has_pushed or one.installed is None:
            return None
        prefixes = frozenset(prefix for _, prefix in one.installed.path)
        functions = frozenset(step.function for step in one.intent.steps if step.function)
        return _Untouched(verdict, frozenset(course.links), prefixes, functions)

    def begin(self) -> Engine:
        """Starts an engine that holds the whole network, in the process that asks for cases."""
        self.engine = started()
        self._load(self.engine)
        return self.engine

    def _load(self, engine: Engine) -> None:
        """Holds the whole network, with its plan where the engine takes one."""
        if self.can_again:
            held = engine.load(WHOLE, file=self.planned.path, plan_file=str(self.planned.plan_path))
        else:
            held = engine.load(WHOLE, network=self.planned.text(self.whole))
        if not held.flat:
            raise Fault(f"{self.planned.path}: the network isn't flat: {held.why}")

    def cases(self, failure: Failure) -> list[Case]:
        """The cases of a failure, one for each intent."""
        assert self.engine is not None
        once, after = self._situations(self.engine, failure)
        gone = [sid for sid in self.whole.sids if sid.links and once.down.issuperset(sid.links)]
        found = []
        for one, end, whole in zip(self.intents, self.ends, self.untouched):
            known = whole.verdict if whole and whole.stays(once.down, gone) else None
            found.append(self._case(one, end, failure, once, after, known))
        return found

    def _situations(self, engine: Engine, failure: Failure) -> tuple[Situation, Situation]:
        """The network at once and after routing; where routes are static they are one."""
        down = self.planned.down(failure.links, failure.nodes)
        engine.without(WHOLE, ONCE, links=failure.links, nodes=failure.nodes)
        once = Situation(engine, ONCE, functools.partial(without, self.whole, down), down)
        if self.planned.plan is None:
            return once, once
        after = Situation(engine, AFTER, functools.partial(self.planned.again, down), down)
        if self.can_again:
            engine.without(WHOLE, AFTER, links=failure.links, nodes=failure.nodes, routes="again")
        else:
            engine.load(AFTER, network=self.planned.text(after.net))
        return once, after

    def _case(
        self, one: Named, end: str, failure: Failure, once: Situation, after: Situation, known: Verdict | None
    ) -> Case:
        """An intent in a failure, with the verdict at once where that is known."""
        for what, node in (("headend", one.intent.headend), ("last function's node", end)):
            if node in failure.nodes:
                gone = Verdict(REFUSED, "", why=f"its {what} {node} fails")
                return Case(Outcome.LEFT_OUT, f"left out: its {what} {node} fails", gone, gone)
        at_once = known or self._judged(once, one)
        then = at_once if once is after else self._judged(after, one)
        traffic = self._traffic(one, once, at_once), self._traffic(one, after, then)
        case = self._outcome(one, after, at_once, then, traffic)
        # without their courses, which another process has no use for
        at_once, then = (dataclasses.replace(verdict, course=None) for verdict in (at_once, then))
        return dataclasses.replace(case, at_once=at_once, after=then)

    def _judged(self, here: Situation, one: Named) -> Verdict:
        installed = one.installed
        assert installed is not None
        return self.judging.judged(here, one.text, one.intent, installed.segments, list(installed.path))

    def _outcome(self, one: Named, after: Situation, at_once: Verdict, then: Verdict, traffic: Any) -> Case:
        """The case, with the list that is found where the installed one breaks."""
        installed = one.installed
        assert installed is not None
        known = {
            "names": installed.names, "containers": len(installed.segments), "traffic": traffic,
            "shows_inner": self.shows_inner,
        }  # fmt: skip
        if then.holds and not self.least:
            inner = self._inner(after, one, installed, then)
            return Case(Outcome.KEPT, f"holds, need {then.need}", at_once, then, largest_inner=inner, **known)
        found = after.compile(one.text)
        if isinstance(found, Refused):
            why = found.fields["why"]
            return Case(Outcome.NONE, f"refused {why}", at_once, then, why=f"refused: {why}", **known)
        if found.answer != "list":
            why = f"no answer {found.answer}"
            return Case(Outcome.NONE, why, at_once, then, why=self._why(after, one, found), **known)
        new = list_of(one.name, one.text, found, after.names)
        inner = self._inner(after, one, new, None)
        answer = f"list of {found.containers} containers, need {found.need}"
        if then.holds and (new.segments, new.path) == (installed.segments, installed.path):
            return Case(Outcome.KEPT, answer, at_once, then, largest_inner=inner, **known)
        return Case(Outcome.OTHER, answer, at_once, then, new=new, largest_inner=inner, **known)

    def _inner(self, here: Situation, one: Named, used: OneList, verdict: Verdict | None) -> int | None:
        """The bytes of the largest inner packet along a list, where links have MTUs."""
        if not self.shows_inner:
            return None
        course = verdict.course if verdict else None
        course = course or here.courses.course(one.intent, list(used.path))
        return here.courses.largest_inner(one.intent, course, used.header)

    def _why(self, here: Situation, one: Named, found: Compiled) -> str:
        """Why there is no list, in a line."""
        if found.answer != "NoList":
            key, number = ("containers", found.containers) if found.answer == "TooLong" else ("lowerings", found.need)
            return f"the least list has {number} {key}, more than the intent allows"
        return why_none(here, one.intent)

    def _traffic(self, one: Named, here: Situation, verdict: Verdict) -> dict[str, Any] | None:
        """A packet with the installed list, for the viewer: its walk where the list breaks."""
        if self.targets is None or self.engine is None:
            return None
        installed = one.installed
        assert installed is not None
        sent = self.targets.sent(self.whole, one.intent, installed.segments)
        before = went(self.engine, WHOLE, self.whole, sent.headend, sent.packet, verdict.choices)
        now = went(self.engine, here.name, self.whole, sent.headend, sent.packet, verdict.choices)
        row = {"headend": sent.headend, "inner": sent.inner.hex(), "end": now.end, "arrives": now.end == before.end}
        return row | self._walk(here, now, verdict)

    def _walk(self, here: Situation, now: Went, verdict: Verdict) -> dict[str, Any]:
        """Its first link, and where the list breaks its walk from there on."""
        assert self.engine is not None
        first = next((stage for stage in now.walk.stages if stage.kind == "send"), None)
        end = self.whole.links[str(first.link)].end if first else None
        if first is None or end is None or verdict.holds:
            return {"link": first.link if first else None, "trace": None}
        behind = went(self.engine, here.name, self.whole, end, first.packet or b"", verdict.choices[1:])
        return {"link": first.link, "trace": behind.text}


def _has(engine: Engine, field: str, request: str, **fields: Any) -> bool:
    """Whether the engine has a request, or a field of one: one that hasn't finds it bad."""
    try:
        engine.ask(request, **fields)
    except BadRequest as fault:
        return fault.fields.get("field") != field
    except EngineError:
        pass
    return True


def why_none(here: Situation, intent: Intent) -> str:
    """Why no list realizes an intent in a network, in a line: the first step that nothing does, else as
    `why-no-list` says.
    """
    net: Network = here.net
    up = net.links.keys() - here.down
    node = intent.headend
    for step in intent.steps:
        if step.links and not up & set(step.links):
            return f"step {step.number} ({step}): no link of it is up"
        if step.reach and step.reach not in _reached(net, up, node):
            return f"step {step.number} ({step}): no way leads there from {node}"
        node = (net.links[step.links[0]].end if step.links else step.reach) or node
    if len(net.sids) > MOST_SEARCHED:
        return "no legal list realizes the intent"
    said = next(Reasons(Search(legs_of(net, intent))).lines())
    return said.removeprefix("no list: ")


def _reached(net: Network, up: set[str], start: str) -> set[str]:
    """The nodes to which ways lead over links that are up."""
    onward: dict[str, list[str]] = {}
    for name in up:
        link = net.links[name]
        if link.end:
            onward.setdefault(link.start, []).append(link.end)
    found, todo = {start}, [start]
    while todo:
        for end in onward.get(todo.pop(), ()):
            if end not in found:
                found.add(end)
                todo.append(end)
    return found
