"""Lists that somebody else made, judged: by the engine where it can, else by the model of `courses`.

The engine (`srv6-pce`) judges by `judge`, of which what it says is proved. One that hasn't that request
yet answers BadRequest of `do`; then the model of `courses` judges, which is not proved and shares no code
with it, and each verdict says so in `by`. Words for why a list breaks come of the model in either case.
"""

import functools
from collections.abc import Callable, Sequence
from dataclasses import dataclass, field
from ipaddress import IPv6Address

from .courses import Course, Courses
from .description import Network
from .engine import BadRequest, Compiled, Engine, Refused
from .intent import Intent
from .named_lists import ListNames
from .spelled_lists import Path, Speller

REALIZES, NOT_LEGAL, NO, REFUSED = "realizes", "not legal", "no", "refused"
ENGINE, MODEL = "srv6-pce", "model"


@dataclass(frozen=True, slots=True)
class Verdict:
    """What a list comes to in a network."""

    answer: str  # realizes, not legal, no, or refused, where the intent can't be asked
    by: str  # the engine or the model
    sid: int = 0  # of no: the first SID, from 1, that isn't executed as it has to be; 0 where all are
    cause: str = ""  # of no
    why: str = ""  # in words
    need: int = 0  # of realizes
    choices: tuple[int, ...] = ()  # under which it goes wrong
    course: Course | None = field(default=None, compare=False)

    @property
    def holds(self) -> bool:
        """Whether the list realizes the intent."""
        return self.answer == REALIZES

    def as_json(self) -> dict[str, object]:
        """The same for other programs."""
        found: dict[str, object] = {"answer": self.answer, "by": self.by}
        if self.holds:
            return found | {"need": self.need}
        if self.answer == NO:
            found |= {"sid": self.sid, "cause": self.cause}
        return found | {"why": self.why}


class Situation:
    """A network that the engine holds by a name, and the same for the model, which is made where it is
    asked for.
    """

    def __init__(
        self, engine: Engine, name: str, make: Callable[[], Network], down: frozenset[str] = frozenset()
    ) -> None:
        self.engine, self.name, self._make, self.down = engine, name, make, down

    @functools.cached_property
    def net(self) -> Network:
        """The network."""
        return self._make()

    @functools.cached_property
    def titles(self) -> set[tuple[str, str]]:
        """The functions, each with its node."""
        return {(sid.title, sid.node) for sid in self.net.sids if sid.title}

    @functools.cached_property
    def courses(self) -> Courses:
        """The courses of lists in it."""
        return Courses(self.net)

    @functools.cached_property
    def names(self) -> ListNames:
        """The names of SIDs in it."""
        return ListNames(self.net, self.courses)

    @functools.cached_property
    def speller(self) -> Speller:
        """Reads segments in it."""
        return Speller(self.net)

    def compile(self, intent: str) -> Compiled | Refused:
        """What the engine compiles, or its refusal of the intent."""
        try:
            return self.engine.compile(self.name, intent)
        except Refused as refused:
            return refused


class Judging:
    """Judges lists; it finds out once whether the engine can."""

    def __init__(self) -> None:
        self.engine_can: bool | None = None

    def judged(
        self, here: Situation, text: str, intent: Intent, segments: Sequence[IPv6Address], path: Path | None
    ) -> Verdict:
        """What a list comes to, by the text of an intent and what it reads as; `path` has the list's SIDs
        where they are known, as of the network from before a failure.
        """
        judged = self._by_engine(here, text, segments)
        if judged is not None and judged.answer in (REALIZES, REFUSED):
            return judged
        if judged is not None:
            return _explained(judged, _by_model(here, intent, segments, path))
        if why := _refused(here, intent):
            return Verdict(REFUSED, MODEL, why=why)
        return _by_model(here, intent, segments, path)

    def _by_engine(self, here: Situation, text: str, segments: Sequence[IPv6Address]) -> Verdict | None:
        """What the engine says; None where it hasn't the request."""
        if self.engine_can is False:
            return None
        try:
            found = here.engine.judge(here.name, text, [str(one) for one in segments])
        except BadRequest as fault:
            if fault.fields.get("field") != "do":
                raise
            self.engine_can = False
            return None
        except Refused as refused:
            return Verdict(REFUSED, ENGINE, why=refused.fields["why"])
        self.engine_can = True
        return Verdict(found.answer, ENGINE, found.sid, found.cause, need=found.need)


def _explained(judged: Verdict, model: Verdict) -> Verdict:
    """The engine's verdict with the model's words, where both say the same."""
    if (judged.answer, judged.sid, judged.cause) != (model.answer, model.sid, model.cause):
        return judged
    return Verdict(judged.answer, ENGINE, judged.sid, judged.cause, model.why, 0, model.choices, model.course)


def _by_model(here: Situation, intent: Intent, segments: Sequence[IPv6Address], path: Path | None) -> Verdict:
    """What the model says."""
    if path is not None:
        if gone := here.courses.first_gone([prefix for _, prefix in path]):
            return Verdict(NOT_LEGAL, MODEL, sid=0, why=f"SID {gone} of the list, {path[gone - 1][1]}, is gone")
    else:
        path = here.speller.path(segments)
    if not path:
        return Verdict(NOT_LEGAL, MODEL, why="no legal list of the network is spelled so")
    course = here.courses.course(intent, path)
    if course.realizes:
        return Verdict(REALIZES, MODEL, need=course.need, course=course)
    return Verdict(NO, MODEL, course.sid, course.cause, course.why, 0, course.choices, course)


def _refused(here: Situation, intent: Intent) -> str:
    """Why an intent that reads in a network is refused where parts of it are gone: as the engine has it."""
    node, links = intent.headend, here.net.links
    for step in intent.steps:
        node = (links[step.links[0]].end if step.links else step.reach) or node
        if step.function and (step.function, node) not in here.titles:
            return f"36 NoFunction {step.number}"
    return ""
