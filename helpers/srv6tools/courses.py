"""What becomes of packets along a list that somebody else made: whether it realizes an intent, or which
of its SIDs is the first that isn't executed as it has to be, what happens on the way there, and under
which choices.

By what is said of `docs/FORMATS.md` on judged lists and ('States, edges and rooms') on the ways of packets:
all choices among equal next hops are followed. That the description and the intent keep their rules, and
that the network is flat, is taken for granted. It shares no code with the programs.
"""

from collections.abc import Sequence
from dataclasses import dataclass, field
from ipaddress import IPv6Address
from typing import NamedTuple

from .description import MOST_MTU, Network, Sid
from .intent import Intent, Step
from .items import Prefix
from .places import MULTICAST, Found, Halt, Place, Tables, Via, arrival, place_behind
from .pushed_headers import HeaderWalks, Origin
from .spelled_lists import Path

CAUSES = ("lost", "astray", "apart", "early", "unexecuted")  # the first that happens is told


class Event(NamedTuple):
    """What happens to a packet under some choice: the SID is executed, or a cause, where and why."""

    cause: str  # "" where the SID is executed
    node: str
    position: int  # steps done
    why: str
    choices: tuple[int, ...]  # the members that are taken, on the way from the SID before
    sid: Sid | None = None


@dataclass(slots=True)
class Course:
    """What a list comes to."""

    need: int = 0  # lowerings of the outer hop limit, at most; of one that realizes
    sid: int = 0  # from 1, the first that isn't executed as it has to be; 0 where all are
    cause: str = ""  # none where the list realizes the intent
    why: str = ""
    choices: tuple[int, ...] = ()  # under which that happens, for as many sends
    stands: list[str] = field(default_factory=list)  # the nodes of the SIDs that are executed
    links: dict[str, None] = field(default_factory=dict)  # that some choice crosses
    has_pushed: bool = False  # some SID pushes a header, whose links and choices aren't told

    @property
    def realizes(self) -> bool:
        """Whether the list realizes the intent."""
        return not self.cause


@dataclass(slots=True)
class _Way:
    """All ways from one SID to the next."""

    address: int
    prefix: Prefix
    number: int  # of the SID in the list, from 1
    events: list[Event] = field(default_factory=list)
    lowered: dict[tuple[int, Place], int] = field(default_factory=dict)  # at most, on the way on
    open: set[tuple[int, Place]] = field(default_factory=set)


class Courses:
    """The courses of lists in a network."""

    def __init__(self, net: Network) -> None:
        self.net, self.tables = net, Tables(net)
        self._prefixes = {sid.prefix for sid in net.sids}

    def first_gone(self, prefixes: Sequence[Prefix]) -> int:
        """The number, from 1, of the first SID of a list that the network doesn't have; 0 where it has
        all.
        """
        gone = (number for number, prefix in enumerate(prefixes, 1) if prefix not in self._prefixes)
        return next(gone, 0)

    def course(self, intent: Intent, path: Path) -> Course:
        """What the list of these SIDs comes to, each of which the network has."""
        return _Follower(self.net, self.tables, intent, path).follow()

    def largest_inner(self, intent: Intent, course: Course, header: int) -> int | None:
        """The bytes of the largest inner packet that fits each link of a course; None where headers are
        pushed on the way.
        """
        if course.has_pushed:
            return None
        return min((self.net.links[name].mtu for name in course.links), default=MOST_MTU) - header


class _Follower:
    """Follows packets along the steps of an intent."""

    def __init__(self, net: Network, tables: Tables, intent: Intent, path: Path) -> None:
        self.net, self.tables, self.intent, self.steps = net, tables, intent, intent.steps
        self.path, self.course = path, Course()
        # the number of the first SID of the last container, behind which no segment is left
        self.last_begins = max((number for number, (stays, _) in enumerate(path, 1) if not stays), default=1)

    def follow(self) -> Course:
        """Follows packets from SID to SID, up to the first that isn't executed alike."""
        course = self.course
        behind = _Behind(Origin(0, Place(self.intent.headend, 0, None, False)))
        for number, (_, prefix) in enumerate(self.path, 1):
            way, origin = _Way(int(prefix.network_address), prefix, number, list(behind.events)), behind.origin
            lowered = self._on(way, origin.position, origin.place, behind.choices) if origin else 0
            if bad := _first_bad(way.events):
                return self._broken(number, bad)
            event = way.events[0]
            assert event.sid is not None
            course.choices += event.choices
            course.stands.append(event.node)
            if self._hands(event.sid, number):
                course.need += lowered
                return self._handed(number, event)
            course.need += lowered + 1
            behind = self._behind(event.sid, event.position)
        return course

    def _broken(self, number: int, bad: Event) -> Course:
        """The course breaks on the way to a SID."""
        course = self.course
        course.sid, course.cause, course.why = number, bad.cause, bad.why
        course.choices += bad.choices
        return course

    def _handed(self, number: int, event: Event) -> Course:
        """The packet inside is handed over at a SID, be it the last one or one before."""
        course = self.course
        if event.position < len(self.steps):
            why = f"{event.node} hands the packet over, and {self._step(event.position)} isn't done"
            cause, course.why = "early", why
        elif number < len(self.path) and self.intent.is_loose:
            cause, course.why = "unexecuted", f"{event.node} hands the packet over before"
        else:
            return course
        course.cause, course.sid = cause, number + 1 if number < len(self.path) else 0
        return course

    def _hands(self, sid: Sid, number: int) -> bool:
        """Whether a SID that is executed hands the packet over: the last one of the list, and a plain one
        in the last container, whatever follows there.
        """
        return number == len(self.path) or (sid.csid == "plain" and number >= self.last_begins)

    def _why_dropped(self, sid: Sid, number: int) -> str:
        """Why a SID that is found can't be executed; nothing where it can."""
        if self._hands(sid, number):
            exposes = sid.exposes(self.intent.family)
            return "" if exposes else f"{sid.behaviour} at {sid.node} takes no {self.intent.inner} packet out"
        return "" if sid.goes_on else f"{sid.behaviour} at {sid.node} goes on along no list"

    def _behind(self, sid: Sid, position: int) -> "_Behind":
        """What follows behind a SID, by way of the header that it pushes if it does."""
        if not sid.binds:
            return _Behind(Origin(position, place_behind(sid)))
        self.course.has_pushed = True
        walks = _AlongSteps(self.net, self.intent, _stands(self.net, self.intent), self.tables)
        end = walks.end(position, sid)
        taken, said = tuple(walks.taken), list(walks.others)
        if isinstance(end, Origin):
            return _Behind(end, taken, [self._lost_header(sid, end.position, *one) for one in said])
        if isinstance(end.why, str):
            said.append(("astray" if "isn't the next step" in end.why else "lost", end.why, taken))
        elif not end.why.via:
            said.append(("lost", end.why.stop.value, taken))
        return _Behind(None, taken, [self._lost_header(sid, end.position, *one) for one in said])

    def _lost_header(self, sid: Sid, position: int, cause: str, why: str, choices: tuple[int, ...]) -> Event:
        verb = "leaves the steps" if cause == "astray" else "is lost"
        return Event(cause, sid.node, position, f"the header that {sid.node} pushes {verb}: {why}", choices)

    def _on(self, way: _Way, position: int, place: Place, choices: tuple[int, ...]) -> int:
        """Follows a packet on from a place; the lowerings that are left on the way, at most."""
        key = position, place
        if key in way.lowered:
            return way.lowered[key]
        if key in way.open:
            self._end(way, "lost", place.node, position, f"routes lead it back to {place.node}", choices)
            return 0
        way.open.add(key)
        most = 0
        found = self.tables.found_at(place, way.address)
        if isinstance(found, Sid):
            self._at_sid(way, position, found, choices)
        elif found is None or not hasattr(found, "links"):
            self._end(way, "lost", place.node, position, self._nothing(place, found, way.address), choices)
        else:
            for member, name in enumerate(found.links):
                then = self._over(way, position, place, name, (*choices, member))
                if then is not None:
                    went = self._on(way, *then, (*choices, member))
                    most = max(most, went + place.lowers)
        way.open.discard(key)
        way.lowered[key] = most
        return most

    def _end(self, way: _Way, cause: str, node: str, position: int, why: str, choices: tuple[int, ...]) -> None:
        way.events.append(Event(cause, node, position, why, choices))

    def _at_sid(self, way: _Way, position: int, sid: Sid, choices: tuple[int, ...]) -> None:
        """A SID is found: the one that is meant, by its prefix, or another one."""
        done = self.intent.executes(sid.title, position)
        if sid.prefix != way.prefix:
            self._end(way, "lost", sid.node, position, f"{sid} takes it at {sid.node}", choices)
        elif why := self._why_dropped(sid, way.number):
            self._end(way, "lost", sid.node, position, why, choices)
        elif sid.binds and self.intent.is_loose:
            why = f"{sid.node} binds a policy, and a step reaches a node"
            self._end(way, "astray", sid.node, position, why, choices)
        elif done is None:
            why = f"{sid.node} executes the function {sid.title}, and {self._next(position)}"
            self._end(way, "astray", sid.node, position, why, choices)
        else:
            way.events.append(Event("", sid.node, done, "", choices, sid))

    def _over(
        self, way: _Way, position: int, place: Place, name: str, choices: tuple[int, ...]
    ) -> tuple[int, Place] | None:
        """Where a link leads along the steps; None where it leads off them, which is told then."""
        link, step = self.net.links[name], self.steps[position] if position < len(self.steps) else None
        self.course.links[name] = None
        if link.end is None:
            why = f"{place.node} sends it out of the network over {name}"
            self._end(way, "lost", place.node, position, why, choices)
        elif step and step.reach:
            return position + (link.end == step.reach), arrival(link.end)
        elif step and name in step.links:
            return position + 1, arrival(link.end)
        else:
            why = f"{place.node} sends it over {name}, and {self._next(position)}"
            self._end(way, "astray", place.node, position, why, choices)
        return None

    def _nothing(self, place: Place, found: object, address: int) -> str:
        to = IPv6Address(address)
        if found is not None:
            return f"{place.node} has the address {to} itself"
        if address in MULTICAST:
            return f"{to} is a multicast address"
        table = f" in table {place.table}" if place.table else ""
        return f"{place.node} has no route to {to}{table}"

    def _step(self, position: int) -> str:
        step: Step = self.steps[position]
        return f"step {step.number} ({step})"

    def _next(self, position: int) -> str:
        if position == len(self.steps):
            return "all steps are done"
        return f"what comes next is {self._step(position)}"


class _Behind(NamedTuple):
    """What follows behind a SID: from where packets go on to the next one, None where they don't under any choice, and the
    members that were taken up to there; and what becomes under other choices of a header that it pushed.
    """

    origin: Origin | None
    choices: tuple[int, ...] = ()
    events: Sequence[Event] = ()


class _AlongSteps(HeaderWalks):
    """The walk of a pushed header that goes on along the steps where some of the links that it meets lead so."""

    def __init__(self, net: Network, intent: Intent, stands: list[str], tables: Tables) -> None:
        super().__init__(net, intent, stands, tables)
        self._links, self._steps = net.links, intent.steps
        self.taken: list[int] = []  # the members along the steps
        self.others: list[tuple[str, str, tuple[int, ...]]] = []  # of each other one the cause, why, and the members up to it

    def _halt(self, place: Place, found: Found, address: int, position: int) -> Halt | None:
        halt = super()._halt(place, found, address, position)
        links = found.links if isinstance(found, Via) else ()
        ahead = self._steps[position].links if position < len(self._steps) else ()
        along = [member for member, name in enumerate(links) if name in ahead]
        for member, name in enumerate(links):
            if halt and name not in ahead:
                leaves = self._links[name].end is None
                why = f"{place.node} sends it out of the network over {name}" if leaves else halt.stop.value
                self.others.append(("lost" if leaves else "astray", why, (*self.taken, member)))
        self.taken += along[:1]
        return None if along else halt


def _first_bad(events: Sequence[Event]) -> Event | None:
    """The first cause that happens under some choice; None where the SID is executed alike under all."""
    for cause in ("lost", "astray"):
        if found := next((event for event in events if event.cause == cause), None):
            return found
    first = events[0]
    for event in events[1:]:
        if (event.node, event.position) != (first.node, first.position):
            where = f"at {first.node} with {_steps(first.position)} or at {event.node} with {_steps(event.position)}"
            return event._replace(cause="apart", why=f"it is executed {where}, as next hops are chosen")
    return None


def _steps(done: int) -> str:
    return f"{done} step{'s' * (done != 1)} done"


def _stands(net: Network, intent: Intent) -> list[str]:
    """The nodes where the walk stands, by the steps that are done."""
    stands = [intent.headend]
    for step in intent.steps:
        end = net.links[step.links[0]].end if step.links else step.reach
        stands.append(end or stands[-1])
    return stands


