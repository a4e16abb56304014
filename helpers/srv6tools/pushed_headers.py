"""The header that a SID pushes by a policy: what nodes do with it, and where it is taken off.

By `docs/FORMATS.md` ('States, edges and rooms') and `docs/BEHAVIOUR.md` ('At a SID', 'At a binding
SID', 'At a compressed SID'). What the header carries is an IPv6 packet, of which nothing is looked
at.
"""

import collections
import enum
from collections.abc import Iterator
from typing import NamedTuple

from .command import Fault
from .description import Network, Policy, Sid
from .intent import Intent
from .places import Found, Halt, Place, Tables, Via, arrival, halt_at, place_behind, place_inside

MOST_STAGES = 1000  # the execution that pushes the header the first, its hand-over the last
HEADER_BYTES, ROUTING_BYTES, ENTRY_BYTES = 40, 8, 16


class Header(NamedTuple):
    """A pushed header on its way, and the one below it where that was pushed too."""

    destination: int
    hop_limit: int
    entries: tuple[int, ...] | None  # of its segment routing header; None without one
    left: int  # Segments Left
    below: "Header | None"
    carried: int  # bytes of the headers below

    @property
    def length(self) -> int:
        """Its bytes, with those of the headers below."""
        routing = 0 if self.entries is None else ROUTING_BYTES + ENTRY_BYTES * len(self.entries)
        return HEADER_BYTES + routing + self.carried


def header_of(policy: Policy, reduced: bool) -> Header:
    """The header of a policy, in the full or the reduced form, with none below."""
    segments = [int(segment) for segment in policy.segments]
    listed = segments[1:] if reduced else segments
    entries = tuple(reversed(listed)) if listed else None
    return Header(segments[0], policy.hop_limit, entries, len(segments) - 1, None, 0)


class Fate(enum.Enum):
    """What comes of a header at a SID where it doesn't go on as another one."""

    TAKEN_OFF = "it is taken off"
    HOP_LIMIT = "its hop limit is at most 1"
    SEGMENTS = "its Segments Left is none that the SID takes"
    UPPER_LAYER = "no segment is left, and the SID takes no IPv6 packet out"


def at_sid(sid: Sid, block_len: int, header: Header) -> Header | Fate:
    """What comes of a header at a SID whose block has so many bits."""
    if sid.csid == "next" and header.destination % (1 << 128 - sid.prefix.prefixlen):
        return _moved(header, _shifted(sid, block_len, header.destination), header.left, False)
    if header.entries is None or _is_at_end(sid, block_len, header):
        return Fate.TAKEN_OFF if sid.exposes(6) else Fate.UPPER_LAYER
    if not sid.goes_on:
        return Fate.SEGMENTS
    return (_replaced if sid.csid == "replace" else _stepped)(sid, block_len, header)


def _moved(header: Header, destination: int, left: int, pops: bool) -> Header | Fate:
    """A header that a SID sends on, without its segment routing header where that is popped."""
    if header.hop_limit <= 1:
        return Fate.HOP_LIMIT
    entries = None if pops else header.entries
    lowered = header.hop_limit - 1
    return Header(destination, lowered, entries, left, header.below, header.carried)


def _shifted(sid: Sid, block_len: int, destination: int) -> int:
    """A destination whose argument is moved up to directly behind the block."""
    behind = 128 - block_len
    argument = destination % (1 << 128 - sid.prefix.prefixlen)
    return (destination >> behind << behind) + (argument << sid.prefix.prefixlen - block_len)


def _stepped(sid: Sid, block_len: int, header: Header) -> Header | Fate:
    """The step to the next entry, a whole segment."""
    left = header.left - 1
    entries = header.entries or ()
    return _moved(header, entries[left], left, "psp" in sid.flavours and left == 0)


# ---- REPLACE-CSID


def _index(bits: int, destination: int) -> int:
    return destination % (128 // bits)


def _csid(header: Header, bits: int, entry: int, index: int) -> int:
    """The CSID at an index of an entry."""
    return (header.entries or ())[entry] >> 128 - (index + 1) * bits & (1 << bits) - 1


def _is_at_end(sid: Sid, block_len: int, header: Header) -> bool:
    """Whether no segment is left for a SID."""
    if sid.csid != "replace":
        return header.left == 0
    return _is_ended(sid.prefix.prefixlen - block_len, header, header.left, header.destination)


def _is_ended(bits: int, header: Header, left: int, destination: int) -> bool:
    index = _index(bits, destination)
    return left == 0 and (index == 0 or _csid(header, bits, 0, index - 1) == 0)


def _replaced(sid: Sid, block_len: int, header: Header) -> Header | Fate:
    """The step to the next CSID of an entry, or to the next entry as a whole segment."""
    bits, left = sid.prefix.prefixlen - block_len, header.left
    index, entries = _index(bits, header.destination), header.entries or ()
    if header.hop_limit <= 1:
        return Fate.HOP_LIMIT
    if index and left > len(entries) - 1:
        return Fate.SEGMENTS
    if index and _csid(header, bits, left, index - 1) == 0:
        return _moved(header, entries[left - 1], left - 1, "psp" in sid.flavours and left == 1)
    left, index = (left, index - 1) if index else (left - 1, 128 // bits - 1)
    behind = 128 - sid.prefix.prefixlen
    csid = _csid(header, bits, left, index) << behind
    kept = header.destination & ~((1 << bits) - 1 << behind)
    destination = (kept | csid) // (128 // bits) * (128 // bits) + index
    ended = _is_ended(bits, header, left, destination)
    return _moved(header, destination, left, "psp" in sid.flavours and ended)


# ---- walks


class Origin(NamedTuple):
    """From where a packet goes on to its next SID, with the steps done there."""

    position: int
    place: Place


class Stage(NamedTuple):
    """Behind a stage of a walk: the steps done, the place, the header on top, None where the last
    one was taken off, and the SID that was executed.
    """

    position: int
    place: Place
    header: Header | None
    sid: Sid | None


class Lost(NamedTuple):
    """Where a header is lost, with the steps done and its destination there, and why: it goes no
    further along the steps, or else in words.
    """

    position: int
    address: int
    why: Halt | str


class HeaderWalks:
    """The walks of pushed headers along the steps of an intent, each to where it is taken off."""

    def __init__(self, net: Network, intent: Intent, stands: list[str], tables: Tables):
        self._net, self._intent, self._stands, self._tables = net, intent, stands, tables
        # by the numbers of SIDs: the bits of their blocks, the headers that they push
        self._lengths: dict[int, int] = {}
        self._headers: dict[int, Header] = {}
        self._ends: dict[tuple[int, int], Origin | Lost] = {}

    def end(self, position: int, sid: Sid) -> Origin | Lost:
        """Where the header is taken off that a SID pushes, once it is executed with so many steps
        done; or where it is lost.
        """
        key = position, sid.number
        if key not in self._ends:
            last = collections.deque(self.stages(position, sid), 1).pop()
            self._ends[key] = _end_of(last) if isinstance(last, Stage) else last
        return self._ends[key]

    def stages(self, position: int, sid: Sid) -> Iterator[Stage | Lost]:
        """The stages of that header, the execution of the SID the first, up to the one in which it
        is taken off or lost, or to the last that there may be.
        """
        stage: Stage | Lost = Stage(position, place_behind(sid), self._pushed(sid, None), sid)
        for _ in range(MOST_STAGES - 1):
            yield stage
            if isinstance(stage, Lost) or stage.header is None:
                return
            stage = self._on(stage, stage.header)
        yield stage

    def _pushed(self, sid: Sid, below: Header | None) -> Header:
        """The header that a SID pushes, with another one below it or none."""
        if sid.number not in self._headers:
            policy = self._net.policies.get(sid.policy or "")
            if policy is None or not policy.segments:
                what = "it binds no policy with a segment"
                raise Fault(f"{self._net.path}: sid {sid.number}: {what}")
            reduced = sid.behaviour == "End.B6.Encaps.Red"
            self._headers[sid.number] = header_of(policy, reduced)
        header = self._headers[sid.number]
        return header._replace(below=below, carried=below.length) if below else header

    def _on(self, stage: Stage, header: Header) -> Stage | Lost:
        position, place, address = stage.position, stage.place, header.destination
        found = self._tables.found_at(place, address)
        if isinstance(found, Sid):
            return self._executed(position, header, found)
        if place.lowers and isinstance(found, Via) and header.hop_limit <= 1:
            return Lost(position, address, f"at {place.node} {Fate.HOP_LIMIT.value}")
        if halt := self._halt(place, found, address, position):
            return Lost(position, address, halt)
        sent = header._replace(hop_limit=header.hop_limit - place.lowers)
        return Stage(position + 1, arrival(self._stands[position + 1]), sent, None)

    def _halt(self, place: Place, found: Found, address: int, position: int) -> Halt | None:
        """What keeps a header from going on along the steps, over each of the links that it meets."""
        return halt_at(place, found, address, self._intent.steps[position : position + 1])

    def _executed(self, position: int, header: Header, sid: Sid) -> Stage | Lost:
        """At a SID, whose title has to be the function of the next step."""
        fate = at_sid(sid, self._block_len(sid), header)
        if isinstance(fate, Fate) and fate is not Fate.TAKEN_OFF:
            return Lost(position, header.destination, f"at {sid} {fate.value}")
        to = self._intent.executes(sid.title, position)
        if to is None:
            why = f"it comes to the function {sid.title}, which isn't the next step"
            return Lost(position, header.destination, why)
        if isinstance(fate, Fate):
            return Stage(to, place_inside(sid), header.below, sid)
        return Stage(to, place_behind(sid), self._pushed(sid, fate) if sid.binds else fate, sid)

    def _block_len(self, sid: Sid) -> int:
        if sid.number not in self._lengths:
            block = self._net.block_of(sid.prefix)
            self._lengths[sid.number] = block.prefix.prefixlen if block else 0
        return self._lengths[sid.number]


def _end_of(last: Stage) -> Origin | Lost:
    if last.header is None:
        return Origin(last.position, last.place)
    why = f"{MOST_STAGES} stages leave it in front of the packet"
    return Lost(last.position, last.header.destination, why)
