"""Whether what a device sends of a packet is what the node sends, and if not, how it differs and which rules declare that."""

from __future__ import annotations

import itertools
from collections.abc import Collection, Mapping, Sequence
from dataclasses import dataclass
from ipaddress import IPv6Address

from .chains import HOP_LIMIT_AT, insides_of, neutral, tags_of, with_hop_limits_of, without_spent_srh
from .coverage import Doing, Seer
from .node_cases import BYTES_CHANGED, Case
from .packet_parts import ICMPV6
from .profiles import Profile

UPPER_LAYERS = ((1, 4), (4, 1))
"""Types and codes of errors that an upper layer sends: no port, and an upper layer that isn't there (RFC 4443)."""
ICMP, ICMP_ERRORS = 1, (3, 4, 5, 11, 12)
SAME, DIFFERS, DECLARED, NOT_ASKED = "same", "differs", "declared", "not asked"


@dataclass(frozen=True, slots=True)
class Answer:
    """What a device sends: over which link, where that is told, and of which packet, where the adapter knows."""

    link: str | None
    content: bytes
    number: int | None = None


@dataclass(frozen=True)
class Got:
    """What a device sends of one packet: frames over links, and ICMPv6 errors of its own."""

    frames: tuple[Answer, ...] = ()
    errors: tuple[bytes, ...] = ()


@dataclass(frozen=True)
class Verdict:
    """How the treatment of a packet compares: the difference in a word, and the rules that declare it."""

    said: str  # same, differs, declared or not asked
    difference: str = ""
    rules: tuple[str, ...] = ()
    why: str = ""  # of a packet that isn't asked


def sorted_answers(
    expected: Mapping[int, Sequence[Doing]], answers: Sequence[Answer], address: IPv6Address
) -> tuple[dict[int, Got], list[Answer]]:
    """The answers of each packet, by content: exact ones first, then by tag; and those of no packet."""
    by_content: dict[bytes, list[int]] = {}
    for number, doings in expected.items():
        for doing in doings:
            if doing.content:
                by_content.setdefault(doing.content, []).append(number)
    by_low: dict[int, list[int]] = {}  # by the bits of a tag for which an IPv4 header has room
    for number in expected:
        by_low.setdefault(number & 0xFFFF, []).append(number)
    found: dict[int, list[Answer]] = {}
    strays: list[Answer] = []
    for answer in answers:
        number = _number_of(answer, by_content, by_low, expected)
        if number is None:
            strays.append(answer)
        else:
            found.setdefault(number, []).append(answer)
    return {number: _got(some, expected[number], address) for number, some in found.items()}, strays


def _number_of(
    answer: Answer, by_content: dict[bytes, list[int]], by_low: dict[int, list[int]], expected: Collection[int]
) -> int | None:
    """The packet of an answer: by its bytes, its tag, or what an IPv4 header has of the tag, where one packet alone has that."""
    if answer.number is not None:
        return answer.number
    exact = by_content.get(answer.content)
    if exact:
        return exact.pop(0) if len(exact) > 1 else exact[0]
    if (known := next((number for number in tags_of(answer.content) if number in expected), None)) is not None:
        return known
    for place, family in insides_of(answer.content):
        numbers = by_low.get(int.from_bytes(answer.content[place + 4 : place + 6]), []) if family == 4 else []
        if len(numbers) == 1:
            return numbers[0]
    return None


def _got(answers: Sequence[Answer], doings: Sequence[Doing], address: IPv6Address) -> Got:
    """The answers of a packet, parted; an ICMPv6 error is the device's where it has the node's address, or where none is sent on."""
    sends_one_on = any(doing.outcome == "sent" and doing.content and is_error(doing.content) for doing in doings)
    errors = [answer for answer in answers if is_error(answer.content, address if sends_one_on else None)]
    frames = [answer for answer in answers if answer not in errors]
    return Got(tuple(frames), tuple(answer.content for answer in errors))


def is_error(content: bytes, address: IPv6Address | None = None) -> bool:
    """Whether a frame is an ICMPv6 error, of a node where its address is told, or an ICMP error about IPv4."""
    if len(content) > 20 and content[0] >> 4 == 4 and content[9] == ICMP and content[20] in ICMP_ERRORS:
        return True
    if len(content) < 48 or content[0] >> 4 != 6 or content[6] != ICMPV6 or content[40] >= 128:
        return False
    return address is None or content[8:24] == address.packed


class Judge:
    """Compares what a device does with what the node does, by a profile."""

    def __init__(self, seer: Seer, profile: Profile, address: IPv6Address) -> None:
        self.seer, self.profile, self.address = seer, profile, address

    def verdicts(self, cases: Sequence[Case], doings: Sequence[Sequence[Doing]], got: Mapping[int, Got]) -> list[Verdict]:
        """The verdict of each packet."""
        found = [self._first(case, some, got.get(case.number, Got())) for case, some in zip(cases, doings)]
        again = [place for place, verdict in enumerate(found) if verdict.said == DIFFERS] if self.profile.ignored else []
        changed = [neutral(cases[place].packet, self.profile.ignored) for place in again]
        for place, packet, some in zip(again, changed, self.seer.doings(changed) if again else []):
            if packet != cases[place].packet:
                found[place] = self._ignoring(cases[place], packet, some, got.get(cases[place].number, Got())) or found[place]
        return [self._by_name(case, some[0], one) for case, some, one in zip(cases, doings, found)]

    def _first(self, case: Case, doings: Sequence[Doing], got: Got) -> Verdict:
        """The verdict without a look at what may be ignored."""
        rules = [self._rules_for(case.packet, doing, got) for doing in doings]
        allowed = [one for one in rules if one is not None]
        if not allowed:
            return Verdict(DIFFERS, difference_of(doings, got))
        least = min(allowed, key=len)
        return Verdict(DECLARED, difference_of(doings, got), least) if least else Verdict(SAME)

    def _rules_for(self, packet: bytes, doing: Doing, got: Got) -> tuple[str, ...] | None:
        """The rules by which what a device sends is right under one choice; None where none is."""
        if fits(doing, got, self.address):
            return ()
        if doing.outcome == "dropped" and doing.content and not got.frames and not got.errors:
            return (self.profile.called("error"),) if self.profile.has("error") and doing.sids else None
        if doing.outcome == "sent" and len(got.frames) == 1 and not got.errors and doing.content:
            return self._by_fields(packet, doing, got.frames[0])
        return None

    def _by_fields(self, packet: bytes, doing: Doing, frame: Answer) -> tuple[str, ...] | None:
        """The rules on fields by which a frame is right; each is applied where the frame shows it."""
        known = [(rule, apply) for rule, apply in _FIELD_RULES if self.profile.has(rule)]
        for size in range(1, len(known) + 1):
            for some in itertools.combinations(known, size):
                content: bytes | None = frame.content
                for _, apply in some:
                    content = content and apply(packet, doing, doing.content or b"", content)
                if content and fits(doing, Got((Answer(frame.link, content),)), self.address):
                    return tuple(self.profile.called(rule) for rule, _ in some)
        return None

    def _ignoring(self, case: Case, packet: bytes, doings: Sequence[Doing], got: Got) -> Verdict | None:
        """The verdict where what may be ignored is padding, in the packet and in what comes of it."""
        ignored = self.profile.ignored
        frames = tuple(Answer(one.link, neutral(one.content, ignored)) for one in got.frames)
        quoted = tuple(_quoting(one, ignored) for one in got.errors)
        for doing in doings:
            content = doing.content and (_quoting(doing.content, ignored) if doing.outcome == "dropped" else doing.content)
            changed = Doing(doing.outcome, doing.link, content, doing.reason, doing.pairs, doing.sids)
            rules = self._rules_for(packet, changed, Got(frames, quoted))
            if rules is not None:
                named = [self.profile.called(rule) for rule in ignored if neutral(case.packet, [rule]) != case.packet]
                return Verdict(DECLARED, difference_of(doings, got), (*named, *rules))
        return None

    def _by_name(self, case: Case, doing: Doing, verdict: Verdict) -> Verdict:
        """The verdict by the deviations that a profile lists, where no rule declares the difference."""
        if verdict.said != DIFFERS:
            return verdict
        facts = facts_of(case, doing, verdict.difference)
        name = next((one.name for one in self.profile.deviations if one.takes(facts)), None)
        return Verdict(DECLARED, verdict.difference, (name,)) if name else verdict


def _binds(doing: Doing) -> bool:
    """Whether a SID put a header in front."""
    return any(pair.met.startswith("End.B6.") for pair in doing.pairs)


def _psp_kept(packet: bytes, doing: Doing, wanted: bytes, content: bytes) -> bytes | None:
    """The frame without the segment routing header that PSP beside NEXT-CSID leaves in it."""
    if any("NEXT-CSID" in pair.met and "PSP" in pair.met for pair in doing.pairs):
        return without_spent_srh(content)
    return None


def _copied_hop_limit(packet: bytes, doing: Doing, wanted: bytes, content: bytes) -> bytes | None:
    """The frame with the right hop limits, where the headers in front have that of the packet."""
    ours, theirs = ([at for at, family in insides_of(one) if family == 6] for one in (wanted, content))
    depth = len(ours) - len([at for at, family in insides_of(packet) if family == 6])
    if not _binds(doing) or ours != theirs or depth < 0:
        return None
    before = (packet[HOP_LIMIT_AT], packet[HOP_LIMIT_AT] - 1)
    copied = all(content[at + HOP_LIMIT_AT] in before for at in ours[: depth + 1])
    return with_hop_limits_of(content, wanted, ours[: depth + 1]) if copied else None


def _copied_flow_label(packet: bytes, doing: Doing, wanted: bytes, content: bytes) -> bytes | None:
    """The frame with the right flow label in front, where it has that of the packet."""
    return _with_front(packet, doing, wanted, content, 0x000FFFFF)


def _copied_class(packet: bytes, doing: Doing, wanted: bytes, content: bytes) -> bytes | None:
    """The frame with the right traffic class in front, where it has that of the packet."""
    return _with_front(packet, doing, wanted, content, 0x0FF00000)


def _with_front(packet: bytes, doing: Doing, wanted: bytes, content: bytes, mask: int) -> bytes | None:
    if not _binds(doing) or len(content) < 40:
        return None
    theirs, given, right = (int.from_bytes(one[:4]) for one in (content, packet, wanted))
    if theirs & mask != given & mask:
        return None
    return (theirs & ~mask | right & mask).to_bytes(4) + content[4:]


def _lowered_once(packet: bytes, doing: Doing, wanted: bytes, content: bytes) -> bytes | None:
    """The frame with the right hop limit, where it is the packet's, lowered once by several SIDs."""
    several = len(doing.sids) > 1 and not _binds(doing) and len(content) > HOP_LIMIT_AT
    once = several and content[HOP_LIMIT_AT] == packet[HOP_LIMIT_AT] - 1
    return with_hop_limits_of(content, wanted, [0]) if once else None


_FIELD_RULES = (
    ("psp", _psp_kept), ("encap.hop-limit", _copied_hop_limit), ("encap.flow-label", _copied_flow_label),
    ("encap.traffic-class", _copied_class), ("hop-limit", _lowered_once),
)  # fmt: skip


def _quoting(error: bytes, ignored: Collection[str]) -> bytes:
    """An ICMPv6 error whose quotation is padding where that is ignored; without its checksum, which goes by it."""
    changed = neutral(error, ignored)
    return changed[:42] + bytes(2) + changed[44:]


def facts_of(case: Case, doing: Doing, difference: str) -> dict[str, str]:
    """What a deviation of a profile speaks of."""
    last = doing.pairs[-1] if doing.pairs else None
    return {
        "difference": difference, "met": last.met if last else "", "outcome": last.outcome if last else doing.outcome,
        "to": case.to, "exercises": case.exercises.removesuffix(BYTES_CHANGED),
    }  # fmt: skip


def fits(doing: Doing, got: Got, address: IPv6Address) -> bool:
    """Whether what a device sends is what the node does under one choice."""
    if doing.outcome == "delivered":  # what an upper layer answers isn't the node's
        answers = all(frame.content[8:24] == address.packed for frame in got.frames)
        return answers and all((error[40], error[41]) in UPPER_LAYERS for error in got.errors)
    if doing.outcome == "sent":
        frames = [(frame.link, frame.content) for frame in got.frames]
        return not got.errors and frames in ([(doing.link, doing.content)], [(None, doing.content)])
    return not got.frames and list(got.errors) == ([doing.content] if doing.content else [])


def difference_of(doings: Sequence[Doing], got: Got) -> str:
    """How what a device does differs, in words that a report counts by."""
    ours = doings[0]
    if len(got.frames) + len(got.errors) > 1:
        return "more than one answer"
    if ours.outcome in ("sent", "delivered"):
        if got.errors:
            return "an error"
        if not got.frames:
            return "dropped"
        known = [doing for doing in doings if doing.content == got.frames[0].content]
        return "delivered, and sent on" if ours.outcome == "delivered" else "another link" if known else "other bytes"
    if got.frames:
        return "sent on"
    if ours.content:
        return "another error" if got.errors else "no error"
    return "an error" if got.errors else "dropped"
