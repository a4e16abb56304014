"""What `conform` reports: a table, JSON, JUnit XML, and each difference with both answers side by side."""

from __future__ import annotations

from collections import Counter
from collections.abc import Iterator, Mapping, Sequence
from dataclasses import dataclass, field
from typing import Any
from xml.sax.saxutils import escape, quoteattr

from .coverage import Doing
from .fields import Part, dissected
from .shrinking import Shown
from .verdicts import DECLARED, DIFFERS, NOT_ASKED, SAME, Answer, Got

WIDTH = 58
ITEMS = {0: "Pad1", 4: "PadN", 5: "HMAC"}
OPTIONS = {0: "Pad1", 1: "PadN"}


@dataclass
class Report:
    """What came of a set of packets."""

    net: str
    node: str
    dut: str
    profile: str
    shown: list[Shown] = field(default_factory=list)
    faults: list[Shown] = field(default_factory=list)  # of each fault the smallest packet
    strays: list[Answer] = field(default_factory=list)
    seed: int = 0

    @property
    def failed(self) -> bool:
        """Whether something differs that isn't declared."""
        return bool(self.strays) or any(one.verdict.said == DIFFERS for one in self.shown)

    def counts(self) -> dict[str, Counter[str]]:
        """How many packets there are of each verdict, by what is met last."""
        found: dict[str, Counter[str]] = {}
        for one in self.shown:
            found.setdefault(met_of(one), Counter())[one.verdict.said] += 1
        return dict(sorted(found.items()))

    def outcomes(self) -> dict[tuple[str, str], Counter[str]]:
        """The same by what is met and what comes of it."""
        found: dict[tuple[str, str], Counter[str]] = {}
        for one in self.shown:
            found.setdefault((met_of(one), outcome_of(one)), Counter())[one.verdict.said] += 1
        return dict(sorted(found.items()))

    def rules(self) -> Counter[str]:
        """How many packets each rule declares; one may need several."""
        return Counter(rule for one in self.shown if one.verdict.said == DECLARED for rule in one.verdict.rules)

    def not_asked(self) -> Counter[str]:
        """Why packets weren't given."""
        return Counter(one.verdict.why for one in self.shown if one.verdict.said == NOT_ASKED)


def met_of(one: Shown) -> str:
    """What a packet meets last."""
    return one.doings[0].pairs[-1].met if one.doings[0].pairs else "not read"


def outcome_of(one: Shown) -> str:
    """What comes of it."""
    return one.doings[0].pairs[-1].outcome if one.doings[0].pairs else one.doings[0].outcome


def table_of(report: Report, by_outcome: bool = False) -> Iterator[str]:
    """The report as a table; by what comes of what is met too, where that is asked for."""
    yield f"node {report.node} of {report.net}, device {report.dut}, profile {report.profile}"
    outcomes = report.outcomes() if by_outcome else {}
    width = max([20, *map(len, report.counts()), *(2 + len(outcome) for _, outcome in outcomes)])
    yield f"{'met':{width}} {'packets':>8} {'same':>8} {'declared':>9} {'differs':>8} {'not asked':>10}"
    total: Counter[str] = Counter()
    for met, count in report.counts().items():
        yield _row(met, count, width)
        yield from (_row(f"  {outcome}", some, width) for (kind, outcome), some in outcomes.items() if kind == met)
        total += count
    yield _row("all", total, width)
    for rule, times in sorted(report.rules().items()):
        yield f"declared: {rule}: {times}"
    for why, times in sorted(report.not_asked().items()):
        yield f"not asked: {why}: {times}"
    for number, fault in enumerate(report.faults, 1):
        yield from difference_lines(number, fault, _packets_of(report, fault))
    if report.strays:
        yield f"{len(report.strays)} frames are of no packet, the first over {report.strays[0].link or 'a link that is not told'}"


def _row(met: str, count: Counter[str], width: int) -> str:
    numbers = [sum(count.values()), count[SAME], count[DECLARED], count[DIFFERS], count[NOT_ASKED]]
    return f"{met:{width}} {numbers[0]:>8} {numbers[1]:>8} {numbers[2]:>9} {numbers[3]:>8} {numbers[4]:>10}"


def _packets_of(report: Report, fault: Shown) -> int:
    return sum(one.verdict.said == DIFFERS and one.fault == fault.fault for one in report.shown)


def difference_lines(number: int, fault: Shown, packets: int) -> Iterator[str]:
    """A fault in a few lines."""
    met, outcome, difference = fault.fault
    yield f"difference {number}: {met}: {outcome}; the device: {difference} ({packets} packets)"
    yield f"  smallest: {len(fault.case.packet)} bytes, of {fault.case.name}"
    yield f"  expected: {' or '.join(map(str, fault.doings))}"
    yield f"  device:   {said_of(fault.got)}"


def said_of(got: Got) -> str:
    """What a device sends, in words."""
    said = [f"sent over {frame.link or 'a link that is not told'}" for frame in got.frames]
    said += [f"ICMPv6 error {one[40]}/{one[41]}" for one in got.errors]
    return ", ".join(said) or "nothing"


def decoded(fault: Shown) -> str:
    """The packet, and both answers side by side, field by field; `*` stands where they differ."""
    expected = fault.doings[0].content or b""
    theirs = next(iter([*(frame.content for frame in fault.got.frames), *fault.got.errors]), b"")
    parts = dissected([fault.case.packet, expected, theirs])
    lines = [f"packet of {len(fault.case.packet)} bytes: {fault.case.name}", f"bytes {fault.case.packet.hex()}"]
    lines += [f"  {label}: {text}" for label, text in _fields(parts[0])]
    lines += ["", f"expected: {' or '.join(map(str, fault.doings))}", f"device:   {said_of(fault.got)}", ""]
    lines += [f"  {'expected':{WIDTH}} device"]
    lines += list(_beside(list(_fields(parts[1])), list(_fields(parts[2]))))
    lines += ["", f"expected bytes {expected.hex() or '-'}", f"device bytes   {theirs.hex() or '-'}"]
    return "\n".join(lines) + "\n"


def _fields(parts: Sequence[Part]) -> Iterator[tuple[str, str]]:
    """The fields of a packet, each with the header that it is of; a further header of a kind has its number."""
    count: Counter[str] = Counter()
    for part in parts:
        count[part.label] += 1
        label = part.label if count[part.label] == 1 else f"{part.label} {count[part.label]}"
        for one in part.fields:
            if one.name in ("TLVs", "options") and one.content is not None:
                names = ITEMS if one.name == "TLVs" else OPTIONS
                yield from ((f"{label}, {name}", text) for name, text in items_of(one.content, names))
                continue
            shown = f"{one.text} {one.content[:24].hex()}" if one.content is not None else one.text
            yield f"{label}, {one.name}", shown


def items_of(content: bytes, names: Mapping[int, str]) -> Iterator[tuple[str, str]]:
    """The items of an area, as they follow one another: type, length and bytes; of the last one as many as are there."""
    at, number = 0, 0
    while at < len(content):
        kind = content[at]
        name = f" ({names[kind]})" if kind in names else ""
        if kind == 0:
            yield f"item {number}", f"type 0{name}"
            at, number = at + 1, number + 1
            continue
        size = content[at + 1] if at + 1 < len(content) else None
        end = at + 2 + (size or 0)
        beyond = ", beyond the header" if size is None or end > len(content) else ""
        length = "no length" if size is None else f"{size} bytes"
        yield f"item {number}", f"type {kind}{name}, {length}{beyond} {content[at + 2 : end][:24].hex()}".rstrip()
        at, number = end, number + 1


def _beside(one: Sequence[tuple[str, str]], other: Sequence[tuple[str, str]]) -> Iterator[str]:
    """Two lists of fields beside each other, by their names."""
    left, right = dict(one), dict(other)
    for name in dict.fromkeys([*left, *right]):
        here, there = left.get(name, "-"), right.get(name, "-")
        sign = " " if here == there else "*"
        yield f"{sign} {f'{name}: {here}':{WIDTH}} {there}"


def json_of(report: Report) -> dict[str, Any]:
    """The report as JSON."""
    return {
        "srv6": "conform 1",
        "net": report.net, "node": report.node, "dut": report.dut, "profile": report.profile, "seed": report.seed,
        "passed": not report.failed,
        "met": [{"met": met, **_counted(count)} for met, count in report.counts().items()],
        "pairs": [{"met": met, "outcome": outcome, **_counted(count)} for (met, outcome), count in report.outcomes().items()],
        "declared": dict(sorted(report.rules().items())),
        "not_asked": dict(sorted(report.not_asked().items())),
        "differences": [
            {
                "met": fault.fault[0], "outcome": fault.fault[1], "difference": fault.fault[2],
                "packets": [one.case.number for one in report.shown if one.verdict.said == DIFFERS and one.fault == fault.fault],
                "smallest": {"of": fault.case.name, "bytes": fault.case.packet.hex()},
                "expected": [_doing(doing) for doing in fault.doings],
                "device": _answers(fault.got),
            }
            for fault in report.faults
        ],
        "strays": [{"link": stray.link, "bytes": stray.content.hex()} for stray in report.strays],
    }  # fmt: skip


def _counted(count: Counter[str]) -> dict[str, int]:
    return {
        "packets": sum(count.values()), "same": count[SAME], "declared": count[DECLARED], "differs": count[DIFFERS],
        "not_asked": count[NOT_ASKED],
    }  # fmt: skip


def _doing(doing: Doing) -> dict[str, Any]:
    content = doing.content.hex() if doing.content else None
    return {"outcome": doing.outcome, "link": doing.link, "reason": doing.reason, "bytes": content}


def _answers(got: Got) -> list[dict[str, Any]]:
    sent = [{"link": frame.link, "error": False, "bytes": frame.content.hex()} for frame in got.frames]
    return sent + [{"link": None, "error": True, "bytes": one.hex()} for one in got.errors]


def junit_of(report: Report) -> str:
    """The report as JUnit XML: a suite for each thing that is met, a class for what comes of it, a test for each packet."""
    by_met: dict[str, list[Shown]] = {}
    for one in report.shown:
        by_met.setdefault(met_of(one), []).append(one)
    lines = ['<?xml version="1.0" encoding="UTF-8"?>', f"<testsuites name={quoteattr(f'srv6 conform {report.node}')}>"]
    for met, shown in sorted(by_met.items()):
        failures = sum(one.verdict.said == DIFFERS for one in shown)
        skipped = sum(one.verdict.said == NOT_ASKED for one in shown)
        counts = f'tests="{len(shown)}" failures="{failures}" errors="0" skipped="{skipped}"'
        lines.append(f"  <testsuite name={quoteattr(met)} {counts}>")
        lines += [line for one in shown for line in _testcase(one)]
        lines.append("  </testsuite>")
    return "\n".join([*lines, "</testsuites>"]) + "\n"


def _testcase(one: Shown) -> Iterator[str]:
    name = quoteattr(f"packet {one.case.number}: {one.case.name}")
    front = f"    <testcase classname={quoteattr(f'{met_of(one)}: {outcome_of(one)}')} name={name}"
    if one.verdict.said == DIFFERS:
        said = escape(f"expected {' or '.join(map(str, one.doings))}; device {said_of(one.got)}; packet {one.case.packet[:400].hex()}")
        yield f"{front}><failure message={quoteattr(one.verdict.difference)}>{said}</failure></testcase>"
    elif one.verdict.said == NOT_ASKED:
        yield f"{front}><skipped message={quoteattr(one.verdict.why)}/></testcase>"
    elif one.verdict.said == DECLARED:
        yield f"{front}><system-out>{escape('declared: ' + ', '.join(one.verdict.rules))}</system-out></testcase>"
    else:
        yield f"{front}/>"
