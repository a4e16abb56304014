"""Lists of intents as the page of `view` holds them: containers with the bits of each SID, the
nodes that execute them, and what `srv6 check` says of the certificate.
"""

import tempfile
from collections.abc import Iterator, Sequence
from dataclasses import dataclass
from ipaddress import IPv6Address
from pathlib import Path
from typing import Any

from .captures import raw_capture
from .command import Fault, Status
from .decisions import sid_rfc
from .description import Network, Sid, read_network
from .files import read_toml
from .intent import PREFERENCES, Intent, preferring, read_intent
from .legs import Leg, Rooms
from .loose import legs_of
from .packet_parts import ip4, ip6
from .program import Answer, judge_answer, run_program
from .report import Certificate, Report, certificate_in, report_of
from .spread import spread_of

NO_ANSWER = {
    "NoList": "no legal list realizes the intent",
    "TooLong": "the least list has more containers than the intent allows",
    "HopLimit": "the least list lowers the hop limit more often than the intent allows",
}


@dataclass(slots=True)
class Compiled:
    """What the program answers of an intent over a description."""

    net: Network
    intent: Intent
    answer: Answer
    report: Report
    certificate: Certificate
    verdict: str  # the line of `srv6 check`, or the one on `err` of `srv6 compile`

    @property
    def is_kept(self) -> bool:
        """Whether there is a list, and it keeps the intent's limits."""
        return self.report.has_list and self.answer.status == Status.DONE

    @property
    def segments(self) -> tuple[Any, ...]:
        """What makes it another list than others."""
        path = [(step.stays, step.prefix) for step in self.certificate.path]
        return tuple(self.report.containers), tuple(path)


def each_preference(path: str, folder: Path) -> Iterator[tuple[str, str]]:
    """The preferences, each with the file of an intent that has it and is the same else; the file of
    the path where it is the intent's own. Others are made in a folder.
    """
    own = read_intent(path).prefer
    for preference in PREFERENCES:
        made = folder / f"{len(list(folder.iterdir()))}-{Path(path).name}"
        if preference != own:
            made.write_text(preferring(read_toml(path), preference), encoding="utf-8")
        yield preference, path if preference == own else str(made)


def walks_of(one: Compiled, calls: int) -> int | None:
    """Over how many walks the list spreads packets under all choices; None where there is no list,
    or the program would have to be asked more often than is said.
    """
    if not one.is_kept:
        return None
    try:
        return spread_of(one.net, one.intent.path, calls).fan.walks
    except Fault:
        return None


def compiled(net: Network, intent_path: str) -> Compiled:
    """Asks for the list of an intent, and what its certificate shows."""
    intent = read_intent(intent_path)
    words = ["compile", net.path, intent_path]
    answer = run_program(words)
    judge_answer(words, answer, Status.NO_ANSWER)
    text = answer.out.decode("latin-1")
    report, certificate = report_of(text.splitlines(), "srv6 compile"), certificate_in(text)
    with tempfile.TemporaryDirectory() as folder:
        kept = Path(folder, "certificate")
        kept.write_bytes(answer.out)
        checked = run_program(["check", net.path, intent_path, kept])
    verdict = checked.out.decode("latin-1").strip() or checked.err.strip()
    return Compiled(net, intent, answer, report, certificate, verdict)


def verdict_words(one: Compiled) -> str:
    """The verdict of `check` in words."""
    match one.verdict.split():
        case ["least", containers, need]:
            return (
                f"A legal list of {containers} container{'s' * (containers != '1')} realizes the"
                f" intent with need {need}, and none that does so has fewer containers, or as many"
                " and a smaller need."
            )
        case ["least", containers, sids, need]:
            return (
                f"A legal list of {containers} container{'s' * (containers != '1')} and {sids} SIDs"
                f" realizes the intent with need {need}, and none that does so has fewer"
                " containers, or as many and fewer SIDs, or as many of both and a smaller need."
            )
        case ["none"]:
            return "No legal list of the network's SIDs realizes the intent."
        case ["no", line, why, *_]:
            return f"The certificate is wrong at line {line} ({why})."
    return f"srv6 check says: {one.verdict}"


@dataclass(frozen=True, slots=True)
class Bits:
    """Bits of a container: where they begin, how many they are, and whose they are."""

    at: int
    bits: int
    what: str  # block, sid or rest
    sid: int = -1  # of the list, from 0


def placed(net: Network, path: Sequence[tuple[bool, Sid]]) -> list[list[Bits]]:
    """The containers of a list, with the bits of each SID in them."""
    rooms, found = Rooms(net), []
    before: Sid | None = None
    room = end = 0
    for number, (stays, sid) in enumerate(path):
        block = rooms.block(sid)
        start = block.prefixlen if block else 0
        width = sid.prefix.prefixlen - start
        is_packed = before is not None and before.csid == "replace"
        left = rooms.behind(stays, before, room, sid) or 0
        if not stays and is_packed and room == 0:
            found.append([Bits(128 - width, width, "sid", number)])
            end = width
        elif not stays:
            front = [Bits(0, start, "block", number)] if block else []
            found.append([*front, Bits(start, width, "sid", number)])
            end = sid.prefix.prefixlen
        elif is_packed:
            found[-1].insert(0, Bits(128 - end - width, width, "sid", number))
            end += width
        else:
            found[-1].append(Bits(end, width, "sid", number))
            end += width
        before, room = sid, left
    return [_filled(bits) for bits in found]


def _filled(bits: list[Bits]) -> list[Bits]:
    """The bits of a container with those that no SID has."""
    found, at = [], 0
    for one in sorted(bits, key=lambda one: one.at):
        if one.at > at:
            found.append(Bits(at, one.at - at, "rest"))
        found.append(one)
        at = one.at + one.bits
    if at < 128:
        found.append(Bits(at, 128 - at, "rest"))
    return found


def _piece(address: IPv6Address, one: Bits) -> str:
    value = int(address) >> (128 - one.at - one.bits) & ((1 << one.bits) - 1)
    return f"{value:0{(one.bits + 3) // 4}x}"


def _agrees(address: IPv6Address, bits: Sequence[Bits], path: Sequence[Sid]) -> bool:
    """Whether each SID's bits stand in the container where they are said to."""
    for one in bits:
        if one.what == "sid":
            prefix = path[one.sid].prefix
            own = int(prefix.network_address) >> (128 - prefix.prefixlen) & ((1 << one.bits) - 1)
            if int(_piece(address, one), 16) != own:
                return False
    return True


def legs_along(one: Compiled) -> list[Leg]:
    """The SIDs of a list with the steps that are done behind each; none where there is no list."""
    if not one.report.has_list:
        return []
    prefixes = [step.prefix for step in one.certificate.path]
    return list(legs_of(one.net, one.intent).along(prefixes))


def probe(one: Compiled) -> bytes:
    """An inner packet for the list, to where the last SID's table has a route, if it has one."""
    family = one.intent.family
    last = legs_along(one)[-1].sid
    for route in one.net.routes:
        if (route.node, route.table, route.prefix.version) == (last.node, last.table or 0, family):
            target = str(route.prefix.network_address + (1 if route.prefix.prefixlen < 127 else 0))
            break
    else:
        target = "2001:db8:ffff::1" if family == 6 else "198.51.100.2"
    return ip6(target) if family == 6 else ip4(target)


def as_capture(packet: bytes) -> bytes:
    """A capture of one packet."""
    return b"".join(raw_capture([(0, 0, packet)]))


def as_data(one: Compiled, label: str, sids: dict, nodes: dict[str, int]) -> dict[str, Any]:
    """A list, for the page."""
    intent = one.intent
    data: dict[str, Any] = {
        "label": label, "net": one.net.path, "prefer": intent.prefer,
        "headend": nodes.get(intent.headend, -1), "inner": intent.inner,
        "mode": intent.mode, "hop_limit": intent.hop_limit, "walks": "", "same": "",
        "steps": [str(step) for step in intent.steps],
        "check": one.verdict, "verdict": verdict_words(one),
        "potentials": len(one.certificate.potentials), "form": one.certificate.form,
        "containers": [], "sids": [], "header": one.report.header, "need": one.report.need,
        "refusal": "", "walk": -1,
    }  # fmt: skip
    if one.answer.status == Status.NO_ANSWER:
        line = (one.answer.err.splitlines() or [""])[-1]
        why = line.removeprefix("no answer ").split(" ")[0]
        data["refusal"] = f"{line}: {NO_ANSWER.get(why, '')}"
    legs = legs_along(one)
    path = [leg.sid for leg in legs]
    stays = [step.stays for step in one.certificate.path]
    containers = placed(one.net, list(zip(stays, path)))
    agree = len(containers) == len(one.report.containers) and all(
        map(lambda pair: _agrees(*pair, path), zip(one.report.containers, containers))
    )
    for at, address in enumerate(one.report.containers):
        bits = containers[at] if agree else [Bits(0, 128, "rest")]
        row = [[bit.at, bit.bits, bit.what, bit.sid, _piece(address, bit)] for bit in bits]
        data["containers"].append({"address": str(address), "bits": row})
    for leg, stay in zip(legs, stays):
        sid = leg.sid
        data["sids"].append({
            "prefix": str(sid.prefix), "node": nodes.get(sid.node, -1), "name": sid.node,
            "what": sid.what, "rfc": sid_rfc(sid), "stays": stay, "steps": leg.position,
            "sid": sids.get((sid.node, sid.prefix), -1), "stage": -1,
        })  # fmt: skip
    return data


def network_like(path: str, net: Network) -> Network:
    """A second description, which has the same nodes and links, as an update needs them."""
    other = read_network(path)
    both = [(list(one.nodes), list(one.links.values())) for one in (other, net)]
    if both[0] != both[1]:
        why = f"its nodes and links aren't those of {net.path}, so no update leads there"
        raise Fault(f"{path}: {why}")
    return other
