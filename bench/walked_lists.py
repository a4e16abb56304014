"""The verdict on a list by walks of its packet from node to node, under each choice among equal next hops: what bench/judged-lists compares with."""

import importlib.machinery
import importlib.util
import ipaddress
import sys
from dataclasses import dataclass
from pathlib import Path
from typing import Any

HERE = Path(__file__).resolve().parent
sys.path.insert(0, str(HERE.parent / "helpers"))

from srv6tools.engine import Compiled, Engine  # noqa: E402

loader = importlib.machinery.SourceFileLoader("loose_lists", str(HERE / "loose-lists"))
spec = importlib.util.spec_from_loader("loose_lists", loader)
assert spec
loose: Any = importlib.util.module_from_spec(spec)
loader.exec_module(loose)

HOPS = loose.HOPS = 64  # the outer hop limit: no way without a loop is as long
IN_BLOCK = 0xFCBB_BB00
CAUSES = ("lost", "astray", "apart", "early", "unexecuted")
Word = int  # the 16 bits of a SID behind the block
Listed = list[list[Word]]  # the SIDs of each container


@dataclass(frozen=True)
class Verdict:
    """What a list comes to; what doesn't belong to the answer is left at its default."""

    answer: str
    sid: int = 0
    cause: str = ""
    containers: int = 0
    sids: int = 0
    need: int = 0
    least: bool = False
    within: bool = False


class Case:
    """A network, an intent over it, and what the engine says of them."""

    def __init__(self, net, limits: tuple[int, int], engine: Engine):
        self.net, self.limits, self.engine = net, limits, engine
        most, hop_limit = limits
        head = net.intent().replace("max_containers = 127", f"max_containers = {most}")
        self.intent = head.replace("hop_limit = 255", f"hop_limit = {hop_limit}")
        self.prefers_sids = 'prefer = "sids"' in head
        self.is_loose = any(kind == "reach" for kind, _ in net.steps)
        self.by_place = {(sid.prefix, sid.node): sid for sid in net.sids}
        self.words = sorted({sid.number for sid in net.sids})
        self.stands_before = {sid.number for sid in net.sids if sid.csid == "next"}  # others in its container
        self.most = max([1, *(len(via) for *_, via in net.routes), *(len(sid.keys.get("links", ())) for sid in net.sids)])
        self.known: dict[tuple[tuple[str, str], int], list[tuple[str, str, str]]] = {}
        held = engine.load("net", network=net.text())
        assert held.flat, held.why
        self.chosen: Compiled = engine.compile("net", self.intent)

    # ---- what the nodes do

    def events(self, visit: tuple[str, str], choice: int) -> list[tuple[str, str, str]]:
        """What a node does with a packet up to its send: of each stage its kind, SID or link, and the packet behind it."""
        if (visit, choice) not in self.known:
            text = self.engine.trace("net", visit[0], bytes.fromhex(visit[1]), [choice])
            loose.Nodes.take(self, text, choice)
        return self.known[visit, choice]

    # ---- lists

    def read(self, segments: list[str]) -> Listed | None:
        """The SIDs of each container, or None where no legal list is spelled so."""
        found: Listed = []
        for segment in segments:
            value = int(ipaddress.IPv6Address(segment))
            words = [value >> shift & 0xFFFF for shift in range(80, -1, -16)]
            while words and not words[-1]:
                words.pop()
            is_one = value >> 96 == IN_BLOCK and words and set(words) <= set(self.words)
            if not is_one or not set(words[:-1]) <= self.stands_before:
                return None
            found.append(words)
        return found or None

    def start(self, listed: Listed) -> tuple[str, str]:
        """The headend, and the packet that it makes with a list."""
        row = [word for container in listed for word in container]
        stays = [at > 0 for container in listed for at in range(len(container))]
        return "A", self.net.outer(row, stays)

    # ---- the verdict by walks

    def verdict(self, segments: list[str]) -> Verdict:
        """What walks under all choices say."""
        listed = self.read(segments)
        if listed is None:
            return Verdict("not legal")
        row = [word for container in listed for word in container]
        sids, first = len(row), self.start(listed)
        front: set[State] = {(first, choice, 0, 0, 0) for choice in range(self.most)}
        for number, word in enumerate([*row, None], 1):
            outcomes = Ways(self, first, word, front).outcomes()
            places = {at for kind, at, _ in outcomes if kind == "executed"}
            causes = {kind for kind, _, _ in outcomes if kind != "executed"} | ({"apart"} if len(places) > 1 else set())
            if causes:
                cause = next(cause for cause in CAUSES if cause in causes)
                if cause == "unexecuted" and (not self.is_loose or number > sids):
                    break  # handed over with all steps done
                return Verdict("no", number if number <= sids else 0, cause)
            front = {then for _, _, then in outcomes if then}
        need = self.need(first)
        chosen, counted = self.chosen, sids if self.prefers_sids else 0
        least = (len(listed), need, counted) == (chosen.containers, chosen.need, chosen.sids if self.prefers_sids else 0)
        within = len(listed) <= self.limits[0] and need < self.limits[1]
        return Verdict("realizes", containers=len(listed), sids=sids, need=need, least=least, within=within)

    def need(self, first: tuple[str, str]) -> int:
        """The most that the hop limit of the packet's own header is lowered by, where it realizes."""
        seen, front, most = {(first, 0)}, [(first, 0)], 0
        while front:
            visit, before = front.pop()
            for choice in range(self.most):
                packet, depth = visit[1], before
                for at, (kind, word, after) in enumerate(self.events(visit, choice)):
                    if kind == "hand" and depth == 0:
                        most = max(most, HOPS - int(packet[14:16], 16))
                        break
                    if kind == "send":
                        then = (self.net.ends[word], self.unlowered(visit is first and at == 0, after)), depth
                        if then not in seen:
                            seen.add(then)
                            front.append(then)
                        break
                    depth += self.rise(kind, word, visit[0])
                    packet = after
        return most

    def unlowered(self, is_first: bool, packet: str) -> str:
        """A packet behind a send; a headend that looks it up doesn't lower it, and `trace` does, to which it came over a link."""
        return packet[:14] + f"{HOPS:02x}" + packet[16:] if is_first else packet

    def rise(self, kind: str, prefix: str, node: str) -> int:
        """By how many headers more a packet stands behind others after an execution."""
        return -1 if kind == "hand" else int("policy" in self.by_place[prefix, node].keys)


State = tuple[tuple[str, str], int, int, int, int]  # visit, choice, stages of it before, steps done, headers in front


class Ways:
    """All ways from the execution of a SID to the next, or from the headend."""

    def __init__(self, case: Case, first: tuple[str, str], word: Word | None, front: set[State]):
        self.case, self.first, self.word, self.front = case, first, word, front
        self.found: set[tuple[str, Any, State | None]] = set()
        self.done: set[Any] = set()
        self.going: set[Any] = set()

    def outcomes(self) -> set[tuple[str, Any, State | None]]:
        """What comes first on each: `executed` with the node and the steps done and the state behind it, or a cause."""
        for state in self.front:
            self.follow(state)
        return self.found

    def visit(self, visit: tuple[str, str], position: int, depth: int) -> None:
        """From the arrival at a node on. Headers are told apart without their hop limits, so a loop comes back to where it was."""
        key = visit[0], without_hop_limits(visit[1]), position, depth
        if key in self.going:
            self.found.add(("lost", None, None))
        if key in self.going or key in self.done:
            return
        self.going.add(key)
        for choice in range(self.case.most):
            self.follow((visit, choice, 0, position, depth))
        self.going.remove(key)
        self.done.add(key)

    def follow(self, state: State) -> None:
        """From a stage of a node on."""
        visit, choice, at, position, depth = state
        case, node = self.case, visit[0]
        steps = case.net.steps
        is_first = at == 0 and visit == self.first
        events = case.events(visit, choice)
        if at and events[at - 1][0] == "hand":  # by the SID before
            self.found.add(("unexecuted" if position == len(steps) else "early", None, None))
            return
        for index, (kind, word, after) in enumerate(events[at:], at):
            step = steps[position] if position < len(steps) else ("", None)
            if kind in ("again", "hand"):
                sid, is_own = case.by_place[word, node], depth == 0
                assert not is_own or sid.number == self.word, "a SID that isn't the list's next is executed"
                if sid.title and step != ("function", sid.title) or is_own and case.is_loose and "policy" in sid.keys:
                    self.found.add(("astray", None, None))
                    return
                position += bool(sid.title)
                depth = depth if is_own and kind == "hand" else depth + case.rise(kind, word, node)
                if is_own:
                    self.found.add(("executed", (node, position), (visit, choice, index + 1, position, depth)))
                    return
            elif kind == "send":
                end = case.net.ends[word]
                is_next = step[0] == "links" and word in step[1] or step[0] == "reach" and step[1] == end
                if end is None and not is_next:
                    self.found.add(("lost", None, None))
                elif not is_next and step[0] != "reach":
                    self.found.add(("astray", None, None))
                else:
                    self.visit((end, case.unlowered(is_first and index == 0, after)), position + is_next, depth)
                return
            else:  # dropped, or delivered
                self.found.add(("lost", None, None))
                return
        self.found.add(("lost", None, None))  # no end within the stages of a trace


def without_hop_limits(packet: str) -> str:
    """The bytes of a packet whose headers' hop limits are all zero, but for the innermost's."""
    raw, at = bytearray.fromhex(packet), 0
    while len(raw) - at > len(loose.INNER):
        raw[at + 7] = 0
        following, at = raw[at + 6], at + 40
        if following == 43:
            at += 8 + 8 * raw[at + 1]
    return raw.hex()
