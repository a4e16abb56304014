"""judge: whether a list that somebody else made realizes an intent, and the walk that goes wrong."""

import argparse
import functools
import json
from collections.abc import Iterator, Sequence
from dataclasses import dataclass
from typing import Any

from .command import Fault, Parser, Status, run_tool
from .description import Network, read_network
from .engine import Compiled, EngineEnded, EngineError, Refused
from .files import parse_toml, read_text
from .intent import Intent, intent_of
from .items import prefix_of
from .judged import ENGINE, MODEL, NO, REFUSED, Judging, Situation, Verdict
from .mesh import started
from .sent_packets import Targets, Went, went
from .sid_names import SidNames
from .spelled_lists import Path
from .words import address_word

DESCRIPTION = """\
Says whether the list of these segments, in the order in which they are visited, realizes the intent: whether
packets cross exactly its links and functions in order under all choices among equal next hops, and are handed
over. Where they don't, it says which SID of the list is the first that isn't executed so, and why, and prints
the walk that goes wrong, as srv6-pce traces it.

  lost        the packet is dropped or delivered, loops, or leaves the network
  astray      it crosses a link or executes a function that isn't the intent's next
  apart       the SID is executed at different nodes, as next hops are chosen
  early       the packet inside is handed over before all steps are done
  unexecuted  it is handed over, and the SID wasn't executed"""
MORE = """\
Status 0 says that the list realizes the intent, 4 that it doesn't or that no legal list is spelled so.

What stands on what: srv6-pce judges by `judge`; one that hasn't that request yet can't, and then this tool's
own model judges, which is not proved; the answer says which it was. The walk is srv6-pce's in either case."""
LEGAL = "no legal list of the network is spelled so"


@dataclass(frozen=True, slots=True)
class Answer:
    """What is found of a list."""

    verdict: Verdict
    path: Path | None  # None where the list isn't legal
    names: tuple[str, ...]
    containers: int
    least: bool | None  # of one that realizes
    within: bool | None
    walk: Went | None

    @property
    def said(self) -> str:
        """The verdict in a line."""
        verdict = self.verdict
        if verdict.holds:
            least = "as short as the shortest" if self.least else "not the shortest"
            within = "within the intent's limits" if self.within else "outside the intent's limits"
            return (
                f"realizes: {_count(self.containers, 'container')}, {_count(len(self.names), 'SID')}, need"
                f" {verdict.need}; {least}, {within}"
            )
        if verdict.answer != NO:
            return f"{verdict.answer}: {verdict.why or LEGAL}"
        where = f"at SID {verdict.sid} ({self.names[verdict.sid - 1]})" if verdict.sid else "behind all SIDs"
        return f"no: {verdict.cause} {where}{': ' if verdict.why else ''}{verdict.why}"

    def as_json(self) -> dict[str, Any]:
        """The same for other programs."""
        found = self.verdict.as_json() | {"containers": self.containers, "list": list(self.names)}
        if self.verdict.holds:
            found |= {"least": self.least, "within": self.within}
        return found | ({"trace": self.walk.text, "end": self.walk.end} if self.walk else {})


def _count(count: int, what: str) -> str:
    return f"{count} {what}{'s' * (count != 1)}"


def answer_of(here: Situation, text: str, intent: Intent, segments: Sequence[Any]) -> Answer:
    """What is found of a list in a network that the engine holds."""
    found = here.compile(text)
    if isinstance(found, Refused):
        refused = Verdict(REFUSED, ENGINE, why=found.fields["why"])
        return Answer(refused, None, (), len(segments), None, None, None)
    verdict = Judging().judged(here, text, intent, segments, None)
    path = here.speller.path(segments)
    names: tuple[str, ...] = ()
    if path:
        names = tuple(here.names.listed(intent, path))
    least, within = _limits(intent, (len(segments), len(names), verdict.need), verdict, found)
    walk = None
    if verdict.answer == NO:
        sent = Targets(here.net).sent(here.net, intent, segments)
        walk = went(here.engine, here.name, here.net, sent.headend, sent.packet, verdict.choices)
    return Answer(verdict, path, names, len(segments), least, within, walk)


def _limits(
    intent: Intent, numbers: tuple[int, int, int], verdict: Verdict, chosen: Compiled
) -> tuple[bool | None, bool | None]:
    """Whether no list is shorter than one that realizes, by its containers, SIDs and need, and whether it
    keeps the intent's limits.
    """
    if not verdict.holds:
        return None, None
    containers, sids, need = numbers
    within = containers <= intent.max_containers and need < intent.hop_limit
    is_least = (containers, need) == (chosen.containers, chosen.need)
    return is_least and (intent.prefer == "need" or sids == chosen.sids), within


def list_lines(segments: Sequence[Any], answer: Answer) -> Iterator[str]:
    """The segments, each with its SIDs."""
    shares: list[list[str]] = []
    for (stays, _), name in zip(answer.path or (), answer.names):
        shares = shares if stays else [*shares, []]
        shares[-1].append(name)
    width = max(len(str(one)) for one in segments)
    for place, segment in enumerate(segments):
        names = ", ".join(shares[place]) if place < len(shares) else ""
        yield f"  {str(segment).ljust(width)}  {names}".rstrip()


def walk_lines(net: Network, answer: Answer) -> Iterator[str]:
    """The walk that goes wrong, a line for each node."""
    walk, verdict = answer.walk, answer.verdict
    assert walk is not None
    choices = ", ".join(map(str, verdict.choices)) or "0"
    yield f"the walk of a packet under the choices {choices}:"
    node, executed, names = walk.walk.node, [], SidNames(net)
    for stage in walk.walk.stages:
        if stage.kind in ("again", "hand"):
            name = names.on(prefix_of(str(stage.sid)), [node])
            executed.append(f"{'hands over at' if stage.kind == 'hand' else 'executes'} {name}")
        elif stage.kind == "send":
            yield f"  {node}: {', '.join([*executed, f'sends over {stage.link}'])}"
            node, executed = net.links[str(stage.link)].end or "outside", []
    if node != "outside":
        last = walk.end.removesuffix(f" at {node}")
        yield f"  {node}: {', '.join([*executed, last])}"
    yield f"  the packet ends: {walk.end}"


def _work(tool: str, words: argparse.Namespace) -> int:
    net, text = read_network(words.net), read_text(words.intent)
    intent = intent_of(parse_toml(text, words.intent), words.intent)
    try:
        with started() as engine:
            held = engine.load("net", file=words.net)
            if not held.flat:
                raise Fault(f"{words.net}: the network isn't flat: {held.why}")
            answer = answer_of(Situation(engine, "net", lambda: net), text, intent, words.segments)
    except EngineError as fault:
        raise Fault(f"{words.net}: srv6-pce says: {fault}") from None
    except EngineEnded as fault:
        raise Fault(str(fault), Status.OUTSIDE_FAULT) from None
    if answer.verdict.answer == REFUSED:
        raise Fault(f"{words.intent}: srv6-pce says: {answer.verdict.why}")
    if words.json:
        print(json.dumps(answer.as_json(), indent=1))
    else:
        _print(net, words.segments, answer)
    return Status.DONE if answer.verdict.holds else Status.SAYS_NO


def _print(net: Network, segments: Sequence[Any], answer: Answer) -> None:
    print(answer.said)
    print("\n".join(list_lines(segments, answer)))
    if answer.walk:
        print("\n".join(walk_lines(net, answer)))
    print("judged by srv6-pce" if answer.verdict.by != MODEL else "judged by this tool's model: srv6-pce has no `judge` yet")


def main(words: Sequence[str]) -> int:
    """Runs the tool."""
    parser = Parser("judge", DESCRIPTION, MORE, any_order=True)
    parser.add_argument("net", metavar="NET", help="a description")
    parser.add_argument("intent", metavar="INTENT", help="an intent")
    parser.add_argument("segments", metavar="SEGMENT", nargs="+", type=address_word, help="an IPv6 address")
    parser.add_argument("--json", action="store_true", help="the same as JSON")
    return run_tool(parser, functools.partial(_work, parser.prog), words)
