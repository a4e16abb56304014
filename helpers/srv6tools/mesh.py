"""mesh: the lists of all pairs of headends and functions, compiled at once."""

import argparse
import csv
import fnmatch
import functools
import io
import os
import sys
from collections.abc import Iterator, Sequence
from concurrent.futures import ThreadPoolExecutor
from dataclasses import dataclass
from pathlib import Path

from .command import Fault, Parser, Status, positive, progress, run_tool
from .description import Network, Sid
from .engine import Compiled, Engine, EngineEnded, NotFlat, Refused
from .lists_file import OneList, lists_text, read_lists
from .named_lists import ListNames, list_of
from .paths import Topology
from .planned import Planned
from .say_items import near
from .toml_writer import quoted

MOST_PAIRS = 100_000
DESCRIPTION = """\
Compiles an intent from each headend to each function, all at once, and prints a row for each: the list
that srv6-pce finds, with the names of its SIDs. BASE is a description, and PLAN what `routes` takes; without
it BASE has its routes. A pair of one node with itself is left out.

An intent goes over any links, or with --strict over the links of a shortest path, by PLAN's metrics; with
--via by way of nodes and functions, in their order. NAME may be a pattern, as 'red-*'.

The lists are srv6-pce's, and proved; routes of PLAN and the paths of --strict are this tool's, and not."""
MORE = """\
Status 3 says that some intent has no list. --json writes a file of lists (docs/FORMATS.md, 'Lists'), which
what-if takes for intents, to-frr and the other tools for headends on standard input, and --since later."""
COLUMNS = ["from", "to", "containers", "sids", "header", "need", "segments", "list"]


@dataclass(frozen=True, slots=True)
class Pattern:
    """What all intents of a mesh have in common."""

    strict: bool = False
    via: tuple[str, ...] = ()
    prefer: str = "sids"
    mode: str = "reduced"
    inner: str = ""  # by the function where it isn't said
    hop_limit: int = 64
    max_containers: int = 10


@dataclass(frozen=True, slots=True)
class Asked:
    """An intent of the mesh."""

    name: str
    headend: str
    function: str
    text: str


class Mesh:
    """The intents of all pairs."""

    def __init__(self, net: Network, topology: Topology, pattern: Pattern) -> None:
        self.net, self.topology, self.pattern = net, topology, pattern
        self._titled = {sid.title: sid for sid in net.sids if sid.title}
        self._ways: dict[str, dict[str, list[str]]] = {}  # by the end the next links

    def functions(self, patterns: Sequence[str]) -> list[Sid]:
        """The functions that patterns name, in the order of the description."""
        return [self._titled[title] for title in _chosen(patterns, list(self._titled), "function")]

    def headends(self, patterns: Sequence[str], functions: Sequence[Sid]) -> list[str]:
        """The nodes that patterns name; without any those of the functions."""
        if patterns:
            return _chosen(patterns, list(self.net.nodes), "node")
        own = {sid.node for sid in functions}
        return [node for node in self.net.nodes if node in own]

    def asked(self, headends: Sequence[str], functions: Sequence[Sid]) -> Iterator[Asked]:
        """The intents."""
        for headend in headends:
            for sid in functions:
                if sid.node != headend:
                    title = str(sid.title)
                    yield Asked(f"{headend}-to-{title}", headend, title, self._text(headend, sid))

    def _text(self, headend: str, sid: Sid) -> str:
        pattern = self.pattern
        family = "ipv4" if sid.behaviour in ("End.DT4", "End.DX4") else "ipv6"
        head = {
            "headend": headend, "source": str(self.net.nodes[headend].address),
            "inner": pattern.inner or family, "mode": pattern.mode, "hop_limit": pattern.hop_limit,
            "max_containers": pattern.max_containers, "prefer": pattern.prefer,
        }  # fmt: skip
        lines = [f"{key} = {quoted(value) if isinstance(value, str) else value}\n" for key, value in head.items()]
        return "".join(lines) + "step = [\n" + "".join(f"    {step},\n" for step in self._steps(headend, sid)) + "]\n"

    def _steps(self, headend: str, sid: Sid) -> Iterator[str]:
        """The steps by way of nodes and functions to a function."""
        node = headend
        for name in (*self.pattern.via, str(sid.title)):
            titled = self._titled.get(name)
            end = titled.node if titled else name
            yield from self._to(node, end)
            node = end
            if titled:
                yield f"{{ function = {quoted(name)} }}"

    def _to(self, node: str, end: str) -> Iterator[str]:
        """The steps from a node to another."""
        if not self.pattern.strict:
            if node != end:
                yield f"{{ reach = {quoted(end)} }}"
            return
        while node != end:
            links = self._next(end).get(node)
            if not links:
                raise Fault(f"no way leads from {node} to {end}", Status.NO_ANSWER)
            then = self.net.links[links[0]].end
            equal = [name for name in links if self.net.links[name].end == then]
            yield f"{{ links = [{', '.join(map(quoted, equal))}] }}"
            node = str(then)

    def _next(self, end: str) -> dict[str, list[str]]:
        if end not in self._ways:
            self._ways[end] = self.topology.next_links(frozenset([end]))
        return self._ways[end]

    def judge_via(self) -> None:
        """A fault where a waypoint is neither a node nor a function."""
        for name in self.pattern.via:
            if name not in self._titled and name not in self.net.nodes:
                raise Fault(f"no node and no function is called {name!r}; {near(name, self.net.nodes, 'nodes')}")


def _chosen(patterns: Sequence[str], names: Sequence[str], what: str) -> list[str]:
    """The names that some pattern takes; a fault of a pattern that takes none."""
    for pattern in patterns:
        if not any(fnmatch.fnmatchcase(name, pattern) for name in names):
            raise Fault(f"no {what} is called {pattern!r}; {near(pattern, names, f'{what}s')}")
    return [name for name in names if any(fnmatch.fnmatchcase(name, pattern) for pattern in patterns)]


def compile_all(network: str, net: Network, asked: Sequence[Asked], jobs: int) -> list[OneList]:
    """The lists of intents in the network of a description, by as many engines."""
    names = ListNames(net)
    jobs = max(1, min(jobs, len(asked)))
    shares = [asked[first::jobs] for first in range(jobs)]
    with ThreadPoolExecutor(jobs) as aside:
        found = list(aside.map(functools.partial(_compile_share, network, names), shares))
    lists: list[OneList] = [found[0][0]] * len(asked) if asked else []
    for first, share in enumerate(found):
        lists[first::jobs] = share
    return lists


def _compile_share(network: str, names: ListNames, asked: Sequence[Asked]) -> list[OneList]:
    with started() as engine:
        held = engine.load("net", network=network)
        if not held.flat:
            raise Fault(f"the network isn't flat: {held.why}")
        return [list_of(one.name, one.text, _compiled(engine, one.text), names) for one in asked]


def _compiled(engine: Engine, text: str) -> Compiled | Refused:
    try:
        return engine.compile("net", text)
    except Refused as refused:
        return refused


def started() -> Engine:
    """An engine; a fault where there is none."""
    try:
        return Engine()
    except EngineEnded as fault:
        raise Fault(str(fault), Status.NO_MEMORY) from None


def row_of(one: OneList) -> list[str]:
    """A row of the table."""
    intent = one.intent
    if not one.path:
        return [intent.headend, str(intent.steps[-1].function), one.answer, "", "", "", "", one.why]
    limit = "" if one.has_list else f"{one.answer} "
    numbers = [len(one.segments), len(one.path), one.header, one.need]
    segments = " ".join(map(str, one.segments))
    return [
        intent.headend, str(intent.steps[-1].function), *map(str, numbers), segments, limit + one.said,
    ]  # fmt: skip


def table_lines(rows: Sequence[Sequence[str]]) -> Iterator[str]:
    """Rows as a table."""
    widths = [max(len(row[place]) for row in rows) for place in range(len(rows[0]))]
    for row in rows:
        yield "  ".join(text.ljust(width) for text, width in zip(row, widths)).rstrip()


def changes(before: Sequence[OneList], now: Sequence[OneList]) -> Iterator[str]:
    """What differs from an earlier file, a line for each list."""
    old, new = ({one.name: one for one in lists} for lists in (before, now))
    for name, one in new.items():
        if name not in old:
            yield f"new      {name}: {one.said}"
        elif _key(old[name]) != _key(one):
            yield f"changed  {name}: {old[name].said} -> {one.said}"
    for name, one in old.items():
        if name not in new:
            yield f"gone     {name}: {one.said}"


def _key(one: OneList) -> tuple[object, ...]:
    return one.answer, one.segments, one.path


def _write(words: argparse.Namespace, lists: Sequence[OneList]) -> None:
    if words.intents:
        folder = Path(words.intents)
        folder.mkdir(parents=True, exist_ok=True)
        for one in lists:
            (folder / f"{one.name}.toml").write_text(one.text, encoding="utf-8")
    if words.since:
        earlier = read_lists(words.since)
        found = list(changes(earlier, lists))
        print("\n".join(found) if found else "no list differs")
    elif words.json:
        sys.stdout.write(lists_text(words.base, words.plan, lists))
    elif words.csv:
        text = io.StringIO()
        csv.writer(text, lineterminator="\n").writerows([COLUMNS, *map(row_of, lists)])
        sys.stdout.write(text.getvalue())
    else:
        print("\n".join(table_lines([COLUMNS, *map(row_of, lists)])))


def _work(tool: str, words: argparse.Namespace) -> int:
    pattern = Pattern(
        words.strict, tuple(words.via), words.prefer, words.mode, words.inner or "", words.hop_limit,
        words.max_containers,
    )  # fmt: skip
    with progress(tool, f"reading {words.base}"):
        planned = Planned(words.base, words.plan)
        net = planned.whole
        mesh = Mesh(net, planned.topology(), pattern)
        mesh.judge_via()
        functions = mesh.functions(words.to_title)
        asked = list(mesh.asked(mesh.headends(words.headend, functions), functions))
    if not asked:
        raise Fault("no headend and function are at two nodes", Status.USAGE)
    if len(asked) > MOST_PAIRS:
        raise Fault(f"{len(asked)} pairs, and a mesh has at most {MOST_PAIRS}", Status.USAGE)
    with progress(tool, f"compiling {len(asked)} intents"):
        lists = _all_lists(planned, net, asked, words.jobs)
    _write(words, lists)
    return Status.DONE if all(one.has_list for one in lists) else Status.NO_ANSWER


def _all_lists(planned: Planned, net: Network, asked: Sequence[Asked], jobs: int) -> list[OneList]:
    try:
        return compile_all(planned.text(net), net, asked, jobs)
    except Refused as refused:
        raise Fault(f"{planned.path}: srv6-pce says: {refused}") from None
    except NotFlat as fault:
        raise Fault(f"{planned.path}: {fault}") from None
    except EngineEnded as fault:
        raise Fault(str(fault), Status.OUTSIDE_FAULT) from None


def main(words: Sequence[str]) -> int:
    """Runs the tool."""
    parser = Parser("mesh", DESCRIPTION, MORE)
    parser.usage = "mesh [OPTION].. BASE [PLAN] --to-title NAME.."
    parser.add_argument("base", metavar="BASE", help="a description")
    parser.add_argument("plan", metavar="PLAN", nargs="?", help="cables, metrics, locators, sites")
    parser.add_argument(
        "--to-title", metavar="NAME", nargs="+", action="extend", required=True, help="functions, by title"
    )
    parser.add_argument(
        "--headend", metavar="NAME", nargs="+", action="extend", default=[],
        help="headends; the nodes of the functions",
    )  # fmt: skip
    parser.add_argument(
        "--via", metavar="NAME", nargs="+", action="extend", default=[],
        help="nodes to reach and functions to execute first, in order",
    )  # fmt: skip
    parser.add_argument("--strict", action="store_true", help="along the links of a shortest path")
    parser.add_argument("--prefer", choices=("need", "sids"), default="sids", help="as an intent has it; sids")
    parser.add_argument("--mode", choices=("full", "reduced"), default="reduced", help="of the header; reduced")
    parser.add_argument("--inner", choices=("ipv6", "ipv4"), help="of packets; by the function")
    parser.add_argument("--hop-limit", metavar="N", type=positive, default=64, help="of the header; 64")
    parser.add_argument("--max-containers", metavar="N", type=positive, default=10, help="of a list; 10")
    form = parser.add_mutually_exclusive_group()
    form.add_argument("--csv", action="store_true", help="the table as CSV")
    form.add_argument("--json", action="store_true", help="a file of lists")
    form.add_argument("--since", metavar="FILE", help="what differs from an earlier file of lists")
    parser.add_argument("--intents", metavar="FOLDER", help="writes each intent as a file too")
    parser.add_argument(
        "--jobs", metavar="N", type=positive, default=os.cpu_count() or 1, help="engines at once; all processors"
    )  # fmt: skip
    return run_tool(parser, functools.partial(_work, parser.prog), words)
