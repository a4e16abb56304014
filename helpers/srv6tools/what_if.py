"""what-if: which intents hold where cables, bundles, nodes or sets of them fail, and what helps."""

import argparse
import concurrent.futures
import concurrent.futures.process
import functools
import json
import multiprocessing
import multiprocessing.util
import os
import sys
import tempfile
from collections.abc import Iterator, Sequence
from dataclasses import dataclass, field
from pathlib import Path
from typing import Any

from .command import Fault, Parser, Status, positive, run_tool
from .engine import EngineEnded, EngineError
from .failing import Case, Failing, Named, Outcome
from .failures import KINDS, Failure, each_failure, read_sets
from .files import decoded, parse_toml, read_bytes
from .intent import intent_of
from .lists_file import OneList, is_lists, lists_of, read_lists
from .mesh import Asked, compile_all, table_lines
from .planned import Planned
from .progress_line import ProgressLine

Rows = Sequence[Sequence[Case]]  # of each failure a case for each intent
STATUSES = ("at-once", "after", "none")
DESCRIPTION = """\
Takes each cable, each bundle of cables between two nodes and each node of a network out in turn, and says of
each intent whether the list that is installed still realizes it: at once, while routes only lose the links
that are down, and after routing has found them again by PLAN. Where it doesn't, the first of its SIDs that
isn't executed is told and why, and the list that srv6-pce finds then, or that there is none and why. Without
PLAN the routes of BASE are static, and both are one.

An INTENT is a file of one, or a file of lists that mesh wrote, whose lists are then the installed ones; of
other intents it is the list of the whole network. A failure of the node of an intent's headend or of its last
function is left out for this intent, as nothing helps there."""
MORE = """\
The status is 4 where a list breaks in some failure: by --fail-on after routing (`after`), at once
(`at-once`), or where there is no list then (`none`); else 0.

What stands on what: networks are srv6-pce's (`without`), new lists are srv6-pce's and proved. Lists are
judged by srv6-pce where it has `judge`; where it hasn't, by this tool's model, and a line on err says so.
Routes after a failure are found by this tool as `routes` finds them where srv6-pce hasn't `again`."""


@dataclass(slots=True)
class Tally:
    """How often lists break, over some cases: at once, after routing, and without another list."""

    name: str
    at_once: int = 0
    after: int = 0
    none: int = 0
    left_out: int = 0
    inner: int | None = None  # the least of the largest inner packets
    worst: list[str] = field(default_factory=list)

    def take(self, case: Case, of: str) -> None:
        """Counts a case."""
        if case.outcome is Outcome.LEFT_OUT:
            self.left_out += 1
            return
        self.at_once += not case.at_once.holds
        self.after += not case.after.holds
        self.none += case.has_none
        if case.largest_inner is not None:
            self.inner = min(case.largest_inner, self.inner or case.largest_inner)
        if case.has_none:
            self.worst.append(of)

    @property
    def rank(self) -> tuple[int, int, int]:
        """The worst first."""
        return -self.none, -self.after, -self.at_once

    def row(self, inner: bool) -> list[str]:
        """A row of a table."""
        some = ", ".join(self.worst[:4]) + (f" and {len(self.worst) - 4} more" if len(self.worst) > 4 else "")
        numbers = [self.at_once, self.after, self.none]
        return [self.name, *map(str, numbers), *([str(self.inner or "")] if inner else []), some]


def tables(failures: Sequence[Failure], names: Sequence[str], rows: Rows) -> Iterator[str]:
    """The tables by intent and by failure, the worst first."""
    by_intent = [Tally(name) for name in names]
    by_failure = [Tally(str(failure)) for failure in failures]
    for failure, of, row in zip(failures, by_failure, rows):
        for name, tally, case in zip(names, by_intent, row):
            tally.take(case, str(failure))
            of.take(case, name)
    inner = any(case.shows_inner for row in rows for case in row)
    for what, tallies, others in (("intent", by_intent, "failure"), ("failure", by_failure, "intent")):
        head = [what, "at once", "after", "no list", *(["inner"] if inner else []), f"no list: by {others}"]
        bad = sorted((one for one in tallies if one.rank != (0, 0, 0)), key=lambda one: one.rank)
        if bad:
            yield f"by {what}, the worst first: of how many {others}s its list breaks, and there is none"
            yield from table_lines([head, *(one.row(inner) for one in bad)])
        if good := len(tallies) - len(bad):
            yield f"{good} {what}{'s' * (good > 1)} more: no list breaks"
        yield ""


def details(failures: Sequence[Failure], names: Sequence[str], rows: Rows) -> Iterator[str]:
    """A line for each case in which a list breaks."""
    for failure, row in zip(failures, rows):
        for name, case in zip(names, row):
            if case.outcome is not Outcome.LEFT_OUT and not (case.at_once.holds and case.after.holds):
                yield f"{failure}: {name}: {case.said}"


# ---- what is asked


def sorted_files(words: argparse.Namespace) -> tuple[str | None, list[str]]:
    """The plan, if there is one, and the intents."""
    if not words.files:
        raise Fault("no intent is named", Status.USAGE)
    first = words.files[0]
    content = read_bytes(first, 67_108_864)
    if not is_lists(content):
        root = parse_toml(decoded(content, first), first)
        if not {"headend", "step", "source"} & root.keys():
            if len(words.files) == 1:
                raise Fault("no intent is named behind the plan", Status.USAGE)
            return first, words.files[1:]
    return None, words.files


def named_intents(paths: Sequence[str], lists: str | None) -> list[Named]:
    """The intents of files, with their installed lists where they are known."""
    found: list[Named] = []
    for path in paths:
        content = read_bytes(path, 67_108_864)
        if is_lists(content):
            found += (Named(one.name, one.text, one.intent, one) for one in lists_of(decoded(content, path), path))
        else:
            text = decoded(content, path)
            found.append(Named(Path(path).stem, text, intent_of(parse_toml(text, path), path), None))
    known = {one.name: one for one in read_lists(lists)} if lists else {}
    names = [one.name for one in found]
    for name in names:
        if names.count(name) > 1:
            raise Fault(f"two intents are called {name!r}")
    return [Named(one.name, one.text, one.intent, known.get(one.name, one.installed)) for one in found]


def with_installed(planned: Planned, intents: Sequence[Named], jobs: int) -> list[Named]:
    """The intents with the lists that are installed: of one that none is told of that of the whole network."""
    asked = [Asked(one.name, "", "", one.text) for one in intents if one.installed is None]
    made: dict[str, OneList] = {}
    if asked:
        found = compile_all(planned.text(planned.whole), planned.whole, asked, jobs)
        made = {one.name: one for one in found}
    for one in made.values():
        if one.answer == "refused":
            raise Fault(f"{one.name}: srv6-pce refuses the intent: {one.why}")
        if not one.has_list:
            raise Fault(f"{one.name}: no list to begin with ({one.answer})", Status.NO_ANSWER)
    whole = [Named(one.name, one.text, one.intent, one.installed or made[one.name]) for one in intents]
    for one in whole:
        if one.installed is None or not one.installed.has_list:
            raise Fault(f"{one.name}: no list is installed ({one.installed and one.installed.answer})", Status.NO_ANSWER)
    return whole


def failures_of(planned: Planned, words: argparse.Namespace) -> list[Failure]:
    """The failures that are asked for."""
    kinds = words.only.split(",") if words.only else list(KINDS)
    for kind in kinds:
        if kind not in KINDS:
            raise Fault(f"--only takes {', '.join(KINDS)}, and not {kind!r}", Status.USAGE)
    found = list(each_failure(planned.static, planned.pairs, kinds))
    if words.sets and "set" in kinds:
        found += read_sets(words.sets, planned.static)
    if not found:
        raise Fault("nothing is to fail", Status.USAGE)
    return found


# ---- side by side


_FAILING: Failing | None = None  # of a process beside others: it is made before they part


def _begin() -> None:
    assert _FAILING is not None
    engine = _FAILING.begin()
    multiprocessing.util.Finalize(None, engine.close, exitpriority=10)  # as the process ends


def _row(failure: Failure) -> list[Case] | Fault:
    assert _FAILING is not None
    try:
        return _FAILING.cases(failure)
    except Fault as fault:
        return fault
    except (EngineEnded, EngineError) as fault:
        return Fault(f"{failure}: srv6-pce: {fault}", Status.OUTSIDE_FAULT)


def all_rows(failing: Failing, failures: Sequence[Failure], jobs: int, line: ProgressLine) -> list[list[Case]]:
    """The cases of each failure, found by as many processes."""
    global _FAILING
    _FAILING = failing
    context = multiprocessing.get_context("fork")
    rows: list[list[Case]] = []
    try:
        with concurrent.futures.ProcessPoolExecutor(min(jobs, len(failures)), context, _begin) as aside:
            for row in aside.map(_row, failures):
                if isinstance(row, Fault):
                    aside.shutdown(cancel_futures=True)
                    raise row
                rows.append(row)
                line.step(len(rows), len(failures), "failures")
    except concurrent.futures.process.BrokenProcessPool:
        raise Fault("a process ended before its work was done", Status.OUTSIDE_FAULT) from None
    return rows


# ---- what is written


def as_json(
    words: argparse.Namespace, plan: str | None, failures: Sequence[Failure], names: Sequence[str], rows: Rows
) -> dict[str, Any]:
    """The table as `docs/FORMATS.md` has it."""
    return {
        "kind": "what-if", "net": words.base, "plan": plan, "intents": list(names),
        "failures": [
            {"name": str(one), "kind": one.kind, "links": list(one.links), "nodes": list(one.nodes)}
            for one in failures
        ],
        "cells": [[case.as_json() for case in row] for row in rows],
    }  # fmt: skip


def _page(planned: Planned, plan: str | None, table: dict[str, Any], title: str | None) -> int:
    """The page of the table, as `view` makes it."""
    from .view import main as view

    with tempfile.TemporaryDirectory() as folder:
        net, cells = Path(folder, Path(planned.path).name), Path(folder, "what-if.json")
        net.write_text(planned.text(planned.whole), encoding="utf-8")
        cells.write_text(json.dumps(table), encoding="utf-8")
        more = ["--plan", plan] if plan else []
        return view([str(net), str(cells), *more, "--no-fans", "--title", title or "What if"])


def _status(words: argparse.Namespace, rows: Rows) -> int:
    cases = [case for row in rows for case in row if case.outcome is not Outcome.LEFT_OUT]
    bad = {
        "at-once": any(not case.at_once.holds for case in cases),
        "after": any(not case.after.holds for case in cases),
        "none": any(case.has_none for case in cases),
    }
    return Status.SAYS_NO if bad[words.fail_on] else Status.DONE


def _work(tool: str, words: argparse.Namespace) -> int:
    line = ProgressLine(tool)
    plan, paths = sorted_files(words)
    planned = Planned(words.base, plan)
    failures = failures_of(planned, words)
    try:
        intents = with_installed(planned, named_intents(paths, words.lists), words.jobs)
        failing = Failing(planned, intents, words.json or words.html, words.least)
        for said in failing.probe():
            print(f"{tool}: {said}", file=sys.stderr)
        rows = all_rows(failing, failures, words.jobs, line)
    except (EngineEnded, EngineError) as fault:
        raise Fault(f"{words.base}: srv6-pce: {fault}", Status.OUTSIDE_FAULT) from None
    finally:
        line.end()
    names = [one.name for one in intents]
    if words.html:
        status = _page(planned, plan, as_json(words, plan, failures, names, rows), words.title)
        if status:
            return status
    elif words.json:
        print(json.dumps(as_json(words, plan, failures, names, rows), indent=1))
    else:
        _print(failures, names, rows, words.details)
    return _status(words, rows)


def _print(failures: Sequence[Failure], names: Sequence[str], rows: Rows, with_details: bool) -> None:
    kinds = {kind: sum(one.kind == kind for one in failures) for kind in KINDS}
    counted = ", ".join(f"{count} {kind}{'s' * (count > 1)}" for kind, count in kinds.items() if count)
    print(f"{len(failures)} failures ({counted}), {len(names)} intents")
    print()
    print("\n".join(tables(failures, names, rows)).rstrip())
    if with_details:
        print()
        print("\n".join(details(failures, names, rows)))


def main(words: Sequence[str]) -> int:
    """Runs the tool."""
    parser = Parser("what-if", DESCRIPTION, MORE, any_order=True)
    parser.usage = "what-if [OPTION].. BASE [PLAN] INTENT.."
    parser.add_argument("base", metavar="BASE", help="a description")
    parser.add_argument("files", metavar="INTENT", nargs="*", help="a plan first, and intents or files of lists")
    parser.add_argument("--lists", metavar="FILE", help="the lists that are installed, by the intents' names")
    parser.add_argument("--sets", metavar="FILE", help="sets of links and nodes that fail at once too")
    parser.add_argument("--only", metavar="KINDS", help="cable, bundle, node, set: those of these kinds, with commas")
    parser.add_argument("--least", action="store_true", help="compiles in each case, also where the list holds")
    parser.add_argument("--fail-on", choices=STATUSES, default="after", help="what gives status 4; after")
    form = parser.add_mutually_exclusive_group()
    form.add_argument("--details", action="store_true", help="a line for each case too")
    form.add_argument("--json", action="store_true", help="a what-if table (docs/FORMATS.md)")
    form.add_argument("--html", action="store_true", help="a page to look at, as view makes it")
    parser.add_argument("--title", metavar="TEXT", help="of the page")
    parser.add_argument("--jobs", metavar="N", type=positive, default=os.cpu_count() or 1, help="processes; as processors")
    return run_tool(parser, functools.partial(_work, parser.prog), words)
