"""A table of failures by intents, as `docs/FORMATS.md` ('What-if table') has it."""

import json
from dataclasses import dataclass
from pathlib import Path
from typing import Any

from .command import Fault
from .description import Network
from .files import INPUT_LIMIT, decoded, read_bytes
from .trace import Walk, trace_of

STATES = {
    "kept": "the list from before is kept",
    "other": "another list is taken",
    "none": "no list realizes the intent",
    "refused": "the intent can't be asked there, or its own node failed",
}


@dataclass(frozen=True, slots=True)
class Traffic:
    """A packet with the list from before, in a network with the failure: as it came to the
    headend, the link on which it was sent, its walk from there where it is told, how it ends, and
    whether it ends as without the failure.
    """

    headend: str
    inner: bytes
    link: str | None
    walk: Walk | None
    end: str
    arrives: bool


@dataclass(frozen=True, slots=True)
class Cell:
    """What a failure does to an intent."""

    state: str
    answer: str  # the program's line
    containers: int | None
    need: int | None
    at_once: Traffic | None  # before routes are found anew: next hops that are gone are left out
    traffic: Traffic | None  # once they are
    why: str = ""  # there is no list, in a line
    largest_inner: int | None = None  # bytes of the largest inner packet that fits the list's links


@dataclass(frozen=True, slots=True)
class Failure:
    """Links that are gone, and nodes."""

    name: str
    links: tuple[str, ...]
    nodes: tuple[str, ...] = ()


@dataclass(slots=True)
class WhatIf:
    """A table: a row for each failure, in it a cell for each intent."""

    path: str
    intents: list[str]
    failures: list[Failure]
    cells: list[list[Cell]]


class _Reader:
    """Values of a JSON text, with their places for faults."""

    def __init__(self, path: str, net: Network):
        self.path, self.net = path, net

    def fault(self, where: str, what: str) -> Fault:
        return Fault(f"{self.path}: {where}: {what}")

    def text(self, value: Any, where: str) -> str:
        if not isinstance(value, str) or not value.isprintable():
            raise self.fault(where, "no text of one line")
        return value

    def lines(self, value: Any, where: str) -> list[str]:
        if not isinstance(value, str):
            raise self.fault(where, "no text")
        return value.splitlines()

    def count(self, value: Any, where: str) -> int | None:
        if value is None or (type(value) is int and 0 <= value < 2**32):
            return value
        raise self.fault(where, "no number")

    def rows(self, value: Any, where: str, kind: type = dict) -> list[Any]:
        if not isinstance(value, list) or not all(isinstance(one, kind) for one in value):
            raise self.fault(where, "no list of the right values")
        return value

    def link(self, value: Any, where: str) -> str:
        name = self.text(value, where)
        if name not in self.net.links:
            raise self.fault(where, f"{self.net.path} has no link {name!r}")
        return name

    def node(self, value: Any, where: str) -> str:
        name = self.text(value, where)
        if name not in self.net.nodes:
            raise self.fault(where, f"{self.net.path} has no node {name!r}")
        return name


def read_what_if(path: str | Path, net: Network) -> WhatIf:
    """The table of a file, over a description with the nodes and links that it names."""
    name = str(path)
    text = decoded(read_bytes(path, INPUT_LIMIT), name)
    try:
        root = json.loads(text)
    except (ValueError, RecursionError) as fault:
        raise Fault(f"{name}: not JSON: {fault}") from None
    if not isinstance(root, dict) or root.get("kind") != "what-if":
        raise Fault(f"{name}: no object with the kind `what-if`")
    reader = _Reader(name, net)
    names = reader.rows(root.get("intents"), "intents", str)
    intents = [reader.text(one, "intents") for one in names]
    rows = enumerate(reader.rows(root.get("failures"), "failures"), 1)
    failures = [_failure(reader, row, f"failure {number}") for number, row in rows]
    table = reader.rows(root.get("cells"), "cells", list)
    if len(table) != len(failures) or any(len(row) != len(intents) for row in table):
        raise reader.fault("cells", "not a row for each failure with a cell for each intent")
    cells = [
        [
            _cell(reader, cell, f"failure {number}, intent {place}")
            for place, cell in enumerate(reader.rows(row, f"failure {number}"), 1)
        ]
        for number, row in enumerate(table, 1)
    ]
    return WhatIf(name, intents, failures, cells)


def _failure(reader: _Reader, row: dict[str, Any], where: str) -> Failure:
    nodes = row.get("nodes")
    return Failure(
        reader.text(row.get("name"), where),
        tuple(reader.link(link, where) for link in reader.rows(row.get("links"), where, str)),
        tuple(reader.node(node, where) for node in reader.rows([] if nodes is None else nodes, where, str)),
    )


def _cell(reader: _Reader, cell: dict[str, Any], where: str) -> Cell:
    state = reader.text(cell.get("state"), where)
    if state not in STATES:
        raise reader.fault(where, f"`state` is none of {', '.join(STATES)}")
    return Cell(
        state,
        reader.text(cell.get("answer"), where),
        reader.count(cell.get("containers"), where),
        reader.count(cell.get("need"), where),
        _traffic(reader, cell.get("at_once"), "at_once", where),
        _traffic(reader, cell.get("traffic"), "traffic", where),
        reader.text(cell.get("why") or "", where),
        reader.count(cell.get("largest_inner"), where),
    )


def _traffic(reader: _Reader, row: Any, key: str, where: str) -> Traffic | None:
    if row is None:
        return None
    if not isinstance(row, dict):
        raise reader.fault(where, f"`{key}` is no object")
    headend, end = reader.node(row.get("headend"), where), reader.text(row.get("end"), where)
    try:
        inner = bytes.fromhex(reader.text(row.get("inner"), where))
    except ValueError:
        raise reader.fault(where, "`inner` has no hexadecimal digits") from None
    arrives = row.get("arrives")
    if not isinstance(arrives, bool):
        raise reader.fault(where, "`arrives` is neither true nor false")
    link = None if row.get("link") is None else reader.link(row["link"], where)
    walk = None if row.get("trace") is None else _walk(reader, row["trace"], where)
    if walk and (link is None or reader.net.links[link].end != walk.node):
        raise reader.fault(where, "`trace` doesn't begin where `link` ends")
    return Traffic(headend, inner, link, walk, end, arrives)


def _walk(reader: _Reader, text: Any, where: str) -> Walk:
    lines = reader.lines(text, where)
    walks = trace_of(lines, f"{reader.path}: {where}").walks
    if len(walks) != 1 or not walks[0].stages:
        raise reader.fault(where, "`trace` isn't the walk of one packet")
    for stage in walks[0].stages:
        if stage.link:
            reader.link(stage.link, where)
    return walks[0]
