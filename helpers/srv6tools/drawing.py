"""Graphviz text of a network with walks in it."""

import dataclasses
from collections.abc import Iterable

from .description import Link, Network

COLOURS = (
    "#1b6ca8", "#c0392b", "#1e8449", "#8e44ad", "#b9770e", "#138d90", "#7b241c", "#34495e",
)  # fmt: skip


def quoted(text: str) -> str:
    """A text as Graphviz reads it."""
    return '"' + text.replace("\\", "\\\\").replace('"', '\\"') + '"'


@dataclasses.dataclass(frozen=True, slots=True)
class Mark:
    """A shape of a name of its own, with lines of words in it."""

    name: str
    shape: str
    lines: tuple[str, ...]


@dataclasses.dataclass(slots=True)
class Drawing:
    """The lines of a drawing: the nodes and links of a network in grey, and what is drawn over
    them.
    """

    net: Network
    lines: list[str] = dataclasses.field(default_factory=list)

    def begin(self, used: Iterable[Link] | None = None, nodes: Iterable[str] = ()) -> None:
        """The network; where links are given, these alone, with their nodes and some further
        ones.
        """
        self.lines += ["digraph walks {", "  rankdir=LR; node [shape=circle]; edge [fontsize=11];"]
        links, names = list(self.net.links.values()), list(self.net.nodes)
        if used is not None:
            numbers = {link.number for link in used}
            links = [link for link in links if link.number in numbers]
            met = {*nodes, *(end for link in links for end in (link.start, link.end) if end)}
            names = [name for name in names if name in met]
        self.lines += [f"  {quoted(name)};" for name in names]
        for link in links:
            if link.end is None:
                self.lines.append(f"  {end_of(link)} [shape=point];")
            if used is None:
                self.edge(quoted(link.start), end_of(link), link.name, "grey60")

    def edge(self, start: str, end: str, label: str, colour: str, more: str = "") -> None:
        """An edge between two things that are quoted."""
        colours = f'color="{colour}", fontcolor="{colour}"{more}'
        self.lines.append(f"  {start} -> {end} [label={quoted(label)}, {colours}];")

    def entry(self, name: str, first: str, colour: str) -> None:
        """Where a packet comes from: its name, and an edge to the node where it enters."""
        self.lines.append(f'  {quoted(name)} [shape=plaintext, fontcolor="{colour}"];')
        self.edge(quoted(name), first, "", colour, ", style=dashed")

    def mark(self, mark: Mark, node: str, label: str, colour: str) -> None:
        """What comes of packets at a node, with an edge to it."""
        lines = "\\n".join(mark.lines)
        name = quoted(mark.name)
        self.lines.append(f'  {name} [shape={mark.shape}, color="{colour}", label="{lines}"];')
        self.edge(quoted(node), name, label, colour, ", style=dashed")

    def text(self) -> str:
        """The whole text."""
        return "\n".join([*self.lines, "}"])


def end_of(link: Link) -> str:
    """Where a link ends: its node, or a point of its own; no node's name has a space."""
    return quoted(link.end if link.end is not None else f"end of {link.name}")
