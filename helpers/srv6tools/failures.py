"""What may fail of a network: each cable, each bundle of cables, each node, and sets of these that a
file has.
"""

from collections.abc import Iterable, Iterator, Sequence
from dataclasses import dataclass
from pathlib import Path

from .command import Fault
from .description import Network
from .files import parse_toml, read_text
from .items import items_of
from .toml_places import Lines

KINDS = ("cable", "bundle", "node", "set")


@dataclass(frozen=True, slots=True)
class Failure:
    """Links and nodes that fail at once."""

    kind: str
    name: str
    links: tuple[str, ...]
    nodes: tuple[str, ...] = ()

    def __str__(self) -> str:
        return f"{self.kind} {self.name}"


def cables_of(net: Network, pairs: Sequence[tuple[str, str]]) -> list[tuple[str, ...]]:
    """The links of each cable: those of a plan, and of the others the first from a node to another with
    the first back, and so on. A link that leaves the network is none.
    """
    found: list[tuple[str, ...]] = list(pairs)
    known = {name for pair in pairs for name in pair}
    waiting: dict[tuple[str, str], list[str]] = {}
    places: dict[str, int] = {}
    for link in net.links.values():
        if link.name in known or link.end is None:
            continue
        back = waiting.get((link.end, link.start))
        if back:
            first = back.pop(0)
            found[places[first]] = (first, link.name)
        else:
            waiting.setdefault((link.start, link.end), []).append(link.name)
            places[link.name] = len(found)
            found.append((link.name,))
    return found


def each_failure(net: Network, pairs: Sequence[tuple[str, str]], kinds: Iterable[str]) -> Iterator[Failure]:
    """Each cable, each bundle (two cables or more between the same two nodes), each node."""
    cables = cables_of(net, pairs)
    bundles: dict[frozenset[str], list[tuple[str, ...]]] = {}
    for cable in cables:
        link = net.links[cable[0]]
        bundles.setdefault(frozenset((link.start, link.end or "")), []).append(cable)
    if "cable" in kinds:
        yield from (Failure("cable", cable[0], cable) for cable in cables)
    for some in bundles.values():
        if "bundle" in kinds and len(some) > 1:
            yield Failure("bundle", some[0][0], tuple(name for cable in some for name in cable))
    if "node" in kinds:
        for node in net.nodes:
            own = (link.name for link in net.links.values() if node in (link.start, link.end))
            yield Failure("node", node, tuple(own), (node,))


def read_sets(path: str | Path, net: Network) -> Iterator[Failure]:
    """The sets of a file, each a table `set` with `name`, `links`* and `nodes`*."""
    text = read_text(path)
    root, lines = parse_toml(text, str(path)), Lines(text)
    for key in root:
        if key != "set":
            raise Fault(f"{path}: no table of sets is called {key!r}; there is `set`")
    names: set[str] = set()
    for item in items_of(root, "set", str(path), lines):
        item.only(("name", "links", "nodes"))
        name, links, nodes = item.text("name"), item.texts("links", []), item.texts("nodes", [])
        if not links and not nodes:
            raise item.fault("neither `links` nor `nodes` has a name")
        for key, some, there in (("links", links, net.links), ("nodes", nodes, net.nodes)):
            for one in some:
                if one not in there:
                    raise item.fault(f"`{key}` names {one!r}, which there isn't", key)
        if name in names or not name.isprintable() or not name:
            raise item.fault(f"an earlier set has the name {name!r}, or it is no name", "name")
        names.add(name)
        own = (link.name for link in net.links.values() if link.start in nodes or link.end in nodes)
        yield Failure("set", name, tuple(dict.fromkeys([*links, *own])), tuple(nodes))
