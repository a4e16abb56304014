"""Descriptions of what one node has, by which the program says fast what that node does."""

import functools
import tempfile
from pathlib import Path
from typing import Any

from .files import read_toml
from .toml_writer import compact_text


class OwnEntries:
    """For each node of a large description a small one: the node with its links, routes and SIDs,
    and without those of others.

    What a node does with a packet depends on no more (`docs/BEHAVIOUR.md`), and the program reads
    it in a moment. What comes behind the first link is no answer of the whole network.
    """

    def __init__(self, path: str) -> None:
        self._root = read_toml(path)
        self._folder = tempfile.TemporaryDirectory(prefix="srv6-")
        nodes = enumerate(self._root.get("node", []))
        self._paths = {node["name"]: Path(self._folder.name, f"{at}.toml") for at, node in nodes}
        self._of_node = {
            "link": self._by("link", "from"),
            "route": self._by("route", "node"),
            "sid": self._by("sid", "node"),
        }

    def _by(self, table: str, key: str) -> dict[str, list[dict[str, Any]]]:
        """The items of a table by the node that a key names."""
        found: dict[str, list[dict[str, Any]]] = {}
        for item in self._root.get(table, []):
            found.setdefault(item[key], []).append(item)
        return found

    def path(self, node: str) -> Path:
        """The file of a node; two threads don't ask for one of them at a time."""
        path = self._paths[node]
        if not path.exists():
            own = {table: items.get(node, []) for table, items in self._of_node.items()}
            met = {node, *(link["to"] for link in own["link"] if "to" in link)}
            tree = {
                "block": self._root.get("block", []),
                "node": [one for one in self._root["node"] if one["name"] in met],
                "policy": self._root.get("policy", []),
                **own,
            }
            path.write_text(compact_text(tree), encoding="utf-8")
        return path


@functools.lru_cache(1)
def own_entries_of(path: str) -> OwnEntries:
    """Those of a description, which is read once."""
    return OwnEntries(path)
