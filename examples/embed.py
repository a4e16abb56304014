#!/usr/bin/env python3
"""Compiles a full mesh: from each node to each function elsewhere the list along the fewest links.

    examples/embed.py NET

One engine is asked, which reads the network once; helpers/srv6tools/engine.py is its client.
"""

import sys
import tomllib
from pathlib import Path

sys.path.insert(0, str(Path(__file__).resolve().parents[1] / "helpers"))
from srv6tools.engine import Engine  # noqa: E402

INTENT = 'headend = "{name}"\nsource = "{address}"\ninner = "{inner}"\nmode = "reduced"\n'
STEP, LAST = '[[step]]\nlinks = ["{}"]\n', '[[step]]\nfunction = "{}"\n'
INNER = {"End.DT4": "ipv4", "End.DX4": "ipv4"}


def links_from(net: dict, start: str) -> dict[str, list[str]]:
    """The links on a way of the fewest from a node to each that can be reached."""
    ways = {start: []}
    for node in (order := [start]):
        for link in (link for link in net["link"] if link["from"] == node):
            if (to := link.get("to", start)) not in ways and not order.append(to):
                ways[to] = [*ways[node], link["name"]]
    return ways


net = tomllib.loads(Path(sys.argv[1]).read_text())
with Engine() as engine:
    engine.load("net", file=sys.argv[1])
    for node in net["node"]:
        for end, links in links_from(net, node["name"]).items():
            for sid in (s for s in net["sid"] if links and s["node"] == end and "title" in s):
                head = INTENT.format(inner=INNER.get(sid["behaviour"], "ipv6"), **node)
                steps = [*map(STEP.format, links), LAST.format(sid["title"])]
                found = engine.compile("net", head + "".join(steps))
                print(node["name"], sid["title"], found.answer, *found.segments)
