"""The page of view over 250 nodes and 1,000 packets, and over tables of thousands of cells: its size, how fast it opens and how fast it
answers.
"""

import itertools
import json
import math
import unittest
import unittest.mock
from pathlib import Path

from browser import needs_browser
from page_case import PROGRESS, PageCase
from srv6tools.captures import frames_of, head_of, raw_capture
from srv6tools.packet_parts import ip6
from srv6tools.routes import fill
from support import EXAMPLES, needs_program, run_tool

BYTES = 10 * 2**20  # of the largest page
LOADED, REACTS = 2_000, 100  # milliseconds of the page's thread, at most: what other work there is doesn't count
NODES, PACKETS, WIDE = 250, 1_000, 25
FANNED = 12  # packets whose walks over all choices are counted
SEEN = "; document.body.getBoundingClientRect()"
# What is done, behind what else is done first where it isn't nothing.
ACTIONS = {
    "dark or light": "turnTheme()",
    "the network": ("showView('packets')", "showView('network')"),
    "the packets": ("showView('network')", "showView('packets')"),
    "a step": "step(1)",
    "the next packet": "nextPacket(1)",
    "closer": "zoom(0.9); clearTimeout(MAP.later)",
    "farther": "zoom(1.1); clearTimeout(MAP.later)",
    "sizes, once the wheel rests": "scaleParts()",
    "the map moved": "pan(30, 20); clearTimeout(MAP.later)",
    "a search": "document.getElementById('search').value = 'n1'; showFound()",
    "a node": "showNode(7)",
    "packets of one end": "document.querySelector('.end-only').click()",
    "all stages": "document.getElementById('stages').open = !document.getElementById('stages').open",
}
TABLES = ((78, 48), (50, 600))  # failures and intents
TABLE_ACTIONS = {
    "the tables": ("showView('network')", "showView('whatif')"),
    "the network": ("showView('whatif')", "showView('network')"),
    "a cell": ("showView('whatif')", "document.getElementById('cell0-3-3').click()"),
    "another cell": ("document.getElementById('cell0-3-3').click()", "document.getElementById('cell0-4-2').click()"),
    "a step": "step(-1)",
    "dark or light": "turnTheme()",
    "rows farther down": ("document.querySelector('.heatbox').scrollTop = 0", "document.querySelector('.heatbox').scrollTop = 900"),
}
WALKS_OF = 5  # failures whose cells have walks
IN_ORDER = "return [...document.querySelectorAll('.cell')].map((one) => one.id.split('-').map(Number).slice(1))"


def large_table(failures: int, intents: int) -> str:
    """A table that has those of the example again and again; cells farther down have no walks."""
    table = json.loads((EXAMPLES / "domain" / "what-if.json").read_text())
    rows, names, cells = table["failures"], table["intents"], table["cells"]
    table["failures"] = [rows[at % len(rows)] | {"name": f"failure {at}"} for at in range(failures)]
    table["intents"] = [f"{names[at % len(names)]}-{at}" for at in range(intents)]
    table["cells"] = [
        [
            cells[row % len(rows)][at % len(names)] | ({} if row < WALKS_OF else {"at_once": None, "traffic": None})
            for at in range(intents)
        ]
        for row in range(failures)
    ]
    return json.dumps(table)


def nodes_of(number: int) -> tuple[int, int]:
    """The two nodes of the grid whose SIDs a packet's container has."""
    return (number * 37) % 249 + 1, (number * 91 + 5) % 249 + 1


def ways_over_grid(number: int) -> int:
    """The shortest ways of a packet from the grid's corner to the one node and on to the other."""
    stands = (0, *nodes_of(number))
    ways = 1
    for start, end in itertools.pairwise(stands):
        (row, column), (to_row, to_column) = divmod(start, WIDE), divmod(end, WIDE)
        down = abs(to_row - row)
        ways *= math.comb(down + abs(to_column - column), down)
    return ways


@needs_program
@needs_browser
class Large(PageCase):
    def test_250_nodes_and_1000_packets(self):
        net, capture = self.large()
        with unittest.mock.patch("support.SECONDS", 900):  # of a machine that has other work
            ran = run_tool("view", net, capture, "--at", "n0", "--no-fans")
        self.assertEqual((ran.status, ran.err.replace(PROGRESS, "")), (0, ""))
        self.assertLess(len(ran.raw), BYTES)
        page = self.file("large.html", ran.raw)
        self.assertLessEqual(min(self.browser.busy_opening(page) for _ in range(3)), LOADED)
        self.assertEqual(len(self.browser.texts(".node")), NODES)
        self.assertEqual(len(self.browser.texts(".rows li")), PACKETS)
        for name, script in ACTIONS.items():
            before, action = ("", script) if isinstance(script, str) else script
            took = min(self.busy(before, action) for _ in range(5))
            self.assertLessEqual(took, REACTS, name)
        self.is_quiet()

    def test_large_tables(self):
        """They open, stay laid out when another view is shown, and stand in pieces where they have many intents."""
        for failures, intents in TABLES:
            table = self.file("table.json", large_table(failures, intents))
            with unittest.mock.patch("support.SECONDS", 900):
                page = self.opened(EXAMPLES / "domain" / "net.toml", table)
            cells = page.run(IN_ORDER)
            self.assertEqual(sorted(cells), [[row, at] for row in range(failures) for at in range(intents)])
            heads = page.texts(".heatbox thead th:not(:first-child)")
            self.assertEqual(heads, json.loads(table.read_text())["intents"])
            for name, script in TABLE_ACTIONS.items():
                before, action = ("", script) if isinstance(script, str) else script
                took = min(self.busy(before, action) for _ in range(5))
                self.assertLessEqual(took, REACTS, f"{name}, {failures} by {intents}")
            last = f"cell0-{failures - 1}-{intents - 1}"
            page.run(f"showView('whatif'); document.getElementById('{last}').focus()")
            page.settle()
            page.press("enter")
            self.assertIn(f"Without failure {failures - 1}, ", page.text("#cellsaid"))
            self.assertEqual(page.run("return document.activeElement.id"), last)
            self.is_quiet()

    def busy(self, before: str, action: str) -> float:
        """How long an action takes, behind another that isn't counted."""
        if before:
            self.browser.run(before + SEEN)
            self.browser.settle()
        return self.browser.busy(action)

    def test_fans_over_250_nodes(self):
        """The walks of packets over all choices, of which there are more than can be gone through."""
        net, capture = self.large()
        given = capture.read_bytes()
        frames = list(frames_of(given, head_of(given, "large"), "large"))[:FANNED]
        some = self.file("some.pcap", b"".join(raw_capture((0, 0, one.content) for one in frames)))
        with unittest.mock.patch("support.SECONDS", 900):
            ran = run_tool("view", net, some, "--at", "n0")
        self.assertEqual((ran.status, ran.err.replace(PROGRESS, "")), (0, ""))
        self.browser.open(self.file("fans.html", ran.raw))
        self.assertEqual(self.browser.texts(".uncounted"), [])
        walks = self.browser.run("return DATA.groups[0].walks.map((one) => DATA.fans[DATA.walks[one].fan])")
        self.assertEqual([int(fan["walks"]) for fan in walks], [ways_over_grid(n) for n in range(FANNED)])
        for fan in walks:
            self.assertEqual(sum(int(times) for _, times in fan["ends"]), int(fan["walks"]))
        self.browser.press("down", "f")
        self.assertEqual(self.browser.text("#fan"), f"All walks: {ways_over_grid(1)}")
        self.assertEqual(len(self.browser.texts(".fan")), len(walks[1]["links"]))
        self.is_quiet()

    def large(self) -> tuple[Path, Path]:
        """A grid of 250 nodes with NEXT-CSIDs, and 1,000 packets with a container of two of them."""
        nodes = [f'{{ name = "n{i}", address = "2001:db8::{i + 1:x}" }}' for i in range(NODES)]
        sids = [
            f'{{ node = "n{i}", prefix = "fcbb:bb00:{i + 1:x}::/48", behaviour = "End", csid = "next" }}'
            for i in range(NODES)
        ]
        block = '{ prefix = "fcbb:bb00::/32", kind = "next", csid = 16 }'
        base = f"block = [{block}]\nnode = [{', '.join(nodes)}]\nsid = [{', '.join(sids)}]\n"
        cables = [(i, i + 1) for i in range(NODES) if i % WIDE < WIDE - 1]
        cables += [(i, i + WIDE) for i in range(NODES - WIDE)]
        rows = [
            f'{{ nodes = ["n{a}", "n{b}"], links = ["{at}a", "{at}b"] }}'
            for at, (a, b) in enumerate(cables)
        ]
        plan = self.file("plan.toml", f"cable = [{', '.join(rows)}]\n")
        net = self.file("net.toml", fill(self.file("base.toml", base), plan, compact=True).text)
        frames = []
        for number in range(PACKETS):
            one, other = nodes_of(number)
            target = f"fcbb:bb00:{one + 1:x}:{other + 1:x}::"
            frames.append((0, 0, ip6(target, source=f"2001:db8:1::{number + 1:x}")))
        return net, self.file("large.pcap", b"".join(raw_capture(frames)))


if __name__ == "__main__":
    unittest.main()
