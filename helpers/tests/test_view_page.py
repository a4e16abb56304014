"""The page of view in a browser: each view opened, clicked and stepped, and what it shows compared
with what the program says.
"""

import json
import re
import time
import unittest

from browser import Browser, needs_browser
from page_case import PageCase
from srv6tools.description import read_network
from srv6tools.program import run_program
from srv6tools.trace import trace_of
from support import EXAMPLES, needs_program, run_here, run_tool

M2, DOMAIN = EXAMPLES / "m2.toml", EXAMPLES / "domain"
NET = DOMAIN / "net.toml"
SHOWN_BYTES = (
    "const box = [...document.querySelectorAll('.packet')].at(-1);"
    "return [...box.querySelectorAll('.byte')].map((one) => one.textContent).join('')"
)

@needs_program
@needs_browser
class Page(PageCase):
    def test_network(self):
        page = self.opened("--plan", DOMAIN / "plan.toml", NET)
        self.assertEqual(len(page.texts(".node")), 14)
        self.assertEqual(len(page.texts(".link")), len(read_network(NET).links))
        names = [text for text in page.texts(".link > title") if " p3-p6 " in text or " p6-p3 " in text]
        self.assertEqual(names, ["link p3-p6 from p3 to p6, metric 30", "link p6-p3 from p6 to p3, metric 40"])
        page.click("#node4")
        self.assertIn("p1 2001:db8::1", page.text("#detail h2"))
        sids = [str(sid.prefix) for sid in read_network(NET).sids if sid.node == "p1"]
        self.assertEqual(page.texts("#nodesids td:first-child"), sids)
        self.assertIn("on", page.run("return document.getElementById('node4').className.baseVal"))
        box = "return document.getElementById('map').getAttribute('viewBox')"
        whole = page.run(box)
        page.click("#zoomin")
        closer = page.run(box)
        self.assertLess(float(closer.split()[2]), float(whole.split()[2]))
        page.drag("#map", 60, 40)
        self.assertNotEqual(page.run(box), closer)
        page.press("0")
        self.assertEqual(page.run(box), whole)
        page.press("+", "-")
        self.assertAlmostEqual(float(page.run(box).split()[2]), float(whole.split()[2]), delta=0.1)
        page.press("right", holding="shift")
        self.assertGreater(float(page.run(box).split()[0]), float(whole.split()[0]))
        page.press("/", *"fcbb:bb00:e0a3")
        self.assertEqual(page.texts("#found button"), ["fcbb:bb00:e0a3::/48 (SID of p1)"])
        page.press("enter")
        self.assertTrue(page.run("return document.getElementById('found').hidden"))
        self.assertIn("p1", page.text("#detail h2"))
        page.press("escape")
        page.click("#help")
        self.assertTrue(page.run("return document.getElementById('keys').open"))
        page.press("escape")
        self.assertFalse(page.run("return document.getElementById('keys').open"))
        self.is_quiet()

    def test_nodes_by_keys(self):
        page = self.opened(M2)
        page.run("document.getElementById('node1').focus()")
        page.press("enter")
        self.assertIn("B ", page.text("#detail h2"))
        labels = page.run(
            "return [...document.querySelectorAll('.node')].map((one) => one.getAttribute('aria-label'))"
        )
        self.assertEqual(labels, ["node A", "node B, 2 SIDs", "node C", "node D, 2 SIDs"])
        self.is_quiet()

    def test_packets_are_those_of_trace(self):
        for net, node, capture in (
            (M2, "B", EXAMPLES / "srh.bin"), (NET, "br1", DOMAIN / "arriving.pcap"),
        ):  # fmt: skip
            given = capture.read_bytes()
            page = self.opened(net, capture, "--at", node)
            out = run_program(["trace", net, node], given).out.decode()
            lines = run_program(["run", net, node], given).err.splitlines()
            walks = trace_of(out.splitlines(), "trace").walks
            self.assertEqual(len(page.texts(".rows li")), len(walks))
            for number, walk in enumerate(walks):
                page.click(f"#walk{number}")
                end = page.text("#walkend")[2:]
                self.assertIn(f"packet {walk.number}: {end}", lines)
                self.stages_are(walk.stages, page, at=walk.node)
            self.is_quiet()

    def stages_are(self, stages, page: Browser, at: str) -> None:
        """The stages of the walk that is open, stepped through by the arrow key."""
        links = {link["name"]: link for link in page.run("return NET.links")}
        names = [node["name"] for node in page.run("return NET.nodes")]
        for turn, stage in enumerate(stages, 1):
            self.assertEqual(page.text("#stagenumber"), f"stage {turn} of {len(stages)}")
            self.assertEqual(page.text("#decision strong"), at)
            said = page.text("#decision")
            self.assertRegex(page.text("#rfc"), r"RFC \d+ section|own rule")
            if stage.packet is not None:
                self.assertEqual(page.run(SHOWN_BYTES), stage.packet.hex())
            if stage.kind == "send":
                self.assertRegex(said, rf"sends it on {re.escape(stage.link)}[ ,.]")
                now = page.run("return document.querySelector('.step.now').dataset.link")
                self.assertEqual(list(links)[int(now)], stage.link)
                to = links[stage.link]["to"]
                at = names[to] if to >= 0 else ""
            elif stage.sid:
                self.assertIn(stage.sid, said)
            elif stage.kind == "drop":
                self.assertIn(f"drops it ({stage.reason})", said)
                self.assertEqual("sends ICMPv6" in said, stage.packet is not None)
            page.press("right")
        page.press("home")
        self.assertEqual(page.text("#stagenumber"), f"stage 1 of {len(stages)}")

    def test_headers(self):
        page = self.opened(M2, EXAMPLES / "srh.bin", "--at", "B")
        changed = [re.sub(" .*", "", text) for text in page.texts(".field.changed i")]
        self.assertEqual(changed, ["hop", "destination", "Segments"] * 2)
        after = page.texts(".packet:last-child .field.changed")
        self.assertEqual(after, ["hop limit 63", "destination fcbb:bb00:4::", "Segments Left 0"])
        lit = "return [...document.querySelectorAll('.byte.lit')].map((one) => Number(one.dataset.byte))"
        page.point(".packet:last-child [data-field='7']")
        self.assertEqual(page.run(lit), list(range(24, 40)))
        page.point(".packet:first-child [data-byte='7']")
        self.assertEqual(page.run(lit), [7])
        self.assertEqual(page.texts(".field.lit"), ["hop limit 64"])
        page.run("document.querySelector(\".packet [data-field='6']\").focus()")
        self.assertEqual(page.run(lit), list(range(8, 24)))
        page.press("end")
        self.assertIn("pointer 80", page.text("#decision"))
        self.assertIn("The ICMPv6 error that D sends", page.text(".pair"))
        self.is_quiet()

    def test_slider_and_playing(self):
        page = self.opened(M2, EXAMPLES / "srh.bin", "--at", "B")
        page.run("const s = document.getElementById('slider'); s.value = 2; s.dispatchEvent(new Event('input'))")
        self.assertEqual(page.text("#stagenumber"), "stage 3 of 4")
        page.press("left")  # the slider has the focus
        self.assertEqual(page.text("#stagenumber"), "stage 2 of 4")
        page.click("#after")
        self.assertEqual(page.text("#stagenumber"), "stage 3 of 4")
        page.press("home")
        page.click("#play")
        self.assertEqual(page.text("#play"), "Stop")
        end = time.monotonic() + 15
        while page.text("#stagenumber") != "stage 4 of 4" and time.monotonic() < end:
            time.sleep(0.1)
        self.assertEqual(page.text("#stagenumber"), "stage 4 of 4")
        self.assertEqual(page.text("#play"), "Play")
        self.is_quiet()

    def test_fan(self):
        capture = DOMAIN / "anycast.pcap"
        page = self.opened(NET, capture, "--at", "pe1")
        ran = run_here("all-paths", NET, "pe1", "--json", given=capture.read_bytes())
        walks = json.loads(ran.out)["packets"][0]["walks"]
        self.assertEqual(page.text("#fan"), f"All walks: {walks}")
        page.press("f")
        self.assertEqual(page.run("return document.getElementById('fan').ariaPressed"), "true")
        crossed = page.run(
            "return Object.fromEntries([...document.querySelectorAll('.fan')].map("
            "(one) => [NET.links[one.dataset.link].name, one.textContent]))"
        )
        self.assertEqual((crossed["pe1-p1"], crossed["pe1-p2"]), ("2", "1"))
        self.assertEqual(sum(int(one) for one in page.texts("#fanends td:first-child")), walks)
        self.assertEqual(len(page.texts(".way")), walks)
        page.click(".way")
        self.assertIn("left blue-4", page.text("#legend"))
        self.is_quiet()

    def test_lists(self):
        page = self.opened(NET, DOMAIN / "red.toml", DOMAIN / "green.toml", DOMAIN / "no-list.toml")
        for number, name in enumerate(("red.toml", "green.toml")):
            report = run_program(["compile", NET, DOMAIN / name]).out
            verdict = run_program(["check", NET, DOMAIN / name, self.file("c", report)]).out.decode()
            self.assertEqual(page.text(f"#list{number} .check"), verdict.strip())
            addresses = re.findall("# container (.*)", report.decode())
            self.assertEqual(page.texts(f"#list{number} .address"), addresses)
            paths = re.findall("path [a-z]+ (.*)", report.decode())
            self.assertEqual(page.texts(f"#list{number} .sids button"), paths)
        bits = page.texts("#list0 .bit .mono")
        self.assertEqual(bits, ["fcbbbb00", "0001", "0003", "0031", "0003", "0013", "f100"])
        on = "return [...document.querySelectorAll('.node.on')].map((one) => one.textContent)"
        page.click("#list0 .bit.of2")
        self.assertEqual(len(page.texts("#list0 .pick")), 2)
        self.assertTrue(any(text.startswith("fw1") for text in page.run(on)))
        page.click("#list1 .along")
        self.assertIn("Packet 1, along green.toml", page.text("#walker"))
        page.press("right")
        self.assertEqual(page.text("#stagenumber").split()[1], "2")
        page.click("#pick0")
        page.click("#pick2")
        self.assertEqual(page.texts(".list h2"), ["green.toml", "no-list.toml"])
        self.assertEqual(page.text("#list2 .check"), "none")
        self.assertIn("no answer NoList", page.text("#list2"))
        self.is_quiet()

    def test_both_preferences(self):
        """What the two lists come to stands side by side, and where they differ is said by a sign too."""
        page = self.opened("--preferences", NET, DOMAIN / "red.toml", DOMAIN / "no-list.toml")
        self.assertEqual(page.texts("#comparison thead th"), [
            "= Containers", "\u2260 SIDs", "= Header", "= Need", "= Walks", "\u2260 Certificate",
        ])  # fmt: skip
        self.assertEqual(page.texts("#comparison tbody th"), ["red.toml, need", "red.toml, sids"])
        self.assertEqual(page.texts("#comparison tbody td"), [
            "1", "6", "40", "6", "2", "form 1: least 1 6", "1", "3", "40", "6", "2", "form 2: least 1 3 6",
        ])  # fmt: skip
        self.assertEqual(len(page.texts("#comparison .differs")), 6)
        self.assertEqual(page.texts(".list h2"), ["red.toml, need", "red.toml, sids"])
        self.assertEqual([len(page.texts(f"#list{number} .sids li")) for number in (0, 1)], [6, 3])
        for number, words in ((0, "as many and a smaller need"), (1, "as many and fewer SIDs")):
            self.assertIn(words, page.text(f"#list{number} .verdict"))
            self.assertIn("Packets spread over 2 walks up to the hand-over.", page.text(f"#list{number}"))
        page.click("#list1 .along")
        self.assertIn("Packet 1, along red.toml, sids", page.text("#walker"))
        for box in range(4):
            page.click(f"#pick{box}")
        self.assertEqual(page.texts("#comparison tbody tr")[1], "no-list.toml, sidsnonenonenonenonenoneform 2: none")
        page.click("#pick2")
        self.assertEqual((page.texts("#comparison"), page.texts(".list h2")), ([], ["no-list.toml, sids"]))
        self.assertEqual(page.nameless(), [])
        self.is_quiet()

    def test_what_if(self):
        table = json.loads((DOMAIN / "what-if.json").read_text())
        page = self.opened(NET, DOMAIN / "what-if.json")
        self.assertEqual(len(page.texts(".cell")), 84)
        lost = {"at_once": 0, "traffic": 0}
        for row, cells in enumerate(table["cells"]):
            for column, cell in enumerate(cells):
                breaks = [key for key in lost if not cell[key]["arrives"]]
                if breaks:
                    page.run(f"document.getElementById('cell0-{row}-{column}').click()")
                    self.assertIn(cell["answer"], page.text("#cellsaid"))
                    self.breaks_as(cell[breaks[0]]["end"], table["failures"][row]["links"])
                for key in breaks:
                    lost[key] += 1
        self.assertEqual(lost, {"at_once": 18, "traffic": 3})
        self.assertEqual(page.text("#cell0-0-1"), "= 1/7\u00d7 at first")
        page.click("#cell0-6-2")
        self.assertEqual(page.texts(".when"), ["\u00d7 at first", "\u00d7 later"])
        page.click(".when:last-child")
        self.breaks_as(table["cells"][6][2]["traffic"]["end"], ["p1-p3-2", "p3-p1-2"])
        kept = page.text("#cell0-1-0")
        self.assertEqual(kept, "= 1/6arrives")
        page.run("document.querySelector('.heatbox').scrollTop = 0")
        page.click("#cell0-1-0")
        self.assertEqual(len(page.texts(".link.broken")), 2)
        self.is_quiet()

    def test_what_if_of_nodes(self):
        table = json.loads((DOMAIN / "what-if.json").read_text())
        table["failures"][0] |= {"name": "p1", "nodes": ["p1"]}
        table["cells"][0][0] |= {"state": "none", "why": "pe1 has no other SID", "largest_inner": 1460}
        page = self.opened(NET, self.file("nodes.json", json.dumps(table)))
        page.click("#cell0-0-0")
        said = page.text("#cellsaid")
        self.assertIn("pe1 has no other SID. The largest inner packet has 1460 bytes.", said)
        broken = "return [...document.querySelectorAll('.node.broken')].map((one) => one.id)"
        self.assertEqual(page.run(broken), ["node4"])
        self.assertEqual(page.text("#legend"), "Crossed: links and nodes that failed")
        page.press("left")
        self.assertEqual(page.run(broken), ["node4"])
        page.run("document.querySelector('.heatbox').scrollTop = 0")
        page.click("#cell0-1-0")
        self.assertEqual((page.run(broken), page.text("#legend")), ([], "Crossed: links that failed"))
        self.is_quiet()

    def breaks_as(self, end: str, links: list[str]) -> None:
        """The walk that is open ends so, and these links are marked as broken."""
        page = self.browser
        self.assertEqual(page.text("#walkend")[2:], end)
        self.assertIn(end.split()[1], page.text("#decision"))
        marked = (
            "return [...document.querySelectorAll('.link.broken')].map("
            "(one) => NET.links[one.dataset.link].name)"
        )
        self.assertEqual(page.run(marked), links)

    def test_views_by_keys(self):
        page = self.opened(NET, DOMAIN / "red.toml", DOMAIN / "customers.pcap", DOMAIN / "what-if.json")
        selected = "return document.querySelector('[aria-current=page]').dataset.view"
        for key, name in (("1", "network"), ("2", "packets"), ("3", "lists"), ("4", "whatif")):
            page.press(key)
            self.assertEqual(page.run(selected), name)
        page.press("2", "down", "down")
        self.assertEqual(page.run("return document.querySelector('[aria-current=true]').id"), "walk3")
        self.assertEqual(len(page.texts(".unread li")), 4)
        for key in "1234":
            page.press(key)
            self.assertEqual(page.nameless(), [])
        self.is_quiet()

    def test_themes_and_print(self):
        dark = Browser(dark=True)
        self.addCleanup(dark.close)
        ran = run_tool("view", M2, EXAMPLES / "srh.bin", "--at", "B")
        dark.open(self.file("page.html", ran.raw))
        theme = "return document.documentElement.dataset.theme"
        self.assertEqual(dark.run(theme), "dark")
        back = "return getComputedStyle(document.body).backgroundColor"
        self.assertEqual(dark.run(back), "rgb(18, 24, 30)")
        dark.emulate("print")
        self.assertEqual(dark.run(back), "rgb(255, 255, 255)")
        dark.emulate("screen")
        dark.press("t")
        self.assertEqual((dark.run(theme), dark.run(back)), ("light", "rgb(255, 255, 255)"))
        dark.emulate("print")
        hidden = "return getComputedStyle(document.querySelector('.search')).display"
        self.assertEqual(dark.run(hidden), "none")
        seen = "return document.querySelector('#detail').getBoundingClientRect().height"
        self.assertGreater(dark.run(seen), 100)
        self.assertTrue(dark.printed().startswith(b"%PDF-"))
        self.assertEqual(dark.console(), [])


if __name__ == "__main__":
    unittest.main()
