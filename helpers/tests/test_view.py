"""view: what its page has of a network, of packets, lists and failures, against the program's
answers; the page itself is opened in test_view_page.py.
"""

import json
import os
import re
import subprocess
import unittest
import unittest.mock
from ipaddress import IPv6Address

from srv6tools.captures import sent_in
from srv6tools.decisions import RFC_OF, RFC_OF_REASON
from srv6tools.description import BEHAVIOURS, read_network
from srv6tools.layout import commented, positions
from srv6tools.page_packets import changes_of
from srv6tools.fields import dissected
from srv6tools.program import run_program
from srv6tools.say_others import REASONS
from srv6tools.trace import trace_of
from support import EXAMPLES, HELPERS, ToolCase, needs_program, run_here

M2, INTENT, DOMAIN = EXAMPLES / "m2.toml", EXAMPLES / "intent.toml", EXAMPLES / "domain"
PAGE = HELPERS / "srv6tools" / "page"
ROWS = HELPERS.parent / "crates" / "worked_rows" / "data"


def data_of(page: str) -> dict:
    """The data of a page."""
    found = re.search(r'<script type="application/json" id="data">(.*)</script>', page)
    assert found
    return json.loads(found[1])


def bytes_of(data: dict, view: int) -> str:
    """The bytes of a packet of a page, in hexadecimal."""
    row = data["views"][view]
    if len(row) == 3:
        return row[1]
    text = bytes_of(data, row[0])
    for at, digits in row[2]:
        text = text[: 2 * at] + digits + text[2 * at + len(digits) :]
    return text


def luminance(colour: str) -> float:
    """The relative luminance of a colour (WCAG 2.1)."""
    parts = [int(colour[at : at + 2], 16) / 255 for at in (1, 3, 5)]
    linear = [c / 12.92 if c <= 0.04045 else ((c + 0.055) / 1.055) ** 2.4 for c in parts]
    return 0.2126 * linear[0] + 0.7152 * linear[1] + 0.0722 * linear[2]


def contrast(one: str, other: str) -> float:
    """The contrast of two colours."""
    high, low = sorted((luminance(one), luminance(other)), reverse=True)
    return (high + 0.05) / (low + 0.05)


@needs_program
class View(ToolCase):
    def page(self, *words) -> str:
        ran = run_here("view", *words)
        self.assertEqual((ran.status, ran.err), (0, ""))
        return ran.out

    def walks_are_those_of_trace(self, data: dict, net, node: str, capture) -> int:
        """Each walk of a page has the stages, bytes and links of `srv6 trace`, and its end is the
        line of `srv6 run`.
        """
        given = capture.read_bytes()
        text = run_program(["trace", net, node], given).out.decode()
        walks = trace_of(text.splitlines(), "trace").walks
        lines = run_program(["run", net, node], given).err.splitlines()
        names = [link["name"] for link in data["net"]["links"]]
        shown = [data["walks"][number] for number in data["groups"][0]["walks"]]
        self.assertEqual(len(shown), len(walks))
        for row, walk in zip(shown, walks):
            self.assertEqual(bytes_of(data, row["view"]), walk.packet.hex())
            self.assertIn(f"packet {row['number']}: {data['texts'][row['end']]}", lines)
            self.assertEqual(len(row["stages"]), len(walk.stages))
            for stage, said in zip(row["stages"], walk.stages):
                self.assertEqual(data["texts"][stage[1]], said.kind)
                self.assertEqual(names[stage[5]] if stage[5] >= 0 else None, said.link)
                packet = bytes_of(data, stage[6]) if stage[6] >= 0 else None
                self.assertEqual(packet, said.packet.hex() if said.packet is not None else None)
                if said.sid:
                    self.assertEqual(data["net"]["sids"][stage[9]]["prefix"], said.sid)
        return sum(len(walk.stages) for walk in walks)

    def test_walks_are_those_of_trace(self):
        stages = 0
        for net, node, capture in (
            (M2, "B", EXAMPLES / "srh.bin"),
            (EXAMPLES / "behaviours.toml", "N", EXAMPLES / "behaviours.pcap"),
            (EXAMPLES / "csids.toml", "A", EXAMPLES / "csids.pcap"),
            (DOMAIN / "net.toml", "br1", DOMAIN / "arriving.pcap"),
            (DOMAIN / "net.toml", "pe1", DOMAIN / "anycast.pcap"),
            (DOMAIN / "net.toml", "pe1", DOMAIN / "customers.pcap"),
        ):
            node = node if node in read_network(net).nodes else next(iter(read_network(net).nodes))
            with self.subTest(capture=capture.name):
                data = data_of(self.page(net, capture, "--at", node))
                stages += self.walks_are_those_of_trace(data, net, node, capture)
        self.assertGreater(stages, 100)

    def test_worked_rows(self):
        """So are those of every sixth worked row that `run` and `trace` have, but for what is cut."""
        compared = 0
        for file in sorted(ROWS.rglob("args"))[::6]:
            command, *words = file.read_text().split()
            net, given = file.parent / (words or ["-"])[0], file.parent / "stdin"
            if command not in ("run", "trace") or not net.is_file() or not given.is_file():
                continue
            if run_program(["trace", net, *words[1:]], given.read_bytes()).status or words[2:]:
                continue
            with self.subTest(row=file.parent.name):
                data = data_of(self.page(net, given, "--at", words[1], "--no-fans"))
                if not any(walk["more"] for walk in data["walks"]):
                    self.walks_are_those_of_trace(data, net, words[1], given)
                    compared += 1
        self.assertGreater(compared, 30)

    def test_inner_packets(self):
        data = data_of(self.page(DOMAIN / "net.toml", DOMAIN / "red.toml", DOMAIN / "customers.pcap"))
        group = data["groups"][0]
        words = ["walk", DOMAIN / "net.toml", DOMAIN / "red.toml"]
        lines = run_program(words, (DOMAIN / "customers.pcap").read_bytes()).err.splitlines()
        unread = [f"packet {number}: not read, {cause}" for number, cause in group["unread"]]
        ends = [data["walks"][number] for number in group["walks"]]
        shown = [f"packet {row['number']}: {data['texts'][row['end']]}" for row in ends]
        self.assertEqual(sorted(unread + shown), sorted(lines))
        self.assertEqual(len(unread), 4)

    def test_choices_are_those_of_walk(self):
        """The links of inner packets are those of the frames of `srv6 walk` under the choices."""
        given = (DOMAIN / "customers.pcap").read_bytes()
        seen = set()
        for choices in ("0", "1", "1,0", "0,1,1"):
            words = [DOMAIN / "net.toml", DOMAIN / "by-firewall.toml"]
            data = data_of(self.page(*words, DOMAIN / "customers.pcap", "--choices", choices, "--no-fans"))
            links: dict[int, list[int]] = {}
            out = run_program(["walk", *words, choices], given).out
            for sent in sent_in(out, "walk"):
                if sent.link:
                    links.setdefault(sent.packet, []).append(sent.link - 1)
            walks = [data["walks"][number] for number in data["groups"][0]["walks"]]
            shown = {
                walk["number"]: [row[5] for row in walk["stages"] if row[5] >= 0] for walk in walks
            }
            self.assertEqual({n: way for n, way in shown.items() if way}, links)
            seen.add(json.dumps(links))
        self.assertGreater(len(seen), 1)

    def test_an_intent_without_a_list_has_no_packets(self):
        words = [DOMAIN / "net.toml", DOMAIN / "no-list.toml", DOMAIN / "customers.pcap"]
        data = data_of(self.page(*words))
        self.assertEqual((data["groups"], len(data["lists"])), ([], 1))

    def test_fans_are_those_of_all_paths(self):
        capture = DOMAIN / "anycast.pcap"
        data = data_of(self.page(DOMAIN / "net.toml", capture, "--at", "pe1"))
        ran = run_here("all-paths", DOMAIN / "net.toml", "pe1", "--json", given=capture.read_bytes())
        packets = json.loads(ran.out)["packets"]
        walks = [data["walks"][number] for number in data["groups"][0]["walks"]]
        fans = [data["fans"][walk["fan"]] for walk in walks]
        self.assertEqual([fan["walks"] for fan in fans], [str(one["walks"]) for one in packets])
        self.assertEqual([int(fan["walks"]) for fan in fans], [3])
        for fan in fans:
            self.assertEqual(sum(int(times) for _, times in fan["ends"]), int(fan["walks"]))
            self.assertEqual(len(fan["ways"]), int(fan["walks"]))
            by_way: dict[int, int] = {}
            for links, _ in fan["ways"]:
                for link in links:
                    by_way[link] = by_way.get(link, 0) + 1
            self.assertEqual(by_way, {link: int(times) for link, times in fan["links"]})

    def test_fans_are_counted_as_far_as_the_program_may_be_asked(self):
        """Of packets whose walks aren't all found then nothing is counted, and it is said."""
        words = [DOMAIN / "net.toml", DOMAIN / "arriving.pcap", "--at", "br1"]
        whole = data_of(self.page(*words))
        with (
            unittest.mock.patch("srv6tools.page_groups.LEAST_CALLS", 1),
            unittest.mock.patch("srv6tools.page_groups.ENTRIES", 0),
        ):
            cut = data_of(self.page(*words))
        uncounted = cut["groups"][0]["uncounted"]
        fans = [walk["fan"] for walk in cut["walks"]]
        self.assertEqual((whole["groups"][0]["uncounted"], fans.count(-1)), (0, uncounted))
        self.assertTrue(0 < uncounted < len(fans), uncounted)
        for one, other in zip(cut["walks"], whole["walks"]):
            if one["fan"] >= 0:
                fan, wanted = cut["fans"][one["fan"]], whole["fans"][other["fan"]]
                self.assertEqual((fan["walks"], fan["links"]), (wanted["walks"], wanted["links"]))

    def test_lists(self):
        for net, intent in (
            (M2, INTENT), (EXAMPLES / "compressed.toml", INTENT), (EXAMPLES / "nested.toml", INTENT),
            (EXAMPLES / "policy.toml", INTENT), (M2, EXAMPLES / "by-way-of.toml"),
            *((DOMAIN / "net.toml", DOMAIN / name) for name in ("red.toml", "green.toml", "blue.toml")),
        ):  # fmt: skip
            with self.subTest(net=net.name, intent=intent.name):
                shown = data_of(self.page(net, intent))["lists"][0]
                report = run_program(["compile", net, intent])
                kept = self.file("cert", report.out)
                verdict = run_program(["check", net, intent, kept]).out.decode().strip()
                self.assertEqual(shown["check"], verdict)
                addresses = re.findall("# container (.*)", report.out.decode())
                self.assertEqual([one["address"] for one in shown["containers"]], addresses)
                for one in shown["containers"]:
                    self.assertEqual(sum(bits[1] for bits in one["bits"]), 128)
                    digits = "".join(bits[4] for bits in one["bits"])
                    self.assertEqual(int(digits, 16), int(IPv6Address(one["address"])))
                paths = re.findall("path (new|stay) (.*)", report.out.decode())
                sids = [("stay" if one["stays"] else "new", one["prefix"]) for one in shown["sids"]]
                self.assertEqual(sids, paths)
                placed = [bits[3] for one in shown["containers"] for bits in one["bits"]]
                self.assertEqual(sorted(one for one in placed if one >= 0)[-1], len(sids) - 1)
                self.assertTrue(all(one["stage"] >= 0 for one in shown["sids"]))

    def test_a_list_that_there_is_not(self):
        shown = data_of(self.page(DOMAIN / "net.toml", DOMAIN / "no-list.toml"))["lists"][0]
        self.assertEqual((shown["check"], shown["containers"], shown["walk"]), ("none", [], -1))
        self.assertIn("no answer NoList", shown["refusal"])

    def test_before_and_after_an_update(self):
        old, new = EXAMPLES / "compressed.toml", EXAMPLES / "renumbered.toml"
        lists = data_of(self.page("--new", new, old, INTENT))["lists"]
        self.assertEqual([one["label"] for one in lists], ["intent.toml, before", "intent.toml, after"])
        for net, shown in zip((old, new), lists):
            out = run_program(["compile", net, INTENT]).out.decode()
            self.assertEqual([shown["containers"][0]["address"]], re.findall("# container (.*)", out))
        self.assertNotEqual(lists[0]["containers"], lists[1]["containers"])
        self.named_answer(run_here("view", "--new", DOMAIN / "net.toml", old, INTENT), [1])

    def preferring(self, intent, preference: str):
        """A file with an intent's text, and another preference."""
        text = re.sub('(?m)^prefer = .*\n', "", intent.read_text())
        return self.file(f"{preference}-{intent.name}", f'prefer = "{preference}"\n{text}')

    def test_both_preferences(self):
        """The lists of either preference are those of the intent with that one in its text."""
        net, fewer = DOMAIN / "net.toml", 0
        for intent in ("red.toml", "by-firewall.toml", "green.toml", "blue.toml", "any-way.toml"):
            lists = data_of(self.page("--preferences", net, DOMAIN / intent))["lists"]
            self.assertEqual([one["label"] for one in lists], [f"{intent}, need", f"{intent}, sids"])
            for form, (preference, shown) in enumerate(zip(("need", "sids"), lists), 1):
                with self.subTest(intent=intent, prefer=preference):
                    path = self.preferring(DOMAIN / intent, preference)
                    out = run_program(["compile", net, path]).out
                    said = run_program(["check", net, path, self.file("cert", out)]).out.decode().strip()
                    self.assertEqual((shown["check"], shown["form"], shown["prefer"]), (said, form, preference))
                    numbers = [len(shown["containers"]), shown["need"]]
                    if form == 2:
                        numbers.insert(1, len(shown["sids"]))
                    self.assertEqual(said.split(), ["least", *map(str, numbers)])
                    addresses = re.findall("# container (.*)", out.decode())
                    self.assertEqual([one["address"] for one in shown["containers"]], addresses)
                    self.assertTrue(all(one["stage"] >= 0 for one in shown["sids"]))
                    count = run_here("all-paths", "--count", net, path).out.split()
                    self.assertEqual(["walks", shown["walks"]], count[:2])
            by_need, by_sids = lists
            self.assertEqual(len(by_need["containers"]), len(by_sids["containers"]))
            is_same = [by_need[key] for key in ("containers", "sids")] == [by_sids[key] for key in ("containers", "sids")]
            self.assertEqual((by_need["same"], by_sids["same"]), ("", by_need["label"] if is_same else ""))
            fewer += len(by_sids["sids"]) < len(by_need["sids"])
        self.assertGreater(fewer, 3)

    def test_options_may_stand_anywhere(self):
        intent, net = DOMAIN / "red.toml", DOMAIN / "net.toml"
        pages = {
            self.page("--preferences", "--no-fans", net, intent), self.page(net, intent, "--preferences", "--no-fans"),
            self.page(net, "--preferences", intent, "--no-fans"),
        }  # fmt: skip
        self.assertEqual(len(pages), 1)

    def test_both_preferences_of_what_has_one_list_or_none(self):
        lists = data_of(self.page("--preferences", M2, INTENT))["lists"]
        self.assertEqual([one["same"] for one in lists], ["", "intent.toml, need"])
        self.assertEqual([one["check"] for one in lists], ["least 4 4", "least 4 4 4"])
        lists = data_of(self.page("--preferences", DOMAIN / "net.toml", DOMAIN / "no-list.toml"))["lists"]
        self.assertEqual([(one["check"], one["same"], one["walks"]) for one in lists], [("none", "", "")] * 2)
        words = ["--preferences", "--new", EXAMPLES / "renumbered.toml", EXAMPLES / "compressed.toml", INTENT]
        lists = data_of(self.page(*words, "--no-fans"))["lists"]
        labels = [f"intent.toml, {when}, {which}" for when in ("before", "after") for which in ("need", "sids")]
        self.assertEqual([(one["label"], one["walks"]) for one in lists], [(label, "") for label in labels])

    def test_walks_are_counted_as_far_as_the_program_may_be_asked(self):
        with (
            unittest.mock.patch("srv6tools.page_groups.LEAST_CALLS", 1),
            unittest.mock.patch("srv6tools.page_groups.ENTRIES", 0),
        ):
            lists = data_of(self.page("--preferences", DOMAIN / "net.toml", DOMAIN / "red.toml"))["lists"]
        self.assertEqual([one["walks"] for one in lists], ["", ""])

    def test_what_if(self):
        data = data_of(self.page(DOMAIN / "net.toml", DOMAIN / "what-if.json"))
        table = json.loads((DOMAIN / "what-if.json").read_text())
        shown = data["tables"][0]
        self.assertEqual(shown["intents"], table["intents"])
        cells = 0
        for row, wanted in zip(shown["failures"], table["cells"], strict=True):
            for cell, one in zip(row["cells"], wanted, strict=True):
                cells += 1
                self.assertEqual((cell["state"], cell["answer"]), (one["state"], one["answer"]))
                for key in ("at_once", "traffic"):
                    self.assertEqual(cell[key]["end"], one[key]["end"])
                    self.assertEqual(cell[key]["arrives"], one[key]["arrives"])
                    if one[key]["trace"]:
                        lines = one[key]["trace"].splitlines()
                        walk = data["walks"][cell[key]["walk"]]
                        self.assertEqual(len(walk["stages"]), len(lines) - 2)
        self.assertEqual(cells, 84)

    def test_what_if_without_traffic(self):
        """What may be absent may be: a cell without packets, and one with packets at one time alone."""
        table = json.loads((DOMAIN / "what-if.json").read_text())
        first, second, *others = table["cells"][0]
        for cell in (first, *others):
            del cell["at_once"]
        for cell in (second, *others):
            cell["traffic"] = None
        small = table | {"failures": table["failures"][:1], "cells": table["cells"][:1]}
        cells = data_of(self.page(DOMAIN / "net.toml", self.file("small.json", json.dumps(small))))
        shown = cells["tables"][0]["failures"][0]["cells"]
        there = [(cell["at_once"] is not None, cell["traffic"] is not None) for cell in shown]
        self.assertEqual(there, [(False, True), (True, False), (False, False), (False, False)])
        small["cells"][0][0]["traffic"] = []
        ran = run_here("view", DOMAIN / "net.toml", self.file("wrong.json", json.dumps(small)))
        self.assertIn("failure 1, intent 1: `traffic` is no object", ran.err)

    def test_what_if_of_nodes(self):
        """A failure may have nodes, and a cell why there is no list, and the largest inner packet."""
        table = json.loads((DOMAIN / "what-if.json").read_text())
        small = table | {"failures": [table["failures"][0] | {"nodes": ["p1"]}], "cells": table["cells"][:1]}
        small["cells"][0][0] |= {"why": "no SID of p1 is left", "largest_inner": 1460}
        shown = data_of(self.page(DOMAIN / "net.toml", self.file("nodes.json", json.dumps(small))))
        row = shown["tables"][0]["failures"][0]
        self.assertEqual([shown["net"]["nodes"][node]["name"] for node in row["nodes"]], ["p1"])
        told = [(cell["why"], cell["largest_inner"]) for cell in row["cells"]]
        self.assertEqual(told, [("no SID of p1 is left", 1460)] + [("", None)] * 3)
        for wrong, said in (({"nodes": ["p9"]}, "has no node 'p9'"), ({"nodes": "p1"}, "no list")):
            small["failures"] = [table["failures"][0] | wrong]
            ran = run_here("view", DOMAIN / "net.toml", self.file("wrong.json", json.dumps(small)))
            self.assertEqual((ran.status, ran.out), (1, ""))
            self.assertIn("failure 1: ", ran.err)
            self.assertIn(said, ran.err)

    def test_what_if_example_is_what_its_script_writes(self):
        done = subprocess.run([DOMAIN / "what-if"], capture_output=True, text=True)
        said = [line for line in done.stderr.splitlines() if not line.endswith(" ..")]  # progress where there is other work
        self.assertEqual((done.returncode, said), (0, []))
        self.assertEqual(done.stdout, (DOMAIN / "what-if.json").read_text())

    def test_refusals_are_one_line(self):
        for words, status, said in (
            ([M2, EXAMPLES / "srh.bin"], 2, "--at NODE"),
            ([M2, EXAMPLES / "srh.bin", "--at", "b"], 1, 'no node "b"'),
            ([M2, "--new", M2], 2, "needs an intent"),
            ([M2, "--preferences"], 2, "needs an intent"),
            (["--preferences", DOMAIN / "net.toml", INTENT], 1, "intent.toml: refused"),
            ([M2, EXAMPLES / "no-such"], 5, "No such file"),
            ([M2, EXAMPLES / "srh.bin", "--at", "B", "--choices", "x"], 2, "no list of numbers"),
            ([M2, self.file("a.json", '{"kind": "else"}')], 1, "what-if"),
            ([DOMAIN / "net.toml", INTENT], 1, "refused"),
        ):
            ran = run_here("view", *words)
            self.assertEqual((ran.status, ran.out), (status, ""))
            self.assertEqual(len(ran.err.splitlines()), 1)
            self.assertIn(said, ran.err)

    def test_the_same_each_time(self):
        words = [DOMAIN / "net.toml", DOMAIN / "red.toml", DOMAIN / "customers.pcap"]
        pages = set()
        for seed in ("1", "2"):
            asked = [str(HELPERS / "view"), *map(str, words)]
            done = subprocess.run(asked, capture_output=True, env=os.environ | {"PYTHONHASHSEED": seed})
            pages.add(done.stdout)
        self.assertEqual(len(pages), 1)
        self.assertGreater(len(pages.pop()), 50_000)

    def test_common(self):
        self.helps("view")
        self.survives_closed_pipe("view", M2)

    def test_texts_can_not_leave_their_place(self):
        page = self.page(M2, "--title", "</script><script>alert(1)</script>&")
        self.assertEqual(page.count("<script"), 2)
        self.assertIn("&lt;/script&gt;", page)

    def test_most(self):
        words = [DOMAIN / "net.toml", DOMAIN / "arriving.pcap", "--at", "br1", "--most", "2", "--no-fans"]
        data = data_of(self.page(*words))
        self.assertEqual((len(data["walks"]), data["groups"][0]["left_out"]), (2, 5))
        self.assertEqual([walk["fan"] for walk in data["walks"]], [-1, -1])


class Parts(unittest.TestCase):
    def test_positions(self):
        net = read_network(DOMAIN / "net.toml")
        place = positions(net, {})
        self.assertEqual(place, positions(net, {}))
        points = list(place.values())
        for at, (x, y) in enumerate(points):
            for ox, oy in points[at + 1 :]:
                self.assertGreater((x - ox) ** 2 + (y - oy) ** 2, 50**2)
        fixed = positions(net, {"pe1": (0.0, 0.0), "p1": (200.0, 0.0)})
        self.assertEqual((fixed["pe1"], fixed["p1"]), ((0.0, 0.0), (200.0, 0.0)))

    def test_positions_in_comments(self):
        text = (
            'node = [\n {name = "A", address = "::1"}, # x = 1, y = -2.5\n'
            ' {name = "B", address = "::2"},\n]\n# B x=3 y=4\n# C x=5 y=6\n'
        )
        found = commented(text, ["A", "B"], True)
        self.assertEqual(found, {"A": (1.0, -2.5), "B": (3.0, 4.0)})
        self.assertEqual(commented(text, ["A", "B"], False), {"B": (3.0, 4.0)})

    def test_sections(self):
        self.assertEqual(set(RFC_OF), set(BEHAVIOURS))
        self.assertLessEqual(set(RFC_OF_REASON), set(REASONS))
        written = (HELPERS.parent / "docs" / "BEHAVIOUR.md").read_text()
        for section in {part for one in RFC_OF_REASON.values() for part in one.split(", ")}:
            number = section.split()[1]
            self.assertIn(f"RFC {number}", written, section)

    @needs_program
    def test_changes(self):
        text = run_program(["trace", M2, "B"], (EXAMPLES / "srh.bin").read_bytes()).out.decode()
        walk = trace_of(text.splitlines(), "trace").walks[0]
        before, after = dissected([walk.packet, walk.stages[0].packet])
        found = changes_of(before, after)
        names = [field.name for part in after for field in part.fields]
        self.assertEqual([names[at] for at in found.after], ["hop limit", "destination", "Segments Left"])
        self.assertEqual((found.gone, found.new), ([], []))

    def test_contrast(self):
        """Text has a contrast of at least 4.5 in both themes (WCAG 2.1, 1.4.3)."""
        style = (PAGE / "page.css").read_text()
        light, dark = re.findall(r":root(?:\[data-theme=\"dark\"\])? \{(.*?)\}", style, re.S)[:2]
        pairs = (
            "ink page, ink panel, soft page, soft panel, bad page, bad panel, good page, good panel,"
            " warn page, warn panel, pick page, pickink pick, ink hover, ink changed, ink new,"
            " ink gone, soft new, soft gone, good new, bad gone, ink badback, ink goodback,"
            " ink warnback, ink greyback, bad badback, bad greyback, now page, soft changed"
        )
        for theme in (light, dark):
            colours = dict(re.findall(r"--([a-z]+): (#[0-9a-f]{6})", theme))
            for pair in pairs.split(", "):
                one, other = pair.split()
                with self.subTest(pair, theme="light" if theme is light else "dark"):
                    self.assertGreaterEqual(contrast(colours[one], colours[other]), 4.5)

    def test_nothing_from_elsewhere(self):
        for file in PAGE.iterdir():
            text = file.read_text().replace("http://www.w3.org/2000/svg", "")
            for word in ("http:", "https:", "//cdn", "fetch(", "XMLHttpRequest", "import(", "url(http"):
                self.assertNotIn(word, text, file.name)


if __name__ == "__main__":
    unittest.main()
