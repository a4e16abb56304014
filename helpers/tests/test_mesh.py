"""mesh: the intents of all pairs, their lists, the file of lists, and who takes it."""

import csv
import io
import json
from pathlib import Path

from srv6tools.lists_file import lists_of, read_lists
from support import EXAMPLES, ToolCase, bad_tomls, needs_engine, needs_program, run_here, run_tool

DOMAIN = EXAMPLES / "domain"
BASE, PLAN, NET = (DOMAIN / f"{name}.toml" for name in ("base", "plan", "net"))
RED = """\
from  to       containers  sids  header  need  segments             list
pe1   red-pe3  1           2     40      4     fcbb:bb00:13:f100::  uN pe3, uDT red-pe3
pe3   red-pe1  1           2     40      4     fcbb:bb00:11:f100::  uN pe1, uDT red-pe1
"""


class Words(ToolCase):
    def test_help_and_words(self):
        self.helps("mesh")
        self.assertEqual(run_here("mesh", BASE).status, 2)
        self.assertEqual(run_here("mesh", NET, "--to-title", "red-*", "--jobs", "0").status, 2)

    def test_names_that_there_arent(self):
        for words in (("--to-title", "rod-*"), ("--to-title", "red-*", "--headend", "pe9"), ("--to-title", "red-*", "--via", "p9")):
            with self.subTest(words):
                self.named_answer(run_here("mesh", NET, *words), (1, 2))

    def test_files_that_are_none(self):
        for name, text in bad_tomls():
            with self.subTest(name):
                path = self.file("bad.toml", text)
                self.named_answer(run_here("mesh", path, "--to-title", "red-*"))
                self.named_answer(run_here("mesh", BASE, path, "--to-title", "red-*"))

    def test_lists_that_are_none(self):
        good = {"name": "a", "intent": "", "answer": "NoList", "segments": [], "path": [], "header": 0, "need": 0}
        for text in (
            "", "[]", "{", '{"kind": "what-if", "lists": []}', '{"kind": "lists"}', '{"kind": "lists", "lists": [1]}',
            *(json.dumps({"kind": "lists", "lists": [good | change]}) for change in (
                {}, {"name": 1}, {"answer": "maybe"}, {"need": -1}, {"segments": ["::g"]}, {"path": [{"prefix": "::/0"}]},
                {"answer": "list", "intent": (DOMAIN / "red.toml").read_text()}, {"intent": "step = 1"},
            )),
        ):  # fmt: skip
            with self.subTest(text):
                ran = run_here("to-frr", DOMAIN / "red.toml", "2001:db8::/48", "eth0", given=text.encode())
                self.named_answer(ran, (1, 3))


@needs_engine
class Mesh(ToolCase):
    def mesh(self, *words: str | Path, status: int = 0) -> str:
        ran = run_here("mesh", *words)
        self.assertEqual((ran.status, ran.err), (status, ""))
        return ran.out

    def test_a_plan_and_a_description_give_the_same(self):
        self.assertEqual(self.mesh(NET, "--to-title", "red-*"), RED)
        self.assertEqual(self.mesh(BASE, PLAN, "--to-title", "red-*", "--jobs", "3"), RED)

    def test_strict_ones_keep_to_a_shortest_path(self):
        text = self.mesh(BASE, PLAN, "--headend", "pe1", "--to-title", "red-pe3", "--strict", "--json")
        (one,) = lists_of(text, "")
        self.assertEqual([step.links for step in one.intent.steps[:-1]], [("pe1-p1",), ("p1-p3", "p1-p3-2"), ("p3-p5",), ("p5-pe3",)])
        self.assertEqual((one.need, one.intent.prefer), (4, "sids"))

    def test_waypoints(self):
        words = (NET, "--headend", "pe1", "--to-title", "red-pe3", "--json", "--via", "fw1", "p4")
        (one,) = lists_of(self.mesh(*words), "")
        self.assertEqual([step.reach for step in one.intent.steps], ["fw1", "p4", "pe3", None])
        self.assertEqual(one.names, ("uN fw1", "uN p4", "uN pe3", "uDT red-pe3"))
        (by,) = lists_of(self.mesh(NET, "--headend", "pe3", "--to-title", "red-pe1", "--json", "--via", "green-pe1", status=3), "")
        self.assertEqual([step.function for step in by.intent.steps], [None, "green-pe1", "red-pe1"])
        self.assertEqual(by.answer, "NoList")

    def test_families_and_keys(self):
        words = (NET, "--headend", "pe1", "--to-title", "blue-pe4", "--json", "--prefer", "need", "--mode", "full", "--max-containers", "3")
        (one,) = lists_of(self.mesh(*words), "")
        intent = one.intent
        self.assertEqual((intent.inner, intent.prefer, intent.mode, intent.max_containers), ("ipv4", "need", "full", 3))
        said = self.mesh(NET, "--headend", "pe1", "--to-title", "red-pe3", "--hop-limit", "4", status=3)
        self.assertTrue(said.endswith("  fcbb:bb00:13:f100::  HopLimit uN pe3, uDT red-pe3\n"))

    def test_csv(self):
        rows = list(csv.reader(io.StringIO(self.mesh(NET, "--to-title", "red-*", "--csv"))))
        self.assertEqual(rows[1], ["pe1", "red-pe3", "1", "2", "40", "4", "fcbb:bb00:13:f100::", "uN pe3, uDT red-pe3"])

    def test_what_differs_from_an_earlier_file(self):
        kept = self.file("lists.json", self.mesh(NET, "--to-title", "red-*", "--json"))
        self.assertEqual(len(read_lists(kept)), 2)
        self.assertEqual(self.mesh(NET, "--to-title", "red-*", "--since", kept), "no list differs\n")
        said = self.mesh(NET, "--to-title", "red-pe3", "blue-pe4", "--headend", "pe1", "--via", "p4", "--since", kept)
        self.assertEqual(said.splitlines(), [
            "changed  pe1-to-red-pe3: uN pe3, uDT red-pe3 -> uN p2, uN pe3, uDT red-pe3",
            "new      pe1-to-blue-pe4: uN p2, uN pe4, uDT blue-pe4",
            "gone     pe3-to-red-pe1: uN pe1, uDT red-pe1",
        ])  # fmt: skip

    @needs_program
    def test_headends_take_the_lists(self):
        """From a file of lists comes what comes from `srv6 compile`."""
        folder = self.folder / "intents"
        text = self.mesh(NET, "--to-title", "red-*", "--json", "--intents", folder)
        intent = folder / "pe1-to-red-pe3.toml"
        self.assertEqual(sorted(path.stem for path in folder.iterdir()), ["pe1-to-red-pe3", "pe3-to-red-pe1"])
        from srv6tools.program import run_program

        printed = run_program(["compile", NET, intent]).out
        route, policy = ("2001:db8:c3::/48", "eth0"), ("10", "2001:db8::13")
        for tool, words in (("to-frr", route), ("linux-route", route), ("to-ios-xr", policy), ("to-junos", policy)):
            with self.subTest(tool):
                both = [run_here(tool, intent, *words, given=given) for given in (printed, text.encode())]
                self.assertEqual((both[0].status, both[0].out), (both[1].status, both[1].out))
                self.assertEqual(both[0].status, 0)
        other = self.file("other.toml", intent.read_text())
        self.named_answer(run_here("to-frr", other, *route, given=text.encode()))

    def test_no_engine(self):
        ran = run_tool("mesh", NET, "--to-title", "red-*", SRV6_PCE=str(self.folder / "none"))
        self.assertEqual((ran.status, len(ran.err.splitlines())), (6, 1))
