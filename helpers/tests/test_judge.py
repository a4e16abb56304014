"""judge: verdicts of the worked rows, by the engine where it can and by the model, and the words."""

import json
import unittest
from ipaddress import IPv6Address
from pathlib import Path

from srv6tools.courses import Courses
from srv6tools.description import network_of
from srv6tools.engine import Engine, Judged
from srv6tools.files import parse_toml
from srv6tools.intent import intent_of
from srv6tools.items import prefix_of
from srv6tools.judge import answer_of
from srv6tools.judged import ENGINE, Judging, Situation
from srv6tools.sid_names import SidNames
from support import EXAMPLES, ToolCase, bad_tomls, needs_engine, run_here, run_tool

ROWS = json.loads((Path(__file__).parent / "data" / "judged.json").read_text())
NET, RED, ANY, FIREWALL = (EXAMPLES / "domain" / f"{name}.toml" for name in ("net", "red", "any-way", "by-firewall"))
WHOLE = "fcbb:bb00:1:3:31:3:13:f100"  # the list of red.toml


class FakeEngine:
    """An engine that judges as it is told."""

    def __init__(self, said: Judged) -> None:
        self.said = said

    def judge(self, *_: object) -> Judged:
        return self.said


@needs_engine
class Rows(ToolCase):
    def test_the_model_says_what_the_rows_say(self):
        """Each row of a judged list that was worked by hand."""
        nets = [network_of(parse_toml(text, "net"), "net") for text in ROWS["networks"]]
        self.assertEqual(len(ROWS["cases"]), 54)
        with Engine() as engine:
            for number, text in enumerate(ROWS["networks"]):
                engine.load(str(number), network=text)
            for case in ROWS["cases"]:
                number, segments = case["network"], [IPv6Address(text) for text in case["list"]]
                with self.subTest(case["row"], list=case["list"]):
                    intent = intent_of(parse_toml(case["intent"], "intent"), "intent")
                    here = Situation(engine, str(number), lambda: nets[number])
                    answer = answer_of(here, case["intent"], intent, segments)
                    said = answer.as_json() | {"sids": len(answer.names)}
                    self.assertEqual({key: said[key] for key in case["ok"]}, case["ok"])


class Words(ToolCase):
    def test_help_and_words(self):
        self.helps("judge")
        self.assertEqual(run_here("judge", NET, RED).status, 2)
        self.assertEqual(run_here("judge", NET, RED, "fcbb::g").status, 2)

    def test_the_engine_is_asked_first(self):
        """What it says is taken; the model's words stand beside it only where both say the same."""
        text = RED.read_text()
        net, intent = network_of(parse_toml(NET.read_text(), "net"), "net"), intent_of(parse_toml(text, "i"), "i")
        segments = [IPv6Address("fcbb:bb00:1:3:31:3:14:f100")]
        for cause, has_words in (("astray", True), ("lost", False)):
            engine = FakeEngine(Judged("no", cause=cause, sid=5))
            verdict = Judging().judged(Situation(engine, "n", lambda: net), text, intent, segments, None)
            self.assertEqual((verdict.by, verdict.cause, verdict.sid), (ENGINE, cause, 5))
            self.assertEqual(bool(verdict.why), has_words)

    @needs_engine
    def test_a_list_that_realizes(self):
        ran = run_here("judge", NET, RED, WHOLE)
        self.assertEqual((ran.status, ran.err), (0, ""))
        first, second, third = ran.out.splitlines()
        self.assertEqual(first, "realizes: 1 container, 6 SIDs, need 6; as short as the shortest, within the intent's limits")
        self.assertEqual(second, f"  {WHOLE}  uN p1, uN p3, uN fw1, uN p3, uN pe3, uDT red-pe3")
        self.assertTrue(third.startswith("judged by "))

    @needs_engine
    def test_the_walk_that_goes_wrong(self):
        ran = run_here("judge", NET, RED, "fcbb:bb00:1:3:31:3:14:f100")
        self.assertEqual((ran.status, ran.err), (4, ""))
        for said in (
            "no: astray at SID 5 (uN pe4): p5 sends it over p5-pe4, and what comes next is step 6 (links p5-pe3)",
            "  p3: executes uN p3, sends over p3-fw1", "  the packet ends: dropped NoRoute at pe4",
        ):  # fmt: skip
            self.assertIn(said, ran.out.splitlines())

    @needs_engine
    def test_an_anycast_sid_is_apart(self):
        ran = run_here("judge", NET, FIREWALL, "fcbb:bb00:fa:13:f100::")
        self.assertTrue(ran.out.startswith("no: apart at SID 1 (uN fw1 or uN fw2): "))

    @needs_engine
    def test_json_and_no_legal_list(self):
        said = json.loads(run_here("judge", NET, ANY, "fcbb:bb00:13:f100::", "--json").out)
        self.assertEqual((said["answer"], said["least"], said["list"]), ("realizes", True, ["uN pe3", "uDT red-pe3"]))
        ran = run_here("judge", NET, ANY, "fcbb:bb00:99:f100::")
        self.assertEqual((ran.status, ran.out.splitlines()[0]), (4, "not legal: no legal list of the network is spelled so"))

    @needs_engine
    def test_what_is_refused(self):
        lost = RED.read_text().replace('"p3-fw1"', '"p3-fw9"')
        self.named_answer(run_here("judge", NET, self.file("i.toml", lost), WHOLE))
        self.named_answer(run_here("judge", EXAMPLES / "none.toml", RED, WHOLE))
        for name, text in bad_tomls():
            with self.subTest(name):
                self.named_answer(run_here("judge", self.file("net.toml", text), RED, WHOLE))
                self.named_answer(run_here("judge", NET, self.file("intent.toml", text), WHOLE))
        nested = run_tool("judge", NET, RED, WHOLE, SRV6_PCE=str(self.folder / "none"))
        self.assertEqual((nested.status, len(nested.err.splitlines())), (6, 1))


class Pushed(unittest.TestCase):
    """Headers that a binding SID pushes, where equal next hops lead on and off the steps."""

    NET = """\
node = [{ name = "A", address = "2001:db8::a" }, { name = "B", address = "2001:db8::b" }]
link = [{ name = "ab0", from = "A", to = "B" }, { name = "ab1", from = "A", to = "B" }, { name = "out", from = "A" }]
route = [{ node = "A", prefix = "2001:db8:f1::/48", via = %s }]
policy = [{ name = "p", source = "2001:db8::a", segments = ["2001:db8:f1::"%s] }]

[[sid]]
node = "B"
prefix = "2001:db8:f1::/48"
behaviour = "End"
flavours = ["usd"]

[[sid]]
node = "B"
prefix = "2001:db8:f2::/48"
behaviour = "End.DT6"
title = "vpn"
table = 0

[[sid]]
node = "A"
prefix = "2001:db8:b1::/48"
behaviour = "End.B6.Encaps"
policy = "p"
"""
    INTENT = """\
headend = "A"
source = "2001:db8::a"
inner = "ipv6"
mode = "reduced"
step = [{ links = ["ab0"] }, { function = "vpn" }]
"""

    def test_each_choice_of_a_pushed_header_is_followed(self):
        """The first cause is told, whichever member leads there; the members are told too."""
        intent = intent_of(parse_toml(self.INTENT, "intent"), "intent")
        path = [(False, prefix_of("2001:db8:b1::/48")), (False, prefix_of("2001:db8:f2::/48"))]
        for via, more, sid, cause, choices in (
            ('["ab0"]', "", 0, "", (0,)),
            ('["ab0", "ab1"]', "", 2, "astray", (1,)),
            ('["ab1"]', "", 2, "astray", (0,)),
            ('["ab0", "ab1"]', ', "2001:db8:f9::"', 2, "lost", (0,)),  # B has no route to it
            ('["ab0", "out"]', "", 2, "lost", (1,)),
            ('["ab1", "out"]', "", 2, "lost", (1,)),
        ):
            with self.subTest(via, more=more):
                net = network_of(parse_toml(self.NET % (via, more), "net"), "net")
                course = Courses(net).course(intent, path)
                self.assertEqual((course.sid, course.cause, course.choices), (sid, cause, choices))


class Names(unittest.TestCase):
    def test_names(self):
        net = network_of(parse_toml(NET.read_text(), "net"), "net")
        names = SidNames(net)
        for prefix, node, name in (
            ("fcbb:bb00:13::/48", "pe3", "uN pe3"), ("fcbb:bb00:e002::/48", "p1", "uA p1 -> p2"),
            ("fcbb:bb00:e003::/48", "p1", "uA p1 -> p1-p3"),  # one of two cables
            ("fcbb:bb00:e0a3::/48", "p1", "uA p1 -> p3"), ("fcbb:bb00:f001::/48", "br1", "uDX internet-br1"),
            ("fcbb:bb00:f100::/48", "pe1", "uDT red-pe1"), ("fcbb:bb00:b001::/48", "br1", "uB6 br1 policy by-fw1"),
            ("2001:db8:b:1::/64", "p1", "rN p1"), ("fcbb:bb00:fa::/48", "", "uN fw1 or uN fw2"),
            ("fcbb:bb00:99::/48", "p1", "fcbb:bb00:99::/48"),
        ):  # fmt: skip
            self.assertEqual(names.on(prefix_of(prefix), [node]), name)
        plain = network_of(parse_toml((EXAMPLES / "m2.toml").read_text(), "net"), "net")
        self.assertEqual(sorted(map(SidNames(plain).name, plain.sids)), ["End B", "End D", "End.DT6 vpn", "End.X B -> bc1"])


if __name__ == "__main__":
    unittest.main()
