"""Intents with loose steps: legs over all choices, lists, certificates, and why there is none.
"""

import re
import unittest

from rows_case import rows_are_answered
from srv6tools import say
from srv6tools.compiling import compiled
from srv6tools.description import read_network
from srv6tools.intent import read_intent
from srv6tools.largest_inner import least_of, links_of, pushed_along
from srv6tools.loose import LooseLegs, legs_of
from srv6tools.report import certificate_in
from srv6tools.why_no_list import Reasons, Search
from support import EXAMPLES, ToolCase, run_here

COMPRESSED = (EXAMPLES / "compressed.toml").read_text()
HEAD = 'headend = "A"\nsource = "2001:db8::a"\ninner = "ipv6"\nmode = "reduced"\n'
TO_D = HEAD + 'step = [{ reach = "D" }, { function = "vpn" }]\n'
NODES = "".join(
    f'[[node]]\nname = "{name}"\naddress = "2001:db8::{name.lower()}"\n' for name in "ABCD"
)


def links(*ends: str) -> str:
    """Links by their ends; one of a single node leaves the network."""
    made = []
    for two in ends:
        to = f'to = "{two[1]}"\n' if len(two) > 1 else ""
        made.append(f'[[link]]\nname = "{two.lower()}"\nfrom = "{two[0]}"\n{to}')
    return "".join(made)


def route(node: str, *via: str, prefix: str = "fc00:d::/48", table: int = 0) -> str:
    named = ", ".join(f'"{link}"' for link in via)
    return f'[[route]]\nnode = "{node}"\nprefix = "{prefix}"\nvia = [{named}]\ntable = {table}\n'


AT_D = """
[[sid]]
node = "D"
prefix = "fc00:d::/48"
behaviour = "End"
[[sid]]
node = "D"
prefix = "fc00:d1::/48"
behaviour = "End.DT6"
table = 7
title = "vpn"
"""


class Loose(ToolCase):
    def legs(self, net: str, intent: str = TO_D) -> LooseLegs:
        paths = self.file("net.toml", net), self.file("intent.toml", intent)
        return legs_of(read_network(paths[0]), read_intent(paths[1]))

    def answer(self, net: str, intent: str = TO_D):
        legs = self.legs(net, intent)
        return compiled(legs.net, legs.intent)

    def test_any_way_to_the_node(self):
        """Over bc1 or bc2: the list that names no link of these."""
        answer = self.answer(COMPRESSED)
        self.assertEqual((answer.err, answer.status), ("", 0))
        self.assertEqual(answer.out[:4], (
            "# container fcbb:bb00:2:4:f001::", "# containers 1", "# header 40", "# need 3",
        ))  # fmt: skip
        self.assertEqual([line for line in answer.out if line.startswith("path")], [
            "path new fcbb:bb00:2::/48", "path stay fcbb:bb00:4::/48", "path stay fcbb:bb00:f001::/48",
        ])  # fmt: skip

    def test_greatest_count(self):
        """From A to D over B, or over C and B: the hops are those of the longer way."""
        ways = links("AB", "AC", "CB", "BD", "D") + route("A", "ab", "ac") + route("C", "cb")
        legs = self.legs(NODES + ways + route("B", "bd") + route("D", "d", table=7) + AT_D)
        (leg,) = legs.legs(0, None)
        self.assertEqual((leg.sid.node, leg.position, leg.hops), ("D", 1, 3))

    def test_loops_and_lost_ways(self):
        for name, ways in (
            ("a loop", links("AB", "AC", "CA", "BD", "D") + route("A", "ab", "ac") + route("C", "ca")),
            ("no route", links("AB", "AC", "BD", "D") + route("A", "ab", "ac")),
            ("it leaves", links("AB", "A", "BD", "D") + route("A", "ab", "a")),
        ):
            with self.subTest(name):
                legs = self.legs(NODES + ways + route("B", "bd") + AT_D)
                self.assertEqual(legs.legs(0, None), [])

    def test_positions_have_to_agree(self):
        """To C over B or not: with a step to B first one way does it and the other doesn't."""
        ways = links("AB", "AC", "BC", "CD", "D") + route("A", "ab", "ac") + route("B", "bc")
        ways += route("C", "cd") + route("D", "d", table=7)
        over = HEAD + 'step = [{ reach = "B" }, { reach = "D" }, { function = "vpn" }]\n'
        self.assertEqual(self.legs(NODES + ways + AT_D, over).legs(0, None), [])
        self.assertEqual(len(self.legs(NODES + ways + AT_D).legs(0, None)), 1)

    def test_no_binding_sid(self):
        policy = (EXAMPLES / "policy.toml").read_text()
        answer = self.answer(policy)
        self.assertEqual(answer.status, 0)
        self.assertFalse(any("b001" in line for line in answer.out))

    def test_refusals(self):
        many = "".join(
            f'[[sid]]\nnode = "{"ABCD"[n % 4]}"\nprefix = "2001:db8:{n + 16:x}::/48"\nbehaviour = "End"\n'
            for n in range(125)
        )
        for net, steps, wants in (
            (COMPRESSED, '{ reach = "A" }, { function = "vpn" }', "35 Broken 1"),
            (COMPRESSED, '{ reach = "D" }, { reach = "D" }, { function = "vpn" }', "35 Broken 2"),
            (COMPRESSED, '{ links = ["ab"] }, { reach = "Z" }, { function = "vpn" }', "34 UnknownName 2"),
            (COMPRESSED, '{ reach = "C" }, { function = "vpn" }', "36 NoFunction 2"),
            (COMPRESSED, '{ reach = "D" }', "37 NotFunctionLast"),
            (COMPRESSED + many, '{ reach = "D" }, { function = "vpn" }', "46 LooseLimit 128"),
        ):
            with self.subTest(wants):
                answer = self.answer(net, HEAD + f"step = [{steps}]\n")
                self.assertEqual((answer.err, answer.status), (f"refused {wants}", 1))

    def test_too_many_sids_are_explained(self):
        paths = self.file("net.toml", COMPRESSED), self.file("intent.toml", TO_D)
        run = say.Run(("compile", *map(str, paths)), 1, "refused 46 LooseLimit 128")
        said = "\n".join(say._explained(run))
        self.assertIn("has 4 SIDs, and an intent with a step that reaches a node", said)
        self.assertIn("step 1, line 5", said)

    def test_links_that_a_list_may_take(self):
        legs = self.legs(COMPRESSED.replace('name = "bc2"', 'name = "bc2"\nmtu = 1280'))
        answer = compiled(legs.net, legs.intent)
        path = certificate_in("\n".join([*answer.out, ""])).path
        found = dict(links_of(legs.net, legs.intent, path))
        self.assertEqual(found, {"ab": 1, "bc1": 1, "bc2": 1, "cd": 1})
        pushed = pushed_along(legs.net, legs.intent, path)
        self.assertEqual(least_of(legs.net, found.items(), pushed).room, 1280)

    def test_why_there_is_none(self):
        ways = links("AB", "AC", "CA", "BD", "D") + route("A", "ab", "ac") + route("C", "ca")
        for name, net, wants in (
            ("a loop", NODES + ways + route("B", "bd") + AT_D, "and so it may come to"),
            ("it leaves", NODES + links("A", "D") + route("A", "a") + AT_D, "which leaves the network"),
            ("binding", (EXAMPLES / "policy.toml").read_text().replace("4::/48", "5::/48", 3), "binds"),
        ):
            with self.subTest(name):
                search = Search(self.legs(net))
                text = "\n".join(Reasons(search).lines())
                self.assertIn(wants, text)
                self.assertIn("what comes next is step 1 (reach D)", text)

    def test_check_certificate(self):
        paths = self.file("net.toml", COMPRESSED), self.file("intent.toml", TO_D)
        text = "\n".join([*self.answer(COMPRESSED).out, ""])
        ran = run_here("check-certificate", *paths, self.file("cert", text))
        self.assertEqual((ran.status, ran.out), (0, "least 1 3\n"))
        forged = re.sub("potential 0 - 0 1 3", "potential 0 - 0 1 4", text)
        ran = run_here("check-certificate", *paths, self.file("cert", forged))
        self.assertEqual((ran.status, ran.out), (4, "no 6 edge\n"))

    def test_rows(self):
        rows_are_answered(self, "loose")


if __name__ == "__main__":
    unittest.main()
