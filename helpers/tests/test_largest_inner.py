"""largest-inner: the least MTU of the steps' links less the header, and where nothing passes."""

import json
import unittest

from srv6tools.program import run_program
from support import EXAMPLES, HELPERS, ToolCase, bad_tomls, needs_program, run_here

M2, POLICY, INTENT = (EXAMPLES / f"{name}.toml" for name in ("m2", "policy", "intent"))
ROWS = HELPERS.parent / "crates" / "worked_rows" / "data" / "mtu"
DOMAIN = EXAMPLES / "domain"
NAMES = ("red", "blue", "no-list", "green", "by-firewall")
REPORT = "# container ::1\n# container ::2\n# containers 2\n# header 64\n# need 2\n"
BC1 = 'name = "bc1"'
# Of the list through the policy, which puts 40 bytes more in front over bc1.
THROUGH_POLICY = """\
# container fcbb:bb00:2:b001:4:f001::
# containers 1
# header 40
# need 4
srv6 certificate 1
potential 0 - 0 1 4
path new fcbb:bb00:2::/48
path stay fcbb:bb00:b001::/48
path stay fcbb:bb00:4::/48
path stay fcbb:bb00:f001::/48
end
"""


class LargestInner(ToolCase):
    def said(self, net: str, report: str = REPORT, intent: str = "") -> list[str]:
        """The lines for a description, a report and an intent's text."""
        files = self.file("net.toml", net), self.file("intent.toml", intent or INTENT.read_text())
        ran = run_here("largest-inner", *files, SRV6=self.fake_program(out=report))
        self.assertEqual((ran.status, ran.err), (0, ""))
        return ran.out.splitlines()

    def test_links_without_an_mtu(self):
        first, second = self.said(M2.read_text())
        self.assertEqual(first, "largest-inner 65511")
        self.assertIn("is 65575: ab (step 1), bc1 (step 2), cd (step 3)", second)

    def test_the_least_decides(self):
        net = M2.read_text().replace(BC1, f"{BC1}\nmtu = 1500")
        first, second = self.said(net.replace('name = "cd"', 'name = "cd"\nmtu = 9000'))
        self.assertEqual(first, "largest-inner 1436")
        wanted = "the least MTU of the steps' links is 1500: bc1 (step 2)"
        self.assertEqual(second, f"the header takes 64 bytes, and {wanted}")

    def test_links_of_no_step_count_for_nothing(self):
        net = M2.read_text().replace('name = "bc2"', 'name = "bc2"\nmtu = 1280')
        self.assertEqual(self.said(net)[0], "largest-inner 65511")
        both = INTENT.read_text().replace('["bc1"]', '["bc1", "bc2"]')
        self.assertEqual(self.said(net, intent=both)[0], "largest-inner 1216")

    def test_below_what_is_sent_unasked(self):
        net = M2.read_text().replace(BC1, f"{BC1}\nmtu = 1343")
        self.assertIn("needs an MTU of 1344", self.said(net)[2])
        self.assertEqual(len(self.said(net.replace("1343", "1344"))), 2)
        ipv4 = INTENT.read_text().replace("ipv6", "ipv4")
        self.assertEqual(len(self.said(net, intent=ipv4)), 2)

    def test_no_links_at_all(self):
        intent = INTENT.read_text()
        text = intent[: intent.index("[[step]]")] + '[[step]]\nfunction = "vpn"\n'
        first, second = self.said(M2.read_text(), intent=text)
        self.assertEqual(first, "largest-inner 65511")
        self.assertIn("no step has links", second)

    def test_pushed_headers(self):
        net = POLICY.read_text().replace(BC1, f"{BC1}\nmtu = 1280")
        first, second, third, fourth = self.said(net, THROUGH_POLICY)
        self.assertEqual(first, "largest-inner 1200")
        self.assertIn("beside pushed headers the steps' links carry at least 1240: bc1", second)
        self.assertEqual(third, "over the links of step 2 pushed headers take 40 bytes")
        self.assertIn("needs an MTU of 1320, and what pushed headers take there", fourth)
        full = net.replace("Encaps.Red", "Encaps").replace("1280", "1500")
        self.assertEqual(self.said(full, THROUGH_POLICY)[0], "largest-inner 1396")
        both = full.replace('name = "ab"', 'name = "ab"\nmtu = 1400')
        self.assertEqual(self.said(both, THROUGH_POLICY)[0], "largest-inner 1360")
        self.assertEqual(self.said(POLICY.read_text(), THROUGH_POLICY)[0], "largest-inner 65495")

    def test_a_header_that_is_taken_off_where_it_is_pushed(self):
        own = 'node = "B"\nprefix = "2001:db8:c::1/128"\nbehaviour = "End"\n'
        net = POLICY.read_text().replace(own.replace('"B"', '"C"'), own)
        route = '[[route]]\nnode = "B"\nprefix = "2001:db8:c::1/128"\nvia = ["bc1"]\n'
        net = net.replace(route, "")
        via = 'prefix = "fcbb:bb00:4::/48"\nvia = ["bc1", "bc2"]'
        first, second = self.said(net.replace(via, via.replace(', "bc2"', "")), THROUGH_POLICY)
        self.assertEqual(first, "largest-inner 65495")
        self.assertIn("a packet has at most 65575 bytes, 40 of pushed headers", second)

    def test_nothing_passes(self):
        net = self.file("net.toml", M2.read_text().replace(BC1, f"{BC1}\nmtu = 1280"))
        for header, status in ((1240, 0), (1241, 3), (2080, 3)):
            fake = self.fake_program(out=REPORT.replace("header 64", f"header {header}"))
            ran = run_here("largest-inner", net, INTENT, SRV6=fake)
            self.assertEqual(ran.status, status, ran.err)

    def test_many_intents(self):
        """A line for each, in the order of the words, also where one has no list."""
        net = self.file("net.toml", M2.read_text().replace(BC1, f"{BC1}\nmtu = 1500"))
        other = INTENT.read_text().replace('["bc1"]', '["bc2"]')
        second = self.file("second.toml", other)
        none = self.file("none.toml", other.replace('"vpn"', '"none"'))
        answer = self.file("out", REPORT)
        fake = self.file("fake", f'#!/bin/sh\ncase $3 in\n*none*) echo no answer NoList >&2; exit 3;;\nesac\ncat {answer}\n')
        fake.chmod(0o755)
        words = ["largest-inner", net, INTENT, none, second]
        ran = run_here(*words, SRV6=str(fake))
        self.named_answer(ran, [3])
        self.assertIn("no answer NoList", ran.err)
        first, nothing, last = ran.out.splitlines()
        self.assertTrue(first.startswith(f"largest-inner 1436 {INTENT}: the header takes 64 bytes"))
        self.assertTrue(nothing.startswith(f"largest-inner none {none}: srv6 compile"))
        self.assertIn("no answer NoList", nothing)
        self.assertTrue(last.startswith(f"largest-inner 65511 {second}: "))
        found = json.loads(run_here(*words, "--json", SRV6=str(fake)).out)
        self.assertEqual([one["largest"] for one in found["intents"]], [1436, None, 65511])
        self.assertEqual(found["intents"][0]["links"], [{"link": "bc1", "step": 2}])
        self.assertEqual(run_here(*words[:3], second, SRV6=str(fake)).status, 0)
        ran = run_here(*words, none, SRV6=str(fake))
        self.assertEqual((ran.status, ran.err), (3, "largest-inner: 2 of 4 intents have none\n"))

    @needs_program
    def test_many_intents_are_those_of_each(self):
        net, intents = DOMAIN / "net.toml", [DOMAIN / f"{name}.toml" for name in NAMES]
        ran = run_here("largest-inner", net, *intents)
        self.named_answer(ran, [3])
        for intent, line in zip(intents, ran.out.splitlines()):
            alone = run_here("largest-inner", net, intent)
            said = alone.out.splitlines()[:1] or ["largest-inner none"]
            self.assertTrue(line.startswith(f"{said[0]} {intent}: "), line)

    def test_command(self):
        self.helps("largest-inner")
        for err, status in (("no answer NoList\n", 3), ("refused 21 NotToml\n", 1), ("", 5)):
            fake = self.fake_program(err, status=status)
            self.named_answer(run_here("largest-inner", M2, INTENT, SRV6=fake), [status])
        fake = self.fake_program(out="# none\n")
        self.named_answer(run_here("largest-inner", M2, INTENT, SRV6=fake), [3])

    def test_bad_files(self):
        fake = self.fake_program(out=REPORT)
        for name, content in bad_tomls():
            with self.subTest(name):
                bad = self.file("bad", content)
                self.named_answer(run_here("largest-inner", bad, INTENT, SRV6=fake))
                self.named_answer(run_here("largest-inner", M2, bad, SRV6=fake))

    @needs_program
    def test_where_the_program_sends_and_drops(self):
        # These rows' packets of 1,240 and 1,241 bytes pass and are dropped.
        for row in ("walk-1240-fits", "walk-1241-is-too-long"):
            ran = run_here("largest-inner", ROWS / row / "net.toml", ROWS / row / "intent.toml")
            self.assertEqual((ran.status, ran.out.splitlines()[0]), (0, "largest-inner 1240"))
        self.survives_closed_pipe("largest-inner", M2, INTENT)

    @needs_program
    def test_pushed_headers_where_the_program_sends_and_drops(self):
        net = self.file("net.toml", POLICY.read_text().replace(BC1, f"{BC1}\nmtu = 1280"))
        self.assertEqual(run_here("largest-inner", net, INTENT).out.split()[1], "1200")
        for size, line in ((1200, "left ce"), (1201, "dropped MtuExceeded at B")):
            head = bytes.fromhex("60000000") + (size - 40).to_bytes(2, "big") + b"\x3b\x40"
            packet = head + bytes.fromhex(f"{0x20010DB8 << 96 | 1:032x}{0x20010DB8 << 96 | 2:032x}")
            answer = run_program(["walk", net, INTENT], packet + bytes(size - 40))
            self.assertEqual(answer.err, f"packet 1: {line}\n")


if __name__ == "__main__":
    unittest.main()
