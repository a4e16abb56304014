"""why-no-list: the furthest step, and why no list goes on."""

import unittest

from srv6tools.description import read_network
from srv6tools.intent import read_intent
from srv6tools.legs import Legs
from srv6tools.why_no_list import Reasons, Search
from support import EXAMPLES, ToolCase, bad_tomls, needs_program, run_here

M2, POLICY, INTENT = (EXAMPLES / f"{name}.toml" for name in ("m2", "policy", "intent"))
NO_LIST = "no answer NoList\n"
# What is replaced in the description and in the intent, and what is said then.
CASES = (
    ("", "", "bc1", "bc2", "step 1 of 4 (links ab), at B"),
    ("", "", "bc1", "bc2", "bc1 is no link of step 2 (links bc2)"),
    ("", "", "bc1", "bc2", "End.X at B over bc2 alone: none"),
    ("", "", "ipv6", "ipv4", "End.DT6 doesn't expose ipv4 packets"),
    ('"fcbb:bb00:2::/48"\nvia', '"fc00::/48"\nvia', "", "", "no list does a step"),
    ('"fcbb:bb00:2::/48"\nvia', '"fc00::/48"\nvia', "", "", "A has no route to it"),
    ('"fcbb:bb00:4::/48"\nbehaviour', '"fc00:4::/48"\nbehaviour', "", "", "C has no route to it"),
    ('"C"\nprefix = "fcbb', '"C"\nprefix = "fc00', "", "", "crosses step 2 to C; C has no route"),
)  # fmt: skip
USD = 'behaviour = "End"\nflavours = ["usd"]'
LOST = "the header that the policy puts in front is lost: "
# The same in the network with a policy.
POLICIES = (
    ('1/128"\nvia = ["bc1"]', '1/128"\nvia = ["bc2"]',
     LOST + "to 2001:db8:c::1, B sends over bc2 (route 2001:db8:c::1/128); bc2 is no link"),
    (USD, 'behaviour = "End.DT4"\ntable = 0',
     LOST + "it crosses step 2 to C; at 2001:db8:c::1/128 (End.DT4 table 0) no segment is left"),
    (USD, 'behaviour = "End.DT6"\ntable = 7', "policy to-c), whose header is taken off at C:"),
    (USD, 'behaviour = "End.DT6"\ntable = 7', "C, table 7, has no route to it"),
    (USD, USD + '\ntitle = "exit"', "it comes to the function exit, which isn't the next step"),
)  # fmt: skip


class WhyNoList(ToolCase):
    def said(self, net, intent) -> str:
        return "\n".join(Reasons(Search(Legs(read_network(net), read_intent(intent)))).lines())

    def test_reasons(self):
        for old, new, old_step, new_step, wants in CASES:
            with self.subTest(wants):
                net = self.file("net.toml", M2.read_text().replace(old, new, 1))
                intent = self.file("intent.toml", INTENT.read_text().replace(old_step, new_step, 1))
                self.assertIn(wants, self.said(net, intent))

    def test_pushed_headers(self):
        for old, new, wants in POLICIES:
            with self.subTest(wants):
                net = self.file("net.toml", POLICY.read_text().replace(old, new, 1))
                self.assertIn(wants, self.said(net, INTENT))

    def test_full_container(self):
        text = (EXAMPLES / "csids.toml").read_text()
        search = Search(Legs(read_network(self.file("net.toml", text)), self.long_intent()))
        self.assertTrue(search.has_list)

    def long_intent(self):
        links = "".join(f'[[step]]\nlinks = ["l{number}"]\n' for number in range(1, 9))
        text = INTENT.read_text()
        head = text[: text.index("[[step]]")].replace('"A"', '"N0"')
        return read_intent(self.file("long.toml", head + links))

    def test_command(self):
        self.helps("why-no-list")
        other = self.file("other.toml", INTENT.read_text().replace("bc1", "bc2"))
        fake = self.fake_program(NO_LIST, status=3)
        ran = run_here("why-no-list", M2, other, SRV6=fake)
        self.assertEqual((ran.status, ran.err), (0, ""))
        self.assertIn("furthest", ran.out)
        ran = run_here("why-no-list", M2, INTENT, SRV6=self.fake_program(out="# containers 4\n"))
        self.assertEqual((ran.status, ran.out), (3, "there is a list:\n# containers 4\n"))
        fake = self.fake_program("refused 21 NotToml\n", status=1)
        self.assertIn("refused 21 NotToml", run_here("why-no-list", M2, INTENT, SRV6=fake).err)
        self.named_answer(run_here("why-no-list", M2, other, SRV6=self.fake_program(status=5)), [5])

    def test_bad_files(self):
        fake = self.fake_program(NO_LIST, status=3)
        for name, content in bad_tomls():
            with self.subTest(name):
                bad = self.file("bad", content)
                self.named_answer(run_here("why-no-list", bad, INTENT, SRV6=fake))
                self.named_answer(run_here("why-no-list", M2, bad, SRV6=fake))

    @needs_program
    def test_with_the_program(self):
        other = self.file("other.toml", INTENT.read_text().replace("bc1", "bc2"))
        ran = run_here("why-no-list", M2, other)
        self.assertEqual((ran.status, ran.err), (0, ""))
        self.assertIn("step 1 of 4", ran.out)
        self.assertEqual(run_here("why-no-list", M2, INTENT).status, 3)
        self.named_answer(run_here("why-no-list", INTENT, M2), [1])
        self.survives_closed_pipe("why-no-list", M2, other)


if __name__ == "__main__":
    unittest.main()
