"""to-junos: the text of a list, what is no list of Junos, and bad input."""

import unittest

from support import EXAMPLES, ToolCase, bad_tomls, run_here

INTENT = EXAMPLES / "intent.toml"
WORDS = (INTENT, "10", "2001:db8::4")
TEXT = """\
set protocols source-packet-routing srv6
set protocols source-packet-routing segment-list red srv6
set protocols source-packet-routing segment-list red hop1 srv6-sid fcbb:bb00:2:4::
set protocols source-packet-routing segment-list red hop2 srv6-sid fcbb:bb00:f001::
set protocols source-packet-routing source-routing-path red srv6
set protocols source-packet-routing source-routing-path red to 2001:db8::4
set protocols source-packet-routing source-routing-path red color 10
set protocols source-packet-routing source-routing-path red primary red
"""
GIVEN = b"""\
# container fcbb:bb00:2:4::
# container fcbb:bb00:f001::
# containers 2
# header 64
# need 2
srv6 certificate 1
potential 0 - 0 2 2
path new fcbb:bb00:2::/48
path stay fcbb:bb00:4::/48
path new fcbb:bb00:f001::/48
end
"""


class ToJunos(ToolCase):
    def test_text(self):
        ran = run_here("to-junos", *WORDS, "--name", "red", given=GIVEN)
        self.assertEqual(ran.status, 0, ran.err)
        first, _, rest = ran.out.partition("\n")
        self.assertTrue(first.startswith("# NO TEST LOADS THIS"))
        self.assertEqual(rest, TEXT)
        self.assertIn("the last segment, fcbb:bb00:f001::", ran.err)

    def test_no_list_of_junos(self):
        given = GIVEN.replace(b"container fcbb:bb00:f001::", b"container ::f314:5")
        ran = run_here("to-junos", *WORDS, given=given)
        self.named_answer(ran, [3])
        self.assertIn("REPLACE", ran.err)

    def test_bad_input(self):
        self.helps("to-junos")
        for words, given, status in (
            ((INTENT, "x", "::1"), GIVEN, 2),
            ((INTENT, "1", "192.0.2.1"), GIVEN, 2),
            ((*WORDS, "--name", "1"), GIVEN, 2),
            (WORDS, b"", 1),
            (WORDS, GIVEN.replace(b"end\n", b""), 1),
            (WORDS, b"# none\n", 3),
            ((self.folder, *WORDS[1:]), GIVEN, 5),
        ):
            self.named_answer(run_here("to-junos", *words, given=given), [status])
        for name, content in bad_tomls():
            with self.subTest(name):
                self.named_answer(run_here("to-junos", self.file("bad.toml", content), *WORDS[1:], given=GIVEN), [1])


if __name__ == "__main__":
    unittest.main()
