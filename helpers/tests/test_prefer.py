"""Lists and certificates by what an intent prefers, by the rules of the tools alone: each row of the
key `prefer`, the words of `srv6-say`, and the fields of `to-json`.
"""

import json
import unittest

from rows_case import ROWS, rows_are_answered
from srv6tools import say
from support import EXAMPLES, ToolCase, run_here

REPORT = """\
# container fcbb:bb00:5:f001::
# containers 1
# sids 2
# header 40
# need 4
srv6 certificate 2
potential 0 - 0 1 2 4
path new fcbb:bb00:5::/48
path stay fcbb:bb00:f001::/48
end
"""


class TestPrefer(ToolCase):
    """What an intent prefers."""

    def test_rows(self):
        rows_are_answered(self, "prefer")

    def test_as_json(self):
        """SIDs stand where the text has them."""
        told = json.loads(run_here("to-json", self.file("report", REPORT)).out)
        self.assertEqual(told["list"]["sids"], 2)
        self.assertEqual(told["certificate"]["potentials"][0]["sids"], 2)
        told = json.loads(run_here("to-json", self.file("verdict", "least 1 2 4\n")).out)
        self.assertEqual((told["containers"], told["sids"], told["need"]), (1, 2, 4))
        told = json.loads(run_here("to-json", self.file("verdict", "least 1 4\n")).out)
        self.assertNotIn("sids", told)

    def test_another_list_may_need_less(self):
        """`srv6-say` says so of HopLimit where few SIDs are preferred, and there alone."""
        row = ROWS / "prefer" / "hop-limit-though-another-list-needs-less"
        for preference, is_said in (("sids", True), ("need", False)):
            text = (row / "intent.toml").read_text().replace('"sids"', f'"{preference}"')
            words = ("compile", str(row / "net.toml"), str(self.file("intent.toml", text)))
            said = list(say._explained(say.Run(words, 3, "no answer HopLimit 4")))
            self.assertIn("which has to be above 4", said[1])
            hint = [line for line in said if "of as many containers may need less" in line]
            self.assertEqual((bool(hint), any("the one that needs least" in line for line in said)), (is_said, is_said))
        run = say.Run(words[:2] + (str(row / "intent.toml"),), 3, "no answer TooLong 4")
        self.assertNotIn("may need less", "\n".join(say._explained(run)))

    def test_a_certificate_of_the_other_form(self):
        """`srv6-say` says which head an intent's certificates have."""
        cert = self.file("cert", "# a\nsrv6 certificate 2\nnone\nend\n")
        words = ("check", str(EXAMPLES / "m2.toml"), str(EXAMPLES / "intent.toml"), str(cert))
        text = "\n".join(say._explained(say.Run(words, 1, "refused 45 BadCert 2")))
        self.assertIn("prefers `need` has certificates that begin `srv6 certificate 1`", text)


if __name__ == "__main__":
    unittest.main()
