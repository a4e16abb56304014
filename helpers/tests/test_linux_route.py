"""linux-route: the route, what it says by kernel, and bad input."""

import unittest

from support import EXAMPLES, ToolCase, bad_tomls, run_here

REPORT = b"# container ::1\n# container ::2\n# containers 2\n# header 64\n# need 2\n"


class LinuxRoute(ToolCase):
    def test_route(self):
        intent = EXAMPLES / "intent.toml"
        words = [intent, "2001:db8:2::/48", "eth0", "--kernel", "6.18"]
        ran = run_here("linux-route", *words, given=REPORT)
        wanted = "ip -6 route add 2001:db8:2::/48 encap seg6 mode encap.red segs ::1,::2 dev eth0\n"
        self.assertEqual((ran.status, ran.out), (0, wanted))
        self.assertIn("has to be above 3", ran.err)
        self.assertIn("Linux 6.18 runs End and End.X with NEXT-CSID", ran.err)
        ran = run_here("linux-route", intent, "::/0", "eth0", "--kernel", "6.1.5", given=REPORT)
        self.assertIn("no End.X with it", ran.err)

    def test_bad_input(self):
        self.helps("linux-route")
        intent = EXAMPLES / "intent.toml"
        for words, given, status in (
            ((intent, "192.0.2.0/24", "eth0"), REPORT, 2),
            ((intent, "::/0", "eth 0"), REPORT, 2),
            ((intent, "::/0", "eth0"), b"", 1),
            ((intent, "::/0", "eth0"), b"# none\n", 3),
            ((intent, "::/0", "eth0"), b"# container x\n# containers 1\n", 1),
            ((intent, "::/0", "eth0"), REPORT.replace(b"need 2", b"need 64"), 3),
            ((intent, "::/0", "eth0"), b"\xff", 1),
            ((self.folder, "::/0", "eth0"), REPORT, 5),
        ):
            self.named_answer(run_here("linux-route", *words, given=given), [status])
        for name, content in bad_tomls():
            with self.subTest(name):
                bad = self.file("bad.toml", content)
                self.named_answer(run_here("linux-route", bad, "::/0", "eth0", given=REPORT), [1])


if __name__ == "__main__":
    unittest.main()
