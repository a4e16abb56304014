"""to-frr: the line, what FRR takes and holds of it, and bad input."""

import json
import unittest

from srv6tools.command import Fault
from srv6tools.frr_lab import Router, cable, missing_for_frr, until
from support import EXAMPLES, ToolCase, bad_tomls, run_here

REPORT = b"# container fc00::1\n# container fc00::2\n# containers 2\n# header 64\n# need 2\n"
LINE = "ipv6 route 2001:db8:2::/48 eth0 segments fc00::1/fc00::2\n"
DAEMONS = ("mgmtd", "zebra", "staticd")


def report(count: int) -> bytes:
    """A report of a list of so many containers."""
    lines = [f"# container fc00::{number:x}" for number in range(1, count + 1)]
    return "\n".join([*lines, f"# containers {count}", f"# header {32 + 16 * count}", "# need 2", ""]).encode()


class ToFrr(ToolCase):
    def test_line(self):
        intent = EXAMPLES / "intent.toml"
        ran = run_here("to-frr", intent, "2001:db8:2::/48", "eth0", "--kernel", "6.18", given=REPORT)
        self.assertEqual((ran.status, ran.out), (0, LINE))
        self.assertIn("it has 80 bytes, not 64", ran.err)
        self.assertIn("has to be above 3", ran.err)
        full = self.file("full.toml", intent.read_text().replace('"reduced"', '"full"'))
        words = [full, "::/0", "eth0", "--via", "FE80::2", "--kernel", "6.18"]
        ran = run_here("to-frr", *words, given=REPORT)
        self.assertEqual(ran.out, "ipv6 route ::/0 fe80::2 eth0 segments fc00::1/fc00::2\n")
        self.assertNotIn("reduced", ran.err)

    def test_what_frr_does_not_take(self):
        intent = EXAMPLES / "intent.toml"
        many = self.file("many.toml", "max_containers = 127\n" + intent.read_text())
        self.assertEqual(run_here("to-frr", many, "::/0", "eth0", given=report(8)).status, 0)
        ran = run_here("to-frr", many, "::/0", "eth0", given=report(9))
        self.named_answer(ran, [3])
        self.assertIn("8 segments", ran.err)
        four = self.file("four.toml", intent.read_text().replace('inner = "ipv6"', 'inner = "ipv4"'))
        ran = run_here("to-frr", four, "10.0.0.0/8", "eth0", given=REPORT)
        self.named_answer(ran, [3])
        self.assertIn("IPv6 alone", ran.err)

    def test_bad_input(self):
        self.helps("to-frr")
        intent = EXAMPLES / "intent.toml"
        for words, given, status in (
            ((intent, "192.0.2.0/24", "eth0"), REPORT, 2),
            ((intent, "::/0", "eth 0"), REPORT, 2),
            ((intent, "::/0", "eth0", "--via", "eth1"), REPORT, 2),
            ((intent, "::/0", "eth0", "--kernel", "5"), REPORT, 2),
            ((intent, "::/0", "eth0"), b"", 1),
            ((intent, "::/0", "eth0"), b"# none\n", 3),
            ((intent, "::/0", "eth0"), REPORT.replace(b"need 2", b"need 64"), 3),
            ((self.folder, "::/0", "eth0"), REPORT, 5),
        ):
            self.named_answer(run_here("to-frr", *words, given=given), [status])
        for name, content in bad_tomls():
            with self.subTest(name):
                bad = self.file("bad.toml", content)
                self.named_answer(run_here("to-frr", bad, "::/0", "eth0", given=REPORT), [1])


class Loaded(ToolCase):
    """What FRR says of the lines, and what stands in its table and the kernel's."""

    def router(self, least: tuple[int, int]) -> Router:
        """A router with an interface eth0, or a skip with the reason."""
        if lacks := missing_for_frr(least):
            self.skipTest(lacks)
        router = Router("headend", DAEMONS)
        self.addCleanup(router.stop)
        cable(router, router, ("eth0", "eth1"))
        router.run("ip", "address", "add", "2001:db8:9::1/64", "dev", "eth0", "nodad")
        return router

    def answer(self, router: Router, line: str) -> str:
        """What FRR says of a line of configuration."""
        try:
            return router.vtysh("configure terminal", line)
        except Fault as fault:
            return str(fault)

    def test_it_is_taken(self):
        router, intent = self.router((10, 3)), EXAMPLES / "intent.toml"
        many = self.file("many.toml", "max_containers = 127\n" + intent.read_text())
        for place, count in enumerate((1, 2, 8), 1):
            words = [many, f"2001:db8:{place}::/48", "eth0"]
            router.load(run_here("to-frr", *words, given=report(count)).out)
        until(lambda: router.run("ip", "-6", "route").count("seg6") == 3, "the routes don't come into the kernel")
        shown = json.loads(router.vtysh("show ipv6 route static json"))
        for place, count in enumerate((1, 2, 8), 1):
            prefix, listed = f"2001:db8:{place}::/48", [f"fc00::{number:x}" for number in range(1, count + 1)]
            (hop,) = shown[prefix][0]["nexthops"]
            self.assertEqual(hop["seg6"], listed if count > 1 else {"segs": listed[0]})
            self.assertIn(f"mode encap segs {count} [ {' '.join(listed)} ]", router.run("ip", "-6", "route", "show", prefix))
        self.assertIn("segments fc00::1/fc00::2\n", router.vtysh("show running-config"))

    def test_what_it_does_not_take(self):
        router = self.router((10, 3))
        for count in (9, 12):
            listed = "/".join(f"fc00::{number:x}" for number in range(1, count + 1))
            self.answer(router, f"ipv6 route 2001:db8:{count}::/48 eth0 segments {listed}")
        self.assertIn("Unknown command", self.answer(router, "ip route 10.0.0.0/8 eth0 segments fc00::1"))
        text = "failed to install"
        until(lambda: router.below("cat", "/run/frr/log").count(text) == 2, "FRR says nothing of the routes")
        self.assertNotIn("seg6", router.run("ip", "-6", "route"))
        self.assertRegex(router.vtysh("show running-config"), r"2001:db8:12::/48 eth0 segments \S*/fc00::b\n")

    def test_an_early_version_has_no_such_command(self):
        router = self.router((8, 4))
        if not router.vtysh("show version").startswith("FRRouting 8."):
            self.skipTest("FRR 8 is missing, and a later one is there")
        self.assertIn("Unknown command", self.answer(router, LINE.strip()))


if __name__ == "__main__":
    unittest.main()
