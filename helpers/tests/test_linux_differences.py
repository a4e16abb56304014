"""bench/linux-differences: its packets, Linux' side of it, and the whole where all of it is there."""

import json
import os
import subprocess
import sys
import unittest

from srv6tools.linux import LATE, kernel_of
from srv6tools.linux_cases import cases
from srv6tools.linux_differences import INSIDE, Kind, Result
from srv6tools.linux_differences import compared, kind_of, record_of, summary
from srv6tools.linux_lab import Sent, in_namespace, missing_for_a_lab
from support import HELPERS, ToolCase, needs_program

COMMAND = HELPERS.parent / "bench" / "linux-differences"
MISSING = missing_for_a_lab()
if not MISSING and kernel_of(os.uname().release) < LATE:
    MISSING = f"Linux is older than {LATE}"
# What a kernel sends in time varies with the machine's load, so its side is tested where it is asked for.
if not MISSING and "SRV6_TEST_LINUX" not in os.environ:
    MISSING = "the variable SRV6_TEST_LINUX"
needs_linux = unittest.skipIf(MISSING, MISSING or "")
SENT = Sent("east", b"1")
ERROR = Sent(None, bytes(48))


class Differences(ToolCase):
    def test_cases(self):
        names = [name for name, _ in cases()]
        self.assertEqual(len(names), len(set(names)))
        self.assertFalse([name for name in names if " | " in name])

    def test_kinds(self):
        none = Result(())
        for ours, linux, kind in (
            (none, none, Kind.SAME),
            (Result((SENT,)), Result((SENT,)), Kind.SAME),
            (Result((ERROR,)), none, Kind.SILENT),
            (Result((ERROR,)), Result((SENT,)), Kind.PASSED),
            (none, Result((SENT,)), Kind.PASSED),
            (Result((SENT,)), Result((Sent("east", b"2"),)), Kind.CHANGED),
            (Result((ERROR,)), Result((Sent(None, bytes(49)),)), Kind.ERRORS),
            (none, Result((ERROR,)), Kind.LOUD),
            (Result((SENT,)), Result((ERROR,)), Kind.LOST),
            (Result((), True), Result((ERROR,)), Kind.SAME),
            (Result((), True), Result((SENT,)), Kind.PASSED),
        ):
            self.assertEqual(kind_of(ours, linux), kind)

    def test_table(self):
        lines = ["a | dropped | -", "b | over east | 12"]
        self.assertEqual(list(compared(lines, ["# head", *lines])), [])
        other = ["a | dropped | -", "b | dropped | -", "c | dropped | -"]
        self.assertEqual(list(compared(lines, other)), [
            "is    b | over east | 12", "known b | dropped | -", "known c | dropped | -",
        ])  # fmt: skip
        either = ["a | dropped | -", "b | dropped | -", "b | over east | 12"]
        self.assertEqual(list(compared(lines, either)), [])
        self.assertEqual(len(list(compared(["a | dropped | -", "b | over west | 12"], either))), 3)
        self.assertEqual(record_of("a", Result(())), "a | dropped | -")
        self.assertTrue(record_of("a", Result((SENT,))).startswith("a | over east | 6b86b273"))
        self.assertIn("    1  both do the same", list(summary(["same | a", "no error | b"])))

    @needs_linux
    def test_the_side_of_linux(self):
        done = subprocess.run(
            in_namespace([sys.executable, str(COMMAND)]), capture_output=True, text=True,
            env=os.environ | {INSIDE: "1"},
        )  # fmt: skip
        self.assertEqual(done.returncode, 0, done.stderr)
        sent = dict(zip((name for name, _ in cases()), json.loads(done.stdout)))
        self.assertEqual(len(sent), len(list(cases())))
        self.assertEqual([link for link, _ in sent["End: segment left"]], ["east"])
        self.assertEqual([link for link, _ in sent["End: HMAC"]], ["east"])
        self.assertEqual(sent["End: no segment left"], [])
        self.assertEqual([link for link, _ in sent["no route"]], [None])

    @needs_linux
    def test_as_the_table_says(self):
        done = subprocess.run([COMMAND], capture_output=True, text=True)
        self.assertEqual((done.returncode, done.stderr), (0, ""), done.stdout[-2000:])
        self.assertIn("Linux sends what bench/linux-differences.table says", done.stdout)

    @needs_linux
    @needs_program
    def test_with_the_program(self):
        done = subprocess.run([COMMAND, "--all"], capture_output=True, text=True)
        self.assertEqual((done.returncode, done.stderr), (0, ""), done.stdout[-2000:])
        lines = {line.split(" | ")[1]: line for line in done.stdout.splitlines() if " | " in line}
        for name, kind in (
            ("End: segment left", Kind.SAME),
            ("End: no segment left", Kind.SILENT),
            ("End: HMAC", Kind.PASSED),
            ("End.B6.Encaps: segment left", Kind.CHANGED),
            ("End: hop limit 1", Kind.ERRORS),
        ):
            self.assertEqual(lines[name].split(" | ")[0], kind.value, lines[name])

    def test_skips_by_name(self):
        done = subprocess.run(
            [sys.executable, COMMAND], capture_output=True, text=True,
            env=os.environ | {"SRV6": str(COMMAND), "PATH": str(self.folder)},
        )  # fmt: skip
        self.assertEqual((done.returncode, done.stderr), (0, ""))
        self.assertEqual(done.stdout.split()[0], "skipped")

    def test_words(self):
        done = subprocess.run([COMMAND, "--help"], capture_output=True, text=True)
        self.assertEqual((done.returncode, done.stderr), (0, ""))
        self.assertIn("NOT PROVED", done.stdout)
        done = subprocess.run([COMMAND, "x"], capture_output=True, text=True)
        self.assertEqual((done.returncode, done.stdout), (2, ""))


if __name__ == "__main__":
    unittest.main()
