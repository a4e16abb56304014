"""The manual page of the tools: a section for each, with each of its options."""

import re
import subprocess
import unittest

from support import HELPERS, ToolCase, needs_tool, run_tool

PAGE = HELPERS.parent / "docs" / "srv6-tools.1"
NOT_TOOLS = {"test", "tests", "install", "package", "srv6tools", "__pycache__"}


def sections() -> dict[str, str]:
    """The sections of the page, by their titles."""
    text = PAGE.read_text().replace("\\-", "-")
    pieces = re.split(r'^\.SH "?([^"\n]*)"?\n', text, flags=re.MULTILINE)
    return dict(zip(pieces[1::2], pieces[2::2]))


class Manual(ToolCase):
    def test_each_tool_and_option_is_there(self):
        found = sections()
        for tool in sorted(path.name for path in HELPERS.iterdir() if path.name not in NOT_TOOLS):
            with self.subTest(tool):
                self.assertIn(tool, found["SYNOPSIS"])
                self.assertIn(tool.upper(), found)
                text = found[tool.upper()]
                for line in run_tool(tool, "--help").out.splitlines():
                    if match := re.match(r"  (?:-\w, )?(--[a-z0-9-]+)", line):
                        self.assertIn(match[1], text + "--help")

    @needs_tool("man")
    def test_it_is_set_without_warnings(self):
        words = ["man", "--warnings", "-l", str(PAGE)]
        done = subprocess.run(words, capture_output=True, text=True, env={"LC_ALL": "C.UTF-8"})
        self.assertEqual((done.returncode, done.stderr), (0, ""))


if __name__ == "__main__":
    unittest.main()
