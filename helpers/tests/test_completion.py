"""The completion for bash and zsh: what is offered, and that it has each option of each tool."""

import re
import shlex
import subprocess
import unittest
from collections.abc import Iterator
from pathlib import Path

from support import EXAMPLES, HELPERS, ToolCase, needs_tool, run_tool

BASH, ZSH = HELPERS.parent / "docs" / "srv6.bash", HELPERS.parent / "docs" / "_srv6"
NOT_TOOLS = {"test", "tests", "install", "package", "srv6tools", "__pycache__", "srv6-say"}


def tools() -> list[str]:
    """The tools, but srv6-say, whose words are the program's."""
    return sorted(path.name for path in HELPERS.iterdir() if path.name not in NOT_TOOLS)


def options() -> Iterator[tuple[str, set[str]]]:
    """Each tool with the options that its `--help` names."""
    for tool in tools():
        lines = run_tool(tool, "--help").out.splitlines()
        found = (re.match(r"  (?:-\w, )?(--[a-z0-9-]+)", line) for line in lines)
        if named := {match[1] for match in found if match}:
            yield tool, named


@needs_tool("bash")
class Bash(ToolCase):
    def offered(self, *words: str | Path) -> set[str]:
        """What is offered for the last word."""
        script = (
            f"source {shlex.quote(str(BASH))}; COMP_WORDS=({shlex.join(map(str, words))});"
            "COMP_CWORD=$((${#COMP_WORDS[@]} - 1)); "
            '$(complete -p "${COMP_WORDS[0]}" | sed "s/.*-F \\([^ ]*\\).*/\\1/");'
            'printf "%s\\n" "${COMPREPLY[@]}"'
        )
        done = subprocess.run(
            ["bash", "-c", script], capture_output=True, text=True, cwd=self.folder
        )
        self.assertEqual(done.stderr, "")
        return set(done.stdout.split())

    def test_commands_files_and_nodes(self):
        self.file("a.toml", "")
        self.file("b.pcap", "")
        self.assertIn("compile", self.offered("srv6", ""))
        self.assertEqual(self.offered("srv6-say", "c"), {"check", "compile"})
        self.assertEqual(self.offered("srv6", "run", ""), {"a.toml"})
        m2 = EXAMPLES / "m2.toml"
        self.assertEqual(self.offered("srv6", "run", m2, ""), {"A", "B", "C", "D"})
        self.assertEqual(self.offered("all-paths", m2, ""), {"A", "B", "C", "D", "a.toml"})
        self.assertEqual(self.offered("draw-walk", m2, "b"), {"b.pcap"})

    def test_nodes_of_a_list(self):
        nodes = 'node = [\n {name = "P", address = "::1"},\n {name="Q"}, {name="R"}\n]\n'
        path = self.file("list.toml", nodes + 'link=[{name="x"}]\n')
        self.assertEqual(self.offered("srv6", "run", path, ""), {"P", "Q", "R"})

    def test_options_and_what_they_take(self):
        self.assertEqual(self.offered("all-paths", "--m"), {"--most"})
        self.assertEqual(self.offered("to-raw", "--direction", ""), {"in", "out"})
        self.assertIn("trace", self.offered("srv6-to-json", "--kind", ""))
        m2 = EXAMPLES / "m2.toml"
        self.assertEqual(self.offered("all-paths", "--most", "9", m2, "B"), {"B"})

    def test_each_option_is_there(self):
        for tool, named in options():
            with self.subTest(tool):
                offered = self.offered(tool, "--")
                self.assertEqual(offered, named, "docs/srv6.bash")
                self.assertEqual(self.offered("srv6-" + tool.removeprefix("srv6-"), "--"), offered)


class Zsh(ToolCase):
    def test_each_option_is_there(self):
        text = ZSH.read_text()
        for tool, wanted in options():
            with self.subTest(tool):
                self.assertRegex(text.splitlines()[0], rf"\b{tool}\b")
                label = rf"\n    (?:[a-z-]+ \| )?{tool}(?: \| [a-z-]+)?\)"
                case = re.search(rf"{label}(.*?);;", text, re.S)
                self.assertIsNotNone(case)
                for option in wanted - {"--help"}:
                    self.assertIn(option, case[1], "docs/_srv6")

    @needs_tool("zsh")
    def test_syntax(self):
        done = subprocess.run(["zsh", "-n", str(ZSH)], capture_output=True, text=True)
        self.assertEqual((done.returncode, done.stderr), (0, ""))


if __name__ == "__main__":
    unittest.main()
