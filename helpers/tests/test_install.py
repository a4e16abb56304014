"""install and package: what stands where, one version, and the paths that the manual pages name."""

import gzip
import os
import re
import subprocess
from pathlib import Path

from support import HELPERS, ToolCase, needs_tool, run_tool

TOP = HELPERS.parent
NOT_INSTALLED = {"test", "tests", "install", "package", "srv6tools", "__pycache__"}


def pages() -> list[Path]:
    """The manual pages."""
    return sorted((TOP / "docs").glob("*.[15]"))


def version() -> str:
    """The version at the top of the list of changes."""
    match = re.search(r"^## (\S+)", (TOP / "CHANGELOG.md").read_text(), re.MULTILINE)
    assert match
    return match[1]


class Install(ToolCase):
    def setUp(self) -> None:
        super().setUp()
        self.program = self.file("program", "#!/bin/sh\necho the program\n")
        self.program.chmod(0o755)
        self.programs = {"SRV6": str(self.program), "SRV6_PCE": str(self.program)}

    def test_install(self):
        prefix = self.folder / "in stalled"
        ran = run_tool("install", prefix, **self.programs)
        self.assertEqual((ran.status, ran.err), (0, ""))
        tools = {path.name for path in HELPERS.iterdir()} - NOT_INSTALLED
        names = {"srv6", "srv6-pce"} | {"srv6-" + tool.removeprefix("srv6-") for tool in tools}
        self.assertEqual({path.name for path in (prefix / "bin").iterdir()}, names)
        self.assertFalse(any(path.name == "tests" for path in prefix.rglob("*")))
        asked = [prefix / "bin" / "srv6-routes", "--help"]
        done = subprocess.run(asked, capture_output=True, text=True)
        self.assertEqual((done.returncode, done.stderr), (0, ""))
        self.assertIn("NOT PROVED", done.stdout)
        for page in pages():
            place = prefix / "share" / "man" / f"man{page.suffix[1:]}" / (page.name + ".gz")
            text = gzip.decompress(place.read_bytes()).decode()
            self.assertNotIn("the top of the repository", text)
            self.paths_are_there(text, prefix / "share" / "doc" / "srv6")
        for name in names:
            completion = prefix / "share/bash-completion/completions" / name
            self.assertEqual(completion.is_file(), name != "srv6-pce")  # which takes no words
            self.assertTrue((prefix / "share/man/man1" / f"{name}.1.gz").is_file())

    def paths_are_there(self, page: str, top: Path) -> None:
        """Each file of docs/ and examples/ that a page names stands below a folder."""
        for path in re.findall(r"\b(?:docs|examples)/[\w./-]*\w", page.replace("\\-", "-")):
            if not path.endswith(("srv6.1", "srv6.5", "srv6-pce.1", "srv6-tools.1", "srv6.bash", "_srv6")):
                self.assertTrue((top / path).exists(), path)

    def test_pages(self):
        self.assertGreaterEqual(len(pages()), 2)
        for page in pages():
            with self.subTest(page.name):
                text = page.read_text()
                self.assertIn(f'"srv6 {version()}"', text)
                self.paths_are_there(text, TOP)

    @needs_tool("man")
    def test_pages_are_read_without_a_warning(self):
        for page in pages():
            asked = ["man", "--warnings", "-l", str(page)]
            env = os.environ | {"MANWIDTH": "80", "LC_ALL": "C.UTF-8"}
            done = subprocess.run(asked, capture_output=True, text=True, env=env)
            self.assertEqual((done.returncode, done.stderr), (0, ""))

    def test_words(self):
        for tool in ("install", "package"):
            ran = run_tool(tool, "--help")
            self.assertEqual((ran.status, ran.err), (0, ""))
            self.assertIn(f"helpers/{tool}", ran.out)
            self.assertEqual(run_tool(tool, "--no-such-word").status, 2)
        self.assertEqual(run_tool("install").status, 2)
        for name in self.programs:
            lacking = self.programs | {name: str(self.folder / "absent")}
            absent = run_tool("install", self.folder / "x", **lacking)
            self.assertEqual((absent.status, len(absent.err.splitlines())), (6, 1))
        shut = run_tool("install", "/proc/nothing", **self.programs)
        self.assertEqual(shut.status, 5)

    @needs_tool("dpkg")
    @needs_tool("dpkg-deb")
    def test_package(self):
        ran = run_tool("package", self.folder / "deb", **self.programs)
        self.assertEqual((ran.status, ran.err), (0, ""))
        package = ran.out.strip()
        asked = ["dpkg-deb", "--show", "--showformat", "${Package} ${Version}", package]
        told = subprocess.run(asked, capture_output=True, text=True).stdout
        self.assertIn(told, (f"srv6 {version()}", f"srv6 {version()}~unreleased"))
        tree = self.folder / "tree"
        subprocess.run(["dpkg-deb", "--extract", package, tree], check=True)
        done = subprocess.run([tree / "usr/bin/srv6"], capture_output=True, text=True)
        self.assertEqual(done.stdout, "the program\n")
        self.assertTrue((tree / "usr/bin/srv6-pce").is_file())
        again = run_tool("package", self.folder / "deb2", **self.programs)
        self.assertEqual(Path(package).read_bytes(), Path(again.out.strip()).read_bytes())
