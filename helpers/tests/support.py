"""What the tests of the tools share: running a tool, skips by name, and bad files."""

import contextlib
import importlib.util
import io
import os
import shutil
import subprocess
import sys
import tempfile
import unittest
import unittest.mock
from collections.abc import Iterator, Sequence
from dataclasses import dataclass
from pathlib import Path

from srv6tools.engine import EngineEnded, find_engine
from srv6tools.program import find_program

HELPERS = Path(__file__).resolve().parents[1]
EXAMPLES = HELPERS.parent / "examples"
SECONDS = 60  # at most for one run of a tool
# A report with a certificate, as `srv6 compile` prints them.
REPORT = """\
# container fcbb:bb00:2::
# containers 1
# header 40
# need 4
srv6 certificate 1
potential 0 - 0 1 4
potential 1 fcbb:bb00:2::/48@B 0 1 3
path new fcbb:bb00:2::/48
path stay fcbb:bb00:4::/48
end
"""


@dataclass(frozen=True)
class Ran:
    """What a run of a tool came to."""

    status: int
    out: str
    err: str
    raw: bytes  # what `out` holds


def run_tool(tool: str, *words: str | Path, given: bytes = b"", **settings: str) -> Ran:
    """Runs a tool as a command, with settings of the environment beside those that are there."""
    done = subprocess.run(
        [str(HELPERS / tool), *map(str, words)],
        input=given,
        capture_output=True,
        timeout=SECONDS,
        env=os.environ | settings,
    )
    out, err = (text.decode("utf-8", "backslashreplace") for text in (done.stdout, done.stderr))
    return Ran(done.returncode, out, err, done.stdout)


def run_here(tool: str, *words: str | Path, given: bytes = b"", **settings: str) -> Ran:
    """Runs a tool in this process, which starts no Python anew: for tests of many runs."""
    module = importlib.import_module("srv6tools." + tool.replace("-", "_"))
    out, err = io.BytesIO(), io.BytesIO()
    streams = {
        "stdin": io.TextIOWrapper(io.BytesIO(given)),
        "stdout": io.TextIOWrapper(out, write_through=True),
        "stderr": io.TextIOWrapper(err, write_through=True),
    }
    with contextlib.ExitStack() as held:
        held.enter_context(unittest.mock.patch.dict(os.environ, settings))
        # A slow machine makes no other output.
        held.enter_context(unittest.mock.patch("srv6tools.command.PROGRESS_AFTER", 3600))
        for name, stream in streams.items():
            held.enter_context(unittest.mock.patch.object(sys, name, stream))
        status = module.main([str(word) for word in words])
    texts = (raw.getvalue().decode("utf-8", "backslashreplace") for raw in (out, err))
    return Ran(int(status), *texts, out.getvalue())


def needs_program(test):
    """Skips a test where the program srv6 isn't built."""
    return unittest.skipUnless(find_program(), "the program srv6 isn't there")(test)


def needs_engine(test):
    """Skips a test where the program srv6-pce isn't built."""
    try:
        find_engine()
    except EngineEnded:
        return unittest.skip("the program srv6-pce isn't there")(test)
    return test


def needs_tool(name: str):
    """Skips a test where a command isn't there."""
    return unittest.skipUnless(shutil.which(name), f"{name} is missing")


def needs_package(name: str):
    """Skips a test where a Python package isn't there, for the Python of Debian."""
    here = importlib.util.find_spec(name) is not None
    if not here and Path("/usr/bin/python3").exists():
        asked = ["/usr/bin/python3", "-c", f"import {name}"]
        here = subprocess.run(asked, capture_output=True).returncode == 0
    return unittest.skipUnless(here, f"the Python package {name} is missing")


class ToolCase(unittest.TestCase):
    """A test with a folder of its own, and what each tool has to keep."""

    def setUp(self) -> None:
        folder = tempfile.TemporaryDirectory()
        self.addCleanup(folder.cleanup)
        self.folder = Path(folder.name)

    def file(self, name: str, content: str | bytes) -> Path:
        """A file of the folder."""
        path = self.folder / name
        path.write_bytes(content.encode() if isinstance(content, str) else content)
        return path

    def named_answer(self, ran: Ran, statuses: Sequence[int] = (1, 5)) -> None:
        """The run ended with a line, without a traceback."""
        self.assertNotIn("Traceback", ran.err)
        self.assertIn(ran.status, statuses, ran.err)
        self.assertTrue(ran.err.strip(), "nothing is said")

    def fake_program(self, err: str = "", out: str = "", status: int = 0) -> str:
        """A program that stands in for srv6 and always answers so."""
        path, kept = self.file("fake-srv6", ""), self.file("fake-out", out)
        said = self.file("fake-err", err)
        path.write_text(f"#!/bin/sh\ncat '{said}' >&2\ncat '{kept}'\nexit {status}\n")
        path.chmod(0o755)
        return str(path)

    def helps(self, tool: str) -> None:
        """`--help` stands on `out`, says that the tool isn't proved, and other words are Usage."""
        ran = run_tool(tool, "--help")
        self.assertEqual((ran.status, ran.err), (0, ""))
        self.assertIn("NOT PROVED", ran.out)
        ran = run_tool(tool, "--no-such-word")
        self.assertEqual((ran.status, ran.out), (2, ""))
        self.assertEqual(len(ran.err.splitlines()), 1)

    def survives_closed_pipe(self, tool: str, *words: str | Path, given: bytes = b"") -> None:
        """A reader that goes away leaves no traceback."""
        read, write = os.pipe()
        os.close(read)
        try:
            done = subprocess.run(
                [str(HELPERS / tool), *map(str, words)],
                input=given, stdout=write, stderr=subprocess.PIPE, timeout=SECONDS,
            )  # fmt: skip
        finally:
            os.close(write)
        self.assertNotIn(b"Traceback", done.stderr)
        self.assertNotIn(b"Exception ignored", done.stderr)
        self.assertEqual(done.returncode, 5)


def bad_tomls() -> Iterator[tuple[str, bytes]]:
    """Texts that are no description and no intent, each with a name."""
    yield "no TOML", b"node = ["
    yield "no UTF-8", b'x = "\xff"\n'
    yield "a zero byte", b"\0"
    yield "a key that stands twice", b"a = 1\na = 2\n"
    yield "an integer of 65 bits", b"a = 18446744073709551616\n"
    yield "deep lists", b"a = " + b"[" * 5000 + b"]" * 5000
    yield "deep tables", b"a = " + b"{b=" * 2000 + b"1" + b"}" * 2000
    yield "too big", b"#" * 4_194_305
    yield "an unknown table", b"[[noode]]\nname = 1\n"
    yield "a table that is no array", b"[node]\nname = 'A'\n"
    yield "an array of numbers", b"node = [1]\nstep = [1]\n"
    yield "a node without a name", b"[[node]]\naddress = '::1'\n"
    yield "a name that is a number", b"[[node]]\nname = 1\naddress = '::1'\n"
    yield "no address", b"[[node]]\nname = 'A'\naddress = '::g'\n"
    yield "an address with a zone", b"[[node]]\nname = 'A'\naddress = 'fe80::1%eth0'\n"
    yield "a dotted address", b"[[node]]\nname = 'A'\naddress = '::1.2.3.4'\n"
    yield "an unknown node", b"[[link]]\nname = 'a'\nfrom = 'B'\n"
    yield "dates", b"node = 1979-05-27\nheadend = 1979-05-27\n"


def bad_captures() -> Iterator[tuple[str, bytes]]:
    """Inputs that are no capture and no packet, each with a name."""
    head = bytes.fromhex("d4c3b2a1020004000000000000000000ffff000065000000")
    yield "nothing", b""
    yield "three bytes", b"\xd4\xc3\xb2"
    yield "text", b"some text\n"
    yield "a cut head", head[:20]
    yield "another version", head[:4] + b"\x03\x00" + head[6:]
    yield "another link type", head[:20] + b"\x93\x00\x00\x00"
    yield "a cut frame's head", head + bytes(10)
    yield "a cut frame", head + bytes.fromhex("01000000 02000000 50000000 50000000") + bytes(10)
    yield "a frame of 4 GiB", head + bytes.fromhex("01000000 02000000 ffffffff ffffffff")
    yield "a pcapng head", bytes.fromhex("0a0d0d0a 1c000000 4d3c2b1a")
    yield "a gzip head", bytes.fromhex("1f8b0800")
    yield "bytes of one value", b"\xff" * 100
