"""Fifty bad files in the place of each file of each tool: an answer with a name, and no traceback."""

import random
import unittest
from collections.abc import Iterator
from pathlib import Path

from support import EXAMPLES, HELPERS, Ran, ToolCase, bad_captures, bad_tomls, run_here

NET, INTENT, PLAN, WHAT_IF = "net", "intent", "plan", "what-if"
CAPTURE, SENT, CERT, TRACE, PROFILE = "capture", "sent", "cert", "trace", "profile"
LISTED, RULES = "listed", "rules"
# The words of each tool, in which the names above stand for files, and what its input is. srv6-say,
# which gives its own streams to the program, has tests of its own for that.
CALLS = [
    ("to-raw", [CAPTURE], None),
    ("why-no-list", [NET, INTENT], None),
    ("largest-inner", [NET, INTENT], None),
    ("all-paths", [NET, "B"], CAPTURE),
    ("all-paths", [NET, INTENT], CAPTURE),
    ("all-paths", ["--count", NET, INTENT], None),
    ("name-links", [NET], SENT),
    ("routes", [NET, PLAN], None),
    ("srv6-diff", [SENT, SENT], None),
    ("srv6-diff", [TRACE, TRACE], None),
    ("to-json", [CERT], None),
    ("to-json", [TRACE], None),
    ("to-linux", [NET, "B"], None),
    ("from-linux", ["B"], CERT),
    ("from-bgp-ls", [LISTED], None),
    ("linux-route", [INTENT, "2001:db8::/32", "eth0"], CERT),
    ("to-frr", [INTENT, "2001:db8::/32", "eth0"], CERT),
    ("to-gobgp", [INTENT, "192.0.2.1", "10", "2001:db8::4"], CERT),
    ("to-ios-xr", [INTENT, "10", "2001:db8::4"], CERT),
    ("to-junos", [INTENT, "10", "2001:db8::4"], CERT),
    ("check-certificate", [NET, INTENT, CERT], None),
    ("draw-walk", [NET, SENT], None),
    ("view", [NET, CAPTURE, "--at", "B"], None),
    ("view", [NET, INTENT, CAPTURE], None),
    ("view", [NET, WHAT_IF], None),
    ("from-linux", ["--address", "::1", "--rules", RULES, LISTED], None),
    ("packets", [NET, "B"], None),
    ("conform", [NET, "B", "--dut", "pcap:head -c 24", "--most", "0", "--profile", PROFILE], None),
]
CERTIFICATE = """\
# container fcbb:bb00:2::
# containers 1
# header 40
# need 4
srv6 certificate 1
potential 0 - 0 1 4
path new fcbb:bb00:2::/48
end
"""
TABLE = """\
{"kind": "what-if", "intents": ["i"], "failures": [{"name": "bc1", "links": ["bc1"]}], "cells": [[
 {"state": "none", "answer": "no answer NoList", "traffic":
  {"headend": "A", "inner": "60", "link": null, "end": "dropped NoRoute at A", "arrives": false}}]]}
"""
TRACED = "srv6 trace 1\npacket 1 6 B 60\ndrop Truncated -\nend\n"


def good_files() -> dict[str, bytes]:
    """A file of each kind."""
    return {
        NET: (EXAMPLES / "m2.toml").read_bytes(),
        INTENT: (EXAMPLES / "intent.toml").read_bytes(),
        PLAN: b'[[cable]]\nnodes = ["A", "D"]\n',
        CAPTURE: (EXAMPLES / "inner.pcap").read_bytes(),
        SENT: (EXAMPLES / "csids-out.pcap").read_bytes(),
        CERT: CERTIFICATE.encode(),
        TRACE: TRACED.encode(),
        WHAT_IF: TABLE.encode(),
        LISTED: b'[{"dst": "fc00:0:1::/48", "encap": "seg6local", "action": "End", "dev": "a", "table": "7", "metric": 1}]',
        RULES: b'[{"priority": 1, "src": "all", "dst": "fc00::", "dstlen": 16, "table": "7"}]',
        PROFILE: b'name = "quiet"\n[rule]\nerror = "optional"\n',
    }


def bad_files() -> Iterator[bytes]:
    """Fifty files: no TOML and no captures by hand, and good files that are cut or changed."""
    files = [content for _, content in (*bad_tomls(), *bad_captures())]
    chance = random.Random(50)
    good = list(good_files().values())
    while len(files) < 50:
        content = bytearray(chance.choice(good))
        if len(files) % 2:
            del content[chance.randrange(len(content)) :]
        for _ in range(8):
            if content:
                content[chance.randrange(len(content))] = chance.randrange(256)
        files.append(bytes(content))
    yield from files


class BadFiles(ToolCase):
    def setUp(self) -> None:
        super().setUp()
        self.good = good_files()
        for name, content in self.good.items():
            self.file(name, content)

    def runs(self, tool: str, words: list[str], given: str | None, bad: bytes) -> Iterator[Ran]:
        """Runs a tool with a bad file in the place of each of its files in turn."""
        self.file("bad", bad)
        paths = [self.folder / word if word in self.good else Path(word) for word in words]
        content = self.good[given] if given else b""
        for place, word in enumerate(words):
            if word in self.good:
                changed = [*paths[:place], self.folder / "bad", *paths[place + 1 :]]
                yield run_here(tool, *changed, given=content)
        if given:
            yield run_here(tool, *paths, given=bad)

    def answers(self, tool: str, words: list[str], given: str | None) -> None:
        """Each run has a status of its own, and a line where it isn't 0 or 4."""
        for number, bad in enumerate(bad_files()):
            for ran in self.runs(module_of(tool), words, given, bad):
                with self.subTest(number=number):
                    self.assertNotIn("Traceback", ran.err)
                    self.assertIn(ran.status, range(7))
                    self.assertTrue(ran.status in (0, 4) or ran.err.strip(), "nothing is said")


def module_of(tool: str) -> str:
    """The module of a tool, which may be called without what all of them have in front."""
    whole = tool.replace("-", "_")
    there = (HELPERS / "srv6tools" / f"{whole}.py").exists()
    return whole if there else whole.removeprefix("srv6_")


def _add(tool: str, words: list[str], given: str | None) -> None:
    """A test of a call."""
    name = "test_" + "_".join([tool, *words]).replace("-", "_").replace(":", "").replace("/", "_").replace(" ", "_")
    there = (HELPERS / "srv6tools" / f"{module_of(tool)}.py").exists()
    test = unittest.skipUnless(there, f"{tool} is missing")(
        lambda self: self.answers(tool, words, given)
    )
    setattr(BadFiles, name, test)


for _tool, _words, _given in CALLS:
    _add(_tool, _words, _given)
