"""to-json: each kind of text, the schema, and bad texts."""

import json
import random
import re
import unittest

from srv6tools.program import run_program
from support import EXAMPLES, HELPERS, REPORT, ToolCase
from support import needs_package, needs_program, run_here, run_tool

DOCS = HELPERS.parent / "docs"
ROWS = HELPERS.parent / "crates" / "worked_rows" / "data"
TEXTS = {
    "report": REPORT,
    "report without a list": "# none\nsrv6 certificate 1\nnone\nend\n",
    "report alone": "# container ::1\n# containers 1\n# header 40\n# need 4\n",
    "certificate": "# x\nsrv6 certificate 1\npotential 0 - 0 1 4\npath new ::/1\nend\n",
    "err": """\
packet 2: not read, NotIp
packet 1: left ce
packet 3: delivered at D
packet 4: dropped UpperLayer at D
packet 5: stopped after 10000 stages
refused 16 CutFrame 6
""",
    "err of a refusal": "refused 31 DoublePrefix route 3\n",
    "err without an answer": "no answer TooLong 12\n",
    "err without a list": "no answer NoList\n",
    "err of usage": "usage: srv6 compile|check|walk|run|trace|replay|show|gen|update\n",
    "err of an update": """\
edit add route 7
edit add sid 7
edit switch
edit busy 1
packet 1: left ce
edit remove route 2
""",
    "trace": """\
srv6 trace 1
packet 1 6 B 60
again fcbb:bb00:2::/48 table 0 60
hand fcbb:bb00:3::/48 through 4 -
send bc1 61
drop NoRoute -
packet 2 4 B 45
drop HopLimit 6061
packet 3 6 B -
local
stages
end
""",
    "trace that is cut": "srv6 trace 1\n",
    "show": """\
packet 1
ip6 class 0 flow 0 payload 40 next 43 hop 64 src 2001:db8:1::1 dst fcbb:bb00:2::
hop-by-hop at 40 bytes 8
destination at 48 bytes 8
routing type 0 left 1 at 56 bytes 8
srh next 59 left 1 last 1 flags 0 tag 0 at 64 bytes 40
entry 0 fcbb:bb00:4::
entry 1 fcbb:bb00:2::
tlvs 0
srh next 59 left 1 last 9 flags 0 tag 0 at 104 bytes 40
entry 0 fcbb:bb00:4::
entry 1 fcbb:bb00:2::
bad last entry
fragment at 144
packet 2
not read ShortFrame
packet 3
truncated
packet 4
bad version
packet 5
ip4 ttl 64 proto 17 total 20 src 192.0.2.1 dst 192.0.2.2
packet 6
ip6 class 0 flow 0 payload 0 next 59 hop 64 src ::1 dst ::2
upper 59 at 40 bytes 0
packet 7
ip6 class 0 flow 0 payload 0 next 43 hop 64 src ::1 dst ::2
bad chain at 40
""",
    "verdict of a list": "least 4 4\n",
    "verdict of none": "none\n",
    "verdict of a bad line": "no 9 edge\n",
    "verdict of a missing state": "no 8 unlisted 1 fcbb:bb00:2::/48 0\n",
    "verdict of a trace": "ok 1 5\n",
    "verdict of a wrong trace": "no 4 send bc1 60\n",
    "summary": "nodes 3\nlinks 5\nroutes 4\nsids 5\ncontainers 1\nheader 40\nneed 4\npackets 1000\n"
    "frames 2000\nleft 1000\n",
}
BAD = (
    "",
    "hello\n",
    "packet x\n",
    "packet 1\nip6 class 0\n",
    "packet 1\nnot read NotIp\ntruncated\n",
    "packet 1\nip6 class 0 flow 0 payload 0 next 59 hop 64 src 1 dst\n",
    "packet 1\nsrh next 59 left 1 last 1 flags 0 tag 0 at 64 bytes 40\nentry 1 ::\n",
    "packet 1: flew away\n",
    "packet " + "9" * 5000 + ": left a\n",
    "packet " + "9" * 5000 + "\n",
    "refused 3\n",
    "refused " + "9" * 5000 + " X\n",
    "no answer Never\n",
    "least 4\n",
    "least 4 4\nleast 4 4\n",
    "ok 1 " + "9" * 5000 + "\n",
    "no 4\n",
    "srv6 trace 1\nsend bc1 60\nend\n",
    "srv6 trace 1\npacket 1 6 B 6\nend\n",
    "srv6 trace 1\nend\nend\n",
    "srv6 certificate 1\nend\n",
    "srv6 certificate 1\npotential 0\nnone\nend\n",
    "# container x\n# containers 1\n",
    "# container ::1\n",
    "# none\nsrv6 certificate 1\n",
    "nodes 3\nlinks 5\n",
    "nodes 3\nlinks x\n",
    "nodes " + "9" * 5000 + "\n",
    "\x00\n",
    "usage\n",
)  # fmt: skip


def kind(name: str) -> str:
    return name.split()[0]


class Texts(ToolCase):
    def as_json(self, text: str | bytes, *words: str) -> dict:
        given = text.encode() if isinstance(text, str) else text
        ran = run_here("to-json", *words, given=given)
        self.assertEqual((ran.status, ran.err), (0, ""))
        return json.loads(ran.out)

    def test_each_kind_is_found(self):
        for name, text in TEXTS.items():
            with self.subTest(name):
                self.assertEqual(self.as_json(text)["kind"], kind(name))
                self.assertEqual(self.as_json("\ufeff" + text), self.as_json(text))
                self.assertEqual(self.as_json(text, "--kind", kind(name)), self.as_json(text))

    def test_values(self):
        report = self.as_json(TEXTS["report"])
        self.assertEqual(report["list"], {"containers": ["fcbb:bb00:2::"], "header": 40, "need": 4})
        potential = report["certificate"]["potentials"][1]
        self.assertEqual((potential["prefix"], potential["node"]), ("fcbb:bb00:2::/48", "B"))
        self.assertTrue(report["certificate"]["path"][1]["stays"])
        empty = self.as_json(TEXTS["report without a list"])
        self.assertEqual(empty["list"], None)
        self.assertEqual(empty["certificate"], {"potentials": [], "path": None})
        lines = self.as_json(TEXTS["err"])["lines"]
        self.assertEqual(lines[3]["reason"], "UpperLayer")
        self.assertEqual((lines[1]["link"], lines[2]["node"]), ("ce", "D"))
        walks = self.as_json(TEXTS["trace"])["packets"]
        self.assertEqual(walks[0]["stages"][0], {
            "stage": "again", "sid": "fcbb:bb00:2::/48", "table": 0, "bytes": "60",
        })  # fmt: skip
        self.assertEqual(walks[0]["stages"][1]["table"], None)
        drop = {"stage": "drop", "reason": "HopLimit", "error": "6061"}
        self.assertEqual(walks[1]["stages"], [drop])
        self.assertFalse(self.as_json(TEXTS["trace that is cut"])["whole"])
        shown = self.as_json(TEXTS["show"])["packets"]
        self.assertEqual(shown[0]["headers"][4]["entries"], ["fcbb:bb00:4::", "fcbb:bb00:2::"])
        bad = shown[0]["headers"][5]
        self.assertEqual((bad["last"], len(bad["entries"]), bad["tlvs"]), (9, 2, None))
        self.assertEqual(shown[1], {"packet": 2, "not_read": "ShortFrame", "headers": []})
        self.assertEqual(self.as_json("", "--kind", "err"), {"kind": "err", "lines": []})
        verdict = self.as_json(TEXTS["verdict of a missing state"])
        self.assertEqual((verdict["line"], verdict["state"]), (8, "1 fcbb:bb00:2::/48 0"))

    @needs_package("jsonschema")
    def test_schema(self):
        try:
            import jsonschema
        except ImportError:
            self.skipTest("the Python package jsonschema is missing for this Python")
        schema = json.loads((DOCS / "srv6.schema.json").read_text())
        for name, text in TEXTS.items():
            with self.subTest(name):
                jsonschema.validate(self.as_json(text), schema)

    def test_the_document_says_so(self):
        """The JSON that docs/FORMATS.md shows is what comes of the text that it shows in front."""
        section = (DOCS / "FORMATS.md").read_text().split("\n## As JSON\n")[1].split("\n## ")[0]
        pairs = re.findall(r"```text\n(.*?)```\n\n```json\n(.*?)```", section, re.DOTALL)
        self.assertGreaterEqual(len(pairs), 4)
        for text, wanted in pairs:
            self.assertEqual(self.as_json(text), json.loads(wanted))

    @needs_program
    def test_what_the_program_writes(self):
        net, intent = EXAMPLES / "behaviours.toml", EXAMPLES / "intent.toml"
        given = (EXAMPLES / "behaviours.pcap").read_bytes()
        runs = {
            "trace": run_program(["trace", net, "N"], given).out,
            "show": run_program(["show"], given).out,
            "report": run_program(["compile", EXAMPLES / "m2.toml", intent]).out,
            "err": run_program(["run", net, "N"], given).err.encode(),
            "summary": run_program(["gen", "3", "sum"]).out,
        }
        for name, text in runs.items():
            self.assertEqual(self.as_json(text)["kind"], name)
        self.assertEqual(len(self.as_json(runs["show"])["packets"]), 17)


class WorkedRows(ToolCase):
    """What the program has to write in the rows that it is tested with."""

    def test_each_text_is_read(self):
        kinds = {"compile": "report", "check": "verdict", "replay": "verdict"}
        count = 0
        for args in sorted(ROWS.glob("*/*/args")):
            words = args.read_text().split("\n")
            command = words[0]
            if command in ("run", "walk", "update") or command == "gen" and words[2] != "sum":
                texts = {"stderr": "err"}
            else:
                kind = "summary" if command == "gen" else kinds.get(command, command)
                texts = {"stdout": kind, "stderr": "err"}
            for file, kind in texts.items():
                content = (args.parent / file).read_bytes()
                if not content:
                    continue
                with self.subTest(f"{args.parent.parent.name}/{args.parent.name} {file}"):
                    ran = run_here("to-json", given=content)
                    self.assertEqual((ran.status, ran.err), (0, ""))
                    self.assertEqual(json.loads(ran.out)["kind"], kind)
                    count += 1
        self.assertGreater(count, 400)


class Bad(ToolCase):
    def test_words(self):
        self.helps("to-json")
        self.assertEqual(run_tool("to-json", "--kind", "poem").status, 2)
        self.named_answer(run_tool("to-json", self.folder / "absent"), [5])
        self.named_answer(run_tool("to-json", self.folder), [5])
        text = TEXTS["show"].encode() * 1000
        self.survives_closed_pipe("to-json", given=text)

    def test_bad_texts(self):
        for text in BAD:
            with self.subTest(text[:40]):
                self.named_answer(run_here("to-json", given=text.encode()), [1])
        self.named_answer(run_here("to-json", given=b"packet 1\n\xff\n"), [1])

    def test_of_another_kind(self):
        for name, text in TEXTS.items():
            for other in ("report", "certificate", "err", "trace", "show", "verdict", "summary"):
                if other != kind(name):
                    ran = run_here("to-json", "--kind", other, given=text.encode())
                    self.assertNotIn("Traceback", ran.err)
                    self.assertIn(ran.status, (0, 1))

    def test_changed_texts(self):
        chance = random.Random(2)
        for text in TEXTS.values():
            for _ in range(20):
                content = bytearray(text.encode())
                content[chance.randrange(len(content))] = chance.choice(b"0 9-/:\nax\xff")
                ran = run_here("to-json", given=bytes(content))
                self.assertNotIn("Traceback", ran.err)
                self.assertIn(ran.status, (0, 1))


if __name__ == "__main__":
    unittest.main()
