"""srv6-say: what it says of each refusal, answer and fault."""

import json
import os
import struct
import unittest
import unittest.mock
from collections.abc import Iterator
from dataclasses import dataclass
from pathlib import Path

from srv6tools import say
from srv6tools.program import run_program
from support import EXAMPLES, ToolCase, bad_captures, bad_tomls, needs_program, run_tool

M2 = (EXAMPLES / "m2.toml").read_text()
INTENT = (EXAMPLES / "intent.toml").read_text()
COMPRESSED = (EXAMPLES / "compressed.toml").read_text()
NESTED = (EXAMPLES / "nested.toml").read_text()
PACKET = (EXAMPLES / "srh.bin").read_bytes()
HEAD = struct.pack("<IHHIII", 0xA1B2C3D4, 2, 4, 0, 0, 65535)
RAW = HEAD + struct.pack("<I", 101)
FRAME = struct.pack("<IIII", 1, 0, len(PACKET), len(PACKET)) + PACKET


def item(table: str, **keys) -> str:
    lines = (f"{key.rstrip('_')} = {json.dumps(value)}\n" for key, value in keys.items())
    return f"[[{table}]]\n" + "".join(lines)


def route(prefix: str, node: str = "A", via=("ax",)) -> str:
    return item("route", node=node, prefix=prefix, via=via)


def sid(prefix: str = "fc00::/48", behaviour: str = "End", more: str = "") -> str:
    return item("sid", node="A", prefix=prefix, behaviour=behaviour) + more


A, B = item("node", name="A", address="2001:db8::a"), item("node", name="B", address="2001:db8::b")
AB = A + B + item("link", name="ab", from_="A", to="B")
AX = A + item("link", name="ax", from_="A")
BLOCK = item("block", prefix="fc00::/32", kind="next", csid=16)
STEPS = INTENT.index("[[step]]")

# Descriptions: the line of the program, the text, and what has to be said of it.
NETS = (
    ("21 NotToml", "[[node", "end of document"),
    ("21 NotToml", b"\n\xff", "line 2: not UTF-8"),
    ("21 NotToml", "x = 9223372036854775808", "64 bits"),
    ("21 NotToml", A + 'name = "B"\n', "line 4"),
    ("22 MissingKey node 1 name", item("node", address="::1"), "the key `name` is missing"),
    ("23 WrongKind link 0", '[link]\nname = "x"\n', "[[link]]"),
    ("23 WrongKind node 1", item("node", name=3, address="::1"), "`name` is 3, which is an int"),
    ("24 UnknownKey net 0", "nodes = []\n", "did you mean node?"),
    ("24 UnknownKey node 1", A + 'mac = "x"\n', "`mac` is no key of a node"),
    ("24 UnknownKey node 1", item("node", nam="A", address="::1"), "did you mean name?"),
    ("25 BadName link 2", AX + item("link", name="a b", from_="A"), '`name` is "a b"'),
    ("26 UnknownName route 1", AX + route("::/0", node="Z"), "the nodes are A"),
    ("26 UnknownName route 1", AX + route("::/0", via=["ay"]), "the links are ax"),
    ("27 DoubleName node 3", A + B + item("node", name="A", address="::9"), "node 1, line 1"),
    ("28 BadAddress node 1", item("node", name="A", address="1:2:3"), "`address` is"),
    ("28 BadAddress route 1", AX + route("2001:db8::1/32"), "2001:db8::/32"),
    ("29 BadFlavour sid 1", A + sid(behaviour="End.Z"), '"End.DT46"'),
    ("29 BadFlavour sid 1", A + sid(more='csid = "next"\n'), "the blocks are: none"),
    ("29 BadFlavour sid 1", BLOCK + A + sid("fc00::/40", more='csid = "next"\n'), "/48 or /64"),
    (
        "29 BadFlavour sid 1",
        A + sid(behaviour="End.DT6", more='table = 1\nflavours = ["psp"]\n'),
        "End.DT6 has none",
    ),
    ("29 BadFlavour sid 1", A + sid(more='flavours = ["psp", "psp"]\n'), "`psp` stands twice"),
    ("29 BadFlavour block 1", item("block", prefix="fc00::/32", kind="next", csid=8), "16 or 32"),
    ("30 BadStructure block 1", item("block", prefix="fc00::/40", kind="next", csid=16), "not 40"),
    ("30 BadStructure block 2", BLOCK + BLOCK.replace("/32", "/48"), "overlaps block 1, line 1"),
    ("30 BadStructure link 1", A + item("link", name="a", from_="A", to="A"), "where it starts"),
    ("30 BadStructure route 1", AB + route("::/0", node="B", via=["ab"]), "starts at A, not at B"),
    ("30 BadStructure route 1", AB + route("::/0", via=[]), "no links"),
    ("30 BadStructure route 1", AB + route("::/0", via=["ab", "ab"]), '"ab" stands twice'),
    ("30 BadStructure policy 1", item("policy", name="p", source="::1", segments=[]), "no segm"),
    ("30 BadStructure sid 1", A + sid(behaviour="End.T"), "End.T needs the key `table`"),
    ("30 BadStructure sid 1", A + sid(more="table = 1\n"), "End has no key `table`"),
    ("31 DoublePrefix node 2", A + item("node", name="C", address="2001:db8::a"), "node 1, line 1"),
    ("31 DoublePrefix route 3", AX + route("::/0") + route("::/1") + route("::/0"), "route 1, l"),
    ("31 DoublePrefix sid 2", A + sid() + sid(), "sid 1, line 4"),
    ("32 Limit block 0", BLOCK * 65, "there are 65, and may be at most 64"),
    ("32 Limit node 1", item("node", name="A", address="::1", allow=[256]), "`allow` has 256"),
    ("32 Limit sid 1", A + sid(prefix="::/0"), "1 to 128 bits"),
    (
        "32 Limit sid 65",
        A + "".join(sid(prefix=f"fc00:{number:x}::/48") for number in range(1, 66)),
        "at most 64",
    ),
)  # fmt: skip

INTENTS = (
    ("33 Text NotToml", "=", "line 1"),
    ("33 Text BadFlavour intent 0", INTENT.replace('"reduced"', '"short"'), '"full", "reduced"'),
    ("33 Text MissingKey intent 0 step", INTENT[:STEPS], "the key `step` is missing"),
    ("33 Text Limit step 0", INTENT[:STEPS] + "step = []\n", "there are 0"),
    ("33 Text Limit step 1", INTENT.replace('["ab"]', "[]"), "`links` has 0 members"),
    ("33 Text MissingKey step 2 links", INTENT.replace('links = ["bc1"]', ""), "`function`"),
    ("33 Text UnknownKey step 1", INTENT.replace('["ab"]', '["ab"]\nfunction = "v"'), "not two"),
    ("34 UnknownName 0", INTENT.replace('headend = "A"', 'headend = "Q"'), "the nodes are A, B"),
    ("34 UnknownName 2", INTENT.replace("bc1", "bc9"), "did you mean bc"),
    ("35 Broken 1", INTENT.replace('"ab"', '"cd"'), 'step 1, which stands at A: the link "cd"'),
    ("34 UnknownName 2", INTENT.replace('links = ["bc1"]', 'reach = "Q"'), 'there is no node "Q"'),
    ("35 Broken 1", INTENT.replace('links = ["ab"]', 'reach = "A"'), "stands already"),
    (
        "35 Broken 4",
        INTENT.replace("function", 'links = ["ce"]\n\n[[step]]\nfunction'),
        "leaves the network",
    ),
    ("36 NoFunction 2", INTENT.replace('links = ["bc1"]', 'function = "vpn"'), "is at D"),
    ("36 NoFunction 4", INTENT.replace("vpn", "vpn2"), "did you mean vpn?"),
    ("37 NotFunctionLast", INTENT[: INTENT.rindex("[[step]]")], "whose functions are: vpn"),
    ("38 DoubleLink 2", INTENT.replace('"bc1"', '"bc1", "bc1"'), '"bc1" stands twice'),
)

FLATNESS = (
    (
        "41 Nested fcbb:bb00:2::/48 fcbb:bb00:2:1::/64",
        M2 + route("fcbb:bb00:2:1::/64", via=["ab"]),
        "route 6, line",
    ),
    (
        "41 Nested fcbb:bb00:4::/48 fcbb:bb00:4:f001::/64",
        NESTED.replace("fcbb:bb00:4::/48", "fcbb:bb00:4:f001::/64", 1),
        "route 2, line",
    ),
    (
        "42 ZeroCsid fcbb:bb00::/48",
        COMPRESSED + sid("fcbb:bb00::/48", more='csid = "next"\n'),
        "sid 5, line",
    ),
    (
        "43 MixedBlock fcbb:bb00::/32 fcbb:bb00:8::/56",
        COMPRESSED + sid("fcbb:bb00:8::/56"),
        "block 1, line",
    ),
    ("44 Clash fcbb:bb00:2::/48 B A", COMPRESSED + sid("fcbb:bb00:2::/48"), "sid 5, line"),
)

INPUTS = (
    ("11 BadMagic", bytes([1, 2, 3, 4]) + bytes(30), "01020304"),
    ("11 BadMagic", b"\x1f\x8b\x08\x00" + bytes(30), "gzip"),
    ("11 BadMagic", b"some text", "the text 'some text'"),
    ("11 BadMagic", b"\x45\x00\x00\x14" + bytes(16), "bare IPv4 packet"),
    ("50 NgMagic 1", bytes.fromhex("0a0d0d0a") + bytes(30), "neither byte order"),
    ("53 NgCut 1", bytes.fromhex("0a0d0d0a"), "ends within block 1"),
    ("13 BadVersion", RAW[:6] + b"\3" + RAW[7:], "2.4"),
    ("14 BadLink 113", HEAD + struct.pack("<I", 113), "Linux cooked v1"),
    ("15 CutHead", b"", "is empty"),
    ("15 CutHead", HEAD, "ends within its head"),
    ("16 CutFrame 2", RAW + FRAME + b"\0", "frame 2"),
    ("17 FrameLimit", RAW + bytes(16) * 65536 + b"\0", "more than 65536 frames"),
)

USAGES = (
    ([], "srv6 walk NET INTENT"),
    (["rum"], "did you mean run?"),
    (["--help"], "the commands are:"),
    (["run", "net"], "run takes 2 to 4 words behind it, and there are 1"),
    (["run", "net", "A", "1, 2"], "CHOICES is 1 to 4096 numbers"),
    (["run", "net", "A", "01"], "CHOICES"),
    (["run", "net", "A", "4294967296"], "above 4294967295"),
    (["run", "net", "A", "0", "0"], "count from 1"),
    (["gen", "48", "net"], "from 2 to 47"),
)


@dataclass(frozen=True)
class Case:
    """A run, and what has to be said of it."""

    words: tuple[str, ...]
    given: Path | None
    line: str  # the last one that the program writes on `err`
    status: int
    wants: str


class Say(ToolCase):
    def cases(self) -> Iterator[Case]:
        """All of the tables above, each with files of its own."""
        packet, m2 = self.file("packet", PACKET), self.file("m2.toml", M2)
        intent = self.file("intent.toml", INTENT)
        rows = [(NETS, lambda path: ("run", path, "B"), packet)]
        rows.append((INTENTS, lambda path: ("compile", m2, path), None))
        rows.append((FLATNESS, lambda path: ("compile", path, intent), None))
        number = 0
        for table, words, given in rows:
            for line, content, wants in table:
                number += 1
                path = self.file(f"case-{number}.toml", content)
                yield Case(tuple(map(str, words(path))), given, f"refused {line}", 1, wants)
        for line, content, wants in INPUTS:
            number += 1
            given = self.file(f"case-{number}", content)
            yield Case(("show",), given, f"refused {line}", 1, wants)
        wants = "the nodes are A, B, C, D"
        yield Case(("run", str(m2), "b"), packet, "refused 39 BadNode", 1, wants)
        big = self.file("big.toml", M2 + "#" * 4_194_304)
        words = ("run", str(big), "B")
        yield Case(words, packet, "refused 2 TooBig 4194304", 1, "big.toml has more")
        swapped = ("compile", str(intent), str(m2))
        yield Case(swapped, None, "refused 24 UnknownKey net 0", 1, "the description comes first")
        for why, old, new, wants in (
            ("NoList", "bc1", "bc2", "why-no-list"),
            ("TooLong 4", "mode", "max_containers = 3\nmode", "allows 3"),
            ("HopLimit 4", "mode", "hop_limit = 4\nmode", "above 4"),
        ):
            path = self.file(f"{why}.toml", INTENT.replace(old, new))
            yield Case(("compile", str(m2), str(path)), None, f"no answer {why}", 3, wants)
        absent = str(self.folder / "absent")
        yield Case(("run", absent, "B"), packet, "", 5, "absent: No such file or directory")
        yield Case(("compile", str(m2), absent), None, "", 5, "absent: No such file")
        yield Case(("compile", str(self.folder), absent), None, "", 5, "Is a directory")

    def said(self, case: Case) -> str:
        """What the module says of a run that ended so, without the program."""
        with open(case.given or os.devnull, "rb") as given:
            kept = os.dup(0)
            os.dup2(given.fileno(), 0)
            try:
                return "\n".join(say._explained(say.Run(case.words, case.status, case.line)))
            finally:
                os.dup2(kept, 0)
                os.close(kept)

    def test_each_line_is_explained(self):
        for case in self.cases():
            with self.subTest(case.line, words=case.words):
                self.assertIn(case.wants, self.said(case))

    @needs_program
    def test_the_program_writes_these_lines(self):
        for case in self.cases():
            with self.subTest(case.line, words=case.words):
                given = case.given.read_bytes() if case.given else b""
                answer = run_program(case.words, given)
                last = (answer.err.splitlines() or [""])[-1]
                self.assertEqual((last, answer.status), (case.line, case.status))

    @needs_program
    def test_sids_of_a_list_are_named(self):
        words = ("compile", EXAMPLES / "domain" / "net.toml", EXAMPLES / "domain" / "red.toml")
        ran = run_tool("srv6-say", *words)
        self.assertEqual((ran.status, ran.raw), (0, run_program(words).out))
        self.assertEqual(ran.err, "srv6-say: the list is uN p1, uN p3, uN fw1, uN p3, uN pe3, uDT red-pe3\n")

    def test_usage(self):
        for words, wants in USAGES:
            with self.subTest(words):
                text = "\n".join(say._explained(say.Run(words, 2, "usage: srv6 ..")))
                self.assertIn(wants, text)

    def test_updates(self):
        old = COMPRESSED
        vpn = 'prefix = "fcbb:bb00:f001::/48"'
        new_table = '[[route]]\nnode = "D"\nprefix = "2001:db8::/32"\nvia = ["ce"]\n'
        for line, new, wants in (
            ("47 Conflict route 3 route 3", old.replace(', "bc2"]', "]"), "fcbb:bb00:4::/48, and"),
            ("47 Conflict sid 4 sid 4", old.replace(vpn, vpn.replace("f001", "f003")), '"vpn"'),
            ("47 Conflict node 4 route 6", old + new_table, "2001:db8::/32 holds 2001:db8::d/128"),
            ("48 Differs link 3", old.replace('"bc2"', '"bc3"'), "link 3 isn't the same in"),
            ("48 Differs link 5", old[: old.index('[[link]]\nname = "ce"')], "has no link 5, and"),
            ("32 Limit route 0", old, "has more routes than a description may"),
        ):
            with self.subTest(line):
                files = [self.file("old.toml", old), self.file("new.toml", new)]
                run = say.Run(("update", *map(str, files), "intent"), 1, f"refused {line}")
                with unittest.mock.patch.dict(os.environ, SRV6=self.fake_program("other\n")):
                    self.assertIn(wants, "\n".join(say._explained(run)))

    @needs_program
    def test_updates_name_the_description(self):
        good = self.file("good.toml", COMPRESSED)
        bad = self.file("bad.toml", COMPRESSED.replace("[[block]]", "[[blokc]]"))
        line = "refused 24 UnknownKey net 0"
        for first, second in ((bad, good), (good, bad)):
            words = ("update", str(first), str(second), str(EXAMPLES / "intent.toml"))
            self.assertIn("bad.toml", "\n".join(say._explained(say.Run(words, 1, line))))

    def test_verdicts(self):
        cert = self.file("cert", "srv6 certificate 1\npotential 0 - 0 5 4\nnone\nend\n")
        words = ("check", str(EXAMPLES / "m2.toml"), str(EXAMPLES / "intent.toml"), str(cert))
        text = "\n".join(say._explained(say.Run(words, 4, "", "no 2 edge")))
        self.assertIn("potential 0 - 0 5 4", text)
        text = "\n".join(say._explained(say.Run(words, 1, "refused 45 BadCert 2")))
        self.assertIn("names no state", text)
        text = "\n".join(say._explained(say.Run(words, 1, "refused 45 BadCert 5")))
        self.assertIn("`end` is missing", text)

    def test_traces(self):
        net = str(EXAMPLES / "m2.toml")
        for text, line, wants in (
            ("x\n", 1, "the first line"),
            ("srv6 trace 1\nlocal\nend\n", 2, "before the first packet"),
            ("srv6 trace 1\npacket 1 6 b 60\nend\n", 2, "did you mean B?"),
            ("srv6 trace 1\npacket 1 6 B 60\r\nend\n", 2, "no line of a packet"),
            ("srv6 trace 1\npacket 1 6 B 60\nlokal\nend\n", 3, "no line of a trace"),
            ("srv6 trace 1\n", 2, "`end` is missing"),
            ("srv6 trace 1\nend\nend\n", 3, "behind `end`"),
        ):
            with self.subTest(text):
                path = str(self.file("trace", text))
                run = say.Run(("replay", net, path), 1, f"refused 40 BadTrace {line}")
                said = "\n".join(say._explained(run))
                self.assertIn(wants.replace("did you mean B?", "no node"), said)

    def test_command(self):
        ran = run_tool("srv6-say", "--help")
        self.assertEqual((ran.status, ran.err), (0, ""))
        self.assertIn("NOT PROVED", ran.out)
        fake = self.fake_program("packet 1: dropped NoRoute at B\n", "out\n")
        ran = run_tool("srv6-say", "run", "net", "B", SRV6=fake)
        self.assertEqual((ran.status, ran.out), (0, "out\n"))
        self.assertIn("packet 1: dropped NoRoute at B\nsrv6-say: NoRoute at B (1 packet)", ran.err)
        edits = "edit add sid 5\nedit switch\nedit busy 1\nedit busy 1\nedit remove sid 2\n"
        fake = self.fake_program(edits + "packet 1: stopped after 10000 stages\n")
        ran = run_tool("srv6-say", "update", "old", "new", "intent", SRV6=fake)
        said = [line for line in ran.err.splitlines() if line.startswith("srv6-say: ")]
        for line, start in zip(
            said,
            ("stopped (1 packet): ", "edit add (once): ", "edit switch (once): ",
             "edit busy (2 times): ", "edit remove (once): "),
            strict=True,
        ):  # fmt: skip
            self.assertTrue(line.startswith("srv6-say: " + start), line)
        ran = run_tool("srv6-say", "show", SRV6=str(self.folder / "absent"))
        self.assertEqual(ran.status, 5)
        self.assertIn("can't be run", ran.err)

    def test_bad_files_have_no_traceback(self):
        """Whatever the program says of a file, and whatever the file is."""
        lines = [line for line, _, _ in NETS + INTENTS + FLATNESS]
        contents = [*bad_tomls(), *bad_captures()]
        for place, (name, content) in enumerate(contents):
            with self.subTest(name):
                path = str(self.file("bad", content))
                others = ["39 BadNode", "40 BadTrace 1", "45 BadCert 9"]
                for line in lines[place % 19 :: 19] + others:
                    run = say.Run(("check", path, path, path), 1, f"refused {line}")
                    try:
                        list(say._explained(run))
                    except (say.Fault, *say.OF_THIS_KIND):
                        pass  # the command says nothing then

    @needs_program
    def test_same_output_and_status(self):
        for words, given in (
            (("compile", EXAMPLES / "m2.toml", EXAMPLES / "intent.toml"), b""),
            (("run", EXAMPLES / "m2.toml", "B"), PACKET),
            (("show",), b"hello"),
            (("gen", "2", "net"), b""),
            (("gen", "1", "net"), b""),
        ):
            with self.subTest(words):
                answer, ran = run_program(words, given), run_tool("srv6-say", *words, given=given)
                self.assertEqual((ran.status, ran.raw), (answer.status, answer.out))
                self.assertTrue(ran.err.startswith(answer.err))


if __name__ == "__main__":
    unittest.main()
