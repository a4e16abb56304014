"""draw-walk: the drawing of walks, with and without unused links."""

import shutil
import subprocess
import unittest

from srv6tools.captures import raw_capture
from srv6tools.program import run_program
from support import EXAMPLES, ToolCase, bad_captures, bad_tomls, needs_program, needs_tool
from support import run_here

M2 = EXAMPLES / "m2.toml"
PACKET = (EXAMPLES / "srh.bin").read_bytes()

ENDS = """\
packet 5: not read, NotIp
packet 1: dropped NoRoute at D
packet 2: delivered at C
packet 3: dropped InnerHop at A
packet 4: left ce
"""


class DrawWalk(ToolCase):
    def capture(self, *frames: tuple[int, int, bytes]):
        return self.file("out.pcap", b"".join(raw_capture(frames)))

    def test_drawing(self):
        capture = self.capture((1, 2, PACKET), (1, 4, PACKET), (2, 1, PACKET))
        ran = run_here("draw-walk", M2, capture)
        self.assertEqual(ran.status, 0)
        self.assertIn('"A" -> "B" [label="ab", color="grey60"', ran.out)
        self.assertIn('"C" -> "D" [label="packet 1: send 2 over cd"', ran.out)
        self.assertNotIn("packet 1", run_here("draw-walk", M2, capture, "2").out)

    def test_only_used(self):
        capture = self.capture((1, 2, PACKET), (1, 4, PACKET))
        out = run_here("draw-walk", "--used", M2, capture).out
        self.assertNotIn('"A"', out)
        self.assertNotIn("grey60", out)
        self.assertIn('"B" -> "C" [label="packet 1: send 1 over bc1"', out)

    def test_both_descriptions(self):
        old = self.capture((1, 2, PACKET), (1, 4, PACKET))
        new = self.file("new.pcap", b"".join(raw_capture([(1, 3, PACKET), (2, 1, PACKET)])))
        ran = run_here("draw-walk", "--used", "--new", new, M2, old)
        self.assertEqual(ran.status, 0)
        self.assertIn('"B" -> "C" [label="packet 1: send 1 over bc1"', ran.out)
        dashed = [line for line in ran.out.splitlines() if "new: send" in line]
        self.assertEqual(len(dashed), 2)
        self.assertTrue(all(line.endswith(", penwidth=2, style=dashed];") for line in dashed))
        self.assertIn('label="packet 1, new: send 1 over bc2"', dashed[0])
        self.named_answer(run_here("draw-walk", "--new", new, M2, old, "3"), [1])

    def test_packets_of_one_way_are_one_edge(self):
        """1,000 packets on one path, of which two end otherwise, and one more path."""
        frames = [(n, link, PACKET) for n in range(1, 1001) for link in (2, 4)]
        capture = self.capture(*frames, (1001, 3, PACKET))
        lines = [f"packet {n}: dropped NoRoute at D" for n in range(1, 1001)]
        lines[6] = lines[8] = "packet 0: delivered at D"
        lines = [line.replace(" 0:", f" {n}:") for n, line in enumerate(lines, 1)]
        out = run_here("draw-walk", "--used", M2, capture).out
        self.assertIn('"1000 packets: 1-1000" [shape=plaintext', out)
        self.assertIn('"B" -> "C" [label="1000 packets: send 1 over bc1"', out)
        self.assertIn('"B" -> "C" [label="packet 1001: send 1 over bc2"', out)
        self.assertEqual(len(out.splitlines()), 13)
        kept = self.file("lines", "\n".join(lines))
        out = run_here("draw-walk", "--used", "--lines", kept, M2, capture).out
        self.assertIn('"998 packets: 1-6, 8, 10-1000"', out)
        self.assertIn('"2 packets: 7, 9"', out)
        self.assertIn('[label="998 packets: send 2 over cd"', out)
        ran = run_here("draw-walk", "--lines", kept, M2, capture, *map(str, range(2, 17, 2)))
        self.assertIn('"8 packets: 2, 4, 6, 8, .."', ran.out)

    def test_ends(self):
        """Drops and deliveries, where the lines say them, also of packets of which nothing is sent."""
        capture = self.capture((1, 2, PACKET), (1, 4, PACKET), (2, 2, PACKET), (4, 5, PACKET))
        lines = self.file("lines", ENDS)
        out = run_here("draw-walk", "--lines", lines, M2, capture).out
        drop = '"end of packet 1" [shape=octagon, color="#1b6ca8", label="dropped\\nNoRoute"];'
        self.assertIn(drop, out)
        self.assertIn('"D" -> "end of packet 1" [label="packet 1"', out)
        self.assertIn('"end of packet 2" [shape=box, color="#c0392b", label="delivered"];', out)
        self.assertIn('"packet 3" -> "A"', out)
        self.assertIn('label="dropped\\nInnerHop"', out)
        self.assertNotIn("end of packet 4", out)
        self.assertNotIn("packet 5", out)
        for wrong, wants in (
            ("packet 1: dropped NoRoute at A\n", "packet 1 is dropped at A, where it isn't"),
            ("packet 1: delivered at X\n", "packet 1 ends at X, which is no node"),
            ("srv6 trace 1\n", "no line of a packet"),
        ):
            ran = run_here("draw-walk", "--lines", self.file("lines", wrong), M2, capture)
            self.named_answer(ran, [1])
            self.assertIn(wants, ran.err)

    def test_the_network_alone(self):
        ran = run_here("draw-walk", M2)
        self.assertEqual((ran.status, ran.err), (0, ""))
        self.assertEqual(ran.out.count("grey60"), 2 * 5)
        self.assertNotIn("packet", ran.out)
        for words in (["--used"], ["--lines", M2], ["--new", M2]):
            self.named_answer(run_here("draw-walk", *words, M2), [2])
        self.named_answer(run_here("draw-walk", "--new-lines", M2, M2, M2), [2])

    @needs_program
    def test_lines_of_the_program(self):
        given = (EXAMPLES / "domain" / "customers.pcap").read_bytes()
        files = [EXAMPLES / "domain" / "net.toml", EXAMPLES / "domain" / "red.toml"]
        answer = run_program(["walk", *files], given)
        words = ["--lines", self.file("lines", answer.err), files[0], self.file("out", answer.out)]
        out = run_here("draw-walk", *words).out
        for name, drop in (("packet 2", "InnerHop"), ("2 packets: 3, 8", "NoRoute")):
            self.assertIn(f'"end of {name}" [shape=octagon', out)
            self.assertIn(f'label="dropped\\n{drop}"', out)
        self.assertIn('"error about 2 packets: 3, 8" [shape=note', out)

    def test_misfits(self):
        for frames, wants in (
            ([(1, 9, PACKET)], "crosses link 9"),
            ([(1, 2, PACKET), (1, 2, PACKET)], "from where it isn't"),
            ([(1, 0, PACKET[:30])], "is cut"),
            ([(1, 0, PACKET)], "which no node has"),
        ):
            ran = run_here("draw-walk", M2, self.capture(*frames))
            self.named_answer(ran, [1])
            self.assertIn(wants, ran.err)
        self.named_answer(run_here("draw-walk", M2, self.capture((1, 2, PACKET)), "7"), [1])

    def test_common(self):
        self.helps("draw-walk")
        capture = self.capture((1, 2, PACKET))
        self.survives_closed_pipe("draw-walk", M2, capture)
        for name, content in bad_tomls():
            with self.subTest(name):
                self.named_answer(run_here("draw-walk", self.file("bad", content), capture))
        for name, content in bad_captures():
            with self.subTest(name):
                ran = run_here("draw-walk", M2, self.file("bad", content))
                self.named_answer(ran)

    @needs_tool("dot")
    def test_dot_reads_it(self):
        out = run_here("draw-walk", "--used", M2, self.capture((1, 2, PACKET), (1, 4, PACKET))).raw
        subprocess.run([shutil.which("dot"), "-Tsvg"], input=out, check=True, capture_output=True)


if __name__ == "__main__":
    unittest.main()
