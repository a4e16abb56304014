"""name-links: a capture with the names of links."""

import shutil
import struct
import subprocess
import unittest
from collections.abc import Iterator

from srv6tools.captures import raw_capture
from srv6tools.description import read_network
from support import EXAMPLES, ToolCase, bad_captures, bad_tomls, needs_tool, run_here

CSIDS, CAPTURE = EXAMPLES / "csids.toml", (EXAMPLES / "csids-out.pcap").read_bytes()
M2, PACKET = EXAMPLES / "m2.toml", (EXAMPLES / "srh.bin").read_bytes()


def blocks(content: bytes) -> Iterator[tuple[int, bytes]]:
    """The blocks of a pcapng file: kind and body; each stands with its size in front and behind."""
    at = 0
    while at < len(content):
        kind, size = struct.unpack_from("<II", content, at)
        assert size % 4 == 0 and content[at + size - 4 : at + size] == struct.pack("<I", size)
        yield kind, content[at + 8 : at + size - 4]
        at += size


def error(source: str) -> bytes:
    address = next(n.address for n in read_network(M2).nodes.values() if n.name == source)
    return b"\x60" + bytes(7) + address.packed + bytes(16) + bytes([4, 4]) + bytes(6)


class NameLinks(ToolCase):
    def test_blocks(self):
        ran = run_here("name-links", CSIDS, given=CAPTURE)
        self.assertEqual((ran.status, ran.err), (0, ""))
        found = list(blocks(ran.raw))
        self.assertEqual([kind for kind, _ in found[:1]], [0x0A0D0D0A])
        heads = [body for kind, body in found if kind == 1]
        frames = [body for kind, body in found if kind == 6]
        self.assertEqual((len(heads), len(frames)), (10, 27))
        self.assertIn(b"l1", heads[0])
        self.assertIn(b"packet 2, send 1: N0 over l1 to N1", frames[9])
        self.assertEqual(struct.unpack_from("<III", frames[9]), (0, 0, 2_000_001))
        size = struct.unpack_from("<I", frames[0], 12)[0]
        self.assertEqual(frames[0][20 : 20 + size], CAPTURE[40 : 40 + size])

    def test_errors_and_ends(self):
        given = b"".join(raw_capture([(7, 5, PACKET), (7, 0, error("D")), (8, 0, b"\x60")]))
        ran = run_here("name-links", M2, given=given)
        self.assertIn(b"packet 7, send 1: D over ce out of the network", ran.raw)
        self.assertIn(b"packet 7: D drops it and sends this error", ran.raw)
        self.assertIn(b"packet 8: :: drops it", ran.raw)

    def test_misfits(self):
        given = b"".join(raw_capture([(1, 9, PACKET)]))
        ran = run_here("name-links", M2, given=given)
        self.named_answer(ran, [1])
        self.assertIn("link 9", ran.err)
        self.named_answer(run_here("name-links", M2, given=CAPTURE[:-1]), [1])

    def test_common(self):
        self.helps("name-links")
        self.survives_closed_pipe("name-links", CSIDS, given=CAPTURE)
        for name, content in bad_tomls():
            with self.subTest(name):
                self.named_answer(run_here("name-links", self.file("bad", content), given=CAPTURE))
        for name, content in bad_captures():
            with self.subTest(name):
                self.named_answer(run_here("name-links", CSIDS, given=content))
        self.named_answer(run_here("name-links", self.folder / "absent", given=CAPTURE), [5])

    @needs_tool("tshark")
    def test_tshark_shows_names(self):
        written = self.file("out.pcapng", run_here("name-links", CSIDS, given=CAPTURE).raw)
        fields = ["-T", "fields", "-e", "frame.interface_name", "-e", "frame.comment"]
        words = [shutil.which("tshark"), "-nr", written, *fields]
        out = subprocess.run(words, capture_output=True, text=True).stdout.splitlines()
        self.assertEqual(out[0].split("\t"), ["l1", "packet 1, send 1: N0 over l1 to N1"])
        self.assertEqual(len(out), 27)


if __name__ == "__main__":
    unittest.main()
