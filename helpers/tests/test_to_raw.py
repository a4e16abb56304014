"""to-raw: each kind of capture, what is left out, and bad files."""

import gzip
import io
import random
import subprocess
import unittest

from capture_files import ARP, IP4, IP6, MODIFIED, NANOSECONDS
from capture_files import PcapNg, classic, cooked, cooked_2, ethernet
from srv6tools.capture_formats import CutCapture, NoCapture, TakenFrame, frames_in
from srv6tools.captures import FRAME_LIMIT, frames_of, head_of
from srv6tools.program import run_program
from srv6tools.to_raw import Wanted, said, to_raw
from support import EXAMPLES, Ran, ToolCase, bad_captures, needs_program, needs_tool
from support import run_here, run_tool

INNER = (EXAMPLES / "inner.pcap").read_bytes()
M2, INTENT = EXAMPLES / "m2.toml", EXAMPLES / "intent.toml"
INNER_PACKETS = [INNER[40:92], INNER[108:164]]


def packets(raw: bytes) -> list[bytes]:
    """The packets of what was written."""
    head = head_of(raw, "out")
    assert head.link_type == 101 and head.version == (2, 4)
    return [frame.content for frame in frames_of(raw, head, "out")]


class Kinds(ToolCase):
    def takes(self, capture: bytes, wanted: list[bytes], *words: str) -> Ran:
        ran = run_here("to-raw", *words, given=capture)
        self.assertEqual(ran.status, 0, ran.err)
        self.assertEqual(packets(ran.raw), wanted)
        return ran

    def test_ethernet_and_tags(self):
        frames = [
            ethernet(0x86DD, IP6),
            ethernet(0x86DD, IP6, (0x8100,)),
            ethernet(0x0800, IP4, (0x88A8, 0x8100)),
            ethernet(0x0800, IP4, (0x9100, 0x8100, 0x8100)),
            ARP,
        ]
        ran = self.takes(classic(1, *frames), [IP6, IP6, IP4, IP4])
        self.assertIn("5 frames, 4 written, 1 left out", ran.err)
        self.assertIn("left out, EtherType 0806 (ARP): frame 5", ran.err)

    def test_cooked(self):
        frames = [
            cooked(0x86DD, IP6),
            cooked(0x0800, IP4, 4),
            bytes.fromhex("0000 0001 0006") + bytes(8) + bytes.fromhex("8100 0064 86dd") + IP6,
            cooked(0x0806, bytes(28)),
            cooked(0, b"", hardware=824),
        ]
        ran = self.takes(classic(113, *frames), [IP6, IP4, IP6])
        self.assertIn("left out, a message of netlink: frame 5", ran.err)
        self.takes(classic(113, *frames), [IP4], "--direction", "out")
        frames = [
            cooked_2(0x86DD, IP6, 2),
            cooked_2(0x0800, IP4, 3, 4),
            cooked_2(0x8100, bytes.fromhex("0064 86dd") + IP6, 4),
            cooked_2(0x88CC, b"\0\0"),
        ]
        ran = self.takes(classic(276, *frames), [IP6, IP4, IP6])
        self.assertIn("left out, EtherType 88cc (LLDP): frame 4", ran.err)
        self.takes(classic(276, *frames), [IP4], "--interface", "3")

    def test_loopback_ppp_and_raw(self):
        for family in (24, 28, 30):
            frames = [bytes([2, 0, 0, 0]) + IP4, bytes([family, 0, 0, 0]) + IP6]
            self.takes(classic(0, *frames), [IP4, IP6])
        big = [bytes([0, 0, 0, 2]) + IP4, bytes([0, 0, 0, 30]) + IP6, bytes([0, 0, 0, 7])]
        self.assertIn("address family 7", self.takes(classic(0, *big), [IP4, IP6]).err)
        self.takes(classic(108, *big), [IP4, IP6])
        self.takes(classic(9, b"\xff\x03\x00\x57" + IP6, b"\x21" + IP4), [IP6, IP4])
        self.takes(classic(104, b"\x0f\x00\x86\xdd" + IP6), [IP6])
        for link_type in (12, 14, 101):
            self.takes(classic(link_type, IP6, IP4), [IP6, IP4])
        self.takes(classic(228, IP4), [IP4])
        self.takes(classic(229, IP6), [IP6])
        self.takes(IP6, [IP6])

    def test_orders_and_clocks(self):
        for order in "<>":
            self.takes(classic(101, IP6, order=order), [IP6])
            ran = self.takes(classic(101, IP6, order=order, magic=NANOSECONDS), [IP6])
            self.assertEqual(ran.raw[24:32], bytes.fromhex("01000000 07000000"))
            self.takes(classic(101, IP6, IP4, order=order, magic=MODIFIED), [IP6, IP4])

    def test_pcapng(self):
        for order in "<>":
            file = PcapNg(order)
            file.interface(1, "eth0").interface(101, "tun0", 9).interface(113)
            file.packet(0, ethernet(0x86DD, IP6), 1_000_007)
            file.packet(1, IP4, 2_000_000_000, 2).packet(2, cooked(0x86DD, IP6))
            file.block(0x0BAD, b"1234").simple(ethernet(0x0800, IP4)).old(0, ethernet(0x86DD, IP6))
            file.section(">" if order == "<" else "<").interface(229, "late").packet(0, IP6)
            ran = self.takes(file.content, [IP6, IP4, IP6, IP4, IP6, IP6])
            self.assertEqual(ran.raw[24:32], bytes.fromhex("01000000 07000000"))
            self.takes(file.content, [IP4], "--interface", "tun0")
            self.takes(file.content, [IP6, IP6], "--interface", "2", "--interface", "late")
            self.takes(file.content, [IP4], "--direction", "out")

    def test_a_clock_of_nanoseconds(self):
        file = PcapNg().interface(101, "tun0", 9).packet(0, IP6, 1_000_000_001)
        ran = self.takes(file.content, [IP6])
        self.assertEqual(ran.raw[:4], bytes.fromhex("4d3cb2a1"))
        self.assertEqual(ran.raw[24:32], bytes.fromhex("01000000 01000000"))

    def test_gzip(self):
        plain = classic(1, ethernet(0x86DD, IP6), ARP)
        self.takes(gzip.compress(plain), [IP6])
        self.takes(gzip.compress(PcapNg().interface(101).packet(0, IP6).content), [IP6])
        ran = run_tool("to-raw", given=gzip.compress(plain)[:-12])
        self.assertEqual(ran.status, 1)
        self.assertIn("damaged or cut", ran.err)

    def test_what_is_left_out(self):
        odd = [ethernet(0x86DD, IP4), ethernet(0x86DD, b"\x50" + bytes(40)), ARP[:13], b"", IP6]
        ran = self.takes(classic(1, *odd, ethernet(0x86DD, IP6)), [IP6])
        self.assertIn("a packet of version 4 that its link layer calls IPv6: frame 1", ran.err)
        self.assertIn("version 5, and not 4 or 6: frame 2", ran.err)
        self.assertIn("cut within the link layer: frames 3, 4", ran.err)
        self.assertIn("packets are numbered anew", ran.err)
        ran = self.takes(classic(1, ARP, ethernet(0x86DD, IP6)), [b"", IP6], "--keep-numbers")
        self.assertNotIn("anew", ran.err)
        ran = self.takes(classic(147, IP6), [])
        self.assertIn("left out, link type 147 (of private use): frame 1", ran.err)
        ran = self.takes(classic(1, *[ARP] * 20), [])
        self.assertIn("frames 1, 2, 3, 4, 5, 6, 7, 8 and 12 more", ran.err)

    def test_short_frames(self):
        ran = self.takes(classic(1, ethernet(0x86DD, IP6), cut=10), [IP6])
        self.assertIn("(ShortFrame): frame 1", ran.err)
        self.assertEqual(ran.raw[32:40], bytes.fromhex("28000000 32000000"))

    def test_cut_captures_keep_what_stands_before(self):
        whole = classic(101, IP6, IP4)
        blocks = PcapNg().interface(101).packet(0, IP6).content
        for capture in (whole[:-1], whole[:-21], blocks[:-1]):
            ran = run_tool("to-raw", given=capture)
            self.assertEqual(ran.status, 1)
            self.assertIn("the capture ends within", ran.err)
        self.assertEqual(packets(run_tool("to-raw", given=whole[:-1]).raw), [IP6])

    def test_more_frames_than_srv6_takes(self):
        frames = [TakenFrame(at, 101, IP6, len(IP6)) for at in range(1, FRAME_LIMIT + 4)]
        raw = to_raw(frames, Wanted(), False)
        self.assertEqual((len(raw.frames), raw.next), (FRAME_LIMIT, FRAME_LIMIT + 1))
        self.assertIn(f"--from {FRAME_LIMIT + 1} goes on there", list(said(raw, False))[-1])
        raw = to_raw(frames, Wanted(raw.next), False)
        self.assertEqual((len(raw.frames), raw.next), (3, None))
        long = [TakenFrame(at, 101, IP6 + bytes(2**20), 40) for at in range(1, 70)]
        self.assertEqual(to_raw(long, Wanted(), False).next, 64)
        self.takes(classic(101, IP6, IP4), [IP4], "--from", "2")


class WithTheProgram(ToolCase):
    """Captures that `srv6` refuses go through to-raw, and then through `walk`."""

    def setUp(self):
        super().setUp()
        any_cooked = classic(276, *(cooked_2(0x86DD, packet) for packet in INNER_PACKETS))
        tagged = classic(1, *(ethernet(0x86DD, packet, (0x8100,)) for packet in INNER_PACKETS))
        mixed = PcapNg().interface(276, "any").interface(101, "tun0")
        mixed.packet(0, cooked_2(0x86DD, INNER_PACKETS[0])).packet(1, INNER_PACKETS[1])
        self.captures = [any_cooked, tagged, mixed.content]

    @needs_program
    def test_walk(self):
        wanted = run_program(["walk", M2, INTENT], INNER)
        for refused in self.captures:
            before = run_program(["walk", M2, INTENT], refused)
            self.assertTrue(before.status == 1 or "not read" in before.err)
            raw = run_tool("to-raw", given=refused).raw
            self.assertEqual(run_program(["walk", M2, INTENT], raw), wanted)

    @needs_program
    def test_what_is_left_out_isnt_read(self):
        raw = run_tool("to-raw", "--keep-numbers", given=classic(1, ARP, ethernet(0x86DD, IP6)))
        shown = run_program(["show"], raw.raw).out.decode().splitlines()
        self.assertEqual(shown[:3], ["packet 1", "not read NotIp", "packet 2"])
        raw = run_tool("to-raw", given=classic(1, ethernet(0x86DD, IP6), cut=10))
        self.assertIn("not read ShortFrame", run_program(["show"], raw.raw).out.decode())

    @needs_tool("mergecap")
    @needs_tool("tshark")
    def test_as_the_tools_of_wireshark_write_it(self):
        self.file("a.pcap", classic(1, ethernet(0x86DD, IP6, (0x8100,))))
        self.file("b.pcap", classic(101, IP4))
        merged = self.folder / "merged.pcapng"
        words = ["mergecap", "-a", "-w", merged, self.folder / "a.pcap", self.folder / "b.pcap"]
        subprocess.run(words, check=True, capture_output=True)
        ran = run_tool("to-raw", merged)
        self.assertEqual(packets(ran.raw), [IP6, IP4])
        self.file("raw.pcap", ran.raw)
        shown = subprocess.run(
            ["tshark", "-nr", self.folder / "raw.pcap", "-T", "fields", "-e", "frame.protocols"],
            capture_output=True, text=True,
        )  # fmt: skip
        protocols = [line[:8].rstrip(":") for line in shown.stdout.splitlines()]
        self.assertEqual(protocols, ["raw:ipv6", "raw:ip"])


class Bad(ToolCase):
    def test_words(self):
        self.helps("to-raw")
        self.assertEqual(run_tool("to-raw", "--from", "0", given=IP6).status, 2)
        self.assertEqual(run_tool("to-raw", "--direction", "up", given=IP6).status, 2)
        self.assertEqual(run_tool("to-raw", self.folder / "absent").status, 5)
        self.assertEqual(run_tool("to-raw", self.folder).status, 5)
        self.survives_closed_pipe("to-raw", given=classic(101, *[IP6] * 3000))

    def test_bad_files(self):
        for name, content in bad_captures():
            with self.subTest(name):
                ran = run_here("to-raw", given=content)
                # It has no frame.
                if name == "another link type":
                    self.assertEqual(ran.status, 0)
                else:
                    self.named_answer(ran)

    def test_named_formats(self):
        for magic, word in (("28b52ffd", "zstd"), ("fd377a58", "xz"), ("504b0304", "unzip")):
            ran = run_here("to-raw", given=bytes.fromhex(magic) + bytes(30))
            self.named_answer(ran)
            self.assertIn(word, ran.err)

    def test_changed_bytes(self):
        """Each beginning of two captures, and many with changed bytes: a named fault at most."""
        chance = random.Random(1)
        file = PcapNg().interface(1, "eth0").packet(0, ethernet(0x86DD, IP6), 5, 1).simple(ARP)
        for whole in (file.content, classic(113, cooked(0x86DD, IP6))):
            changed = [whole[:size] for size in range(len(whole))]
            for _ in range(800):
                content = bytearray(whole)
                for _ in range(chance.randint(1, 4)):
                    content[chance.randrange(len(content))] = chance.choice((0, 1, 127, 255))
                changed.append(bytes(content))
            for content in changed:
                try:
                    list(frames_in(io.BytesIO(content)))
                except (NoCapture, CutCapture):
                    pass


if __name__ == "__main__":
    unittest.main()
