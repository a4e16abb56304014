"""srv6-diff: fields by name, captures, traces and answers of replay, and bad files."""

import random
import unittest

from capture_files import ARP, classic, ethernet
from srv6tools.captures import raw_capture
from srv6tools.differences import packet_differences
from srv6tools.packet_parts import (
    DESTINATION, FRAGMENT, HOP_BY_HOP, ICMPV6, IPV4, IPV6, ROUTING, UDP,
    fragment, icmp6, ip4, ip6, options, srh, udp,
)  # fmt: skip
from srv6tools.program import run_program
from support import EXAMPLES, ToolCase, bad_captures, needs_program, run_here, run_tool

M2, BEHAVIOURS = EXAMPLES / "m2.toml", EXAMPLES / "behaviours.toml"
OUT = EXAMPLES / "behaviours-out.pcap"
PAD = "010400000000"
SEGMENTS = ["fc00:0:ff::", "fc00:0:1::"]
CHAINED = ip6(
    "fc00:0:1::", HOP_BY_HOP,
    options(ROUTING, PAD) + srh(1, SEGMENTS, DESTINATION, tlvs=bytes([4, 6]) + bytes(6))
    + options(UDP, PAD) + udp() + b"data",
)  # fmt: skip
NESTED = ip6("fc00:0:7::", IPV6, ip6("2001:db8:2::1", IPV4, ip4("192.0.2.1", payload=udp())))
ERROR = ip6("2001:db8:1::1", ICMPV6, icmp6(1, 0, CHAINED))


def said(one: bytes, other: bytes) -> list[str]:
    return packet_differences([(one, other)])[0]


@needs_program
class Fields(unittest.TestCase):
    def test_names(self):
        for one, other, lines in (
            (ip6("::1"), ip6("::1", hop_limit=63), ["IPv6 header: hop limit 64 in A, 63 in B"]),
            (
                ip6("::1", ROUTING, srh(1, SEGMENTS)), ip6("::1", ROUTING, srh(0, SEGMENTS)),
                ["segment routing header: Segments Left 1 in A, 0 in B"],
            ),
            (
                ip6("::1", ROUTING, srh(1, ["::7", "::8"])),
                ip6("::1", ROUTING, srh(1, ["::7", "::9"])),
                ["segment routing header: entry 1 ::8 in A, ::9 in B"],
            ),
            (
                ip6("::1", IPV6, ip6("::2")), ip6("::1", IPV6, ip6("::3")),
                ["inner IPv6 header: destination ::2 in A, ::3 in B"],
            ),
            (
                ip6("::1", IPV4, ip4("192.0.2.1")),
                ip6("::1", IPV4, ip4("192.0.2.1", good_checksum=False)),
                ["inner IPv4 header: checksum 8ea3 in hexadecimal in A, 8ea2 in hexadecimal in B"],
            ),
            (
                ip6("::1", ICMPV6, icmp6(1, 0, ip6("::1"))),
                ip6("::1", ICMPV6, icmp6(1, 0, ip6("::2"))),
                ["quoted IPv6 header: destination ::1 in A, ::2 in B"],
            ),
            (
                ip6("::1", FRAGMENT, fragment(UDP)), ip6("::1", FRAGMENT, fragment(UDP, 1)),
                ["fragment header: fragment offset 0 in A, 1 in B"],
            ),
            (
                ip6("::1", FRAGMENT, fragment(UDP) + b"ab"),
                ip6("::1", FRAGMENT, fragment(UDP) + b"ac"),
                ["fragment: bytes: byte 1 is 62 in A, 63 in B"],
            ),
            (
                ip6("::1"), ip6("::1") + b"abc",
                ["bytes behind the packet's end: in B alone (bytes 3 bytes (61 62 63))"],
            ),
            (
                ip6("::1", 99, b"abcd"), ip6("::1", 99, b"abed"),
                ["upper layer 99: bytes: byte 2 is 63 in A, 65 in B"],
            ),
            (
                ip6("::1", DESTINATION, options(59, PAD)),
                ip6("::1", DESTINATION, options(59, "1e0400000000")),
                ["destination options: options: byte 0 is 01 in A, 1e in B"],
            ),
        ):  # fmt: skip
            with self.subTest(lines[0]):
                self.assertEqual(said(one, other), lines)

    def test_a_header_that_is_taken_out(self):
        lines = said(ip6("::1", ROUTING, srh(0, ["::2"], UDP) + udp()), ip6("::1", UDP, udp()))
        self.assertEqual(lines[-1], "segment routing header: in A alone (Segments Left 0)")
        self.assertEqual(len(lines), 3)

    def test_each_byte_is_some_field(self):
        """A change of any byte is told, and only there where bytes differ."""
        for packet in (CHAINED, NESTED, ERROR, ip4("192.0.2.1", payload=udp()), CHAINED[:60]):
            pairs = []
            for place in range(len(packet)):
                changed = bytearray(packet)
                changed[place] ^= 1
                pairs.append((packet, bytes(changed)))
            for place, lines in enumerate(packet_differences(pairs)):
                self.assertTrue(lines, f"byte {place} of {len(packet)}")
            self.assertEqual(packet_differences([(packet, packet)]), [[]])

    def test_changed_packets(self):
        chance = random.Random(4)
        pairs = []
        for packet in (CHAINED, NESTED, ERROR) * 100:
            changed = bytearray(packet)
            for _ in range(chance.randint(1, 6)):
                changed[chance.randrange(len(changed))] = chance.randrange(256)
            pairs.append((packet, bytes(changed[: chance.randint(0, len(changed))])))
        self.assertTrue(all(packet_differences(pairs)))


@needs_program
class Captures(ToolCase):
    def test_of_the_program(self):
        ran = run_here("srv6-diff", OUT, OUT)
        self.assertEqual((ran.status, ran.out, ran.err), (0, "", ""))
        changed = bytearray(OUT.read_bytes())
        changed[24 + 16 + 7] -= 1
        changed[24 + 4] = 2
        other = self.file("other.pcap", bytes(changed))
        ran = run_here("srv6-diff", OUT, other, "--net", BEHAVIOURS)
        self.assertEqual(ran.status, 4)
        self.assertEqual(ran.out.splitlines(), [
            "packet 1, send 1 (frame 1)",
            "  link 1 (east) in A, 2 (west) in B",
            "  IPv6 header: hop limit 63 in A, 62 in B",
        ])  # fmt: skip

    def test_a_frame_more(self):
        packets = [(1, 1, ip6("::1")), (2, 1, ip6("::1")), (2, 2, ip6("::1", hop_limit=63))]
        one = self.file("one.pcap", b"".join(raw_capture(packets[1:])))
        other = self.file("other.pcap", b"".join(raw_capture(packets[:2])))
        ran = run_here("srv6-diff", one, other)
        self.assertEqual(ran.out.splitlines(), [
            "packet 1, send 1 (frame 1): in B alone: link 1, 40 bytes",
            "packet 2, send 2 (frame 2): in A alone: link 2, 40 bytes",
        ])  # fmt: skip
        ran = run_here("srv6-diff", one, other, "--most", "1")
        self.assertIn("and 1 more that differ", ran.out)

    def test_a_frame_is_missing(self):
        packets = [ip6("::1", flow=number, payload=number.to_bytes(8), kind=59) for number in range(1, 20_001)]
        one = self.file("one.pcap", classic(229, *packets))
        other = self.file("other.pcap", classic(229, *packets[:7], *packets[8:]))
        ran = run_here("srv6-diff", one, other)
        self.assertEqual((ran.status, ran.out.splitlines()), (4, ["frame 8: in A alone: 48 bytes"]))
        ran = run_here("srv6-diff", other, one)
        self.assertEqual((ran.status, ran.out.splitlines()), (4, ["frame 8: in B alone: 48 bytes"]))

    def test_a_frame_is_missing_and_others_are_changed(self):
        packets = [ip6("::1", flow=number) for number in range(1, 101)]
        changed = [*packets[:10], *packets[11:50], ip6("::1", flow=51, hop_limit=9), *packets[51:90], *packets[91:], packets[90]]
        ran = run_here("srv6-diff", self.file("one.pcap", classic(229, *packets)), self.file("other.pcap", classic(229, *changed)))
        self.assertEqual((ran.status, ran.out.splitlines()), (4, [
            "frame 11: in A alone: 40 bytes",
            "frame 51, in B frame 50",
            "  IPv6 header: hop limit 64 in A, 9 in B",
            "frame 91, in B frame 99",
            "  order as frame 91 in A, as frame 99 in B",
        ]))  # fmt: skip

    def test_a_packet_of_the_program_is_missing(self):
        content = (EXAMPLES / "behaviours.pcap").read_bytes()
        outs = []
        for given in (content, content[:24] + content[24 + 16 + int.from_bytes(content[32:36], "little") :]):
            outs.append(self.file(f"{len(outs)}.pcap", run_program(["run", BEHAVIOURS, "N"], given).out))
        ran = run_here("srv6-diff", *outs)
        lines = ran.out.splitlines()
        self.assertEqual((ran.status, len(lines)), (4, 1), ran.out)
        self.assertIn("packet 1, send 1 (frame 1): in A alone", lines[0])

    def test_equal_frames_without_a_tag(self):
        packets = [ip6("::1")] * 2000
        ran = run_here("srv6-diff", self.file("one.pcap", classic(229, *packets)), self.file("other.pcap", classic(229, *packets[1:])))
        self.assertEqual(ran.out.splitlines(), ["frame 2000: in A alone: 40 bytes"])

    def test_others_by_frames(self):
        ran = run_here("srv6-diff", EXAMPLES / "inner.pcap", EXAMPLES / "behaviours.pcap")
        self.assertEqual(ran.status, 4)
        self.assertIn("frame 3: in B alone", ran.out)

    def test_bare_packets_and_link_layers(self):
        bare = self.file("a.bin", ip6("::1")), self.file("b.bin", ip6("::1", hop_limit=63))
        ran = run_here("srv6-diff", *bare)
        lines = ["frame 1", "  IPv6 header: hop limit 64 in A, 63 in B"]
        self.assertEqual((ran.status, ran.out.splitlines()), (4, lines))
        tagged = self.file("a.pcap", classic(1, ethernet(0x86DD, ip6("::1")), ARP))
        plain = self.file("b.pcap", classic(101, ip6("::1"), ip6("::2")))
        ran = run_here("srv6-diff", tagged, plain)
        self.assertEqual(ran.out.splitlines()[:2], [
            "frame 2", "  no packet EtherType 0806 (ARP) in A, none in B",
        ])  # fmt: skip

    def test_of_two_choices(self):
        given = (EXAMPLES / "to-d.bin").read_bytes()
        files = []
        for choice in "01":
            out = run_program(["run", EXAMPLES / "m1.toml", "B", choice], given).out
            files.append(self.file(f"{choice}.pcap", out))
        ran = run_here("srv6-diff", *files, "--net", EXAMPLES / "m1.toml")
        self.assertEqual(ran.out.splitlines(), [
            "packet 1, send 1 (frame 1)", "  link 2 (bc1) in A, 3 (bc2) in B",
        ])  # fmt: skip


@needs_program
class Traces(ToolCase):
    def setUp(self):
        super().setUp()
        given = (EXAMPLES / "srh.bin").read_bytes()
        self.text = run_program(["trace", M2, "B"], given).out
        self.trace = self.file("trace", self.text)

    def test_two_traces(self):
        self.assertEqual(run_here("srv6-diff", self.trace, self.trace).status, 0)
        other = self.text.replace(b"send bc1 6000000000282b3f", b"send bc2 6000000000282b3e")
        ran = run_here("srv6-diff", self.trace, self.file("other", other))
        self.assertEqual(ran.status, 4)
        self.assertEqual(ran.out.splitlines(), [
            "line 4 (packet 1, stage 2)",
            "  link bc1 in A, bc2 in B",
            "  IPv6 header: hop limit 63 in A, 62 in B",
        ])  # fmt: skip

    def test_replay(self):
        ran = run_here("srv6-diff", "--replay", M2, self.trace)
        self.assertEqual((ran.status, ran.out), (0, ""))
        lines = self.text.split(b"\n")
        wrong = {
            "link ab in A, bc1 in B": self.text.replace(b"send bc1", b"send ab"),
            "hop limit 61 in A, 62 in B": self.text.replace(b"282b3e2001", b"282b3d2001", 1),
            "reason NoRoute in A, UpperLayer in B": self.text.replace(b"UpperLayer", b"NoRoute"),
            "the walk goes on": b"\n".join(lines[:3] + lines[-2:]),
            "has ended": b"\n".join(lines[:-2] + [b"local", b"end", b""]),
        }
        for text, trace in wrong.items():
            with self.subTest(text):
                path = self.file("wrong", trace)
                ran = run_here("srv6-diff", "--replay", M2, path)
                self.assertEqual(ran.status, 4, ran.err)
                self.assertIn(text, ran.out)
                answer = run_program(["replay", M2, path]).out
                self.assertEqual(run_here("srv6-diff", path, given=answer), ran)
        self.assertEqual(run_here("srv6-diff", self.trace, given=b"ok 1 5\n").status, 0)


class Bad(ToolCase):
    def test_words(self):
        self.helps("srv6-diff")
        self.named_answer(run_tool("srv6-diff"), [2])
        self.named_answer(run_here("srv6-diff", OUT, OUT, "--replay", M2), [2])
        self.named_answer(run_here("srv6-diff", OUT, OUT, "--most", "0"), [2])
        self.named_answer(run_tool("srv6-diff", OUT, self.folder / "absent"), [5])
        self.named_answer(run_here("srv6-diff", OUT, OUT, "--net", self.folder), [5])

    @needs_program
    def test_closed_pipe(self):
        other = b"".join(raw_capture((number, 1, b"") for number in range(1, 3000)))
        words = [OUT, self.file("other", other), "--most", "9999"]
        self.survives_closed_pipe("srv6-diff", *words)

    def test_bad_captures(self):
        for name, content in bad_captures():
            with self.subTest(name):
                bad = self.file("bad.pcap", content)
                if name in ("another version", "another link type", "text"):
                    continue  # no frame, or one bare packet
                self.named_answer(run_here("srv6-diff", OUT, bad), [1])
                self.named_answer(run_here("srv6-diff", bad, OUT), [1])

    def test_bad_traces(self):
        trace = self.file("trace", "srv6 trace 1\npacket 1 6 B 60\nlocal\nend\n")
        for text in ("srv6 trace 1\nx\n", "srv6 trace 1\nend\nend\n", "srv6 trace 1\nlocal\nend\n"):
            self.named_answer(run_here("srv6-diff", trace, self.file("bad", text)), [1])
        self.named_answer(run_here("srv6-diff", trace, OUT), [1])
        for answer in (b"", b"no", b"no 3", b"no x y", b"no 99 local", b"no 1 local", b"ok",
                       b"no " + b"9" * 5000 + b" x"):  # fmt: skip
            with self.subTest(answer[:20]):
                self.named_answer(run_here("srv6-diff", trace, given=answer), [1])

    def test_a_missing_program(self):
        ran = run_tool("srv6-diff", "--replay", M2, OUT, SRV6="/nowhere/srv6")
        self.named_answer(ran, [5])


if __name__ == "__main__":
    unittest.main()
