"""The readers that the tools share, and the frame of a command."""

import unittest
from ipaddress import IPv6Address, IPv6Network

from srv6tools.captures import frames_of, head_of, raw_capture, sent_in
from srv6tools.command import Fault, Status
from srv6tools.description import read_network
from srv6tools.err_lines import NoAnswer, PacketLine, Refusal, err_line_of
from srv6tools.files import parse_toml, read_toml
from srv6tools.intent import read_intent
from srv6tools.report import certificate_in, certificate_of, report_of
from srv6tools.trace import trace_of
from support import EXAMPLES, REPORT, ToolCase, bad_captures, bad_tomls

TRACE = """\
srv6 trace 1
packet 1 6 B 60
again fcbb:bb00:2::/48 table 0 60
hand fcbb:bb00:3::/48 through 4 -
send bc1 61
drop NoRoute -
end
"""


class Toml(ToolCase):
    def test_byte_order_mark(self):
        path = self.file("net.toml", b"\xef\xbb\xbf[[node]]\r\nname = 'A'\r\naddress = '::1'\r\n")
        self.assertEqual(list(read_network(path).nodes), ["A"])

    def test_toml_1_1(self):
        text = """
        node = [
            { # first
                name = "\\x41\\e",
                address = "::1", # behind it
            },
        ]
        """
        node = {"name": "A\x1b", "address": "::1"}
        self.assertEqual(parse_toml(text, "net"), {"node": [node]})
        kept = 'a = "{ # , }" # {\nb = [1, # x\n 2,]\nc = {d = [1,\n2,], e = """\n,}"""}'
        self.assertEqual(
            parse_toml(kept, "net"),
            {"a": "{ # , }", "b": [1, 2], "c": {"d": [1, 2], "e": ",}"}},
        )

    def test_faults_have_one_line(self):
        for name, content in bad_tomls():
            with self.subTest(name):
                path = self.file("bad.toml", content)
                for read in (read_network, read_intent):
                    with self.assertRaises(Fault) as caught:
                        read(path)
                    self.assertIn("bad.toml", str(caught.exception))
                    self.assertEqual(caught.exception.status, Status.REFUSED)

    def test_absent_file(self):
        with self.assertRaises(Fault) as caught:
            read_toml(self.folder / "absent")
        self.assertEqual(caught.exception.status, Status.OUTSIDE_FAULT)
        self.assertIn("No such file", str(caught.exception))


class Files(unittest.TestCase):
    def test_description(self):
        net = read_network(EXAMPLES / "behaviours.toml")
        self.assertEqual([block.kind for block in net.blocks], ["next", "replace"])
        self.assertEqual(net.nodes["N"].allow, (17,))
        self.assertEqual(net.link_of(2).name, "west")
        self.assertEqual(net.routes[-1].prefix.version, 4)
        self.assertEqual(net.policies["detour"].segments[1], IPv6Address("fc00:0:ff:2::"))
        self.assertEqual(net.sids[4].links, ("west",))
        self.assertTrue(net.sids[3].exposes(6))
        self.assertEqual(net.block_of(net.sids[11].prefix).csid, 16)

    def test_intent(self):
        intent = read_intent(EXAMPLES / "intent.toml")
        self.assertEqual((intent.headend, intent.family, intent.hop_limit), ("A", 6, 64))
        self.assertEqual([step.links for step in intent.steps[:2]], [("ab",), ("bc1",)])
        self.assertEqual(intent.steps[-1].function, "vpn")

    def test_report_and_certificate(self):
        lines = REPORT.splitlines()
        report = report_of(lines, "cert")
        self.assertEqual((report.containers, report.need), ([IPv6Address("fcbb:bb00:2::")], 4))
        certificate = certificate_of(lines, "cert")
        self.assertEqual((certificate.head, certificate.end), (5, 10))
        self.assertEqual(certificate.potentials[1].node, "B")
        self.assertEqual(certificate.path[1].prefix, IPv6Network("fcbb:bb00:4::/48"))
        self.assertFalse(report_of(["# none", "srv6 certificate 1"], "cert").has_list)
        for cut in range(len(lines)):
            with self.assertRaises(Fault):
                certificate_of(lines[:cut], "cert")
        for cut in range(len(REPORT)):
            self.assertTrue(certificate_in(REPORT[:cut]).bad)

    def test_trace(self):
        trace = trace_of(TRACE.splitlines(), "trace")
        self.assertTrue(trace.is_whole)
        again, hand, send, drop = trace.walks[0].stages
        self.assertEqual((again.table, hand.table, hand.family), (0, None, 4))
        self.assertEqual((send.link, send.packet, drop.packet), ("bc1", b"a", None))
        for bad in ("", "srv6 trace 1\nlocal\nend", "srv6 trace 1\nend\nend", "srv6 trace 1\nx"):
            with self.assertRaises(Fault):
                trace_of(bad.split("\n"), "trace")

    def test_err_lines(self):
        for line, found in (
            ("refused 31 DoublePrefix route 3", Refusal(31, "DoublePrefix", ("route", "3"))),
            ("no answer TooLong 12", NoAnswer("TooLong", 12)),
            ("packet 2: dropped InnerHop at A", PacketLine(2, "dropped", "InnerHop", "A")),
            ("packet 1: left ce", PacketLine(1, "left", None, "ce")),
            ("packet 3: not read, NotIp", PacketLine(3, "not read", "NotIp")),
            ("packet 3: stopped after 10000 stages", PacketLine(3, "stopped")),
            ("usage: srv6", None),
        ):
            self.assertEqual(err_line_of(line), found)


class Captures(unittest.TestCase):
    def test_written_is_read(self):
        content = b"".join(raw_capture([(1, 2, b"\x60" + bytes(39)), (2, 0, b"\x45")]))
        sent = list(sent_in(content, "out.pcap"))
        self.assertEqual([(one.packet, one.link) for one in sent], [(1, 2), (2, 0)])
        self.assertEqual(sent[1].content, b"\x45")

    def test_bad_captures(self):
        for name, content in bad_captures():
            with self.subTest(name):
                try:
                    list(frames_of(content, head_of(content, "in"), "in"))
                except Fault as fault:
                    self.assertIn("in", str(fault))


if __name__ == "__main__":
    unittest.main()
