"""packets: the covering set of a node, which pairs it meets, its manifest, and bad words."""

import json
import re
import unittest
from pathlib import Path

from srv6tools.captures import frames_of, head_of
from srv6tools.chains import chain_of, neutral, retagged, smaller_than, tags_of
from srv6tools.coverage import Pair, Seer, Universe
from srv6tools.description import read_network
from srv6tools.node_cases import Maker
from srv6tools.packet_parts import (
    DESTINATION, FRAGMENT, IPV4, IPV6, NOTHING, ROUTING, UDP, fragment, ip4, ip6, options, srh, udp,
)  # fmt: skip
from srv6tools.packets import NOT_SHOWN, CoveringSet, covering_set
from srv6tools.program import run_program
from srv6tools.say_others import REASONS
from srv6tools.tagging import MARK, checksum, lengthened
from srv6tools.trace import trace_of
from support import EXAMPLES, ToolCase, needs_program, run_here, run_tool

EVERY = Path(__file__).resolve().parent / "data" / "every.toml"
ROWS = EXAMPLES.parent / "crates" / "worked_rows" / "data"
OF_NEXT, OF_REPLACE = ROWS / "certificates" / "end-twice" / "net.toml", ROWS / "loose" / "replace-sids" / "net.toml"
"""The networks of the worked rows: with NEXT-CSIDs of 16 bits, and with REPLACE-CSIDs of 32."""
NODES = (
    (EXAMPLES / "behaviours.toml", "N"), (EXAMPLES / "csids.toml", "N1"), (EXAMPLES / "csids.toml", "N2"),
    (EXAMPLES / "csids.toml", "N8"), (EXAMPLES / "m2.toml", "B"), (EXAMPLES / "domain" / "net.toml", "pe3"), (EVERY, "N"),
    *((OF_NEXT, node) for node in "ABCD"), *((OF_REPLACE, node) for node in "HPQRS"),
)  # fmt: skip
CHANGED = 1_000  # packets with bytes changed
UNREAD = {"ShortFrame", "NotIp", "WrongVersion"}


@needs_program
class Sets(ToolCase):
    def test_each_pair_is_met_or_has_a_reason(self):
        for path, node in NODES:
            with self.subTest(f"{path.name} {node}"):
                more = covering_set(read_network(path), node, path, 3, CHANGED)
                made = CoveringSet(more.net, node, 3, more.cases[:-CHANGED], more.doings[:-CHANGED])
                self.assertEqual([str(pair) for pair, why in made.unmet() if why == NOT_SHOWN], [])
                self.assertGreater(len(made.met), 10)
                known = dict(Universe(made.net, node).pairs())
                beside = [str(pair) for pair in more.met if pair not in known or known[pair]]
                self.assertEqual(beside, [], "met, also by chance, and not known or with a reason against it")

    def test_a_reason_that_is_taken_away(self):
        net = read_network(EXAMPLES / "behaviours.toml")
        whys = dict(Universe(net, "N").pairs())
        self.assertIn("no link", whys[Pair("End", "then dropped MtuExceeded")])
        self.assertIsNone(dict(Universe(read_network(EVERY), "N").pairs())[Pair("End", "then dropped MtuExceeded")])

    def test_bytes_that_do_not_read_meet_nothing(self):
        net = read_network(EVERY)
        whole = ip4("192.0.2.1", payload=udp())
        cut, long_head = whole[:-1], bytes([0x4F]) + whole[1:]
        doings = [some[0] for some in Seer(net, "N", EVERY).doings([whole, cut, long_head])]
        self.assertEqual([doing.pairs[-1] for doing in doings], [
            Pair("an IPv4 route", "sent"), *[Pair("no entry", "dropped Truncated")] * 2,
        ])  # fmt: skip

    def test_each_reason_of_a_drop(self):
        made = covering_set(read_network(EVERY), "N", EVERY)
        found = {pair.outcome.rpartition("dropped ")[2] for pair in made.met if "dropped " in pair.outcome}
        self.assertEqual(found, set(REASONS) - UNREAD - {"InnerHop"})  # the headend's alone

    def test_trace_says_what_the_manifest_says(self):
        manifest = self.folder / "set.json"
        ran = run_here("packets", EVERY, "N", "--manifest", manifest, "--more", "50")
        self.assertEqual(ran.status, 0, ran.err)
        self.assertRegex(ran.err, r"^packets: \d+ packets; \d+ pairs are met, \d+ can't be, 0 aren't\n$")
        told = json.loads(manifest.read_text())
        walks = trace_of(run_program(["trace", EVERY, "N"], ran.raw).out.decode().splitlines(), "trace").walks
        self.assertEqual(len(told["packets"]), len(list(frames_of(ran.raw, head_of(ran.raw, "set"), "set"))))
        by_number = {packet["packet"]: packet for packet in told["packets"]}
        for walk in walks:
            last, expected = walk.stages[-1], by_number[walk.number]["expected"][0]
            self.assertEqual(walk.stages[-1].kind, {"sent": "send", "dropped": "drop", "delivered": "local"}[expected["outcome"]])
            content = expected.get("bytes") or expected.get("error")
            self.assertEqual((last.packet or b"").hex(), content or "")
            self.assertEqual(last.reason, expected.get("reason"))

    def test_the_same_bytes_for_the_same_seed(self):
        sets = [run_here("packets", EXAMPLES / "m2.toml", "B", "--more", "30", "--seed", seed).raw for seed in "770"]
        self.assertEqual(sets[0], sets[1])
        self.assertNotEqual(sets[0], sets[2])

    def test_equal_next_hops(self):
        net = read_network(EVERY)
        doings = Seer(net, "N", EVERY).doings([ip6("fc00:0:fe::1"), ip6("fc00:0:ff::1")])
        self.assertEqual([[doing.link for doing in some] for some in doings], [["east", "west"], ["east"]])

    def test_tags(self):
        maker = Maker(read_network(EVERY), "N")
        maker.tag = 77
        packets = [packet for _, _, packet in maker.all()]
        whole = [packet for packet in packets if len(packet) >= 4 and packet[0] >> 4 == 6]
        self.assertGreater(len(whole), 2000)
        for packet in whole:
            self.assertIn(77, tags_of(packet))
            self.assertIn(123_456, tags_of(retagged(packet, 77, 123_456)))

    def test_sizes_at_an_mtu(self):
        made = covering_set(read_network(EVERY), "N", EVERY)
        sizes = {1300: "sent", 1301: "dropped"}
        asked = 0
        for case, doings in zip(made.cases, made.doings):
            if match := re.search(r"(130[01]) bytes over narrow$", case.exercises):
                asked += 1
                self.assertEqual(doings[0].outcome, sizes[int(match[1])], case.name)
                self.assertTrue(doings[0].outcome == "dropped" or len(doings[0].content) == 1300, case.name)
        self.assertGreater(asked, 40)


class Layouts(unittest.TestCase):
    def test_lengthened(self):
        inner = ip4("192.0.2.1", payload=udp() + MARK + bytes(4))
        longer = lengthened(ip6("::1", IPV4, inner), 12)
        self.assertEqual(int.from_bytes(longer[4:6]), len(longer) - 40)
        self.assertEqual(int.from_bytes(longer[42:44]), len(longer) - 40)
        self.assertEqual(checksum(longer[40:60]), 0)

    def test_neutral(self):
        way = ["::2", "::1"]
        hmac = ip6("::1", ROUTING, srh(1, way, tlvs=bytes([5, 38]) + bytes(38)))
        self.assertEqual(neutral(hmac, ["hmac"]), ip6("::1", ROUTING, srh(1, way, tlvs=bytes(40))))
        self.assertEqual(neutral(hmac, ["tlv", "option", "fragment"]), hmac)
        beyond = ip6("::1", ROUTING, srh(1, way, tlvs=bytes([9, 60]) + bytes(6)))
        self.assertEqual(neutral(beyond, ["tlv"]), ip6("::1", ROUTING, srh(1, way, tlvs=bytes(8))))
        option = ip6("::1", DESTINATION, options(NOTHING, "800400000000"))
        self.assertEqual(neutral(option, ["option"])[42], 0)
        cut = ip6("::1", FRAGMENT, fragment(UDP) + udp())
        self.assertEqual(chain_of(neutral(cut, ["fragment"])).headers[0].kind, DESTINATION)
        inside = ip6("::3", IPV6, hmac)
        self.assertEqual(neutral(inside, ["hmac"])[40:], neutral(hmac, ["hmac"]))

    def test_smaller(self):
        packet = ip6("::1", DESTINATION, options(ROUTING, "010400000000") + srh(1, ["::2", "::1"], UDP) + udp() + b"abcd")
        found = list(smaller_than(packet))
        self.assertIn(ip6("::1", ROUTING, srh(1, ["::2", "::1"], UDP) + udp() + b"abcd"), found)
        self.assertTrue(all(len(one) < len(packet) for one in found))
        self.assertEqual(list(smaller_than(b"")), [])
        self.assertEqual(list(smaller_than(ip6("::1"))), [])


class Bad(ToolCase):
    def test_words(self):
        self.helps("packets")
        self.named_answer(run_tool("packets"), [2])
        self.named_answer(run_tool("packets", EVERY, "N", "--more", "x"), [2])
        self.named_answer(run_tool("packets", self.folder / "absent", "N"), [5])

    @needs_program
    def test_names(self):
        ran = run_here("packets", EVERY, "M")
        self.named_answer(ran, [1])
        self.assertIn("no node is called 'M'; there are N", ran.err)
        self.named_answer(run_here("packets", EVERY, "N", "--manifest", self.folder), [5])
        self.named_answer(run_here("packets", EVERY, "N", "--more", "70000"), [1])

    def test_a_missing_program(self):
        self.named_answer(run_tool("packets", EVERY, "N", SRV6="/nowhere/srv6"), [5])

    @needs_program
    def test_closed_pipe(self):
        self.survives_closed_pipe("packets", EVERY, "N")


if __name__ == "__main__":
    unittest.main()
