"""conform: which packet an answer is of, how it differs, and both answers side by side, without a device."""

import unittest
from ipaddress import IPv6Address

from srv6tools.conform_report import ITEMS, decoded, items_of
from srv6tools.coverage import Doing, Pair
from srv6tools.node_cases import Case
from srv6tools.packet_parts import DESTINATION, ICMPV6, NOTHING, icmp6, ip4, ip6, options
from srv6tools.shrinking import Shown
from srv6tools.verdicts import DIFFERS, Answer, Got, Verdict, difference_of, fits, sorted_answers
from support import needs_program


class Reports(unittest.TestCase):
    def test_items(self):
        area = bytes([0, 4, 2, 0, 0, 5, 38]) + bytes(38) + bytes([9, 9, 1])
        self.assertEqual(list(items_of(area, ITEMS)), [
            ("item 0", "type 0 (Pad1)"), ("item 1", "type 4 (PadN), 2 bytes 0000"),
            ("item 2", f"type 5 (HMAC), 38 bytes {'00' * 24}"), ("item 3", "type 9, 9 bytes, beyond the header 01"),
        ])  # fmt: skip
        self.assertEqual(list(items_of(b"\x05", ITEMS)), [("item 0", "type 5 (HMAC), no length, beyond the header")])

    @needs_program
    def test_each_of_two_headers_of_a_kind(self):
        sent, theirs = (
            ip6("2001:db8:2::1", DESTINATION, options(DESTINATION, first) + options(NOTHING, "010400000000"))
            for first in ("1e0400000000", "1e0400000001")
        )
        fault = Shown(Case(1, "End", "two headers", sent), (Doing("sent", "east", sent),), Got((Answer("east", theirs),)), Verdict(DIFFERS))
        marked = [line for line in decoded(fault).splitlines() if line.startswith("*")]
        self.assertEqual([line.split(":")[0] for line in marked], ["* destination options, item 0"])


class Matching(unittest.TestCase):
    def test_by_content_and_by_tag(self):
        sent = ip6("2001:db8:2::1", hop_limit=63, flow=5)
        other = ip6("2001:db8:2::1", hop_limit=60, flow=6)
        error = ip6("2001:db8:1::1", ICMPV6, icmp6(1, 0, ip6("2001:db8:2::1", flow=6)), source="2001:db8::1")
        expected = {5: [Doing("sent", "east", sent)], 6: [Doing("sent", "east", ip6("2001:db8:2::1", flow=6))]}
        address = IPv6Address("2001:db8::1")
        answers = [Answer(None, error), Answer("west", other), Answer("east", sent), Answer("east", b"\x60")]
        got, strays = sorted_answers(expected, answers, address)
        self.assertEqual(got[5], Got((answers[2],)))
        self.assertEqual(got[6], Got((answers[1],), (error,)))
        self.assertEqual(strays, [answers[3]])

    def test_by_what_an_ipv4_header_has_of_a_tag(self):
        number = 500_007
        expected = {number: [Doing("sent", "east", ip4("192.0.2.1", identification=number & 0xFFFF))]}
        answer = Answer("east", ip4("192.0.2.1", ttl=9, identification=number & 0xFFFF))
        got, strays = sorted_answers(expected, [answer, Answer("east", ip4("192.0.2.1", identification=9))], IPv6Address("::1"))
        self.assertEqual((got, len(strays)), ({number: Got((answer,))}, 1))

    def test_an_error_of_another_address(self):
        quoted = ip6("2001:db8:2::1", flow=6)
        error = ip6("2001:db8:1::1", ICMPV6, icmp6(1, 0, quoted), source="2001:db8:77::1")
        dropped = {6: [Doing("dropped", None, b"another", "NoRoute")]}
        got, _ = sorted_answers(dropped, [Answer("east", error)], IPv6Address("2001:db8::1"))
        self.assertEqual(got[6], Got((), (error,)))
        passed = {6: [Doing("sent", "east", error)]}
        got, _ = sorted_answers(passed, [Answer("east", error)], IPv6Address("2001:db8::1"))
        self.assertEqual(got[6], Got((Answer("east", error),)))

    def test_differences(self):
        address = IPv6Address("2001:db8::1")
        sent, error = ip6("::1"), ip6("::2", ICMPV6, icmp6(1, 0), source="2001:db8::1")
        over = Doing("sent", "east", sent)
        dropped, silent = Doing("dropped", None, error, "NoRoute"), Doing("dropped", None, None, "BadChain")
        delivered = Doing("delivered", pairs=(Pair("End", "delivered"),))
        for doing, got, said in (
            (over, Got(), "dropped"),
            (over, Got((Answer("west", sent),)), "another link"),
            (over, Got((Answer("east", ip6("::3")),)), "other bytes"),
            (over, Got((), (error,)), "an error"),
            (over, Got((Answer("east", sent), Answer("east", sent))), "more than one answer"),
            (dropped, Got(), "no error"),
            (dropped, Got((Answer("east", sent),)), "sent on"),
            (dropped, Got((), (ip6("::9", ICMPV6, icmp6(3, 0)),)), "another error"),
            (silent, Got((), (error,)), "an error"),
            (delivered, Got((Answer("east", sent),)), "delivered, and sent on"),
        ):
            with self.subTest(said):
                self.assertFalse(fits(doing, got, address))
                self.assertEqual(difference_of([doing], got), said)
        for doing, got in (
            (over, Got((Answer("east", sent),))), (over, Got((Answer(None, sent),))), (dropped, Got((), (error,))),
            (silent, Got()), (delivered, Got()), (delivered, Got((), (ip6("::2", ICMPV6, icmp6(1, 4)),))),
        ):  # fmt: skip
            self.assertTrue(fits(doing, got, address))


if __name__ == "__main__":
    unittest.main()
