"""What SIDs do with a pushed header, by hand from RFC 8986 and RFC 9800, and where it comes to."""

import unittest
from ipaddress import IPv6Address, IPv6Network

from srv6tools.description import Policy, Sid, read_network
from srv6tools.intent import read_intent
from srv6tools.legs import Legs
from srv6tools.pushed_headers import Fate, Header, Lost, Origin, at_sid, header_of
from support import EXAMPLES

POLICY, INTENT = EXAMPLES / "policy.toml", EXAMPLES / "intent.toml"
CSIDS = "9:8:7:6:5:4:3:2"  # of 16 bits, the one of index 0 first


def number(text: str) -> int:
    """An address as a number."""
    return int(IPv6Address(text))


def header(to: str, *entries: str, left: int = 0, hop_limit: int = 64) -> Header:
    """A header to an address, with the entries of its routing header, entry 0 first."""
    listed = tuple(map(number, entries)) or None
    return Header(number(to), hop_limit, listed, left, None, 0)


def sid(prefix: str, behaviour: str = "End", csid: str = "plain", *flavours: str) -> Sid:
    """A SID of a node A."""
    return Sid(1, "A", IPv6Network(prefix), behaviour, csid, flavours)


class AtSid(unittest.TestCase):
    def goes_to(self, one: Sid, block_len: int, before: Header, to: str, left: int) -> Header:
        """The header behind a SID, which has lowered its hop limit."""
        after = at_sid(one, block_len, before)
        self.assertIsInstance(after, Header)
        expected = number(to), before.hop_limit - 1, left
        self.assertEqual((after.destination, after.hop_limit, after.left), expected)
        return after

    def test_whole_segments(self):
        before = header("fc00:1::", "fc00:3::", "fc00:2::", left=2)
        after = self.goes_to(sid("fc00:1::/48"), 0, before, "fc00:2::", 1)
        self.assertEqual(after.length, 40 + 8 + 32)
        last = self.goes_to(sid("fc00:2::/48", "End.X", "plain", "psp"), 0, after, "fc00:3::", 0)
        self.assertEqual((last.entries, last.length), (None, 40))

    def test_taken_off(self):
        for left, one, fate in (
            (0, sid("fc00:1::/48", "End", "plain", "usd"), Fate.TAKEN_OFF),
            (0, sid("fc00:1::/48", "End.DT46"), Fate.TAKEN_OFF),
            (1, sid("fc00:1::/48", "End.DT6"), Fate.SEGMENTS),
            (0, sid("fc00:1::/48", "End.DX4"), Fate.UPPER_LAYER),
            (0, sid("fc00:1::/48", "End", "plain", "usp"), Fate.UPPER_LAYER),
        ):
            with self.subTest(one.what):
                self.assertIs(at_sid(one, 0, header("fc00:1::", "fc00:2::", left=left)), fate)

    def test_hop_limit(self):
        one = sid("fc00:1::/48", "End", "plain", "usd")
        short = header("fc00:1::", "fc00:2::", left=1, hop_limit=1)
        self.assertIs(at_sid(one, 0, short), Fate.HOP_LIMIT)
        self.assertIs(at_sid(one, 0, short._replace(left=0)), Fate.TAKEN_OFF)

    def test_next(self):
        one = sid("fcbb:bb00:2::/48", "End", "next", "psp", "usd")
        before = header("fcbb:bb00:2:e001:4::", "fc00:3::")
        after = self.goes_to(one, 32, before, "fcbb:bb00:e001:4::", 0)
        self.assertEqual(after.entries, before.entries)
        self.assertIs(at_sid(one, 32, header("fcbb:bb00:2::")), Fate.TAKEN_OFF)

    def test_replace(self):
        one = sid("2001:db8:b:2::/64", "End", "replace", "psp")
        self.goes_to(one, 48, header("2001:db8:b:2::7", CSIDS), "2001:db8:b:3::6", 0)
        first = header("2001:db8:b:1::", CSIDS, left=1)
        self.goes_to(sid("2001:db8:b:1::/64", "End", "replace"), 48, first, "2001:db8:b:2::7", 0)
        last = header("2001:db8:b:8::1", CSIDS)
        after = self.goes_to(
            sid("2001:db8:b:8::/64", "End", "replace", "psp"), 48, last, "2001:db8:b:9::", 0
        )
        self.assertIsNone(after.entries)
        whole = header("2001:db8:b:2::7", "fc00:9::", "0:0:0:0:0:0:0:2", left=1)
        self.assertIsNone(self.goes_to(one, 48, whole, "fc00:9::", 0).entries)
        self.assertIs(at_sid(one, 48, header("2001:db8:b:2::7", CSIDS, left=1)), Fate.SEGMENTS)
        ends = sid("2001:db8:b:9::/64", "End.DT6", "replace")
        self.assertIs(at_sid(ends, 48, header("2001:db8:b:9::", CSIDS)), Fate.TAKEN_OFF)
        self.assertIs(at_sid(ends, 48, header("2001:db8:b:9::1", CSIDS)), Fate.SEGMENTS)

    def test_forms(self):
        policy = Policy("p", IPv6Address("::1"), (IPv6Address("::a"), IPv6Address("::b")))
        for reduced, entries in ((False, (11, 10)), (True, (11,))):
            made = header_of(policy, reduced)
            self.assertEqual((made.destination, made.entries, made.left), (10, entries, 1))
            self.assertEqual(made.hop_limit, 64)
        one = header_of(Policy("p", IPv6Address("::1"), (IPv6Address("::a"),)), True)
        self.assertEqual((one.entries, one.left, one.length), (None, 0, 40))


class Walks(unittest.TestCase):
    def test_where_it_is_taken_off(self):
        legs = Legs(read_network(POLICY), read_intent(INTENT))
        (binding,) = (one for one in legs.sids if one.binds)
        origin = legs.origin(1, binding)
        self.assertIsInstance(origin, Origin)
        self.assertEqual((origin.position, origin.place.node, origin.place.lowers), (2, "C", True))
        self.assertIsInstance(legs.origin(2, binding), Lost)


if __name__ == "__main__":
    unittest.main()
