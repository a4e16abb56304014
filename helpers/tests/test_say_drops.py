"""srv6-say of packets that are dropped: the table, the destination and the nearest entries."""

import subprocess
import unittest
from ipaddress import IPv4Address, IPv6Address

from srv6tools.description import read_network
from srv6tools.items import prefix_of
from srv6tools.places import Place
from srv6tools.say_drops import Drop, common_bits, nearest_words
from support import EXAMPLES, HELPERS, ToolCase, needs_program

DOMAIN = EXAMPLES / "domain"


class Nearest(unittest.TestCase):
    def test_common_bits(self):
        for prefix, address, bits in (
            ("2001:db8::/32", "2001:db8::1", 32),
            ("2001:db8::/32", "2001:db9::1", 31),
            ("::/0", "2001:db8::1", 0),
            ("2001:db8::1/128", "2001:db8::1", 128),
            ("8000::/1", "::1", 0),
        ):
            self.assertEqual(common_bits(prefix_of(prefix), IPv6Address(address)), bits)
        self.assertEqual(common_bits(prefix_of("10.0.0.0/8"), IPv4Address("11.0.0.1")), 7)

    def test_nearest(self):
        net = read_network(DOMAIN / "net.toml")
        place = Place("pe3", 100, None, True)
        drop = Drop("NoRoute", place, IPv4Address("203.0.113.1"))
        self.assertTrue(nearest_words(net, drop).startswith("nearest: "))
        drop = Drop("NoRoute", Place("pe3", 7, None, True), IPv4Address("203.0.113.1"))
        self.assertEqual(nearest_words(net, drop), "it has no entry of IPv4")
        drop = Drop("NoRoute", Place("br1", 0, None, True), IPv6Address("fcbb:bb00:b003::"))
        said = nearest_words(net, drop)
        self.assertTrue(said.startswith("nearest: fcbb:bb00:b002::/48 (SID, End.B6.Encaps"), said)


@needs_program
class Drops(ToolCase):
    def said(self, *words, given) -> list[str]:
        """What srv6-say adds to the program's lines, of an input that is a file."""
        with open(given, "rb") as file:
            done = subprocess.run(
                [HELPERS / "srv6-say", *words], stdin=file, capture_output=True, timeout=120
            )
        lines = done.stderr.decode().splitlines()
        return [line for line in lines if not line.startswith("packet ")]

    def test_walk(self):
        words = ["walk", DOMAIN / "net.toml", DOMAIN / "red.toml"]
        said = self.said(*words, given=DOMAIN / "customers.pcap")
        at = next(number for number, line in enumerate(said) if "NoRoute at pe3" in line)
        nearest = "nothing in table 100; nearest: 2001:db8:c3::/48 (route over red-3, red-3-2)"
        self.assertEqual(said[at + 1], f"  to 2001:db8:c9::1 (1): {nearest}")
        self.assertEqual(said[at + 2], f"  to 2001:db8:d4::1 (1): {nearest}")

    def test_run(self):
        said = self.said("run", DOMAIN / "net.toml", "br1", given=DOMAIN / "arriving.pcap")
        self.assertTrue(any(line.startswith("  to 2001:db8:bad::1 (1): nothing in table 0; nearest: ") for line in said))
        self.assertIn("  to fcbb:bb00:13::: SID fcbb:bb00:13::/48 (End NEXT-CSID USD)", said)
        said = self.said("run", EXAMPLES / "m2.toml", "B", given=EXAMPLES / "srh.bin")
        self.assertEqual(said[1:], ["  to fcbb:bb00:4::: SID fcbb:bb00:4::/48 (End)"])

    def test_an_input_that_is_read_once(self):
        """Of a pipe the lines alone are explained."""
        given = (EXAMPLES / "srh.bin").read_bytes()
        words = [HELPERS / "srv6-say", "run", EXAMPLES / "m2.toml", "B"]
        done = subprocess.run(words, input=given, capture_output=True, timeout=120)
        self.assertEqual(len(done.stderr.decode().splitlines()), 2)


if __name__ == "__main__":
    unittest.main()
