"""from-linux: what ip wrote of a router, what is left out and why, and bad input."""

import json
import random
import tomllib
import unittest
from ipaddress import IPv4Address, IPv4Network, IPv6Address
from pathlib import Path

from srv6tools.captures import raw_capture
from srv6tools.description import network_of
from srv6tools.ip_json import LinuxRoute, LinuxRule, NextHop
from srv6tools.linux import MAIN_TABLE
from srv6tools.linux_rules import put_before_main
from srv6tools.packet_parts import ip6
from srv6tools.program import judge_description, run_program
from support import ToolCase, needs_program, run_here, run_tool

DATA = Path(__file__).resolve().parent / "data"
SIX, FOUR = DATA / "linux-routes-6.json", DATA / "linux-routes-4.json"


def seg6local(**words) -> list[dict]:
    """A list of one SID as `ip -j` writes it."""
    return [{"dst": "fc00:0:1::/48", "encap": "seg6local", **words, "dev": "east", "metric": 1024}]


class FromLinux(ToolCase):
    def described(self, listed: list | str, *words: str | Path, status: int = 0):
        text = listed if isinstance(listed, str) else json.dumps(listed)
        ran = run_here("from-linux", "--address", "2001:db8::1", *words, given=text.encode())
        self.assertNotIn("Traceback", ran.err)
        self.assertEqual(ran.status, status, ran.err)
        return network_of(tomllib.loads(ran.out), "out"), ran.err

    def test_routes_of_a_router(self):
        """What `ip` 6.1 wrote on Linux 6.18 of a node, with a few routes more."""
        words = ["--node", "N", "--link", "east=ae:E", "--ipv4", FOUR, SIX]
        ran = run_here("from-linux", *words)
        self.assertEqual(ran.status, 0)
        root = tomllib.loads(ran.out)
        self.assertEqual(root["node"], [{"name": "N", "address": "2001:db8::1"}])
        self.assertEqual(sorted(link["name"] for link in root["link"]), ["ae", "west"])
        self.assertIn({"name": "ae", "from": "N", "to": "E"}, root["link"])
        self.assertIn({"node": "N", "prefix": "3000::/16", "via": ["ae", "west"]}, root["route"])
        sids = {sid["prefix"]: sid for sid in root["sid"]}
        self.assertEqual(sids["fc00:0:5::/48"]["links"], ["west"])
        self.assertEqual(sids["fc00:0:6::/48"]["table"], 10)
        self.assertEqual(sids["fcbb:bb00:c::/48"]["csid"], "next")
        self.assertEqual(root["block"], [{"prefix": "fcbb:bb00::/32", "kind": "next", "csid": 16}])
        for text in ("weights of its next hops", "it encapsulates (seg6)", "in table 77"):
            self.assertIn(text, ran.err)

    @needs_program
    def test_the_program_takes_it(self):
        ran = run_here("from-linux", "--node", "N", "--ipv4", FOUR, SIX)
        judge_description(self.file("net.toml", ran.out))

    def test_several_neighbours(self):
        def hop(number: int) -> dict:
            return {"gateway": f"fe80::{number}", "dev": "eth0", "weight": 1, "flags": []}

        listed = [
            {"dst": "default", "gateway": "fe80::1", "dev": "eth0", "metric": 1},
            {"dst": "default", "gateway": "fe80::2", "dev": "eth0", "metric": 2},
            {"dst": "fd00::/16", "nexthops": [hop(1), hop(2)], "metric": 1},
            {"dst": "fd01::/64", "dev": "eth0", "protocol": "kernel", "metric": 256},
        ]
        net, said = self.described(listed, "--link", "eth0@fe80::2=ab:router")
        self.assertEqual(list(net.links), ["eth0", "ab", "eth0.2"])
        self.assertEqual(net.routes[1].via, ("eth0", "ab"))
        self.assertIn("another route to the prefix has a lower metric", said)

    def test_what_is_left_out(self):
        for words, why in (
            ({"action": "End.DX2", "oif": "east"}, "no behaviour End.DX2"),
            ({"action": "End.B6", "srh": {"segs": ["::1"]}}, "no behaviour End.B6"),
            ({"action": "End.X", "nh6": "::"}, "which is End's work"),
            ({"action": "End.X", "nh6": "fd00::1"}, "no route leads to its next hop fd00::1"),
            ({"action": "End.X", "nh6": 7}, "is no address"),
            ({"action": "End.T", "table": "blue"}, "ip -N writes numbers"),
            ({"action": "End.T", "table": "local"}, "no table local"),
            ({"action": "End.T"}, "`table` is no number: None"),
            ({"action": "End.B6.Encaps"}, "it has no segments"),
            ({"action": "End", "flavors": ["x"]}, "no flavour x"),
            ({"action": "End", "flavors": "psp"}, "no list of words"),
            ({"action": "End", "flavors": ["next-csid"], "lblen": 40}, "its prefix has 48 bits"),
            ({"action": "End", "flavors": ["next-csid"], "lblen": "x"}, "is no number"),
            ({"action": "End", "flavors": ["next-csid"], "lblen": 8, "nflen": 40}, "no block of 8"),
        ):
            with self.subTest(why):
                net, said = self.described(seg6local(**words))
                self.assertEqual(net.sids, [])
                self.assertIn(why, said)
        for route, why in (
            ({"type": "blackhole", "dst": "::/0", "dev": "lo"}, "no blackhole routes"),
            ({"dst": "::/0", "dev": "lo"}, "it leads to the interface lo"),
            ({"dst": "::/0"}, "it names no interface"),
            ({"dst": "fd00::1/16", "dev": "a"}, "`dst` is no prefix"),
            ({"dev": "a"}, "it has no `dst`"),
            ({"dst": "::/0", "dev": "a", "table": "70000"}, "no table 70000"),
            ({"dst": "::/0", "dev": 1}, "no `dev`"),
            ({"dst": "::/0", "nexthops": 1}, "`nexthops` is no list"),
            ({"dst": "::/0", "dev": "a", "metric": "x"}, "`metric` is no number"),
            ({"dst": "::/0", "dev": "a", "encap": "mpls", "labels": 3}, "it encapsulates (mpls)"),
            ({"type": "local", "dst": "fd00::1", "dev": "lo", "table": "local"}, "an address of"),
        ):
            with self.subTest(why):
                net, said = self.described([route])
                self.assertEqual(net.routes, [])
                self.assertIn(why, said)

    def test_decapsulation_that_looks_up(self):
        net, said = self.described(seg6local(action="End.DX6", nh6="::"))
        self.assertEqual((net.sids[0].behaviour, net.sids[0].table), ("End.DT6", 0))
        net, said = self.described(seg6local(action="End.DT4", vrftable="20"))
        self.assertEqual(net.sids[0].table, 20)
        net, said = self.described(
            '[{"dst":"fc00::/48","encap":"seg6local","action":"End.T","table":"7","dev":"a",'
            '"table":"9","metric":1}]', status=3,
        )  # fmt: skip
        self.assertIn("SIDs of a description are in table 0", said)
        net, said = self.described(seg6local(action="End.X", nh6="fe80::1", oif="west"))
        self.assertEqual(list(net.links), ["west"])

    def test_sids_in_another_table(self):
        """The lines of rules are those that `ip` 6.1 wrote on Linux 6.18."""
        rules = [
            {"priority": 0, "src": "all", "table": "local"},
            {"priority": 32763, "src": "all", "iif": "lo", "table": "102"},
            {"priority": 32764, "src": "2001:db8::", "srclen": 32, "dst": "fd00::", "dstlen": 16, "table": "101"},
            {"priority": 32765, "src": "all", "dst": "fc00::", "dstlen": 16, "table": "100"},
            {"priority": 32766, "src": "all", "table": "main"},
            {"priority": 32767, "src": "all", "table": "99"},
        ]
        path = self.file("rules", json.dumps(rules))
        listed = [
            {"dst": prefix, "encap": "seg6local", "action": "End", "dev": "east", "table": table, "metric": 1}
            for prefix, table in (("fc00:0:1::/48", "100"), ("fd00:0:1::/48", "100"), ("fd00:0:2::/48", "101"),
                                  ("fc00:0:3::/48", "102"), ("fc00:0:4::/48", "99"))
        ]  # fmt: skip
        net, said = self.described(listed, "--rules", path)
        self.assertEqual([str(sid.prefix) for sid in net.sids], ["fc00:0:1::/48"])
        for text in ("asks for more than a destination (iif)", "asks for more than a destination (src, srclen)"):
            self.assertIn(text, said)
        net, said = self.described(listed, "--sid-table", "99", "--sid-table", "101")
        self.assertEqual([str(sid.prefix) for sid in net.sids], ["fd00:0:2::/48", "fc00:0:4::/48"])
        net, said = self.described(listed, status=3)
        self.assertEqual(net.sids, [])
        self.assertTrue(said.endswith("no SID is taken, since all stand in other tables than the main one\n"))
        listed.append({"dst": "fc00:0:9::/48", "gateway": "fe80::1", "dev": "east", "table": "100", "metric": 1})
        net, said = self.described(listed, "--rules", path)
        self.assertEqual([(str(route.prefix), route.table) for route in net.routes], [("fc00:0:9::/48", 100), ("fc00:0:9::/48", 0)])
        self.assertEqual([str(sid.prefix) for sid in net.sids], ["fc00:0:1::/48"])
        net, said = self.described(listed, "--sid-table", "100")
        self.assertEqual([route.table for route in net.routes], [100])
        self.assertIn("it stays in that table, of which SIDs alone are taken", said)

    def test_routes_before_the_main_table(self):
        """Table 0 gives each packet what the rules give it: of random tables and rules, by all addresses."""
        chance, hidden = random.Random(8), 0

        def prefix() -> IPv4Network:
            length = chance.choice((24, 26, 27, 28, 29, 30))
            return IPv4Network((0x0A000000 | chance.randrange(256) >> 32 - length << 32 - length, length))

        def best(routes, table, address):
            held = [one for one in routes if one.table == table and address in one.prefix]
            return max(held, key=lambda one: (one.prefix.prefixlen, -one.metric), default=None)

        for _ in range(120):
            prefixes = {(table, prefix()) for table in (MAIN_TABLE, 10, 11) for _ in range(chance.randrange(7))}
            routes = [
                LinuxRoute(number, "unicast", one, table, (NextHop(f"e{number}"),))
                for number, (table, one) in enumerate(sorted(prefixes))
            ]
            rules = [LinuxRule(number, number, prefix(), chance.choice((10, 11, MAIN_TABLE))) for number in range(chance.randrange(4))]
            notes: list[str] = []
            made = put_before_main(routes, rules, notes)
            hidden += bool(notes)
            for last in range(256):
                address = IPv4Address(0x0A000000 | last)
                tables = [rule.table for rule in rules if address in rule.prefix]
                found = (best(routes, table, address) for table in [*tables, MAIN_TABLE])
                wanted, got = next(filter(None, found), None), best(made, MAIN_TABLE, address)
                self.assertEqual(got and got.hops, wanted and wanted.hops, (address, rules, routes))
            self.assertEqual([one for one in made if one.table != MAIN_TABLE], [one for one in routes if one.table != MAIN_TABLE])
        self.assertGreater(hidden, 20)

    def test_rules_that_do_otherwise(self):
        """Each is named. The lines are those that `ip` 6.1 wrote on Linux 6.18."""
        rules = [
            {"priority": 0, "src": "all", "table": "local"},
            {"priority": 900, "src": "all", "dst": "fc00::", "dstlen": 16, "action": "blackhole"},
            {"priority": 901, "src": "all", "dst": "fc01::", "dstlen": 16, "goto": 32766},
            {"priority": 902, "not": None, "src": "all", "dst": "fd00::", "dstlen": 8, "table": "77"},
            {"priority": 903, "src": "all", "dst": "fd01::", "dstlen": 16, "fwmark": "0x1", "action": "unreachable"},
            {"priority": 904, "src": "all", "dst": "fc00::1", "table": "5", "suppress_prefixlen": 0},
            {"priority": 1000, "src": "all", "l3mdev": None}, {"priority": 32766, "src": "all", "table": "main"},
        ]
        net, said = self.described([], "--rules", self.file("rules", json.dumps(rules)))
        for number, text in (
            (2, "to fc00::/16, blackhole: a description has no rules that do so (blackhole)"), (3, "(goto 32766)"),
            (4, "(not)"), (5, "(unreachable)"), (6, "(suppress_prefixlen)"), (7, "has no such ports (--vrfs names them)"),
        ):  # fmt: skip
            (line,) = [line for line in said.splitlines() if f"rule {number} " in line]
            self.assertIn(text, line)
        self.assertEqual(len(said.splitlines()), 6)

    def test_rules_that_name_the_main_table(self):
        """One for some destinations doesn't end what is asked before it for others."""
        rules = [
            {"priority": 1, "src": "all", "dst": "fc01::", "dstlen": 16, "table": "main"},
            {"priority": 2, "src": "all", "table": "main", "suppress_prefixlen": 0},
            {"priority": 3, "src": "all", "dst": "fc00::", "dstlen": 8, "table": "7"}, {"priority": 4, "src": "all", "table": "main"},
            {"priority": 5, "src": "all", "dst": "fd00::", "dstlen": 8, "table": "7"},
        ]  # fmt: skip
        listed = [{"dst": "fc01::/16", "dev": "a"}, {"dst": "default", "dev": "b", "table": "7"}]
        net, said = self.described(listed, "--rules", self.file("rules", json.dumps(rules)))
        found = {str(route.prefix): route.via for route in net.routes if not route.table}
        self.assertEqual(found, {"fc01::/16": ("a",), "fc00::/8": ("b",)})
        self.assertIn("rule 2 to ::/0, which names table 254: it asks for more than a destination (suppress_prefixlen)", said)

    def test_rules_of_ipv4(self):
        listed = [
            {"dst": "default", "gateway": "10.0.0.1", "dev": "a", "table": "7"},
            {"dst": "192.0.2.0/25", "dev": "b"}, {"dst": "198.51.100.0/24", "dev": "b"},
            {"type": "throw", "dst": "203.0.113.0/24", "table": "7"},
        ]  # fmt: skip
        rules = [{"priority": 5, "src": "all", "dst": "192.0.2.0", "dstlen": 24, "table": "7"},
                 {"priority": 6, "src": "all", "dst": "203.0.113.0", "dstlen": 24, "table": "7"}]  # fmt: skip
        words = ["--ipv4", self.file("four", json.dumps(listed)), "--ipv4-rules", self.file("rules", json.dumps(rules))]
        net, said = self.described([], *words)
        found = {(route.table, str(route.prefix)): route.via for route in net.routes}
        self.assertEqual(found, {
            (7, "0.0.0.0/0"): ("a",), (0, "192.0.2.0/24"): ("a",), (0, "198.51.100.0/24"): ("b",), (0, "203.0.113.0/24"): ("a",),
        })  # fmt: skip
        self.assertIn("1 entries that are asked later are left out of table 0", said)
        self.assertIn("go on to the next rule", said)

    def test_vrfs(self):
        """The keys are those that iproute2 6.1 has in its sources (`iplink_vrf.c`): this machine's kernel has no VRF devices."""
        links = [
            {"ifindex": 1, "ifname": "lo", "mtu": 65536},
            {"ifindex": 2, "ifname": "red", "linkinfo": {"info_kind": "vrf", "info_data": {"table": 100}}},
            {"ifindex": 3, "ifname": "site", "master": "red",
             "linkinfo": {"info_slave_kind": "vrf", "info_slave_data": {"table": 100}}},
            {"ifindex": 4, "ifname": "b0", "linkinfo": {"info_kind": "bridge", "info_data": {}}},
            {"ifindex": 5, "ifname": "b1", "master": "b0"},
        ]  # fmt: skip
        listed = [
            {"dst": "fc00:0:1::/48", "encap": "seg6local", "action": "End.DT46", "vrftable": 100, "dev": "red", "metric": 1024},
            {"dst": "2001:db8:7::/48", "gateway": "fe80::1", "dev": "site", "table": "100", "metric": 20},
            {"type": "unreachable", "dst": "default", "dev": "lo", "table": "100", "metric": 4278198272},
            {"dst": "2001:db8:8::/48", "dev": "red", "metric": 1024},
            {"type": "prohibit", "dst": "2001:db8:9::/48", "dev": "lo", "metric": 1},
            {"dst": "2001:db8:9::/48", "dev": "site", "metric": 2},
        ]  # fmt: skip
        rules = [{"priority": 1000, "src": "all", "l3mdev": None}]
        words = ["--rules", self.file("rules", json.dumps(rules)), "--vrfs", self.file("links", json.dumps(links))]
        net, said = self.described(listed, *words)
        self.assertEqual([(sid.behaviour, sid.table) for sid in net.sids], [("End.DT46", 100)])
        self.assertEqual([(str(route.prefix), route.table, route.via) for route in net.routes], [("2001:db8:7::/48", 100, ("site",))])
        self.assertEqual(list(net.links), ["site"])
        for line, text in zip(said.splitlines(), (
            "packets that come in on site, of the VRF red, are looked up in table 100", "a description has no prohibit routes",
            "a route of a lower metric drops packets", "it leads into table 100, of the VRF red",
        ), strict=True):  # fmt: skip
            self.assertIn(text, line)

    @needs_program
    def test_vrfs_of_two_nodes(self):
        """Two routers with a VRF each, put together: a packet of the one's SID leaves by the other's table."""
        far = [
            {"dst": "fc00:0:2::/48", "encap": "seg6local", "action": "End.DT6", "vrftable": 100, "dev": "red", "metric": 1},
            {"dst": "2001:db8:7::/48", "dev": "site", "table": "100", "metric": 1},
            {"type": "unreachable", "dst": "default", "dev": "lo", "table": "100", "metric": 9},
        ]
        near = [
            {"dst": "fc00:0:2::/48", "gateway": "fe80::2", "dev": "eth0", "table": "50", "metric": 1},
            {"dst": "fc00:0:2::/48", "dev": "elsewhere", "metric": 1},
        ]
        rules = self.file("rules", json.dumps([{"priority": 5, "src": "all", "dst": "fc00::", "dstlen": 16, "table": "50"}]))
        texts = [
            run_here("from-linux", "--node", node, "--address", address, *words, given=json.dumps(listed).encode()).out
            for node, address, listed, *words in (
                ("A", "2001:db8::a", near, "--rules", rules, "--link", "eth0=ab:B"), ("B", "2001:db8::b", far),
            )
        ]  # fmt: skip
        net = self.file("net.toml", "".join(texts))
        judge_description(net)
        inner = ip6("2001:db8:7::1")
        outer = bytes.fromhex("60000000") + len(inner).to_bytes(2, "big") + bytes([41, 64])
        outer += IPv6Address("2001:db8::1").packed + IPv6Address("fc00:0:2::1").packed + inner
        ran = run_program(["run", net, "A"], b"".join(raw_capture([(0, 0, outer)])))
        self.assertEqual(ran.err, "packet 1: left site\n")

    def test_bad_vrfs(self):
        vrf = {"ifname": "red", "linkinfo": {"info_kind": "vrf", "info_data": {"table": "x"}}}
        for text, said in (("{", "no JSON"), ("[1]", "no list of interfaces"), ("{}", "no list"), (json.dumps([vrf]), "VRF red"),
                           ('[{"ifname": "a", "linkinfo": {"info_kind": "vrf"}}]', "`table` is no number")):  # fmt: skip
            ran = run_here("from-linux", "--address", "::1", "--vrfs", self.file("links", text), given=b"[]")
            self.named_answer(ran, [1])
            self.assertIn(said, ran.err)
        self.assertEqual(self.described([], "--vrfs", self.file("links", '[{"master": []}, {"linkinfo": 1}]'))[1], "")

    def test_bad_rules(self):
        for text, said in (("{", "no JSON"), ("[1]", "no list of rules"), ('{"a": 1}', "no list of rules"), ("[" * 5000, "no JSON")):
            ran = run_here("from-linux", "--address", "::1", "--rules", self.file("rules", text), given=b"[]")
            self.named_answer(ran, [1])
            self.assertIn(said, ran.err)
        bad = [{"priority": 1, "src": "all", "dst": "x", "table": "7"}, {"priority": "p", "table": "7"}, {"table": "seven"}]
        ran = run_here("from-linux", "--address", "::1", "--rules", self.file("rules", json.dumps(bad)), given=b"[]")
        self.assertEqual((ran.status, len(ran.err.splitlines())), (0, 3), ran.err)
        self.named_answer(run_here("from-linux", "--sid-table", "x", given=b"[]"), [2])
        self.named_answer(run_here("from-linux", "--address", "::1", "--rules", self.folder, given=b"[]"), [5])

    def test_bad_input(self):
        self.helps("from-linux")
        for text in (b"", b"{}", b"[1]", b"[[1]]", b"[", b"\xff", b"[" * 5000, b"null", b'"x"',
                     b'[{"dst": 1' + b"0" * 5000 + b"}]"):  # fmt: skip
            with self.subTest(text[:20]):
                self.named_answer(run_here("from-linux", given=text), [1, 2])
        ran = run_here("from-linux", given=b"[]")
        self.named_answer(ran, [2])
        self.assertIn("--address", ran.err)
        self.assertEqual(run_here("from-linux", "--address", "::1", given=b"[{}]").status, 0)
        for word in ("x", "a=", "=b", "a=b:", "a=b c"):
            self.named_answer(run_here("from-linux", "--link", word, given=b"[]"), [2])
        self.named_answer(run_here("from-linux", "--address", "x", given=b"[]"), [2])
        self.named_answer(run_here("from-linux", "--node", "a b", given=b"[]"), [2])
        self.named_answer(run_tool("from-linux", self.folder / "absent"), [5])

    def test_changed_json(self):
        chance, good = random.Random(3), SIX.read_bytes()
        values = (None, 1, "x", [], {}, [[]], "::/0", -1, 2**80)
        for _ in range(300):
            listed = json.loads(good)
            route = chance.choice(listed)
            route[chance.choice(list(route))] = chance.choice(values)
            ran = run_here("from-linux", "--address", "::1", given=json.dumps(listed).encode())
            self.assertNotIn("Traceback", ran.err)
            self.assertIn(ran.status, (0, 1))


if __name__ == "__main__":
    unittest.main()
