"""from-frr: networks of six routers of FRR 10.3 and 8.4 as bench/frr-network keeps them, small ones by hand, and bad files."""

import json
import shutil
import tomllib
import unittest
from pathlib import Path

from srv6tools.program import run_program
from support import HELPERS, Ran, ToolCase, needs_program, run_here

KEPT = HELPERS / "tests" / "data" / "frr"
OSPF6, BLOCK = HELPERS / "tests" / "data" / "frr-ospf6", ("--block", "fcbb:bb00::/32")
INTENT = """\
headend = "pe1"
source = "fdff:ffff:ffff:fffe::5"
inner = "ipv6"
mode = "reduced"
step = [{ links = ["pe1-p1"] }, { links = ["p1-p2-2"] }, { links = ["p2-pe2"] }, { function = "pe2-DT6" }]
"""
CONFIG = """\
!
interface eth0
 ipv6 address 2001:db8:f::%d/64
 isis metric 7
exit
!
interface lo
 ipv6 address 2001:db8::%d/128
exit
!
"""
LOCATORS = {"locators": [{"name": "M", "prefix": "fcbb:bb00:1::/48", "blockBitsLength": 32, "behavior": "usid"}]}


def entry(prefix: str, *hops: dict, protocol: str = "static", **more: object) -> dict[str, list]:
    """A route as FRR writes it."""
    listed = [{"fib": True, "active": True, "weight": 1, **hop} for hop in hops]
    return {prefix: [{"prefix": prefix, "protocol": protocol, "selected": True, "table": 254, "nexthops": listed, **more}]}


class FromFrr(ToolCase):
    def router(self, name: str, routes: dict, config: str = "!\n", locators: dict | None = None) -> Path:
        """The folder of a router."""
        place = self.folder / "net" / name
        place.mkdir(parents=True, exist_ok=True)
        (place / "running-config").write_text(config)
        (place / "routes.json").write_text(json.dumps(routes))
        (place / "locators.json").write_text(json.dumps(locators or {"locators": []}))
        return place

    def read(self, *words: str) -> tuple[Ran, dict]:
        """The description of the folder, and how the run went."""
        ran = run_here("from-frr", self.folder / "net", *words)
        self.assertEqual(ran.status, 0, ran.err)
        return ran, tomllib.loads(ran.out)

    def test_kept_network(self):
        ran = run_here("from-frr", KEPT)
        self.assertEqual(ran.status, 0)
        net = tomllib.loads(ran.out)
        self.assertEqual(net["block"], [{"prefix": "fcbb:bb00::/32", "kind": "next", "csid": 16}])
        self.assertEqual([node["name"] for node in net["node"]], ["p1", "p2", "p3", "p4", "pe1", "pe2"])
        self.assertEqual(net["node"][4]["address"], "fdff:ffff:ffff:fffe::5")
        links = [link["name"] for link in net["link"]]
        self.assertEqual(len(links), 20)
        self.assertLessEqual({"p1-p2", "p1-p2-2", "p2-p1-2", "pe1-p3", "pe1-site"}, set(links))
        routes = {(route["node"], route["prefix"]): route["via"] for route in net["route"]}
        self.assertEqual(len(routes), 34)
        self.assertEqual(routes["p1", "fcbb:bb00:12::/48"], ["p1-p2", "p1-p2-2"])
        self.assertEqual(routes["pe1", "2001:db8:c1:8000::/49"], ["pe1-site"])
        sids = {(sid["node"], sid["behaviour"], sid.get("csid"), *sid.get("links", ())) for sid in net["sid"]}
        self.assertEqual(len(sids), 26)
        self.assertLessEqual({("p1", "End", "next"), ("p1", "End.X", "next", "p1-p2-2"), ("pe2", "End.DT6", None)}, sids)
        for said in (
            "p1, p2, p3, p4, pe1, pe2: SIDs of locator MAIN: taken for NEXT-CSIDs, since its behavior is usid",
            "pe1: address fcbb:bb00:11::1: it lies inside SID fcbb:bb00:11::/48 (41 Nested), so fdff:ffff:ffff:fffe::5 stands in",
            "p1, p3: connected route to 2001:db8:f::/127: the addresses of links between routers aren't in a description",
            "isis route to fcbb:bb00:12::1/128: it lies inside SID fcbb:bb00:12::/48 (41 Nested)",
        ):
            self.assertIn(said, ran.err)

    def test_each_source_of_ends_is_enough(self):
        whole = run_here("from-frr", KEPT).out
        for absent in ("isis.json", "interfaces.json"):
            with self.subTest(absent):
                copy = self.folder / absent
                shutil.copytree(KEPT, copy)
                for file in copy.glob(f"*/{absent}"):
                    file.unlink()
                self.assertEqual(run_here("from-frr", copy).out, whole)

    @needs_program
    def test_a_list_over_it(self):
        net = self.file("net.toml", run_here("from-frr", KEPT).out)
        answer = run_program(["compile", net, self.file("intent.toml", INTENT)])
        self.assertEqual(answer.status, 0, answer.err)
        (container,) = [line for line in answer.out.decode().splitlines() if line.startswith("# container ")]
        self.assertRegex(container, r"^# container fcbb:bb00:1:[1-4]:2:12:f100:0$")

    def test_kept_network_of_ospf6(self):
        ran = run_here("from-frr", OSPF6, *BLOCK)
        self.assertEqual(ran.status, 0)
        net = tomllib.loads(ran.out)
        self.assertEqual(net["node"][5], {"name": "pe2", "address": "2001:db8::12"})
        self.assertEqual((len(net["link"]), len(net["route"]), len(net["sid"])), (20, 64, 24))
        self.assertIn({"node": "p3", "prefix": "fcbb:bb00:3::/48", "behaviour": "End", "csid": "next"}, net["sid"])
        self.assertNotIn("41 Nested", ran.err)
        self.assertIn("pe1: SID fcbb:bb00:11:f100::/64 (End.DT6): FRR doesn't say its table", ran.err)
        self.assertIn("SIDs in fcbb:bb00::/32 (--block): taken for NEXT-CSIDs", ran.err)
        self.assertNotIn("csid", run_here("from-frr", OSPF6).out)

    @needs_program
    def test_the_plan_gives_the_routes_of_the_protocol(self):
        for kept, *words in ([KEPT], [OSPF6, *BLOCK]):
            with self.subTest(kept):
                plan = self.folder / "plan.toml"
                base = self.file("base.toml", run_here("from-frr", kept, *words, "--plan", plan).out)
                self.assertLess(base.read_text().count("[[route]]"), 5)
                ran = run_here("routes", base, plan)
                self.assertEqual(ran.status, 0, ran.err)
                found, wanted = (
                    {(route["node"], route["prefix"], frozenset(route["via"])) for route in tomllib.loads(text)["route"]}
                    for text in (ran.out, run_here("from-frr", kept, *words).out)
                )
                self.assertEqual(found, wanted)

    def test_what_a_plan_does_not_find(self):
        out, eth0 = {"interfaceName": "out"}, {"interfaceName": "eth0", "ip": "2001:db8:f::2"}
        routes = entry("2001:db8:5::/48", eth0, protocol="isis") | entry("2001:db8:6::/48", eth0, protocol="ospf6")
        self.router("A", routes, CONFIG % (1, 1))
        self.router("B", entry("2001:db8:5::/48", out, protocol="connected"), CONFIG % (2, 2))
        ran, net = self.read("--plan", str(self.folder / "plan"))
        self.assertEqual([route["prefix"] for route in net["route"]], ["2001:db8:6::/48", "2001:db8:5::/48"])
        plan = tomllib.loads((self.folder / "plan").read_text())
        self.assertEqual(plan["locator"], [{"prefix": "2001:db8:5::/48", "nodes": ["B"]}])
        self.assertNotIn("addresses", plan)
        self.assertIn("prefix 2001:db8:6::/48: it isn't known which node has it, so the routes to it stay", ran.err)

    def test_ends_by_addresses(self):
        for number, name in ((1, "A"), (2, "B")):
            hop = {"interfaceName": "eth0", "ip": f"2001:db8:f::{3 - number}"}
            self.router(name, entry(f"2001:db8:{number}::/48", hop), CONFIG % (number, number))
        ran, net = self.read("--plan", str(self.folder / "plan"))
        self.assertEqual(net["link"], [{"name": "A-B", "from": "A", "to": "B"}, {"name": "B-A", "from": "B", "to": "A"}])
        self.assertEqual([node["address"] for node in net["node"]], ["2001:db8::1", "2001:db8::2"])
        self.assertEqual(ran.err, "")
        plan = tomllib.loads((self.folder / "plan").read_text())
        self.assertEqual(plan["link"], [{"name": "A-B", "metric": 7}, {"name": "B-A", "metric": 7}])

    def test_sids(self):
        out = {"interfaceName": "out"}
        local = {"interfaceName": "lo"}
        routes: dict = entry("2001:db8:9::/48", out)
        for prefix, hop, action, context in (
            ("fcbb:bb00:1::/48", local, "End", {}),
            ("fcbb:bb00:1:1::/64", out, "End.X", {"nh6": "fe80::1"}),
            ("fcbb:bb00:1:2::/64", out, "End.DX6", {"nh6": "fe80::1"}),
            ("fcbb:bb00:1:3::/64", local, "End.DT6", {"table": 254}),
            ("fcbb:bb00:1:4::/64", local, "End.DT46", {"table": 100}),
            ("fcbb:bb00:1:5::/64", local, "End.DT4", {}),
            ("fcbb:bb00:1:6::/64", local, "End.B6", {}),
            ("fc00:1::/64", local, "End.T", {"table": 7}),
        ):
            routes |= entry(prefix, hop | {"seg6local": {"action": action}, "seg6localContext": context})
        self.router("A", routes, CONFIG % (1, 1), LOCATORS)
        ran, net = self.read()
        self.assertEqual(net["block"], [{"prefix": "fcbb:bb00::/32", "kind": "next", "csid": 16}])
        place = {"node": "A"}
        self.assertEqual(
            net["sid"],
            [
                place | {"prefix": "fcbb:bb00:1::/48", "behaviour": "End", "csid": "next"},
                place | {"prefix": "fcbb:bb00:1:1::/64", "behaviour": "End.X", "csid": "next", "links": ["A-out"]},
                place | {"prefix": "fcbb:bb00:1:2::/64", "behaviour": "End.DX6", "title": "A-DX6", "links": ["A-out"]},
                place | {"prefix": "fcbb:bb00:1:3::/64", "behaviour": "End.DT6", "title": "A-DT6", "table": 0},
                place | {"prefix": "fcbb:bb00:1:4::/64", "behaviour": "End.DT46", "title": "A-DT46", "table": 100},
                place | {"prefix": "fc00:1::/64", "behaviour": "End.T", "table": 7},
            ],
        )
        self.assertIn("A: SID fcbb:bb00:1:5::/64 (End.DT4): FRR doesn't say its table", ran.err)
        self.assertIn("A: SID fcbb:bb00:1:6::/64 (End.B6): a description has no such behaviour", ran.err)

    def test_what_is_left_out(self):
        eth0 = {"interfaceName": "eth0"}
        routes = entry("2001:db8:1::/48", eth0, {"interfaceName": "eth1", "weight": 3})
        routes |= entry("2001:db8:2::/48", eth0 | {"seg6": {"segs": "fc00::1"}})
        routes |= entry("2001:db8:3::/48", eth0 | {"seg6": ["fc00::1", "fc00::2"]})
        routes |= entry("2001:db8:4::/48", {"unreachable": True}) | entry("2001:db8:5::/48", eth0, table=10)
        routes |= entry("2001:db8:6::/48", eth0, protocol="isis") | entry("2001:db8:7::/48", eth0, selected=False)
        routes |= entry("fe80::/64", eth0, protocol="connected") | entry("2001:db8:f::1/128", eth0, protocol="local")
        config = "ipv6 route 2001:db8:3::/48 eth0 segments fc00::1/fc00::2\n"
        self.router("A", routes, config)
        ran, net = self.read("--addresses", "2001:db8:ffff::/64")
        self.assertEqual([route["prefix"] for route in net["route"]], ["2001:db8:1::/48", "2001:db8:6::/48"])
        self.assertEqual(net["node"][0]["address"], "2001:db8:ffff::1")
        for said in (
            "A: ipv6 route 2001:db8:3::/48 eth0 segments fc00::1/fc00::2: it puts a list on",
            "A: static route to 2001:db8:1::/48: the weights of its next hops are left out",
            "A: static route to 2001:db8:2::/48: it puts a list on",
            "A: static route to 2001:db8:4::/48: it names no interface that is a link",
            "A: static route to 2001:db8:5::/48: it is of table 10",
            "A: no address of lo: 2001:db8:ffff::1 stands in for it",
            "A: interface eth0: no router is known behind it, so its link leaves the network (interfaces.json would tell)",
        ):
            self.assertIn(said, ran.err)

    def test_nested_otherwise(self):
        local = {"interfaceName": "lo", "seg6local": {"action": "End"}}
        routes = entry("fcbb:bb00:1::/48", local) | entry("fcbb:bb00:1:1:2::/80", local)
        self.router("A", routes, "router ospf6\n", LOCATORS)
        ran, _ = self.read()
        self.assertIn("SID fcbb:bb00:1:1:2::/80: it lies inside SID fcbb:bb00:1::/48, which `compile` refuses (41 Nested)", ran.err)

    def test_bad_input(self):
        self.helps("from-frr")
        self.named_answer(run_here("from-frr", self.folder / "absent"), [5])
        self.named_answer(run_here("from-frr", self.folder), [1])
        self.named_answer(run_here("from-frr", KEPT, "--addresses", "::/120"), [2])
        self.named_answer(run_here("from-frr", KEPT, "--block", "fcbb::/17"), [2])
        self.named_answer(run_here("from-frr", KEPT, "--plan", self.folder), [5])
        place = self.router("A", entry("2001:db8::/32", {"interfaceName": "eth0"}))
        (place / "locators.json").unlink()
        ran = run_here("from-frr", self.folder / "net")
        self.named_answer(ran, [5])
        self.assertIn("show segment-routing srv6 locator json", ran.err)
        (place.parent / "B C").mkdir()
        self.named_answer(run_here("from-frr", self.folder / "net"), [1, 5])

    def test_bad_files(self):
        shutil.copytree(KEPT / "p1", self.folder / "net" / "p1")
        for name in ("running-config", "routes.json", "locators.json", "isis.json", "interfaces.json"):
            path = self.folder / "net" / "p1" / name
            good = path.read_bytes()
            forms = (b"[]", b"{}", b"[1]", b'{"a": 1}', b'{"a": [1]}', b'{"a": [{"selected": 1}]}', b"[" * 5000)
            for bad in (b"", b"\xff", *forms, good[:500]):
                with self.subTest(name=name, bad=bad[:20]):
                    path.write_bytes(bad)
                    ran = run_here("from-frr", self.folder / "net")
                    self.assertNotIn("Traceback", ran.err)
                    self.assertIn(ran.status, (0, 1))
            path.write_bytes(good)


if __name__ == "__main__":
    unittest.main()
