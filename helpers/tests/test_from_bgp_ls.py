"""from-bgp-ls: a table that a real GoBGP holds, what its bytes say, SRv6 as RFC 9514 has it, and bad input."""

import base64
import json
import subprocess
import tomllib
import unittest
from collections.abc import Sequence

from gobgp import PYTHON, needs_gobgp, needs_grpc, pair
from link_state import descriptor, link, locator, nlri, node, prefix, request, srv6_sid, tlv
from srv6tools.frr_lab import until
from srv6tools.link_state import NodeTold, PrefixTold, told_by
from srv6tools.program import run_program
from support import HELPERS, Ran, ToolCase, needs_program, run_here

KEPT = HELPERS / "tests" / "data" / "link-state.json"
BLOCK = ("--block", "fcbb:bb00::/32")
# A square of A to D; two cables between A and B; C's loopback stands in its locator.
ADDRESS = "2001:db8:f:%x::%x"
CABLES = [(1, 2, 10), (1, 2, 10), (2, 3, 10), (3, 4, 15), (1, 4, 10)]
LOOPBACKS = {1: "2001:db8::1", 2: "2001:db8::2", 3: "fcbb:bb00:3::1", 4: "2001:db8::4"}
FUNCTION = '{ node = "D", prefix = "fcbb:bb00:4:f000::/64", behaviour = "End.DT6", table = 0, title = "exit" }'
INTENT = """\
headend = "B"
source = "2001:db8::2"
inner = "ipv6"
mode = "reduced"
step = [{ reach = "C" }, { reach = "D" }, { function = "exit" }]
"""
Route = tuple[bytes, bytes]


def table() -> list[Route]:
    """The routes of the network."""
    routes = []
    for number, loopback in LOOPBACKS.items():
        routes += [node(number, "ABCD"[number - 1], loopback), prefix(number, f"{loopback}/128")]
        routes.append(locator(number, f"fcbb:bb00:{number:x}::/48"))
    for place, (one, other, metric) in enumerate(CABLES):
        near, far = ADDRESS % (place, 0), ADDRESS % (place, 1)
        routes += [link((one, other), (near, far), metric), link((other, one), (far, near), metric)]
        routes += [prefix(one, f"{near}/127"), prefix(other, f"{near}/127")]
    return [*routes, prefix(4, "2001:db8:c4::/48")]


def answers(routes: Sequence[Route]) -> str:
    """Routes as answers of GoBGP, one after the other."""
    texts = []
    for told, content in routes:
        attribute = bytes([0x90, 29]) + len(content).to_bytes(2) + content
        path = {"nlriBinary": base64.b64encode(told).decode(), "pattrsBinary": [base64.b64encode(attribute).decode()]}
        texts.append(json.dumps({"destination": {"paths": [path]}}))
    return "\n".join(texts)


class FromBgpLs(ToolCase):
    def read(self, given: str, *words: str) -> tuple[Ran, dict, dict]:
        """A run, its description and its plan."""
        plan = self.folder / "plan.toml"
        ran = run_here("from-bgp-ls", *words, "--plan", plan, given=given.encode())
        self.assertEqual(ran.status, 0, ran.err)
        return ran, tomllib.loads(ran.out), tomllib.loads(plan.read_text())

    def test_table(self):
        ran, net, plan = self.read(answers(table()), *BLOCK)
        addresses = {one["name"]: one["address"] for one in net["node"]}
        self.assertEqual(addresses, {"A": "2001:db8::1", "B": "2001:db8::2", "C": "fdff:ffff:ffff:fffe::3", "D": "2001:db8::4"})
        links = {one["name"]: (one["from"], one["to"]) for one in net["link"]}
        self.assertEqual(len(links), 10)
        self.assertEqual((links["A-B"], links["A-B-2"], links["D-C"]), (("A", "B"), ("A", "B"), ("D", "C")))
        self.assertEqual(net["block"], [{"prefix": "fcbb:bb00::/32", "kind": "next", "csid": 16}])
        self.assertEqual(net["sid"][2], {"node": "C", "prefix": "fcbb:bb00:3::/48", "behaviour": "End", "csid": "next"})
        metrics = {one["name"]: one["metric"] for one in plan["link"]}
        self.assertEqual((metrics["A-B"], metrics["C-D"]), (10, 15))
        self.assertEqual(plan["locator"], [{"prefix": "2001:db8:c4::/48", "nodes": ["D"]}])
        for said in (
            "address fcbb:bb00:3::1 of C: it lies inside SID fcbb:bb00:3::/48 (41 Nested), so fdff:ffff:ffff:fffe::3 stands in",
            "prefix fcbb:bb00:3::1/128: it lies inside SID fcbb:bb00:3::/48 (41 Nested)",
            "prefix 2001:db8:f::/127: the addresses of links aren't in a description",
            "locators in fcbb:bb00::/32 (--block): taken for End SIDs with NEXT-CSID",
        ):
            self.assertIn(said, ran.err)

    def test_without_a_block(self):
        _, net, plan = self.read(answers(table()))
        self.assertNotIn("sid", net)
        self.assertIn({"prefix": "fcbb:bb00:2::/48", "nodes": ["B"]}, plan["locator"])
        self.assertEqual(net["node"][2]["address"], "fcbb:bb00:3::1")

    def test_kept_table_of_gobgp(self):
        _, net, plan = self.read(KEPT.read_text(), *BLOCK)
        _, wanted, wanted_plan = self.read(answers(sorted(table())), *BLOCK)
        for name in ("node", "sid", "block", "link"):
            self.assertEqual(sorted(map(str, net[name])), sorted(map(str, wanted[name])))
        self.assertEqual(sorted(map(str, plan["link"])), sorted(map(str, wanted_plan["link"])))

    @needs_program
    def test_a_network_comes_of_it(self):
        base = self.file("base.toml", run_here("from-bgp-ls", KEPT, *BLOCK, "--plan", self.folder / "plan.toml").out)
        ran = run_here("routes", base, self.folder / "plan.toml")
        self.assertEqual(ran.status, 0, ran.err)
        whole = tomllib.loads(ran.out)
        self.assertEqual(len(whole["route"]), 15)  # to four locators and to D's prefix, from three nodes each
        text = ran.out.replace("sid = [\n", f"sid = [\n    {FUNCTION},\n", 1)
        answer = run_program(["compile", self.file("net.toml", text), self.file("intent.toml", INTENT)])
        self.assertEqual(answer.status, 0, answer.err)
        self.assertIn(b"# container fcbb:bb00:3:4:f000::\n", answer.out)

    def test_srv6_by_its_rfc(self):
        structure = tlv(1252, bytes([32, 16, 16, 0]))
        end_x = (52).to_bytes(2) + bytes(4) + bytes.fromhex("fcbbbb000001e0010000000000000000")
        told, content = srv6_sid(2, "fcbb:bb00:2:f000::", 18)
        routes = [
            node(1, "A", "2001:db8::1"), node(2, "B", "2001:db8::2"), locator(2, "fcbb:bb00:2::/48"),
            link((1, 2), ("2001:db8:f::", "2001:db8:f::1"), 10, tlv(1106, end_x + structure)),
            (told, content + structure), srv6_sid(1, "fcbb:bb00:1:f000::", 18), srv6_sid(1, "fcbb:bb00:1:f001::", 99),
            (srv6_sid(1, "fcbb:bb00:1:f002::", 0)[0], b""),
        ]  # fmt: skip
        ran, net, _ = self.read(answers(routes), *BLOCK)
        self.assertEqual(
            net["sid"],
            [
                {"node": "A", "prefix": "fcbb:bb00:1:e001::/64", "behaviour": "End.X", "csid": "next", "links": ["A-B"]},
                {"node": "B", "prefix": "fcbb:bb00:2::/48", "behaviour": "End", "csid": "next"},
                {"node": "B", "prefix": "fcbb:bb00:2:f000::/64", "behaviour": "End.DT6", "title": "B-DT6", "table": 0},
            ],
        )
        for said in (
            "SID fcbb:bb00:2:f000:: of B: its table isn't told, and 0 is taken",
            "SID fcbb:bb00:1:f000:: of A: its structure isn't told",
            "SID fcbb:bb00:1:f001:: of A: a description has no behaviour of code 99",
            "SID fcbb:bb00:1:f002:: of A: its behaviour isn't told",
        ):
            self.assertIn(said, ran.err)

    def test_a_shared_network_and_topologies(self):
        shared = [
            (nlri(2, descriptor(256, number) + descriptor(257, 1, 7)), tlv(1095, bytes([10 + number]))) for number in (1, 2, 3)
        ] + [(nlri(2, descriptor(256, 1, 7) + descriptor(257, number)), tlv(1095, b"\0")) for number in (1, 2, 3)]
        both = [(nlri(2, descriptor(256, 1) + descriptor(257, 2) + tlv(263, bytes([0, mt]))), tlv(1095, bytes([20 + mt]))) for mt in (0, 2)]
        routes = [node(number, "ABC"[number - 1], f"2001:db8::{number}") for number in (1, 2, 3)] + shared + both
        ran, net, plan = self.read(answers(routes))
        self.assertEqual(len(net["link"]), 7)
        self.assertIn({"name": "A-B", "metric": 22}, plan["link"])
        self.assertIn({"name": "B-C", "metric": 12}, plan["link"])
        self.assertIn("shared network 0000.0000.0001-07: taken for a link from each of its 3 nodes to each other", ran.err)

    def test_bytes(self):
        told, content = node(1, "A", "2001:db8::1")
        attribute = bytes([0x80, 29, len(content)]) + content
        self.assertEqual(told_by(told, [attribute]).name, "A")
        self.assertIsInstance(told_by(told, [b"\x40\1\1\0"]), NodeTold)
        self.assertEqual(str(told_by(*[prefix(1, "2001:db8:8000::/33")[0]], []).prefix), "2001:db8:8000::/33")
        self.assertIsInstance(told_by(prefix(1, "::/0")[0], []), PrefixTold)
        self.assertIsNone(told_by(nlri(3, descriptor(256, 1)), []))
        for bad in (b"", told[:-1], told + b"\0", nlri(1, b""), nlri(1, tlv(256, tlv(515, b"12345"))), nlri(2, descriptor(256, 1))):
            with self.assertRaises(ValueError):
                told_by(bad, [])

    def test_bad_input(self):
        self.helps("from-bgp-ls")
        for given, status in (
            ("", 1), ("{", 1), ("[" * 5000, 1), ("1", 1), ("{}", 1), ('{"NLRI { NODE }": [{"nlri": null}]}', 1),
            ('{"destination": {"paths": [{"nlriBinary": "!"}]}}', 1), ('{"destination": {"paths": [{"nlriBinary": "AAAA"}]}}', 1),
        ):  # fmt: skip
            self.named_answer(run_here("from-bgp-ls", given=given.encode()), [status])
        self.named_answer(run_here("from-bgp-ls", self.folder), [5])
        self.named_answer(run_here("from-bgp-ls", KEPT, "--block", "fcbb::/17"), [2])
        self.named_answer(run_here("from-bgp-ls", KEPT, "--plan", self.folder), [5])
        self.named_answer(run_here("from-bgp-ls", KEPT, "--ask", "x"), [2])
        good = KEPT.read_bytes()
        for place in range(0, len(good), 211):
            ran = run_here("from-bgp-ls", given=good[:place] + b"B" + good[place + 1 :])
            self.assertNotIn("Traceback", ran.err)
            self.assertIn(ran.status, (0, 1))


@needs_gobgp
@needs_grpc
class Asked(ToolCase):
    """The table of a GoBGP that has it from another one."""

    def test_a_real_table(self):
        one, daemon = pair(self.folder, "ls")
        self.addCleanup(one.stop)
        self.addCleanup(daemon.stop)
        requests = [base64.b64encode(request(route)).decode() for route in table()]
        add = (
            "import base64, grpc, json, sys\n"
            "call = grpc.insecure_channel(sys.argv[1]).unary_unary('/apipb.GobgpApi/AddPath')\n"
            "for one in json.load(sys.stdin): call(base64.b64decode(one), timeout=20)"
        )
        subprocess.run([PYTHON, "-c", add, one.place], input=json.dumps(requests), text=True, check=True, timeout=60)
        until(lambda: daemon.command("-j", "global", "rib", "-a", "ls").count('"nlri"') == len(requests), "the neighbour lacks routes")
        kept = self.folder / "kept.json"
        asked = [PYTHON, str(HELPERS / "from-bgp-ls"), "--ask", daemon.place, "--keep", str(kept), *BLOCK]
        done = subprocess.run(asked, capture_output=True, text=True, timeout=60)
        self.assertEqual(done.returncode, 0, done.stderr)
        self.assertEqual(done.stdout, run_here("from-bgp-ls", KEPT, *BLOCK).out)
        self.assertEqual(json.loads(kept.read_text()), json.loads(KEPT.read_text()))


if __name__ == "__main__":
    unittest.main()
