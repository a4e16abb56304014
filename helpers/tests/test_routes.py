"""routes: shortest ways by hand, what is kept and what is missing, and bad files."""

import runpy
import tomllib
import unittest
from ipaddress import IPv6Network
from pathlib import Path

from srv6tools.command import Fault
from srv6tools.description import MOST_MTU, Network, read_network
from srv6tools.paths import Topology
from srv6tools.routes import fill
from srv6tools.toml_writer import compact_text, list_text, quoted
from support import EXAMPLES, ToolCase, bad_tomls, needs_program, run_tool

DOMAIN = EXAMPLES / "domain"
# A square a, b, c, d with a diagonal from a to c: the two ways a-b-c and a-d-c are equally long.
SQUARE = """\
# The square.
[[node]]
name = "a"
address = "2001:db8::a"
[[node]]
name = "b"
address = "2001:db8::b"
[[node]]
name = "c"
address = "2001:db8::c"
[[node]]
name = "d"
address = "2001:db8::d"
[[sid]]
node = "c"
prefix = "fc00:0:c::/48"
behaviour = "End"
[[sid]]
node = "c"
prefix = "fc00:0:f::/48"
behaviour = "End.DT46"
table = 7
title = "vpn"
"""
CABLES = """\
[[cable]]
nodes = ["a", "b"]
[[cable]]
nodes = ["b", "c"]
[[cable]]
nodes = ["a", "d"]
[[cable]]
nodes = ["d", "c"]
[[cable]]
nodes = ["a", "c"]
metric = [21, 19]
links = ["ac", "ca"]
"""


class Routes(ToolCase):
    def filled(self, net: str, plan: str, compact: bool = False):
        """The text that comes, what is said of it, the network that it is, and its routes."""
        got = fill(self.file("net", net), self.file("plan", plan), compact)
        read = read_network(self.file("result", got.text))
        return got.text, "".join(f"{line}\n" for line in got.lines), read, routes_of(read)

    def test_equal_next_hops(self):
        text, said, net, routes = self.filled(SQUARE, CABLES)
        self.assertEqual(
            routes,
            {
                ("a", 0, "fc00:0:c::/48"): ("a-b", "a-d"),
                ("b", 0, "fc00:0:c::/48"): ("b-c",),
                ("d", 0, "fc00:0:c::/48"): ("d-c",),
            },
        )
        self.assertTrue(text.startswith(SQUARE.rstrip("\n")))
        self.assertEqual(len(net.links), 10)
        self.assertEqual((net.links["ca"].start, net.links["ca"].end), ("c", "a"))
        self.assertIn("10 links added", said)
        self.assertIn("sid 2 at c", said)
        self.assertIn("that table has no IPv4 route", said)

    def test_metrics_of_each_way(self):
        plan = 'metric = 20\n' + CABLES + '[[locator]]\nprefix = "fc00:a::/32"\nnodes = ["a"]\n'
        _, _, _, routes = self.filled(SQUARE, plan)
        self.assertEqual(routes["a", 0, "fc00:0:c::/48"], ("ac",))
        self.assertEqual(routes["c", 0, "fc00:a::/32"], ("ca",))
        _, _, _, routes = self.filled(SQUARE, plan + '[[link]]\nname = "ac"\nmetric = 40\n')
        self.assertEqual(routes["a", 0, "fc00:0:c::/48"], ("a-b", "a-d", "ac"))

    def test_anycast_and_sites(self):
        sites = """
        [[locator]]
        prefix = "2001:db8:f::/48"
        nodes = ["b", "d"]
        [[site]]
        node = "c"
        link = "out1"
        table = 7
        prefixes = ["::/0", "10.0.0.0/8"]
        [[site]]
        node = "c"
        link = "out2"
        table = 7
        prefixes = ["::/0"]
        [[site]]
        node = "b"
        link = "up"
        prefixes = ["192.0.2.0/24"]
        """
        text, said, net, routes = self.filled(SQUARE, CABLES + sites)
        self.assertEqual(routes["a", 0, "2001:db8:f::/48"], ("a-b", "a-d"))
        self.assertEqual(routes["c", 0, "2001:db8:f::/48"], ("c-b", "c-d"))
        self.assertNotIn(("b", 0, "2001:db8:f::/48"), routes)
        self.assertEqual(routes["c", 7, "::/0"], ("out1", "out2"))
        self.assertEqual(routes["c", 7, "10.0.0.0/8"], ("out1",))
        self.assertNotIn(("a", 7, "::/0"), routes)
        self.assertEqual(routes["b", 0, "192.0.2.0/24"], ("up",))
        self.assertEqual(routes["d", 0, "192.0.2.0/24"], ("d-a", "d-c"))
        self.assertIsNone(net.links["up"].end)
        self.assertNotIn("that table has no", said)

    def test_kept(self):
        more = '[[link]]\nname = "a-b"\nfrom = "a"\nto = "b"\n'
        more += '[[route]]\nnode = "a"\nprefix = "fc00:0:c::/48"\nvia = ["a-b"]\n'
        text, said, net, routes = self.filled(SQUARE + more, CABLES)
        self.assertEqual(routes["a", 0, "fc00:0:c::/48"], ("a-b",))
        self.assertEqual(next(iter(net.links)), "a-b")
        self.assertIn("9 links added, 10 in all", said)
        self.assertIn("1 kept that were there", said)
        self.assertEqual(fill(self.folder / "result", self.folder / "plan").text, text)

    def test_no_way(self):
        plan = CABLES.replace('[[cable]]\nnodes = ["d", "c"]\n', "")
        _, said, _, routes = self.filled(SQUARE.replace('"fc00:0:c::/48"', '"fc00:0:e::/48"'), plan)
        self.assertEqual(routes["d", 0, "fc00:0:e::/48"], ("d-a",))
        net = SQUARE + '[[node]]\nname = "e"\naddress = "2001:db8::e"\n'
        _, said, _, routes = self.filled(net, CABLES)
        self.assertIn("no way to fc00:0:c::/48 from e\n", said)
        self.assertEqual(len(routes), 3)

    def test_nested_is_told(self):
        locator = '[[locator]]\nprefix = "fc00:0:c:1::/64"\nnodes = ["c"]\n'
        _, said, _, _ = self.filled(SQUARE, CABLES + locator)
        self.assertIn("fc00:0:c:1::/64 lies inside sid 1, fc00:0:c::/48: Nested", said)

    def test_nested_end_sids_are_no_locators(self):
        inner = '[[sid]]\nnode = "c"\nprefix = "fc00:0:c:1::/64"\nbehaviour = "End"\n'
        _, _, _, routes = self.filled(SQUARE + inner, CABLES)
        self.assertEqual({prefix for _, _, prefix in routes}, {"fc00:0:c::/48"})
        elsewhere = inner.replace('"c"', '"d"')
        _, _, _, routes = self.filled(SQUARE + elsewhere, CABLES)
        self.assertIn("fc00:0:c:1::/64", {prefix for _, _, prefix in routes})

    def test_a_locator_holds_its_end_sids(self):
        locator = '[[locator]]\nprefix = "fc00::/32"\nnodes = ["c"]\n'
        _, _, _, routes = self.filled(SQUARE, CABLES + locator)
        self.assertEqual({prefix for _, _, prefix in routes}, {"fc00::/32"})

    def test_roots(self):
        _, _, _, routes = self.filled(SQUARE, "ends = false\naddresses = true\n" + CABLES)
        self.assertEqual(len(routes), 12)
        self.assertEqual(routes["b", 0, "2001:db8::d/128"], ("b-a", "b-c"))

    def test_a_second_plan_over_the_result(self):
        text, _, _, first = self.filled(SQUARE, CABLES)
        plan = 'ends = false\n[[link]]\nname = "a-b"\nmetric = 99\n'
        plan += '[[locator]]\nprefix = "fc01:0:c::/48"\nnodes = ["c"]\n'
        _, _, net, both = self.filled(text, plan)
        self.assertEqual(len(net.links), 10)
        self.assertEqual({key: both[key] for key in first}, first)
        self.assertEqual(both["a", 0, "fc01:0:c::/48"], ("ac",))
        self.assertEqual(len(both), len(first) + 3)

    def test_more_than_64_equal_links(self):
        plan = "".join('[[cable]]\nnodes = ["a", "c"]\n' for _ in range(70))
        _, said, _, routes = self.filled(SQUARE, plan)
        self.assertEqual(len(routes["a", 0, "fc00:0:c::/48"]), 64)
        self.assertIn("a: more than 64 equal links to fc00:0:c::/48", said)
        self.assertIn("no way to fc00:0:c::/48 from b, d", said)

    def test_ways_of_writing(self):
        plain, _, _, routes = self.filled(SQUARE, CABLES)
        few, _, _, same = self.filled(SQUARE, CABLES, compact=True)
        self.assertEqual(routes, same)
        self.assertLess(len(few), len(plain))
        lists = 'node = [{ name = "a", address = "::1" }, { name = "b", address = "::2" }]\n'
        text, said, _, _ = self.filled(lists, 'ends = true\ncable = [{ nodes = ["a", "b"] }]\n')
        self.assertIn('\nlink = [\n    { name = "a-b", from = "a", to = "b" },\n', text)
        mixed = lists + 'link = [{ name = "x", from = "a", to = "b" }]\n'
        _, _, net, _ = self.filled(mixed, 'cable = [{ nodes = ["a", "b"] }]\n')
        self.assertEqual(list(net.links), ["x", "a-b", "b-a"])

    def test_byte_order_mark(self):
        path = self.file("net", b"\xef\xbb\xbf" + SQUARE.encode())
        plan = self.file("plan", b"\xef\xbb\xbf" + CABLES.encode())
        self.assertEqual(fill(path, plan).text, fill(self.file("net", SQUARE), plan).text)

    def test_texts_are_quoted(self):
        tree = {"node": [{"name": 'a"\\\n\x7f', "allow": [6, 17]}]}
        self.assertEqual(tomllib.loads(compact_text(tree)), tree)
        self.assertEqual(tomllib.loads(list_text("node", tree["node"])), tree)
        self.assertEqual(quoted("é"), '"é"')

    def test_mtus(self):
        """A cable's MTU is that of both its links, or of each way; the plan's that of all others."""
        own = CABLES.replace('nodes = ["a", "b"]', 'nodes = ["a", "b"]\nmtu = 1500')
        own = own.replace("metric = [21, 19]", "metric = [21, 19]\nmtu = [1400, 9000]")
        site = '[[site]]\nnode = "c"\nlink = "up"\nprefixes = ["::/0"]\n'
        _, _, net, _ = self.filled(SQUARE, own + site)
        mtus = {name: link.mtu for name, link in net.links.items() if link.mtu != MOST_MTU}
        self.assertEqual(mtus, {"a-b": 1500, "b-a": 1500, "ac": 1400, "ca": 9000})
        text, _, net, _ = self.filled(SQUARE, "mtu = 1280\n" + own + site)
        self.assertEqual((net.links["b-c"].mtu, net.links["d-a"].mtu), (1280, 1280))
        self.assertEqual((net.links["a-b"].mtu, net.links["ca"].mtu), (1500, 9000))
        self.assertEqual(net.links["up"].mtu, MOST_MTU)
        self.assertIn('name = "ac"\nfrom = "a"\nto = "c"\nmtu = 1400\n', text)
        self.assertIn('{name="ac",from="a",to="c",mtu=1400}', self.filled(SQUARE, own, True)[0])

    def test_mtus_of_links_that_are_there(self):
        there = '[[link]]\nname = "ac"\nfrom = "a"\nto = "c"\nmtu = 2000\n'
        plan = "mtu = 1300\n" + CABLES.replace("metric = [21, 19]", "mtu = 1400")
        _, said, net, _ = self.filled(SQUARE + there, plan)
        self.assertEqual((net.links["ac"].mtu, net.links["ca"].mtu), (2000, 1400))
        self.assertIn("link ac is there, and keeps its mtu 2000; the plan has 1400\n", said)
        self.assertEqual(said.count("keeps its mtu"), 1)

    def test_faults_name_the_line(self):
        """That of the key in the plan or the description, be it a table of lines or between braces."""
        net = self.file("net", SQUARE)
        lists = 'cable = [\n    { nodes = ["a", "b"] },\n    { nodes = ["a", "x"] },\n]\n'
        for text, line in (
            ("ends = true\nmetric = 0\n", "plan:2: the root: `metric` is 0"),
            ("# a comment\n\nmtus = 1\n", "plan:3: the root: no key is called 'mtus'"),
            ('[[cable]]\nnodes = ["a", "b"]\n\nmetric = 0\n', "plan:4: cable 1: `metric`"),
            ('[[cable]]\nnodes = ["a", "b"]\nmtu = 1279\n', "plan:3: cable 1: `mtu`"),
            ('[[cable]]\nlinks = ["a", "b"]\n', "plan:1: cable 1: no key `nodes`"),
            (lists, "plan:3: cable 2: no node is called 'x'"),
            ('[[link]]\nname = "x"\nmetric = 1\n', "plan:2: link 1: no link is called 'x'"),
            ('[[locator]]\nnodes = ["x"]\nprefix = "fc00::/32"\n', "plan:2: locator 1: no node"),
            ("site = 1\n", "plan:1: site: no array of tables"),
        ):
            with self.subTest(text=text):
                self.assertIn(line, self.refused(net, self.file("plan", text), statuses=(1,)))
        bad = self.file("net", SQUARE.replace('"End.DT46"', '"End.DT64"'))
        self.assertIn("net:21: sid 2: `behaviour`", self.refused(bad, self.file("plan", CABLES)))

    def refused(self, *files: Path, statuses: tuple[int, ...] = (1, 5)) -> str:
        """The line of the fault that files give."""
        with self.assertRaises(Fault) as caught:
            fill(*files)
        self.assertIn(caught.exception.status, statuses)
        return str(caught.exception)

    def test_bad_plans(self):
        net = self.file("net", SQUARE)
        for text, line in BAD_PLANS:
            with self.subTest(text=text):
                self.assertIn(line, self.refused(net, self.file("plan", text), statuses=(1,)))

    def test_bad_files(self):
        good_net, good_plan = self.file("good", SQUARE), self.file("plan", CABLES)
        no_plan = self.file("none", "")
        for name, content in bad_tomls():
            with self.subTest(name):
                bad = self.file("bad", content)
                self.assertIn("bad", self.refused(bad, no_plan))
                self.refused(bad, good_plan)
                self.assertIn("bad", self.refused(good_net, bad))
        self.refused(self.folder / "absent", good_plan, statuses=(5,))
        self.refused(good_net, self.folder, statuses=(5,))
        ran = run_tool("routes", good_net, self.file("bad", b"\xff"))
        self.named_answer(ran, [1])
        self.assertEqual((ran.out, len(ran.err.splitlines())), ("", 1))

    def test_as_a_command(self):
        self.helps("routes")
        self.survives_closed_pipe("routes", self.file("net", SQUARE), self.file("plan", CABLES))

    def test_domain(self):
        ran = run_tool("routes", DOMAIN / "base.toml", DOMAIN / "plan.toml")
        self.assertEqual(ran.status, 0, ran.err)
        self.assertEqual(ran.raw, (DOMAIN / "net.toml").read_bytes(), "make net.toml anew")

    @needs_program
    def test_the_program_judges(self):
        net = SQUARE + '[[sid]]\nnode = "a"\nprefix = "fc00:0:a::/48"\nbehaviour = "End.X"\n'
        ran = run_tool("routes", self.file("net", net), self.file("plan", CABLES))
        self.assertEqual((ran.status, ran.out), (1, ""))
        self.assertIn("refused 30 BadStructure sid 3", ran.err)
        ran = run_tool("routes", self.file("net", net), self.file("plan", CABLES), "--unjudged")
        self.assertEqual(ran.status, 0)


BAD_PLANS = [
    ('[[cable]]\nnodes = ["a"]\n', "cable 1: `nodes` is no list of two names that differ"),
    ('[[cable]]\nnodes = ["a", "a"]\n', "cable 1: `nodes`"),
    ('[[cable]]\nnodes = ["a", "x"]\n', "cable 1: no node is called 'x'"),
    ('[[cable]]\nnode = ["a", "b"]\n', "cable 1: no key is called 'node'"),
    ('[[cable]]\nnodes = ["a", "b"]\nmetric = 0\n', "cable 1: `metric`"),
    ('[[cable]]\nnodes = ["a", "b"]\nmetric = [1, 2, 3]\n', "cable 1: `metric`"),
    ('[[cable]]\nnodes = ["a", "b"]\nmetric = true\n', "cable 1: `metric`"),
    ('[[cable]]\nnodes = ["a", "b"]\nmtu = 1279\n', "cable 1: `mtu` is no number from 1280"),
    ('[[cable]]\nnodes = ["a", "b"]\nmtu = [1500]\n', "cable 1: `mtu`"),
    ('[[cable]]\nnodes = ["a", "b"]\nmtu = "1500"\n', "cable 1: `mtu`"),
    ('[[cable]]\nnodes = ["a", "b"]\nlinks = ["x"]\n', "cable 1: `links`"),
    ('[[cable]]\nnodes = ["a", "b"]\nlinks = ["x", "y"]\n[[cable]]\nnodes = ["a", "c"]\n'
     'links = ["x", "z"]\n', "cable 2: there is a link 'x' already"),
    ('[[link]]\nname = "x"\nmetric = 1\n', "link 1: no link is called 'x'"),
    ('[[link]]\nname = "x"\n', "link 1: no key `metric`"),
    ('[[locator]]\nprefix = "fc00::1/32"\nnodes = ["a"]\n', "locator 1: `prefix` is no prefix"),
    ('[[locator]]\nprefix = "fc00::/32"\nnodes = []\n', "locator 1: `nodes` is empty"),
    ('[[locator]]\nprefix = "fc00::/32"\nnodes = ["x"]\n', "locator 1: no node is called 'x'"),
    ('[[site]]\nnode = "x"\nlink = "l"\nprefixes = ["::/0"]\n', "site 1: no node is called 'x'"),
    ('[[site]]\nnode = "a"\nlink = "l"\nprefixes = []\n', "site 1: `prefixes` is empty"),
    ('[[site]]\nnode = "a"\nlink = "l"\nprefixes = ["::"]\n', "site 1: `prefixes` is no prefix"),
    ('[[site]]\nnode = "a"\nlink = "l"\ntable = 65536\nprefixes = ["::/0"]\n', "site 1: `table`"),
    ("metric = 0\n", "the root: `metric`"),
    ("mtu = 65576\n", "the root: `mtu` is 65576, and goes from 1280 to 65575"),
    ("ends = 1\n", "the root: `ends` is no true or false"),
    ("metrics = 1\n", "the root: no key is called 'metrics'"),
]  # fmt: skip


def routes_of(net: Network) -> dict[tuple[str, int, str], tuple[str, ...]]:
    """The routes of a network by node, table and prefix."""
    return {(route.node, route.table, str(route.prefix)): route.via for route in net.routes}


class Distances(unittest.TestCase):
    def test_of_the_domain(self):
        net = read_network(DOMAIN / "net.toml")
        topology = Topology(net, {"p3-p6": 30, "p6-p3": 40}, 10)
        far = topology.distances(["pe3"])
        self.assertEqual((far["pe1"], far["p3"], far["p6"], far["br2"]), (40, 20, 10, 20))
        self.assertEqual(topology.next_links(frozenset({"pe3"}))["p4"], ["p4-p6"])
        near = topology.next_links(frozenset({"fw1", "fw2"}))
        self.assertEqual((near["p3"], near["p4"]), (["p3-fw1"], ["p4-fw2"]))
        self.assertEqual(near["pe1"], ["pe1-p1", "pe1-p2"])
        self.assertIn(IPv6Network("fcbb:bb00:fa::/48"), {route.prefix for route in net.routes})


class MadeFiles(unittest.TestCase):
    def test_captures_of_the_domain(self):
        made = runpy.run_path(str(DOMAIN / "make"))
        for name, content in made["CAPTURES"].items():
            self.assertEqual((DOMAIN / name).read_bytes(), content, name)
