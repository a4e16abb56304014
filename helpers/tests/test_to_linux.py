"""to-linux: the commands, by kernel; a namespace that takes them and gives them back; bad input."""

import os
import subprocess
import tomllib
import unittest
from pathlib import Path

from srv6tools.description import network_of, read_network
from srv6tools.files import parse_toml
from srv6tools.linux import Kernel, kernel_of
from srv6tools.linux_lab import in_namespace, missing_for_a_lab, until_taken
from srv6tools.to_linux import script_for
from support import EXAMPLES, HELPERS, ToolCase, bad_tomls, run_here, run_tool

BEHAVIOURS, CSIDS = EXAMPLES / "behaviours.toml", EXAMPLES / "csids.toml"
LINUX_NODE = HELPERS.parent / "bench" / "linux-differences.toml"
MISSING = missing_for_a_lab()
if not MISSING and "SRV6_TEST_LINUX" not in os.environ:
    MISSING = "the variable SRV6_TEST_LINUX"
needs_namespace = unittest.skipIf(MISSING, MISSING or "")
LONG = "a-link-with-a-long-name"
# Names that `ip` takes for words, equal next hops, tables 0 and 65535, CSIDs of 32 bits.
ODD_NODE = f"""
node = [{{ name = "A", address = "2001:db8::1" }}]
link = [{{ name = "{LONG}", from = "A" }}, {{ name = "b", from = "A" }}]
block = [{{ prefix = "fcbb:bb00::/48", kind = "next", csid = 32 }}]
route = [
    {{ node = "A", prefix = "::/0", via = ["b"] }},
    {{ node = "A", prefix = "0.0.0.0/0", via = ["b"] }},
    {{ node = "A", prefix = "192.0.2.0/24", via = ["b", "{LONG}"] }},
    {{ node = "A", table = 65535, prefix = "fc00:0:2::/48", via = ["b", "{LONG}"] }},
    {{ node = "A", prefix = "2001:db8::1/128", via = ["b"] }},
]
[[sid]]
node = "A"
prefix = "fcbb:bb00:0:1:2::/80"
behaviour = "End"
csid = "next"
flavours = ["psp"]
[[sid]]
node = "A"
prefix = "fcbb:bb00:0:1:3::/80"
behaviour = "End.X"
csid = "next"
links = ["b"]
[[sid]]
node = "A"
prefix = "fc00:0:9::/48"
behaviour = "End.DT6"
table = 65535
[[sid]]
node = "A"
prefix = "fc00:0:8::/48"
behaviour = "End.T"
table = 0
"""


class ToLinux(ToolCase):
    def test_commands(self):
        ran = run_here("to-linux", "--kernel", "6.18", BEHAVIOURS, "N")
        self.assertEqual(ran.status, 0)
        lines = ran.out.splitlines()
        for line in (
            "ip -6 address add 2001:db8::1/128 dev lo nodad",
            "ip -6 route add fc00:0:ff::/48 table 10 via fdff:ffff:ffff:ffff::2 dev west onlink",
            "ip -4 route add 192.0.2.0/24 via inet6 fdff:ffff:ffff:ffff::1 dev east onlink",
            "ip -6 route add fc00:0:2::/48 encap seg6local action End flavors psp dev east",
            "ip -6 route add fc00:0:5::/48 encap seg6local action End.X nh6 fdff:ffff:ffff:ffff::2"
            " dev east",
            "ip -6 route add fc00:0:8::/48 encap seg6local action End.DX4 nh4 169.254.0.2 dev east",
            "ip -6 route add fc00:0:b::/48 encap seg6local action End.DT46 vrftable 20 dev east",
            "ip -6 route add fcbb:bb00:c::/48 encap seg6local action End flavors next-csid lblen 32"
            " nflen 16 dev east",
            "ip -6 route add fc00:0:c::/48 encap seg6local action End.B6.Encaps srh segs"
            " fc00:0:ff:1::,fc00:0:ff:2:: dev east",
        ):
            self.assertIn(line, lines)

    def test_a_table_of_a_vrf_ends_there(self):
        lines = run_here("to-linux", "--kernel", "6.18", BEHAVIOURS, "N").out.splitlines()
        for family in ("-6", "-4"):
            self.assertIn(f"ip {family} route add unreachable default table 20 metric 4278198272", lines)
            self.assertNotIn(f"ip {family} route add unreachable default table 10 metric 4278198272", lines)

    def test_errors_without_a_limit_of_their_rate(self):
        lines = run_here("to-linux", "--kernel", "6.18", BEHAVIOURS, "N").out.splitlines()
        for line in (
            "sysctl -qw net.ipv6.icmp.ratelimit=0",
            "sysctl -qw net.ipv6.icmp.ratemask=",
            "sysctl -qw net.ipv4.icmp_msgs_per_sec=10000000 2>/dev/null || true",
            "sysctl -qw net.ipv4.icmp_msgs_burst=10000000 2>/dev/null || true",
        ):
            self.assertIn(line, lines)

    def test_an_mtu(self):
        text = (HELPERS / "tests" / "data" / "every.toml").read_text()
        lines = script_for(network_of(parse_toml(text, "net"), "net"), "N", Kernel(6, 18)).lines
        self.assertEqual([line for line in lines if " mtu " in line], ["ip link set dev narrow mtu 1300"])

    def test_what_linux_cant(self):
        said = run_here("to-linux", "--kernel", "6.18", BEHAVIOURS, "N").err
        for text in (
            "SID fc00:0:3::/48 (End USP): Linux has no USP",
            "SID fc00:0:4::/48 (End USD): Linux has no USD",
            "SID 2001:db8:b:d::/64 (End REPLACE-CSID): Linux runs no REPLACE-CSID",
            "(End.B6.Encaps.Red policy detour): Linux has no such behaviour",
            "upper layers 17: Linux takes no upper layer at a SID",
            "hop limit 64, traffic class 0 and flow label 0 of policy detour",
        ):
            self.assertIn(text, said)

    def test_by_kernel(self):
        net = read_network(LINUX_NODE)
        late, early = (script_for(net, "N", Kernel(6, minor)) for minor in (18, 1))
        self.assertFalse([line for line in late.cannot if line.startswith("SID")])
        self.assertTrue(late.cannot[-1].startswith("PSP of SID fcbb:bb00:e::/48: beside NEXT-CSID"))
        self.assertEqual(
            [line.rpartition(": ")[2] for line in early.cannot if line.startswith("SID")],
            ["Linux 6.1 has no PSP at End", "Linux 6.1 runs no NEXT-CSID at End.X",
             "Linux 6.1 has no PSP at End"],
        )  # fmt: skip
        middle = [line for line in script_for(net, "N", Kernel(6, 12)).cannot if line.startswith("SID")]
        self.assertEqual(middle, ["SID fcbb:bb00:d::/48 (End.X NEXT-CSID over west): Linux 6.1 runs no NEXT-CSID at End.X"])
        self.assertEqual(kernel_of("6.18.44-fc"), Kernel(6, 18))

    def test_more_of_what_linux_cant(self):
        text = """
        node = [{ name = "A", address = "2001:db8::1" }, { name = "B", address = "2001:db8::2" }]
        link = [{ name = "a-link-with-a-long-name", from = "A" }, { name = "b", from = "A" }]
        route = [
            { node = "A", table = 254, prefix = "::/0", via = ["b"] },
            { node = "A", prefix = "fc00:0:1::/48", via = ["b"] },
            { node = "A", prefix = "fc00:0:2::/48", via = ["b", "a-link-with-a-long-name"] },
        ]
        sid = [
            { node = "A", prefix = "fc00:0:1::/48", behaviour = "End" },
            { node = "A", prefix = "fc00:0:3::/48", behaviour = "End.X",
              links = ["b", "a-link-with-a-long-name"] },
            { node = "A", prefix = "2001:db8::1/128", behaviour = "End" },
            { node = "A", prefix = "fc00:0:4::/48", behaviour = "End.DT4", table = 0 },
            { node = "A", prefix = "fc00:0:5::/48", behaviour = "End.T", table = 255 },
            { node = "B", prefix = "fc00:0:6::/48", behaviour = "End" },
        ]
        """
        net = network_of(parse_toml(text, "net"), "net")
        script = script_for(net, "A", Kernel(6, 18), namespace="a b")
        self.assertEqual(len(script.cannot), 6)
        lines = "\n".join(script.lines)
        self.assertIn("ip -n 'a b' link set dev link1 up", lines)
        self.assertIn("nexthop via fdff:ffff:ffff:ffff::2 dev b onlink nexthop via", lines)
        script = script_for(net, "B", Kernel(6, 18))
        self.assertIn("the node has no link", script.cannot[0])

    @needs_namespace
    def test_linux_takes_it_and_gives_it_back(self):
        for path, node in ((LINUX_NODE, "N"), (self.file("odd.toml", ODD_NODE), "A")):
            with self.subTest(node):
                self.goes_round(path, node)

    def goes_round(self, path: Path, node: str) -> None:
        """A node as a namespace, and what `ip` says of that as a node again."""
        script = run_here("to-linux", "--tun", "--kernel", "6.18", path, node).out
        script += until_taken(read_network(path).nodes[node].address) + "\n"
        script += "ip -6 -j route show table all > six; ip -4 -j route show table all > four\n"
        words = in_namespace(["sh", "-e", "-c", script])
        done = subprocess.run(words, capture_output=True, cwd=self.folder, text=True)
        self.assertEqual((done.returncode, done.stderr), (0, ""))
        files = ["--ipv4", self.folder / "four", self.folder / "six"]
        ran = run_here("from-linux", "--node", node, "--link", f"link1={LONG}", *files)
        self.assertEqual(ran.status, 0)
        back, net = network_of(tomllib.loads(ran.out), "back"), read_network(path)
        self.assertEqual(back.nodes, net.nodes)
        self.assertEqual(set(back.routes), set(net.routes))
        self.assertEqual(set(back.links), set(net.links))
        self.assertEqual(
            {sid.prefix: sid.what.replace("policy1", "detour") for sid in back.sids},
            {sid.prefix: sid.what for sid in net.sids},
        )
        self.assertEqual(back.blocks, net.blocks)

    def test_bad_input(self):
        self.helps("to-linux")
        for name, content in bad_tomls():
            with self.subTest(name):
                ran = run_here("to-linux", self.file("bad.toml", content), "A")
                self.named_answer(ran, [1])
        ran = run_here("to-linux", BEHAVIOURS, "M")
        self.named_answer(ran, [1])
        self.assertIn("there are N", ran.err)
        for version in ("5.10", "six", "", "6", "6.1" + "9" * 5000):
            self.named_answer(run_here("to-linux", BEHAVIOURS, "N", "--kernel", version), [2])
        self.named_answer(run_tool("to-linux", self.folder / "absent", "N"), [5])
        self.survives_closed_pipe("to-linux", CSIDS, "N0")


if __name__ == "__main__":
    unittest.main()
