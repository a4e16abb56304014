"""all-paths: every walk over all choices."""

import collections
import ipaddress
import json
import random
import shutil
import subprocess
import unittest
import unittest.mock

from srv6tools import walks
from srv6tools.captures import frames_of, head_of, raw_capture, sent_in
from srv6tools.description import read_network
from srv6tools.intent import read_intent
from srv6tools.packet_parts import ip4, ip6
from srv6tools.program import Answer, run_program
from support import EXAMPLES, ToolCase, bad_captures, bad_tomls, needs_program, needs_tool
from support import run_here

M1, M2, POLICY, INTENT = (
    EXAMPLES / f"{name}.toml" for name in ("m1", "m2", "policy", "intent")
)
TO = "2001:db8:9::1"


def packet(hop_limit: int = 64) -> bytes:
    """A packet of a header alone."""
    addresses = ipaddress.IPv6Address("2001:db8::1").packed + ipaddress.IPv6Address(TO).packed
    return bytes([0x60, 0, 0, 0, 0, 0, 59, hop_limit]) + addresses


def row_of_pairs(count: int) -> str:
    """A description of nodes in a row, two links between each, and a link out of the last."""
    text = "".join(
        f'[[node]]\nname = "n{i}"\naddress = "2001:db8::{i + 1:x}"\n' for i in range(count)
    )
    for i in range(count - 1):
        for side in "ab":
            text += f'[[link]]\nname = "{side}{i}"\nfrom = "n{i}"\nto = "n{i + 1}"\n'
        text += f'[[route]]\nnode = "n{i}"\nprefix = "::/0"\nvia = ["a{i}", "b{i}"]\n'
    last = count - 1
    text += f'[[link]]\nname = "out"\nfrom = "n{last}"\n'
    return text + f'[[route]]\nnode = "n{last}"\nprefix = "::/0"\nvia = ["out"]\n'


class Stub:
    """Stands in for `srv6 trace`, `show` and `walk` where packets are only routed by `::/0`."""

    def __init__(self, path):
        self.net, self.runs = read_network(path), 0
        self.walked: list[int] = []  # the choices under which `walk` was asked for
        self.routes = {route.node: route.via for route in self.net.routes}

    def run(self, words, given=b"") -> Answer:
        if words[0] == "compile":
            return Answer(0, b"srv6 certificate 1\nnone\nend\n", "")
        frames = [given] if given[:1] == b"\x60" else []
        if not frames:
            frames = [one.content for one in frames_of(given, head_of(given, "in"), "in")]
        if words[0] == "show":
            lines = [self.shown(*one) for one in enumerate(frames, 1)]
            return Answer(0, "".join(lines).encode(), "")
        self.runs += 1
        if words[0] == "walk":
            self.walked.append(int(words[3]))
            return self.sent(frames, int(words[3]))
        _, _, node, choice = words
        lines = ["srv6 trace 1"]
        for number, content in enumerate(frames, 1):
            lines += self.walk(number, node, content, int(choice))
        return Answer(0, "\n".join([*lines, "end", ""]).encode(), "")

    def sent(self, frames, choice: int) -> Answer:
        """What `walk` writes: the first packet is sent from n0 on, the others are dropped there."""
        numbers = {link.name: link.number for link in self.net.links.values()}
        sends = [line.split(" ") for line in self.walk(1, "n0", frames[0], choice)][1:]
        written = [(1, numbers[link], bytes.fromhex(digits)) for _, link, digits in sends]
        dropped = (f"packet {n}: dropped InnerHop at n0\n" for n in range(2, len(frames) + 1))
        return Answer(0, b"".join(raw_capture(written)), "".join(dropped) + "packet 1: left out\n")

    def shown(self, number: int, content: bytes) -> str:
        source, to = (ipaddress.IPv6Address(content[at : at + 16]) for at in (8, 24))
        ends = f"src {source} dst {to}"
        head = f"ip6 class 0 flow 0 payload 0 next 59 hop {content[7]} {ends}"
        return f"packet {number}\n{head}\nupper 59 at 40 bytes 0\n"

    def walk(self, number: int, node: str | None, content: bytes, choice: int):
        yield f"packet {number} 6 {node} {content.hex()}"
        while node:
            if content[7] < 2:
                yield "drop HopLimit -"
                return
            content = content[:7] + bytes([content[7] - 1]) + content[8:]
            via = self.routes[node]
            link = self.net.links[via[choice % len(via)]]
            yield f"send {link.name} {content.hex()}"
            node = link.end


class AllPaths(ToolCase):
    def stubbed(self, count: int, *words: str, given: bytes = packet()):
        path = self.file("net.toml", row_of_pairs(count))
        stub = Stub(path)
        with unittest.mock.patch.object(walks, "run_program", stub.run):
            ran = run_here("all-paths", path, *words, given=given)
        self.assertEqual(ran.err, "")
        return ran, stub

    def test_tree(self):
        ran, _ = self.stubbed(3, "n0")
        self.assertEqual(
            ran.out.splitlines(),
            [
                f"packet 1 arrives at n0, to {TO}, hop limit 64: 4 walks",
                "  n0",
                f"  |- a0 to {TO}, hop limit 63",
                "  |  n1 (#1)",
                f"  |  |- a1 to {TO}, hop limit 62",
                f"  |  |  n2 (#2) over out to {TO}, hop limit 61: left out",
                f"  |  `- b1 to {TO}, hop limit 62",
                "  |     n2 as at #2",
                f"  `- b0 to {TO}, hop limit 63",
                "     n1 as at #1",
            ],
        )

    def test_intent(self):
        head = INTENT.read_text().replace('"A"', '"n0"')
        intent = self.file("intent.toml", head)
        given = b"".join(raw_capture([(0, 0, packet()), (0, 0, packet(1))]))
        ran, stub = self.stubbed(2, str(intent), given=given)
        self.assertEqual(stub.walked, [0, 1])
        self.assertEqual(
            ran.out.splitlines(),
            [
                "packet 1 enters at the headend n0: 2 walks",
                "  n0",
                f"  |- a0 to {TO}, hop limit 63",
                f"  |  n1 (#1) over out to {TO}, hop limit 62: left out",
                f"  `- b0 to {TO}, hop limit 63",
                "     n1 as at #1",
                "",
                "packet 2 enters at the headend n0: 1 walk",
                "  n0: dropped InnerHop",
            ],
        )

    def test_each_visit_is_asked_for_once(self):
        ran, stub = self.stubbed(30, "n0")
        self.assertIn(f"{2**29} walks", ran.out)
        self.assertLessEqual(stub.runs, 32)

    def test_table(self):
        ran, _ = self.stubbed(3, "n0", "--table", "--most", "3")
        rows = [line.split() for line in ran.out.splitlines()]
        self.assertEqual(rows[0][:3], ["packet", "walk", "node"])
        self.assertEqual(rows[1], ["1", "1", "n0", "a0", TO, "63"])
        self.assertEqual(rows[-1], ["1", "3", "n2", "out", TO, "61", "left", "out"])
        self.assertEqual({row[1] for row in rows[1:]}, {"1", "2", "3"})

    def test_json(self):
        ran, _ = self.stubbed(2, "n0", "--json")
        (found,) = json.loads(ran.out)["packets"]
        self.assertEqual((found["number"], found["walks"]), (1, 2))
        first, second = found["visits"]
        self.assertEqual([hop["link"] for hop in first["hops"]], ["a0", "b0"])
        self.assertEqual([hop["next"] for hop in first["hops"]], [1, 1])
        self.assertEqual(second["hops"][0]["end"], "left out")
        self.assertEqual(second["hop_limit"], 63)

    def test_dot_has_only_what_is_crossed(self):
        ran, _ = self.stubbed(3, "n1", "--dot")
        self.assertNotIn('"n0"', ran.out)
        self.assertIn('"n1" -> "n2" [label="packet 1: b1"', ran.out)

    def test_each_node_where_none_is_named(self):
        ran, _ = self.stubbed(3)
        self.assertEqual(ran.out.count("arrives at"), 3)

    def test_drops(self):
        ran, _ = self.stubbed(2, "n0", given=packet(1))
        self.assertIn("n0: dropped HopLimit", ran.out)

    def test_common(self):
        self.helps("all-paths")
        fake = self.fake_program("refused 11 BadMagic\n", status=1)
        ran = run_here("all-paths", M1, "B", SRV6=fake)
        self.named_answer(ran, [1])
        self.assertIn("BadMagic", ran.err)
        ran = run_here("all-paths", M1, "b", SRV6=fake)
        self.assertIn("the nodes are A, B, C, D", ran.err)
        for name, content in bad_tomls():
            with self.subTest(name):
                bad = self.file("bad", content)
                self.named_answer(run_here("all-paths", bad, "B", SRV6=fake))
                self.named_answer(run_here("all-paths", M1, bad, SRV6=fake))

    @needs_program
    def test_with_the_program(self):
        to_d, inner = ((EXAMPLES / name).read_bytes() for name in ("to-d.bin", "inner.pcap"))
        out = run_here("all-paths", M1, "B", given=to_d).out
        self.assertIn("2 walks", out)
        self.assertIn("over cd to fcbb:bb00:4::, hop limit 62, Segments Left 1", out)
        self.assertIn("D executes fcbb:bb00:4::/48: dropped UpperLayer, with an ICMPv6 error", out)
        out = run_here("all-paths", M2, INTENT, given=inner).out
        self.assertIn("packet 1 enters at the headend A: 1 walk", out)
        self.assertIn("over ce to 2001:db8:2::1, hop limit 62: left ce", out)
        self.assertIn("packet 2 enters at the headend A: 1 walk\n  A: dropped InnerHop", out)
        self.survives_closed_pipe("all-paths", M1, "B", given=to_d)

    @needs_program
    def test_each_node_by_its_own_entries(self):
        """What is asked of a large network node by node is what the whole of it says."""
        domain = EXAMPLES / "domain"
        for net, start, capture in (
            (domain / "net.toml", "pe1", domain / "anycast.pcap"),
            (domain / "net.toml", "br1", domain / "arriving.pcap"),
            (domain / "net.toml", domain / "by-firewall.toml", domain / "customers.pcap"),
            (EXAMPLES / "csids.toml", "N0", EXAMPLES / "csids.pcap"),
            (EXAMPLES / "behaviours.toml", "N", EXAMPLES / "behaviours.pcap"),
            (POLICY, INTENT, EXAMPLES / "inner.pcap"),
        ):
            with self.subTest(net=net.name, start=str(start)):
                words = ["all-paths", net, start, "--json"]
                whole = run_here(*words, given=capture.read_bytes())
                with unittest.mock.patch.object(walks, "MOST_ENTRIES", 0):
                    own = run_here(*words, given=capture.read_bytes())
                self.assertEqual((own.status, own.err), (0, ""))
                self.assertEqual(own.out, whole.out)

    @needs_program
    def test_policies_with_the_program(self):
        inner = (EXAMPLES / "decap.bin").read_bytes()[40:]
        out = run_here("all-paths", POLICY, INTENT, given=inner).out
        two = "B executes fcbb:bb00:2::/48, fcbb:bb00:b001::/48 over bc1 to 2001:db8:c::1"
        self.assertIn(f"{two}, hop limit 64", out)
        self.assertIn("C executes 2001:db8:c::1/128 over cd to fcbb:bb00:4:f001::", out)
        # At the headend the header executes a SID too, before it is sent.
        segments = '["2001:db8:c::1"]'
        text = POLICY.read_text().replace(segments, '["fcbb:bb00:2::", "2001:db8:c::1"]')
        at_b = INTENT.read_text().replace('"A"', '"B"').replace('[[step]]\nlinks = ["ab"]\n', "")
        net, intent = self.file("net.toml", text), self.file("intent.toml", at_b)
        out = run_here("all-paths", net, intent, given=inner).out
        self.assertIn("B executes fcbb:bb00:b001::/48, fcbb:bb00:2::/48 over bc1 to 2001", out)

    def walked(self, net, intent) -> set[tuple[str, ...]]:
        """The links of walks along a list, up to the hand-over, under many choices."""
        family, links = read_intent(intent).family, list(read_network(net).links)
        inner = ip6("2001:db8:2::1") if family == 6 else ip4("198.51.100.2")
        given, chance, found = b"".join(raw_capture([(0, 0, inner)])), random.Random(8), set()
        for _ in range(40):
            choices = ",".join(str(chance.randrange(6)) for _ in range(12))
            out = run_program(["walk", net, intent, choices], given).out
            sent = [one for one in sent_in(out, "walk") if one.link and len(one.content) > len(inner)]
            found.add(tuple(links[one.link - 1] for one in sent))
        return found

    @needs_program
    def test_count_is_of_the_walks_that_choices_give(self):
        text = (EXAMPLES / "compressed.toml").read_text()
        both = self.file("both.toml", INTENT.read_text().replace('["bc1"]', '["bc1", "bc2"]'))
        domain = EXAMPLES / "domain"
        ways = {}
        for net, intent in (
            (domain / "net.toml", domain / "by-firewall.toml"),
            (domain / "net.toml", domain / "green.toml"),
            (domain / "net.toml", domain / "blue.toml"),
            (M2, EXAMPLES / "by-way-of.toml"),
            (POLICY, INTENT),
            (self.file("compressed.toml", text), both),
        ):
            with self.subTest(net=net.name, intent=intent.name):
                walked = self.walked(net, intent)
                ran = run_here("all-paths", "--count", "--json", net, intent)
                (found,) = json.loads(ran.out)["intents"]
                self.assertEqual(found["walks"], len(walked))
                crossed = collections.Counter(link for way in walked for link in set(way))
                self.assertEqual({one["link"]: one["walks"] for one in found["links"]}, crossed)
                ways[intent.name] = found["walks"]
        self.assertEqual((ways["both.toml"], ways["by-firewall.toml"]), (2, 2))

    @needs_program
    def test_count_of_many_intents(self):
        domain = EXAMPLES / "domain"
        names = [domain / f"{name}.toml" for name in ("by-firewall", "no-list", "green")]
        ran = run_here("all-paths", "--count", domain / "net.toml", *names)
        self.named_answer(ran, [3])
        first, second, third = ran.out.splitlines()
        common = "pe1-p1, p3-fw1, fw1-p3, p3-p5, p5-pe3"
        self.assertEqual(first, f"walks 2 {names[0]}: 7 links, of which all walks cross 5: {common}")
        self.assertTrue(second.startswith(f"walks none {names[1]}: "))
        self.assertTrue(third.startswith(f"walks 1 {names[2]}: 6 links, of which all walks cross 6"))
        ran = run_here("all-paths", "--count", domain / "net.toml", names[0])
        said = f"walks 2\n7 links, of which all walks cross 5: {common}\n"
        self.assertEqual((ran.status, ran.out, ran.err), (0, said, ""))
        for words in ([], ["--dot", names[0]], ["--table", names[0]]):
            self.named_answer(run_here("all-paths", "--count", domain / "net.toml", *words), [2])
        self.named_answer(run_here("all-paths", domain / "net.toml", *names), [2])

    @needs_program
    def test_bad_captures(self):
        for name, content in bad_captures():
            with self.subTest(name):
                self.named_answer(run_here("all-paths", M1, "B", given=content), [1])

    @needs_tool("dot")
    def test_dot_reads_it(self):
        out = self.stubbed(3, "n0", "--dot")[0].raw
        subprocess.run([shutil.which("dot"), "-Tsvg"], input=out, check=True, capture_output=True)


if __name__ == "__main__":
    unittest.main()
