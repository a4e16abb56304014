"""conform: a device that is right, ten that are wrong, adapters, profiles, reports, and bad words."""

import json
import os
import resource
import shlex
import subprocess
import sys
import unittest
import xml.etree.ElementTree
from pathlib import Path

import wrong_device
from srv6tools.command import Fault
from srv6tools.linux_lab import missing_for_a_lab
from srv6tools.packet_parts import ip6
from srv6tools.profiles import SHIPPED, profile_of, read_profile
from srv6tools.program import find_program
from srv6tools.trace import trace_of
from support import EXAMPLES, HELPERS, Ran, ToolCase, needs_package, needs_program, run_here, run_tool

HERE = Path(__file__).resolve().parent
EVERY, BEHAVIOURS = HERE / "data" / "every.toml", EXAMPLES / "behaviours.toml"
LINUX_NODE = HELPERS.parent / "bench" / "linux-differences.toml"
MISSING = missing_for_a_lab()
if not MISSING and "SRV6_TEST_LINUX" not in os.environ:
    MISSING = "the variable SRV6_TEST_LINUX"
LARGEST = 200  # bytes of a packet that shows a fault
SECONDS = 10.0  # of the processor, so that other work on the machine doesn't count


def program(*words: object) -> str:
    """A command of the program."""
    return shlex.join([str(find_program()), *map(str, words)])


def processor() -> float:
    """The seconds of the processor of this process and of all that it has called."""
    used = [resource.getrusage(who) for who in (resource.RUSAGE_SELF, resource.RUSAGE_CHILDREN)]
    return sum(one.ru_utime + one.ru_stime for one in used)


def wrong(fault: str, net: Path = EVERY) -> str:
    """The adapter of a device with a fault."""
    return "pcap:" + shlex.join([sys.executable, str(HERE / "wrong_device.py"), fault, str(net), "N"])


@needs_program
class Devices(ToolCase):
    def report(self, *words: object) -> tuple[Ran, dict]:
        ran = run_here("conform", *words, "--json")
        self.assertIn(ran.status, (0, 1), ran.err)
        return ran, json.loads(ran.out)

    def test_the_program_itself(self):
        for net, node in ((EVERY, "N"), (BEHAVIOURS, "N"), (EXAMPLES / "csids.toml", "N2")):
            ran, told = self.report(net, node, "--dut", "trace:" + program("trace", net, node))
            self.assertEqual((ran.status, told["passed"], told["differences"]), (0, True, []))
            self.assertTrue(all(row["same"] == row["packets"] > 0 for row in told["met"]))

    def test_each_choice_of_equal_next_hops_is_right(self):
        for choice in "01":
            ran, told = self.report(EVERY, "N", "--dut", "pcap:" + program("run", EVERY, "N", choice))
            self.assertEqual((ran.status, told["differences"]), (0, []))

    def test_in_another_order(self):
        backwards = self.file("backwards.py", f"""\
import io, sys
sys.path.insert(0, {str(HELPERS)!r})
from srv6tools.captures import raw_capture, sent_from
frames = [(0, one.link, one.content) for one in sent_from(sys.stdin.buffer, "in")]
sys.stdout.buffer.write(b"".join(raw_capture(frames[::-1])))
""")  # fmt: skip
        command = program("run", EVERY, "N") + " | " + shlex.join([sys.executable, str(backwards)])
        ran, told = self.report(EVERY, "N", "--dut", f"pcap:{command}")
        self.assertEqual((ran.status, told["differences"]), (0, []))

    def test_ten_wrong_devices(self):
        self.assertEqual(len(wrong_device.FAULTS), 10)
        for fault in wrong_device.FAULTS:
            with self.subTest(fault):
                ran, told = self.report(EVERY, "N", "--dut", wrong(fault), "--most", "3")
                self.assertEqual((ran.status, told["passed"]), (1, False))
                sizes = [len(one["smallest"]["bytes"]) // 2 for one in told["differences"]]
                self.assertLessEqual(min(sizes), LARGEST)
        ran, told = self.report(EVERY, "N", "--dut", wrong("nothing"))
        self.assertEqual((ran.status, told["differences"]), (0, []))

    def test_a_fault_is_called_what_it_is(self):
        _, told = self.report(EVERY, "N", "--dut", wrong("USD ignored"))
        self.assertEqual({one["met"] for one in told["differences"]}, {"End USD"})
        _, told = self.report(EVERY, "N", "--dut", wrong("next hop wrong"))
        self.assertEqual({one["difference"] for one in told["differences"]}, {"another link"})
        _, told = self.report(EVERY, "N", "--dut", wrong("an error to a multicast source"))
        self.assertEqual({one["difference"] for one in told["differences"]}, {"an error"})

    def test_the_smallest_packet_shows_the_same(self):
        keep = self.folder / "kept"
        _, told = self.report(EVERY, "N", "--dut", wrong("argument shifted by one unit more"), "--keep", keep)
        for at, one in enumerate(told["differences"], 1):
            text = (keep / f"difference-{at}.txt").read_text()
            self.assertIn(f"bytes {one['smallest']['bytes']}", text)
            self.assertRegex(text, r"\n\* IPv6 header, destination: fcbb:")
            packet = (keep / f"difference-{at}.pcap").read_bytes()
            self.assertIn(bytes.fromhex(one["smallest"]["bytes"]), packet)
            answers = subprocess.run(
                ["sh", "-c", wrong("argument shifted by one unit more").removeprefix("pcap:")], input=packet, capture_output=True
            )
            self.assertIn(bytes.fromhex(one["device"][0]["bytes"]), answers.stdout)
            walks = trace_of(subprocess.run(
                ["sh", "-c", program("trace", EVERY, "N")], input=packet, capture_output=True
            ).stdout.decode().splitlines(), "trace").walks  # fmt: skip
            self.assertEqual(walks[0].stages[-1].packet.hex(), one["expected"][0]["bytes"])

    def test_ten_thousand_packets(self):
        before = processor()
        _, told = self.report(BEHAVIOURS, "N", "--more", "9000", "--dut", "pcap:" + program("run", BEHAVIOURS, "N"))
        self.assertGreaterEqual(sum(row["packets"] for row in told["met"]), 10_000)
        self.assertLess(processor() - before, SECONDS)

    def test_the_same_report_each_time(self):
        words = [BEHAVIOURS, "N", "--dut", wrong("hop limit not lowered", BEHAVIOURS), "--more", "100"]
        self.assertEqual(run_here("conform", *words).out, run_here("conform", *words).out)

    def test_table_and_junit(self):
        junit = self.folder / "report.xml"
        ran = run_here("conform", EVERY, "N", "--dut", wrong("PSP late"), "--junit", junit)
        self.assertEqual(ran.status, 1)
        self.assertRegex(ran.out, r"\nEnd PSP +\d+ +\d+ +0 +[1-9]\d* +0\n")
        self.assertIn("difference 1: End PSP: then sent; the device: other bytes", ran.out)
        ran = run_here("conform", EVERY, "N", "--dut", wrong("PSP late"), "--pairs", "--most", "0")
        rows = ran.out[ran.out.index("\nEnd PSP ") :]
        self.assertRegex(rows, r"\n  dropped BadChain +(\d+) +\1 +0 +0 +0\n(  [^\n]*\n)*  then sent +\d+ +\d +0 +[1-9]\d +0\n")
        suites = xml.etree.ElementTree.parse(junit).getroot()
        by_name = {suite.get("name"): suite for suite in suites}
        self.assertEqual(by_name["End"].get("failures"), "0")
        self.assertEqual(int(by_name["End PSP"].get("failures")), len(by_name["End PSP"].findall("testcase/failure")))
        self.assertGreater(int(by_name["End PSP"].get("failures")), 0)
        failed = {case.get("classname") for case in by_name["End PSP"].findall("testcase") if case.find("failure") is not None}
        self.assertEqual(failed, {f"End PSP: then {what}" for what in ("sent", "dropped NoRoute", "dropped MtuExceeded")})

    def test_links_by_the_names_of_interfaces(self):
        named = program("run", EVERY, "N") + " | " + shlex.join([str(HELPERS / "name-links"), str(EVERY)])
        ran, told = self.report(EVERY, "N", "--dut", f"pcap:{named}")
        self.assertEqual((ran.status, told["differences"]), (0, []))
        other = self.file("other.toml", EVERY.read_text().replace('"west"', '"wuest"'))
        named = program("run", EVERY, "N") + " | " + shlex.join([str(HELPERS / "name-links"), str(other)])
        ran = run_here("conform", EVERY, "N", "--dut", f"pcap:{named}")
        self.named_answer(ran, [1])
        self.assertIn("no link is called 'wuest'", ran.err)

    @needs_package("scapy")
    def test_the_example_of_scapy(self):
        net = EXAMPLES / "end.toml"
        _, told = self.report(net, "N", "--dut", "pcap:" + shlex.join([str(EXAMPLES / "scapy-plane"), str(net), "N"]), "--most", "0")
        pairs = {(pair["met"], pair["outcome"]): pair for pair in told["pairs"]}
        self.assertEqual(pairs["an IPv6 route", "dropped HopLimit"]["same"], 2)  # those about which no error is sent
        self.assertGreater(pairs["End", "then sent"]["same"], 12)
        self.assertEqual(pairs["End", "dropped BadTlv"]["same"], 0)

    def test_frames_of_no_packet(self):
        stray = ip6("2001:db8:2::99", 59, b"nobody's", source="2001:db8:9::9")
        more = self.file("more.py", f"import sys; sys.stdout.buffer.write(sys.stdin.buffer.read() + bytes.fromhex("
                         f"'0000000001000000{len(stray).to_bytes(4, 'little').hex() * 2}{stray.hex()}'))")  # fmt: skip
        command = program("run", BEHAVIOURS, "N") + " | " + shlex.join([sys.executable, str(more)])
        ran, told = self.report(BEHAVIOURS, "N", "--dut", f"pcap:{command}")
        self.assertEqual((ran.status, told["differences"]), (1, []))
        self.assertEqual(told["strays"], [{"link": "east", "bytes": stray.hex()}])


@needs_program
class Profiles(ToolCase):
    def test_an_optional_error(self):
        quiet = self.file("quiet.py", f"""\
import sys
sys.path.insert(0, {str(HELPERS)!r})
from srv6tools.captures import raw_capture, sent_from
frames = [(0, one.link, one.content) for one in sent_from(sys.stdin.buffer, "in") if one.link]
sys.stdout.buffer.write(b"".join(raw_capture(frames)))
""")  # fmt: skip
        command = program("run", BEHAVIOURS, "N") + " | " + shlex.join([sys.executable, str(quiet)])
        profile = self.file("quiet.toml", 'name = "quiet"\n[rule]\nerror = "optional"\n')
        told = [
            json.loads(run_here("conform", BEHAVIOURS, "N", "--dut", f"pcap:{command}", "--json", *words).out)
            for words in ([], ["--profile", profile])
        ]
        rows = [{row["met"]: row for row in one["met"]} for one in told]
        self.assertEqual(told[1]["declared"], {"error = optional": sum(row["declared"] for row in told[1]["met"])})
        for met, row in rows[0].items():
            at_a_sid = met.startswith("End")
            self.assertEqual(rows[1][met]["differs"], 0 if at_a_sid else row["differs"])
            self.assertEqual(rows[1][met]["declared"], row["differs"] if at_a_sid else 0)
        self.assertGreater(rows[1]["no entry"]["differs"], 0)

    def test_what_is_ignored(self):
        careless = self.file("careless.py", f"""\
import subprocess, sys
sys.path.insert(0, {str(HELPERS)!r})
from srv6tools.captures import frames_of, head_of, raw_capture, sent_in
from srv6tools.chains import neutral
content = sys.stdin.buffer.read()
packets = [frame.content for frame in frames_of(content, head_of(content, "in"), "in")]
given = b"".join(raw_capture((0, 0, neutral(one, ["hmac", "tlv"])) for one in packets))
done = subprocess.run([{str(find_program())!r}, "run", {str(BEHAVIOURS)!r}, "N"], input=given, capture_output=True)
sys.stdout.buffer.write(b"".join(raw_capture((0, one.link, one.content) for one in sent_in(done.stdout, "out"))))
""")  # fmt: skip
        profile = self.file("careless.toml", 'name = "careless"\n[rule]\nhmac = "ignore"\ntlv = "ignore"\n')
        dut = "pcap:" + shlex.join([sys.executable, str(careless)])
        ran = run_here("conform", BEHAVIOURS, "N", "--dut", dut, "--profile", profile, "--json")
        told = json.loads(ran.out)
        self.assertEqual((ran.status, told["differences"]), (0, []))
        self.assertEqual(set(told["declared"]), {"hmac = ignore", "tlv = ignore"})
        self.assertEqual(run_here("conform", BEHAVIOURS, "N", "--dut", dut, "--json").status, 1)

    def test_a_profile_hides_nothing_else(self):
        for fault in ("hop limit not lowered", "argument shifted by one unit more", "checksum of errors wrong", "DT into table 0"):
            with self.subTest(fault):
                ran = run_here("conform", EVERY, "N", "--dut", wrong(fault), "--profile", "linux", "--json", "--most", "0")
                self.assertEqual(ran.status, 1)

    def test_the_page_on_linux_has_each_deviation(self):
        page = (HELPERS.parent / "docs" / "LINUX.md").read_text()
        names = [one.name for one in read_profile("linux").deviations]
        self.assertEqual([name for name in names if f"| {name}" not in page and f"| * {name}" not in page], [])
        self.assertEqual(len(names), len(set(names)))

    def test_files(self):
        self.assertEqual(read_profile("linux").name, "linux")
        self.assertEqual(read_profile("none").rules, {})
        for text, said in (
            ("x = 1", "no key of a profile is called 'x'"),
            ("a = [", "not TOML"),
            ("", "a profile has a `name`"),
            ('name = "a"\nrule = 1', "`rule` is a table"),
            ('name = "a"\n[rule]\nerrors = "optional"', "no rule is called 'errors'"),
            ('name = "a"\n[rule]\nerror = "never"', "rule error: 'never' is none of 'optional'"),
            ('name = "a"\n[rule]\nencap.hop-limits = "copy"', "no rule is called 'encap.hop-limits'"),
            ('name = "a"\ndeviation = 1', "`deviation` is an array of tables"),
            ('name = "a"\n[[deviation]]\nnamed = "b"', "deviation 1: no key of a deviation is called 'named'"),
            ('name = "a"\n[[deviation]]\nmet = "b"', "deviation 1: a deviation has a `name`"),
            ('name = "a"\n[[deviation]]\nname = "b"\nmet = 1', "deviation 1: `met` is a text or a list of texts"),
        ):
            with self.subTest(said):
                path = self.file("profile.toml", text)
                ran = run_here("conform", EVERY, "N", "--dut", "pcap:true", "--profile", path)
                self.named_answer(ran, [1])
                self.assertIn(said, ran.err)
                self.assertEqual(len(ran.err.splitlines()), 1)
        with self.assertRaises(Fault):
            profile_of({"name": ""}, "p")


@unittest.skipIf(MISSING, MISSING or "")
@needs_program
class Linux(ToolCase):
    def test_each_difference_is_declared(self):
        runs = []
        for _ in range(3):
            ran = run_here("conform", LINUX_NODE, "N", "--dut", "linux", "--profile", "linux")
            self.assertEqual(ran.status, 0, ran.out[-2000:])
            runs.append(ran.out)
        self.assertEqual(len(set(runs)), 1)
        ran = run_here("conform", EVERY, "N", "--dut", "linux", "--profile", "linux")
        self.assertEqual(ran.status, 0, ran.out[-2000:])

    def test_a_namespace(self):
        names = [f"{self.folder.name[-8:]}-{end}" for end in ("device", "tester")]
        for name in names:
            subprocess.run(["ip", "netns", "add", name], check=True)
            self.addCleanup(subprocess.run, ["ip", "netns", "del", name])
        for link in ("east", "west", "arrive"):
            words = ["ip", "link", "add", "name", link, "netns", names[0], "type", "veth", "peer", "name", link, "netns", names[1]]
            subprocess.run(words, check=True)
            for name in names:
                subprocess.run(["ip", "-n", name, "link", "set", link, "up"], check=True)
        ran = run_here("to-linux", "--namespace", names[0], LINUX_NODE, "N")
        subprocess.run(["sh", "-e"], input=ran.out, text=True, check=True)
        dut = f"netns:{names[1]}"
        ran = run_here("conform", LINUX_NODE, "N", "--dut", dut, "--profile", "linux")
        self.assertEqual(ran.status, 0, ran.out[-2000:])
        self.assertEqual(run_here("conform", LINUX_NODE, "N", "--dut", dut, "--most", "0").status, 1)
        subprocess.run(["ip", "-n", names[0], "link", "set", "arrive", "down"], check=True)
        ran = run_here("conform", LINUX_NODE, "N", "--dut", dut)
        self.named_answer(ran, [5])

    def test_without_the_profile(self):
        ran = run_here("conform", LINUX_NODE, "N", "--dut", "linux", "--json", "--most", "0")
        self.assertEqual(ran.status, 1)


class Bad(ToolCase):
    def test_words(self):
        self.helps("conform")
        self.named_answer(run_tool("conform"), [2])
        self.named_answer(run_tool("conform", EVERY, "N"), [2])
        self.named_answer(run_here("conform", self.folder / "absent", "N", "--dut", "pcap:true"), [5])

    @needs_program
    def test_adapters(self):
        for word, status, said in (
            ("serial:/dev/null", 2, "no adapter; there are pcap:COMMAND"),
            ("pcap:", 2, "no adapter"),
            ("pcap:exit 3", 5, "it ends with status 3: nothing is said"),
            ("pcap:echo some text", 1, "--dut pcap:echo some text: what it writes: "),
            ("trace:echo no trace", 1, "a trace begins with"),
            ("trace:printf 'srv6 trace 1\\npacket 99999 6 N 60\\nlocal\\nend\\n'", 1, "there is no packet 99999"),
            ("netns:there-is-no-such-one", 5, "netns:there-is-no-such-one"),
        ):
            with self.subTest(word):
                ran = run_here("conform", EVERY, "N", "--dut", word)
                self.named_answer(ran, [status])
                self.assertIn(said, ran.err)
                self.assertEqual(len(ran.err.splitlines()), 1)
        self.named_answer(run_here("conform", EVERY, "M", "--dut", "pcap:true"), [1])
        silent = "pcap:head -c 24"
        self.named_answer(run_here("conform", EVERY, "N", "--dut", silent, "--junit", self.folder), [5])
        self.named_answer(run_here("conform", EVERY, "N", "--dut", silent, "--keep", EVERY), [5])
        ran = run_here("conform", EVERY, "N", "--dut", silent, "--most", "0")
        self.assertEqual(ran.status, 1)

    def test_profiles_are_files(self):
        for name in SHIPPED[:1]:
            self.assertTrue((HELPERS / "srv6tools" / "profiles" / f"{name}.toml").is_file())


if __name__ == "__main__":
    unittest.main()
