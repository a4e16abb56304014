"""to-gobgp: the request, what GoBGP holds and gives a neighbour of it, the bytes by hand, and bad input."""

import base64
import json
import subprocess
import unittest
from ipaddress import IPv6Address

from gobgp import PYTHON, Daemon, needs_gobgp, needs_grpc, pair
from srv6tools.bgp_policy import CandidatePath, path_of
from srv6tools.frr_lab import until
from srv6tools.gobgp_api import ENUMS, SCHEMA
from srv6tools.protobuf import encoded, fields_of
from support import EXAMPLES, HELPERS, Ran, ToolCase, bad_tomls, run_here

REPORT = b"# container fc00::1\n# container fc00::2\n# containers 2\n# header 64\n# need 2\n"
INTENT = EXAMPLES / "intent.toml"
WORDS = (INTENT, "192.0.2.2", "10", "2001:db8::4")
# By RFC 9830: the length of 192 bits, distinguisher 1, color 10, 2001:db8::4.
NLRI = bytes.fromhex("c0 00000001 0000000a 20010db8000000000000000000000004")
# By RFC 9012 and RFC 9830: the attribute's head; tunnel 15 of 67 bytes; preference 100; the name red; a list of weight 1 and two segments.
TUNNEL = bytes.fromhex(
    "c01747 000f0043 0c06 0000 00000064 810004 00 726564 800031 00 0906 0000 00000001"
    " 0d12 0000 fc000000000000000000000000000001 0d12 0000 fc000000000000000000000000000002"
)
TWO = (IPv6Address("fc00::1"), IPv6Address("fc00::2"))


def ran_by_debian(*words: object, given: bytes) -> Ran:
    """A run of the tool by the Python that has grpc."""
    done = subprocess.run([PYTHON, str(HELPERS / "to-gobgp"), *map(str, words)], input=given, capture_output=True, timeout=60)
    return Ran(done.returncode, done.stdout.decode(), done.stderr.decode(), done.stdout)


class ToGobgp(ToolCase):
    def test_request(self):
        ran = run_here("to-gobgp", *WORDS, "--name", "red", given=REPORT)
        self.assertEqual(ran.status, 0)
        path = json.loads(ran.out)["path"]
        self.assertEqual(base64.b64decode(path["nlri"]["endpoint"]), IPv6Address("2001:db8::4").packed)
        segments = path["pattrs"][-1]["tlvs"][0]["tlvs"][-1]["segments"]
        self.assertEqual([base64.b64decode(one["sid"]) for one in segments], [one.packed for one in TWO])
        self.assertIn("a hop limit above 2", ran.err)
        self.assertIn("the last segment, fc00::2", ran.err)

    def test_bytes_of_messages(self):
        tree = {"tableType": "GLOBAL", "path": {"family": {"afi": "AFI_IP6", "safi": "SAFI_SR_POLICY"}}}
        wanted = bytes.fromhex("0800 1a06 4a04 0802 1049")
        self.assertEqual(encoded(SCHEMA, ENUMS, "AddPathRequest", tree), wanted)
        self.assertEqual(list(fields_of(wanted)), [(1, 0), (3, wanted[4:])])
        for bad in (b"\x80", b"\x0a\x05a", b"\x0b", b"\xff" * 11):
            with self.assertRaises(ValueError):
                list(fields_of(bad))

    def test_bytes_of_a_path(self):
        wanted = CandidatePath(1, 10, IPv6Address("2001:db8::4"), TWO, 100, "red")
        self.assertEqual(path_of(NLRI, [bytes.fromhex("40010100"), TUNNEL]), wanted)
        self.assertEqual(list(wanted.lines())[1:], ["segment fc00::1", "segment fc00::2"])
        for bad in (TUNNEL[:-1], TUNNEL[:40], TUNNEL[:3] + b"\0\7" + TUNNEL[5:]):
            with self.assertRaises(ValueError):
                path_of(NLRI, [bad])

    def test_bad_input(self):
        self.helps("to-gobgp")
        for words, given, status in (
            ((INTENT, "192.0.2.2", "x", "::1"), REPORT, 2),
            ((INTENT, "192.0.2.2", str(2**32), "::1"), REPORT, 2),
            ((INTENT, "A", "10", "::1"), REPORT, 2),
            ((INTENT, "192.0.2.2", "10", "192.0.2.1"), REPORT, 2),
            ((*WORDS, "--name", ""), REPORT, 2),
            ((*WORDS, "--send", "here"), REPORT, 2),
            (WORDS, b"", 1),
            (WORDS, b"# none\n", 3),
            (WORDS, REPORT.replace(b"need 2", b"need 64"), 3),
            ((self.folder, *WORDS[1:]), REPORT, 5),
        ):
            self.named_answer(run_here("to-gobgp", *words, given=given), [status])
        for name, content in bad_tomls():
            with self.subTest(name):
                bad = self.file("bad.toml", content)
                self.named_answer(run_here("to-gobgp", bad, *WORDS[1:], given=REPORT), [1])


@needs_gobgp
@needs_grpc
class Sent(ToolCase):
    """What a GoBGP that runs holds."""

    def test_it_is_held(self):
        daemon = Daemon(self.folder, 1)
        self.addCleanup(daemon.stop)
        daemon.start()
        ran = ran_by_debian(*WORDS, "--name", "red", "--send", daemon.place, given=REPORT)
        wanted = "policy 10 2001:db8::4 distinguisher 1 preference 100 name red\nsegment fc00::1\nsegment fc00::2\n"
        self.assertEqual((ran.status, ran.out), (0, wanted), ran.err)

    def test_a_neighbour_gets_it(self):
        one, other = pair(self.folder, "ipv6-srpolicy")
        self.addCleanup(one.stop)
        self.addCleanup(other.stop)
        intent = self.file("many.toml", "max_containers = 127\n" + INTENT.read_text())
        lines = [f"# container fc00::{number:x}" for number in range(1, 128)]
        longest = "\n".join([*lines, "# containers 127", "# header 2064", "# need 2", ""]).encode()
        for place, given in enumerate((REPORT, longest), 1):
            words = [intent, other.router_id, "10", "2001:db8::4", "--distinguisher", str(place), "--send", one.place]
            self.assertEqual(ran_by_debian(*words, given=given).status, 0)
        until(lambda: len(self.held(other)) == 131, "the neighbour doesn't get the paths")
        text = self.held(other)
        self.assertIn("policy 10 2001:db8::4 distinguisher 1 preference 100", text)
        self.assertEqual(text.count("segment fc00::2"), 2)
        self.assertIn("segment fc00::7f", text)

    def held(self, daemon: Daemon) -> list[str]:
        """The lines of the paths that it holds."""
        asked = "import sys\nfrom srv6tools.gobgp_api import Api\nfor path in Api(sys.argv[1]).paths(): print(*path.lines(), sep='\\n')"
        done = subprocess.run([PYTHON, "-c", asked, daemon.place], capture_output=True, text=True, cwd=HELPERS, timeout=60)
        self.assertEqual(done.returncode, 0, done.stderr)
        return done.stdout.splitlines()

    def test_nobody_is_there(self):
        ran = ran_by_debian(*WORDS, "--send", "127.0.0.1:1", given=REPORT)
        self.named_answer(ran, [5])
        self.assertIn("GoBGP at 127.0.0.1:1", ran.err)


class WithoutGrpc(ToolCase):
    def test_the_package_is_named(self):
        blocked = "import sys; sys.modules['grpc'] = None; from srv6tools.to_gobgp import main; sys.exit(main(sys.argv[1:]))"
        words = [PYTHON, "-c", blocked, *map(str, WORDS), "--send", "127.0.0.1:1"]
        done = subprocess.run(words, input=REPORT, capture_output=True, cwd=HELPERS, timeout=60)
        self.assertEqual(done.returncode, 6)
        self.assertIn(b"python3-grpcio", done.stderr)


if __name__ == "__main__":
    unittest.main()
