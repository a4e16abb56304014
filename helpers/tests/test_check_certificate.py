"""check-certificate: its verdicts, and that they are those of `srv6 check`."""

import re
import unittest
from collections.abc import Iterator

from srv6tools.check_certificate import NOTHING, START, Checker, added
from srv6tools.description import read_network
from srv6tools.intent import read_intent
from srv6tools.legs import Legs
from srv6tools.program import run_program
from support import EXAMPLES, ToolCase, bad_tomls, needs_program, run_here

M2, COMPRESSED, NESTED, POLICY, INTENT = (
    EXAMPLES / f"{name}.toml" for name in ("m2", "compressed", "nested", "policy", "intent")
)
# Inside B's End, with the 16 bits behind it that B's End.X has behind the block.
INNER = """
[[sid]]
node = "B"
prefix = "fcbb:bb00:2:e001::/64"
behaviour = "End.DT4"
table = 7
"""
CERTIFICATE = """\
# container fcbb:bb00:2::
srv6 certificate 1
potential 0 - 0 4 4
potential 1 fcbb:bb00:2::/48 0 3 3
potential 1 fcbb:bb00:e001::/48 0 2 2
potential 3 fcbb:bb00:4::/48 0 1 0
path new fcbb:bb00:2::/48
path new fcbb:bb00:e001::/48
path new fcbb:bb00:4::/48
path new fcbb:bb00:f001::/48
end
"""
CHANGES = (
    ("potential 0 - 0 4 4", "potential 0 - 0 5 4", "no 3 edge", 4),
    ("potential 0 - 0 4 4", "potential 0 - 0 4 3", "no 11 tight", 4),
    ("potential 3 fcbb:bb00:4::/48 0 1 0\n", "", "no 2 unlisted 3 fcbb:bb00:4::/48 0", 4),
    ("path new fcbb:bb00:e001::/48\n", "", "no 8 path", 4),
    ("end\n", "", "refused 45 BadCert 11", 1),
    ("end\n", "end", "refused 45 BadCert 11", 1),
    ("potential 3", "potential 2", "refused 45 BadCert 6", 1),
    ("potential 1 fcbb:bb00:2::/48 0 3 3\n", "", "no 2 unlisted 1 fcbb:bb00:2::/48 0", 4),
    ("0 4 4", "0 4 4294967296", "refused 45 BadCert 3", 1),
    ("0 4 4", "0 4 04", "refused 45 BadCert 3", 1),
    ("path new fcbb:bb00:2::/48", "path new FCBB:BB00:2:0::/48", "least 4 4", 0),
)

# Of the network with the binding SID fcbb:bb00:b001::/48, worked out by hand.
THROUGH_POLICY = """\
srv6 certificate 1
potential 0 - 0 1 4
potential 1 fcbb:bb00:2::/48 0 1 3
potential 1 fcbb:bb00:2::/48 1 1 3
potential 1 fcbb:bb00:2::/48 2 1 3
potential 1 fcbb:bb00:2::/48 3 0 3
potential 1 fcbb:bb00:2::/48 4 0 3
potential 1 fcbb:bb00:2::/48 5 0 3
potential 1 fcbb:bb00:b001::/48 0 1 2
potential 1 fcbb:bb00:b001::/48 1 1 2
potential 1 fcbb:bb00:b001::/48 2 0 2
potential 1 fcbb:bb00:b001::/48 3 0 2
potential 1 fcbb:bb00:b001::/48 4 0 2
potential 1 fcbb:bb00:b001::/48 5 0 2
potential 2 2001:db8:c::1/128 0 1 1
potential 3 fcbb:bb00:4::/48 0 1 0
potential 3 fcbb:bb00:4::/48 1 0 0
potential 3 fcbb:bb00:4::/48 2 0 0
potential 3 fcbb:bb00:4::/48 3 0 0
potential 3 fcbb:bb00:4::/48 4 0 0
potential 3 fcbb:bb00:4::/48 5 0 0
path new fcbb:bb00:2::/48
path stay fcbb:bb00:b001::/48
path stay fcbb:bb00:4::/48
path stay fcbb:bb00:f001::/48
end
"""
LEFT_OUT = "potential 1 fcbb:bb00:b001::/48 0 1 2\n"
USD = 'behaviour = "End"\nflavours = ["usd"]'
OVER_BC1 = '1/128"\nvia = ["bc1"]'
# A SID of D in the place of C's, two links away from B.
AT_D = (
    ("2001:db8:c::1", "2001:db8:d::1"),
    ('[[sid]]\nnode = "C"', '[[sid]]\nnode = "D"'),
    (OVER_BC1, OVER_BC1 + '\n[[route]]\nnode = "C"\nprefix = "2001:db8:d::1/128"\nvia = ["cd"]'),
)
SEGMENTS = 'segments = ["2001:db8:d::1"]'
# What is changed in the network with the policy, and the least list then.
POLICIES = (
    ((), "least 1 4"),
    ((("Encaps.Red", "Encaps"),), "least 1 4"),
    (((USD, 'behaviour = "End.DX6"\nlinks = ["cd"]'),), "least 1 3"),
    (((USD, 'behaviour = "End.DT6"\ntable = 7'),), "none"),
    (((USD, 'behaviour = "End.DT4"\ntable = 0'),), "none"),
    (((OVER_BC1, '1/128"\nvia = ["bc2"]'),), "none"),
    (((OVER_BC1, '1/128"\nvia = ["bc1", "bc2"]'),), "none"),
    ((*AT_D, (SEGMENTS, SEGMENTS + "\nhop_limit = 2")), "least 1 2"),
    ((*AT_D, (SEGMENTS, SEGMENTS + "\nhop_limit = 1")), "least 3 3"),
    ((('["2001:db8:c::1"]', '["fcbb:bb00:b001::"]'),), "least 3 3"),
    ((('["2001:db8:c::1"]', '["fcbb:bb00:2:b001::"]'),), "least 3 3"),
    ((('["2001:db8:c::1"]', '["fcbb:bb00:2::", "2001:db8:c::1"]'),), "least 1 4"),
)


def changed_policy(changes) -> str:
    """The text of the network with the policy, changed."""
    text = POLICY.read_text()
    for old, new in changes:
        text = text.replace(old, new)
    return text


def made(net, intent) -> str:
    """A certificate, by relaxation over the states until nothing changes."""
    checker, left, changes = Checker(Legs(read_network(net), read_intent(intent))), {}, True
    while changes:
        changes = False
        for state in reversed(checker.states):
            least = min(checker._costs(state, left), default=None)
            changes |= least != left.get(state)
            if least is not None:
                left[state] = least
    lines = ["srv6 certificate 1"]
    for state in checker.states:
        if state in left:
            lines.append(f"potential {checker.name(state)} {checker.cost_text(left[state])}")
    return "\n".join([*lines, *(path(checker, left) if START in left else ["none"]), "end", ""])


def path(checker: Checker, left: dict) -> Iterator[str]:
    state = START
    while state:
        for edge in checker.edges.of(*state):
            to = None if edge.is_last else (edge.position, edge.sid, edge.room)
            behind = NOTHING if edge.is_last else left.get(to)
            if behind and added(checker.own_cost(edge), behind) == left[state]:
                yield f"path {'stay' if edge.stays else 'new'} {edge.sid.prefix}"
                state = to
                break


def changed(text: str) -> Iterator[str]:
    """Texts that differ from a certificate by a line or a number."""
    lines = text.splitlines(keepends=True)
    for k in range(0, len(lines), 3):
        yield "".join(lines[:k] + lines[k + 1 :])
        yield "".join(lines[: k + 1] + lines[k:])
        for number in re.finditer(r"(?<![0-9a-f:/])\d+(?![0-9a-f:/])", lines[k]):
            line = lines[k][: number.start()] + str(int(number[0]) + 1) + lines[k][number.end() :]
            yield "".join([*lines[:k], line, *lines[k + 1 :]])


class CheckCertificate(ToolCase):
    def test_verdicts(self):
        for old, new, line, status in (("#", "#", "least 4 4", 0), *CHANGES):
            with self.subTest(old=old, new=new):
                self.assertIn(old, CERTIFICATE)
                cert = self.file("cert", CERTIFICATE.replace(old, new, 1))
                ran = run_here("check-certificate", M2, INTENT, cert)
                self.assertEqual((ran.out + ran.err, ran.status), (line + "\n", status))

    def test_what_is_made_is_least(self):
        barred = self.file("barred.toml", COMPRESSED.read_text() + INNER)
        other_bits = self.file("free.toml", COMPRESSED.read_text() + INNER.replace("e001", "e003"))
        for net, line in (
            (M2, "least 4 4\n"),
            (COMPRESSED, "least 1 4\n"),
            (NESTED, "least 1 2\n"),
            (barred, "least 2 4\n"),
            (other_bits, "least 1 4\n"),
        ):
            cert = self.file("cert", made(net, INTENT))
            self.assertEqual(run_here("check-certificate", net, INTENT, cert).out, line)
        other = self.file("other.toml", INTENT.read_text().replace("bc1", "bc2"))
        cert = self.file("cert", made(M2, other))
        self.assertEqual(run_here("check-certificate", M2, other, cert).out, "none\n")

    def test_certificate_through_a_policy(self):
        for old, new, line, status in (
            ("end", "end", "least 1 4", 0),
            (LEFT_OUT, "", "no 1 unlisted 1 fcbb:bb00:b001::/48 0", 4),
            (LEFT_OUT, LEFT_OUT.replace("1 2", "1 3"), "no 9 edge", 4),
        ):
            with self.subTest(line):
                cert = self.file("cert", THROUGH_POLICY.replace(old, new, 1))
                ran = run_here("check-certificate", POLICY, INTENT, cert)
                self.assertEqual((ran.out + ran.err, ran.status), (line + "\n", status))

    def test_least_through_policies(self):
        for number, (changes, line) in enumerate(POLICIES):
            with self.subTest(number):
                net = self.file("net.toml", changed_policy(changes))
                cert = self.file("cert", made(net, INTENT))
                ran = run_here("check-certificate", net, INTENT, cert)
                self.assertEqual(ran.out, line + "\n")
                if not changes:
                    self.assertEqual(cert.read_text(), THROUGH_POLICY)

    def test_bad_policies(self):
        cert = self.file("cert", THROUGH_POLICY)
        for changes in ((('policy = "to-c"', ""),), (('["2001:db8:c::1"]', "[]"),)):
            net = self.file("net.toml", changed_policy(changes))
            self.named_answer(run_here("check-certificate", net, INTENT, cert), [1])

    def test_common(self):
        self.helps("check-certificate")
        self.survives_closed_pipe("check-certificate", M2, INTENT, self.file("cert", CERTIFICATE))

    def test_bad_files(self):
        cert = self.file("cert", CERTIFICATE)
        for name, content in bad_tomls():
            with self.subTest(name):
                bad = self.file("bad", content)
                self.named_answer(run_here("check-certificate", bad, INTENT, cert))
                self.named_answer(run_here("check-certificate", M2, bad, cert))
                self.named_answer(run_here("check-certificate", M2, INTENT, bad))
        self.named_answer(run_here("check-certificate", M2, INTENT, self.folder / "absent"), [5])

    @needs_program
    def test_policies_as_srv6_check(self):
        for changes, line in POLICIES:
            net = self.file("net.toml", changed_policy(changes))
            cert = self.file("cert", made(net, INTENT))
            self.assertEqual(run_program(["check", net, INTENT, cert]).out.decode(), line + "\n")
            self.assertIn(cert.read_bytes(), run_program(["compile", net, INTENT]).out)

    @needs_program
    def test_as_srv6_check(self):
        for net in (M2, COMPRESSED, NESTED, POLICY):
            for text in changed(run_program(["compile", net, INTENT]).out.decode()):
                cert = self.file("cert", text)
                answer = run_program(["check", net, INTENT, cert])
                ran = run_here("check-certificate", net, INTENT, cert)
                said = answer.out.decode() + answer.err
                self.assertEqual((ran.out + ran.err, ran.status), (said, answer.status))


if __name__ == "__main__":
    unittest.main()
