"""to-ios-xr: the text of a list, how uSIDs are packed, what is no list of IOS XR, and bad input."""

import unittest
from ipaddress import IPv6Address, IPv6Network

from srv6tools.to_ios_xr import packed
from support import EXAMPLES, ToolCase, bad_tomls, run_here

INTENT = EXAMPLES / "intent.toml"
WORDS = (INTENT, "10", "2001:db8::4")
CONTAINER = "fcbb:bb00:2:e001:4:f001::"
TEXT = """\
segment-routing
 traffic-eng
  segment-lists
   srv6
    sid-format usid-f3216
   !
   segment-list red
    srv6
     index 10 sid fcbb:bb00:2::
     index 20 sid fcbb:bb00:e001::
     index 30 sid fcbb:bb00:4:f001::
    !
   !
  !
  policy red
   srv6
    locator MAIN binding-sid dynamic behavior ub6-insert-reduced
   !
   color 10 end-point ipv6 2001:db8::4
   candidate-paths
    preference 7
     explicit segment-list red
     !
    !
   !
  !
 !
!
"""


def certificate(containers: list[str], path: list[str]) -> bytes:
    """A report and a certificate of a list."""
    report = [f"# container {one}" for one in containers]
    head = [f"# containers {len(containers)}", "# header 40", "# need 2", "srv6 certificate 1", "potential 0 - 0 1 2"]
    return "\n".join([*report, *head, *(f"path {one}" for one in path), "end", ""]).encode()


GIVEN = certificate([CONTAINER], ["new fcbb:bb00:2::/48", "stay fcbb:bb00:e001::/48", "stay fcbb:bb00:4:f001::/64"])


class ToIosXr(ToolCase):
    def test_text(self):
        ran = run_here("to-ios-xr", *WORDS, "--name", "red", "--preference", "7", "--locator", "MAIN", given=GIVEN)
        self.assertEqual(ran.status, 0, ran.err)
        first, _, rest = ran.out.partition("\n")
        self.assertTrue(first.startswith("!! NO TEST LOADS THIS"))
        self.assertEqual(rest, TEXT)
        self.assertIn(f"the last segment, {CONTAINER}", ran.err)
        self.assertNotIn("binding-sid", run_here("to-ios-xr", *WORDS, given=GIVEN).out)

    def test_packing(self):
        one, nested = "fcbb:bb00:%x::/48", IPv6Network("fcbb:bb00:9:f::/64")
        seven = [IPv6Network(one % number) for number in range(1, 8)]
        self.assertEqual(packed(seven), [IPv6Address("fcbb:bb00:1:2:3:4:5:6"), IPv6Address("fcbb:bb00:7::")])
        self.assertEqual(packed([*seven[:5], nested]), [IPv6Address("fcbb:bb00:1:2:3:4:5:0"), IPv6Address("fcbb:bb00:9:f::")])
        self.assertEqual(packed([*seven[:4], nested]), [IPv6Address("fcbb:bb00:1:2:3:4:9:f")])
        other = IPv6Network("fcbb:bb01:1::/48")
        self.assertEqual(packed([seven[0], other]), [IPv6Address("fcbb:bb00:1::"), IPv6Address("fcbb:bb01:1::")])

    def test_no_list_of_ios_xr(self):
        for containers, path, said in (
            (["2001:db8:b:1::"], ["new 2001:db8:b:1::/80"], "no uSID"),
            (["fcbb:bb00:1::", "fcbb:bb00:2::"], ["new fcbb:bb00:1::/48", "new fcbb:bb00:2::/48"], "fcbb:bb00:1:2::"),
        ):
            ran = run_here("to-ios-xr", *WORDS, given=certificate(containers, path))
            self.named_answer(ran, [3])
            self.assertIn(said, ran.err)

    def test_bad_input(self):
        self.helps("to-ios-xr")
        for words, given, status in (
            ((INTENT, "x", "::1"), GIVEN, 2),
            ((INTENT, "1", "192.0.2.1"), GIVEN, 2),
            ((*WORDS, "--name", "a b"), GIVEN, 2),
            (WORDS, b"", 1),
            (WORDS, GIVEN.replace(b"end\n", b""), 1),
            (WORDS, b"# none\n", 3),
            ((self.folder, *WORDS[1:]), GIVEN, 5),
        ):
            self.named_answer(run_here("to-ios-xr", *words, given=given), [status])
        for name, content in bad_tomls():
            with self.subTest(name):
                self.named_answer(run_here("to-ios-xr", self.file("bad.toml", content), *WORDS[1:], given=GIVEN), [1])


if __name__ == "__main__":
    unittest.main()
