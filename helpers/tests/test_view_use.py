"""The page of view as one uses it: by keys alone, on paper, without colours, and with nothing that covers something else."""

import unittest

from browser import needs_browser
from page_case import PageCase
from support import EXAMPLES, needs_program

DOMAIN = EXAMPLES / "domain"
NET, PLAN = DOMAIN / "net.toml", DOMAIN / "plan.toml"
ARRIVING = (NET, DOMAIN / "arriving.pcap", "--at", "br1")
FOCUSED = "return document.activeElement.id"
CURRENT = "return [...document.querySelectorAll('#side [aria-current=true]')].map((one) => one.id)"
OVERLAPS = """
const boxes = [...document.querySelectorAll('.labels text, .node rect')]
  .filter((one) => one.style.display !== 'none').map((one) => [one.textContent, one.getBoundingClientRect()])
  .filter(([, box]) => box.width > 0);
const found = [];
boxes.forEach(([name, one], at) => boxes.slice(at + 1).forEach(([other, two]) => {
  const wide = Math.min(one.right, two.right) - Math.max(one.left, two.left);
  const high = Math.min(one.bottom, two.bottom) - Math.max(one.top, two.top);
  if ((name || other) && wide > 2 && high > 4) { found.push(`${name} ${other} ${wide} ${high}`); }
}));
return [boxes.filter(([name]) => name).length, found];
"""
IS_SEEN = """
const part = document.querySelector(arguments[0]).getBoundingClientRect();
const box = document.getElementById('detail').getBoundingClientRect();
return part.top >= box.top - 1 && part.bottom <= box.bottom + 1;
"""
WORDS_OF_STATES = """
return [...document.querySelectorAll('.cell')].every((cell) => {
  const sign = { kept: '=', other: '\u2260', none: '\u2715', refused: '!' }[cell.classList[1]];
  return cell.textContent.startsWith(sign) && cell.getAttribute('aria-label').length > 20;
});
"""


@needs_program
@needs_browser
class Use(PageCase):
    def test_the_focus_stays(self):
        """A button that is pressed by a key keeps the focus, though what it stands in is drawn anew."""
        page = self.opened(*ARRIVING)
        for name, stage in (("after", 2), ("after", 3), ("before", 2)):
            page.run(f"document.getElementById('{name}').focus()")
            page.press("enter")
            self.assertEqual(page.run(FOCUSED), name)
            self.assertEqual(page.text("#stagenumber"), f"stage {stage} of 14")
        page.run("document.getElementById('slider').focus()")
        page.press("right", "right")
        self.assertEqual((page.run(FOCUSED), page.text("#stagenumber")), ("slider", "stage 4 of 14"))
        page.run("document.getElementById('fan').focus()")
        page.press("enter")
        self.assertEqual(page.run(FOCUSED), "fan")
        page.run("document.getElementById('node4').focus()")
        page.press(" ")
        self.assertIn("p1 2001:db8::1", page.text("#nodebox"))
        self.is_quiet()

    def test_details_scroll_by_keys(self):
        """Behind the link to the details the keys of the page move them, and what isn't shown takes no focus."""
        page = self.opened(*ARRIVING, DOMAIN / "what-if.json")
        page.press("2")
        page.run("document.querySelector('.skip').click(); document.getElementById('detail').focus()")
        shown = "return document.activeElement === document.querySelector('#detail > .pane.shown')"
        self.assertTrue(page.run(shown))
        page.press("page down")
        page.settle()
        self.assertGreater(page.run("return document.activeElement.scrollTop"), 50)
        page.run("document.getElementById('cell0-1-0').focus()")
        self.assertNotEqual(page.run(FOCUSED), "cell0-1-0")
        page.press("4")
        page.run("document.getElementById('cell0-1-0').focus()")
        self.assertEqual(page.run(FOCUSED), "cell0-1-0")
        self.is_quiet()

    def test_all_stages_in_words(self):
        page = self.opened(*ARRIVING)
        page.click("#stagessaid")
        page.settle()
        lines = page.texts("#stages li")
        self.assertEqual(len(lines), 14)
        for number, line in enumerate(lines):
            page.click(f"#stage{number}")
            self.assertEqual(page.run(FOCUSED), f"stage{number}")
            self.assertEqual(page.text("#stagenumber"), f"stage {number + 1} of 14")
            self.assertEqual(page.text("#decision").replace(". (", " ("), line)
        self.is_quiet()

    def test_packets_of_one_end(self):
        page = self.opened(*ARRIVING)
        shown = "return [...document.querySelectorAll('.rows li')].filter((one) => !one.hidden).map((one) => one.textContent)"
        ends = page.texts(".end-only")
        self.assertEqual(ends[1], "\u00d7 dropped NoRoute at br1")
        page.run("document.querySelectorAll('.end-only')[1].click()")
        self.assertEqual(page.run(shown), ["5\u00d7dropped NoRoute at br1", "7\u00d7dropped NoRoute at br1"])
        self.assertEqual(page.run(CURRENT), ["walk4"])
        page.press("down")
        self.assertEqual(page.run(CURRENT), ["walk6"])
        page.press("down", "up")
        self.assertEqual(page.run(CURRENT), ["walk4"])
        page.run("document.querySelectorAll('.end-only')[1].click()")
        self.assertEqual(len(page.run(shown)), 7)
        self.is_quiet()

    def test_bytes_of_a_field_are_seen(self):
        """The bytes of the field under the pointer are in sight, also those of headers deep inside."""
        page = self.opened(*ARRIVING)
        page.press("right")
        fields = page.run("return document.querySelectorAll('.packet:last-child .field').length")
        self.assertGreater(fields, 40)
        for field in (0, 7, fields // 2, fields - 1):
            page.point(f".packet:last-child [data-field='{field}']")
            self.assertTrue(page.run(IS_SEEN, ".packet:last-child .byte.lit"), field)
        offsets = page.texts(".packet:last-child .offset")
        self.assertEqual([int(one) for one in offsets], list(range(0, 16 * len(offsets), 16)))
        self.is_quiet()

    def test_labels_cover_nothing(self):
        page = self.opened("--plan", PLAN, NET)
        counts = []
        for _ in range(4):
            page.settle()
            labels, overlaps = page.run(OVERLAPS)
            self.assertEqual(overlaps, [])
            counts.append(labels)
            page.click("#zoomin")
        self.assertGreater(max(counts), 20)
        self.is_quiet()

    def test_paper_has_all_stages(self):
        page = self.opened(*ARRIVING)
        page.run("window.dispatchEvent(new Event('beforeprint'))")
        page.emulate("print")
        self.assertEqual(len(page.texts("#stages li")), 14)
        tall = "return document.getElementById('stages').getBoundingClientRect().height"
        self.assertGreater(page.run(tall), 150)
        ends = "return document.getElementById('stage13').getBoundingClientRect().bottom <= document.documentElement.scrollHeight"
        self.assertTrue(page.run(ends))
        page.emulate("screen")
        page.run("window.dispatchEvent(new Event('afterprint'))")
        self.assertEqual(page.texts("#stages li"), [])
        self.assertTrue(page.printed().startswith(b"%PDF-"))
        self.is_quiet()

    def test_failures_without_colours(self):
        """Each cell says by a sign and in words what its colour says, and what broke stays said from stage to stage."""
        page = self.opened(NET, DOMAIN / "what-if.json")
        self.assertTrue(page.run(WORDS_OF_STATES))
        page.click("#cell0-6-2")
        said = page.text("#cellsaid")
        page.press("left", "right")
        self.assertEqual(page.text("#cellsaid"), said)
        self.assertEqual(page.text("#legend"), "Crossed: links that failed")
        self.is_quiet()


if __name__ == "__main__":
    unittest.main()
