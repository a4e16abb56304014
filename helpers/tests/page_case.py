"""Pages of view opened in a browser, for the tests of what they show."""

from browser import Browser
from support import ToolCase, run_tool

PROGRESS = "view: asking srv6 ..\n"  # of a machine that has other work

class PageCase(ToolCase):
    """Tests that share one window of the browser."""

    maxDiff = None
    browser: Browser

    @classmethod
    def setUpClass(cls) -> None:
        super().setUpClass()
        cls.browser = Browser()
        cls.addClassCleanup(cls.browser.close)

    def opened(self, *words) -> Browser:
        """The page that the tool writes, opened."""
        ran = run_tool("view", *words)
        self.assertEqual((ran.status, ran.err.replace(PROGRESS, "")), (0, ""))
        self.browser.open(self.file("page.html", ran.raw))
        return self.browser

    def is_quiet(self) -> None:
        """The console has no error, and nothing was asked for from elsewhere."""
        self.assertEqual(self.browser.console(), [])
        asked = "return performance.getEntriesByType('resource').map((one) => one.name)"
        self.assertEqual(self.browser.run(asked), [])
