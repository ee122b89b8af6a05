"""The pages of `tt serve` in a browser, by keyboard and pointer, with scripts and without; skipped where there is none."""

from __future__ import annotations

import sys
import unittest

from browser import KEYS, Browser, missing
from pages import PagesCase
from support import DAY, Version

START = 13_717 * DAY
NAME = "<img src=x onerror=alert(1)>.txt"
TEXT = "</pre><script>document.title='owned'</script> a bridge"

if missing():
    print(f"test_browser: skipped: {missing()}", file=sys.stderr)


@unittest.skipIf(missing(), missing())
class InABrowser(PagesCase):
    def setUp(self) -> None:
        super().setUp()
        changes = [Version(START + DAY * k, "bridge", f"The bridge is {'open' if k % 2 else 'closed'} for the {k}th time.") for k in range(10)]
        self.fill([*changes, Version(START + 10 * DAY, NAME, TEXT), Version(START + 11 * DAY, NAME, TEXT + " s")])
        self.serve()
        self.home = f"http://127.0.0.1:{self.port}"

    def browse(self, with_scripts: bool) -> Browser:
        browser = Browser(with_scripts)
        self.addCleanup(browser.end)
        browser.go(f"{self.home}/")
        browser.press("#q", "bridge" + KEYS["Enter"])
        self.assertEqual(browser.wait_for("/find"), f"{self.home}/find?q=bridge")
        return browser

    def test_with_scripts(self) -> None:
        browser = self.browse(True)
        browser.press("#slide", KEYS["Home"])
        self.assertEqual(browser.wait_for("at="), f"{self.home}/find?q=bridge&at=2007-07-23")
        self.assertEqual(browser.value("#at"), "2007-07-23")
        self.assertIn("1 document at 2007-07-23.", browser.text("main"))
        # A click on the picture's band asks at the time of its end.
        browser.point("svg", 0.5, 0.5)
        self.assertRegex(browser.wait_for("2007-07-28T"), r"/find\?q=bridge&at=2007-07-28T\d\d%3A\d\d%3A\d\dZ$")
        browser.click(".hits .name")
        self.assertIn("/text?doc=bridge&at=2007-07-28T", browser.wait_for("/text"))
        browser.press("main", "[")
        self.assertEqual(browser.wait_for("27"), f"{self.home}/text?doc=bridge&at=2007-07-27&q=bridge")
        browser.press("main", "]")
        self.assertEqual(browser.wait_for("28"), f"{self.home}/text?doc=bridge&at=2007-07-28&q=bridge")
        browser.press("main", "/")
        self.assertEqual(browser.focused(), "q")
        browser.press("#q", "[]/")
        self.assertEqual(browser.value("#q"), "[]/bridge")
        self.assertEqual(browser.log(), [])

    def test_by_keyboard(self) -> None:
        browser = self.browse(True)
        browser.press("body", KEYS["Tab"])
        seen = [browser.focused()]
        for _ in range(13):
            browser.press("*:focus", KEYS["Tab"])
            seen.append(browser.focused())
        wanted = ["to the answer", "archive", "q", "Ask", "at", "slide", "at a time", "over time", "heat map", "what changed", "names", "cite"]
        self.assertEqual(seen[: len(wanted)], wanted)
        self.assertEqual(browser.log(), [])

    def test_without_scripts(self) -> None:
        browser = self.browse(False)
        browser.press("#slide", KEYS["Home"])
        browser.click("noscript button")
        self.assertEqual(browser.wait_for("at="), f"{self.home}/find?q=bridge&at=2007-07-23")
        for to in ("/between?q=bridge", "/heat?q=bridge", "/changes", "/diff?doc=bridge&at=2007-07-24"):
            browser.go(self.home + to)
            self.assertIn("bridge", browser.text("main"))
        self.assertEqual(browser.log(), [])

    def test_hostile_names_and_texts(self) -> None:
        browser = self.browse(True)
        self.assertIn(NAME, browser.text(".hits"))
        browser.click(f".hits li:nth-child({1 + [name for _, name in self.get('/find?q=bridge').rows].index(NAME)}) .name")
        browser.wait_for("/text")
        self.assertEqual((browser.text("h1"), browser.text("pre"), browser.title()), (NAME, TEXT + " s", NAME))
        for path in ("/between?q=bridge", "/heat?q=bridge", "/diff?doc=%3Cimg%20src%3Dx%20onerror%3Dalert%281%29%3E.txt", "/changes"):
            browser.go(self.home + path)
            self.assertNotEqual(browser.title(), "owned")
        self.assertEqual(browser.log(), [])
