"""Looks at the page of a hunt as headless Chromium shows it, as test_tools does at the rest: what stands wider than the window, and the rules of axe-core."""
import unittest

import browsing
import looking
from test_pages import sound
from looking import Hunting

# What axe-core can't tell by itself where text is broken in two lines, whatever the colours: checks/tools computes the contrasts of all of them (test_pages.Style).
BY_STYLE = "color-contrast"


@unittest.skipUnless(browsing.browser_here(), "there is no Chromium here")
class Screens(Hunting):
    """One hunt with rows, with a pair of folds, and with long words; and one without a row."""

    @classmethod
    def setUpClass(cls):
        super().setUpClass()
        cls.axe = browsing.axe_core()
        try:
            cls.browser = browsing.Browser()
            cls.addClassCleanup(cls.browser.__exit__)
        except (browsing.Broken, OSError) as trouble:
            cls.browser, cls.trouble = None, trouble

    def setUp(self):
        super().setUp()
        if self.browser is None:
            self.skipTest(f"Chromium doesn't start here: {self.trouble}")
        long = "a_name_without_any_end_" * 6
        self.write("upper.c", looking.UPPER.replace("    int c;\n", f"    int c; /* {long} */\n"))
        self.write("in puts/13 !" + long[:120], "!" + long)

    def page(self, *words, due=0):
        self.hunt("--inputs", "in puts", *words, "--html", "page.html", due=due)
        sound(self, self.read("page.html").decode())
        return self.path("page.html")

    def pages(self):
        yield "rows", self.page("--oracle", "python3 judge.py", "--rate", "2", "--runs", "200", "--seed", "3")
        self.write("in puts/13 !" + "a_name_without_any_end_" * 5 + "a_nam", "b")
        yield "no row", self.page("--rate", "1", due=None)

    def test_nothing_is_wider_than_the_window(self):
        for name, path in self.pages():
            for width in (320, 375, 768, 1200):
                self.browser.show(path, width, 800)
                self.browser.evaluate("document.querySelectorAll('details').forEach(one => { one.open = true; })")
                self.assertEqual(self.browser.too_wide(), [0, []], (name, width))

    def test_axe_finds_nothing(self):
        if self.axe is None:
            self.skipTest("this browser has no axe-core in its tools for developers")
        for name, path in self.pages():
            for width, dark in ((1200, False), (1200, True), (320, False), (320, True)):
                self.browser.show(path, width, 800, dark)
                self.browser.evaluate("document.querySelectorAll('details').forEach(one => { one.open = true; })")
                found = self.browser.axe(self.axe)
                self.assertEqual(found["violations"], [], (name, width, dark))
                self.assertEqual([said for said in found["unsure"] if said[0] != BY_STYLE], [], (name, width, dark))
                self.assertGreater(found["met"], 15, (name, width, dark))

    def test_axe_would_find_what_is_wrong(self):
        """The same page with a link without words and text that is hardly seen."""
        if self.axe is None:
            self.skipTest("this browser has no axe-core in its tools for developers")
        text = self.read(self.page("--oracle", "python3 judge.py", "--rate", "1")).decode()
        self.write("page.html", text.replace("</main>", '<p><a href="#main"></a></p><p style="color:#ccc;background:#fff">hardly seen</p></main>').replace(' lang="en"', ""))
        self.browser.show(self.path("page.html"), 1200, 800)
        found = {name for name, _ in self.browser.axe(self.axe)["violations"]}
        self.assertTrue({"link-name", "color-contrast", "html-has-lang"} <= found, found)

    def test_dark_and_paper_are_heeded(self):
        path = self.page("--oracle", "python3 judge.py", "--rate", "1")
        grounds = []
        for dark in (False, True):
            self.browser.show(path, 1200, 800, dark)
            grounds.append(self.browser.evaluate("getComputedStyle(document.body).backgroundColor"))
        self.assertEqual(grounds, ["rgb(255, 255, 255)", "rgb(21, 23, 27)"])
        self.browser.ask("Emulation.setEmulatedMedia", media="print")
        self.assertEqual(self.browser.evaluate("getComputedStyle(document.querySelector('nav')).display"), "none")
        self.assertEqual(self.browser.evaluate("getComputedStyle(document.querySelector('.row')).breakInside"), "avoid")
        self.browser.ask("Emulation.setEmulatedMedia", media="")
