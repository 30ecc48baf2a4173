#!/usr/bin/env python3
"""Tries the page of the statement in a headless Chromium, at the width of a desktop and of a
telephone, and leaves pictures of it in a folder, to look at. Ends with status 1 where something is
wrong, and 2 where there is no Chromium.

usage: try_statement.py [FOLDER]     FOLDER: out/statement where it is not given
"""
import os
import shutil
import sys
import unittest

sys.path.insert(0, os.path.join(os.path.dirname(os.path.abspath(__file__)), ".."))
from tests.browser import Browser  # which makes documents/ known

import statement
from definitions import TOP

SIZES = {"desktop": (1280, 720), "telephone": (390, 844)}
PLACES = {"top": "", "map": "#map", "reading": "#reading", "tour": "#tour",
          "examples": "#examples", "promises": "#promises", "trusted": "#trusted",
          "chapter": "#chapter1", "clause": "#hose_law-Carries-Carry.enough",
          "long": "#hose_offline-Run-HasRun", "libraries": "#libraries"}
DOWN, ENTER = ("ArrowDown", 40), ("Enter", 13, "\r")
HEAD = "document.querySelector('article:has(:target), article:target').querySelector('h3')"
WAY = "[...document.querySelectorAll('#path a')].map(link => link.textContent)"


class Tries(unittest.TestCase):
    @classmethod
    def setUpClass(cls):
        path = os.path.join(cls.folder, "statement.html")
        cls.page = "file://" + os.path.abspath(path)
        if statement.main(["--html", path]):
            raise ValueError("the page was not made")
        cls.browser = Browser(cls.chromium)

    @classmethod
    def tearDownClass(cls):
        cls.browser.__exit__()

    def setUp(self):
        self.browser.messages.clear()
        self.browser.size(*SIZES["desktop"])

    def tearDown(self):
        self.assertEqual(self.browser.messages, [])

    def value(self, script):
        return self.browser.value(script)

    def goes(self, script):
        """Clicks on what an expression gives, and waits until the page is there."""
        self.browser.click(script)
        self.value("new Promise(done => setTimeout(done, 100))")

    def test_nothing_is_wider_than_the_window(self):
        for name, size in SIZES.items():
            self.browser.size(*size)
            for place, end in PLACES.items():
                with self.subTest(size=name, place=place):
                    milliseconds = self.browser.open(self.page + end)
                    self.value("new Promise(done => setTimeout(done, 100))")
                    self.browser.screenshot(os.path.join(self.folder, f"{name}_{place}.png"))
                    self.assertLessEqual(self.value("document.documentElement.scrollWidth"),
                                         size[0])
            print(f"{name}: the last one was drawn after {milliseconds:.0f} ms")

    def test_the_first_screen_has_the_headline(self):
        self.browser.open(self.page)
        last = "[...document.querySelectorAll('.headline li')].pop()"
        self.assertLess(self.value(f"{last}.getBoundingClientRect().bottom"), SIZES["desktop"][1])

    def test_three_clicks(self):
        for word in ("IsWithinRates", "matrix_load", "Growth"):
            self.browser.open(self.page)
            self.goes("[...document.querySelectorAll('.headline a')]"
                      ".find(link => link.textContent.startsWith('carries every'))")
            self.assertEqual(self.value(f"{HEAD}.textContent"), "Carry")
            self.goes(f"[...{HEAD}.closest('article').querySelectorAll('pre a')]"
                      f".find(link => link.textContent === '{word}')")
            self.assertEqual(self.value(f"{HEAD}.textContent"), word)
        self.browser.open(self.page + "#hose_law-Carries-Carry")
        self.goes("[...document.querySelectorAll('#path a')]"
                  ".find(link => link.textContent === 'IsCheapest')")
        self.goes(f"[...{HEAD}.closest('article').querySelectorAll('pre a')]"
                  ".find(link => link.textContent === 'IsTree')")
        self.assertEqual(self.value(f"{HEAD}.textContent"), "IsTree")

    def test_the_way_from_the_calls_and_back(self):
        self.browser.open(self.page + "#hose_law-Matrix-IsWithinRates")
        way = self.value(WAY)
        self.assertEqual((way[0], way[-2:]), ("offline_ended", ["Carry", "IsWithinRates"]))
        self.goes("[...document.querySelectorAll('#path a')].slice(-2)[0]")
        self.assertEqual(self.value(WAY), way[:-1])
        self.assertEqual(self.value("document.querySelector('#back').textContent"),
                         "\u2190 IsWithinRates")
        self.goes("document.querySelector('#back')")
        self.assertEqual(self.value(WAY), way)

    def test_what_is_asked_for_lies_below_the_bar(self):
        for name, size in SIZES.items():
            self.browser.size(*size)
            self.browser.open(self.page + "#hose_law-Carries-Carry.enough")
            self.value("new Promise(done => setTimeout(done, 300))")
            self.assertGreaterEqual(
                self.value(f"{HEAD}.getBoundingClientRect().top"),
                self.value("document.querySelector('header').getBoundingClientRect().bottom"))

    def test_the_search(self):
        self.browser.open(self.page)
        self.browser.click("document.querySelector('#search input')")
        self.browser.type("matrix_load")
        self.assertEqual(self.value("document.querySelector('#found a').firstChild.textContent"),
                         "matrix_load")
        self.browser.press(*ENTER)
        self.value("new Promise(done => setTimeout(done, 100))")
        self.assertEqual(self.value(f"{HEAD}.textContent"), "matrix_load")
        self.browser.click("document.querySelector('#search input')")
        self.value("document.querySelector('#search input').select()")
        self.browser.type("smaller side")
        found = self.value("[...document.querySelectorAll('#found a')]"
                           ".map(link => link.firstChild.textContent)")
        self.assertIn("smaller_side", found)
        self.assertIn("IsReservation", found)
        self.browser.screenshot(os.path.join(self.folder, "search.png"))
        self.browser.press(*DOWN)
        self.assertEqual(self.value("document.querySelector('[aria-selected=true]')"
                                    ".firstChild.textContent"), found[1])

    def test_all_that_it_rests_on(self):
        self.browser.open(self.page + "#hose_law-Carries-Carry")
        rests = f"{HEAD}.closest('article').querySelector('.rests')"
        count = self.value(f"+{rests}.querySelector('summary').textContent.match(/on (\\d+)/)[1]")
        self.goes(f"{rests}.querySelector('summary')")
        self.browser.screenshot(os.path.join(self.folder, "rests.png"))
        names = self.value(f"[...{rests}.querySelectorAll('p:not(:first-of-type) a')]"
                           ".map(link => link.textContent)")
        self.assertGreaterEqual(len(set(names)), count)
        self.assertLessEqual({"demand", "way_up", "rate_of"}, set(names))


def main(words):
    if len(words) > 1 or words[:1] in (["--help"], ["-h"]):
        print(__doc__.strip())
        return 0 if words[:1] in (["--help"], ["-h"]) else 1
    found = [shutil.which(name) for name in ("chromium", "chromium-browser", "google-chrome")]
    Tries.chromium = next(filter(None, found), None)
    if Tries.chromium is None:
        print("try_statement.py: there is no Chromium here; on Debian, apt-get install chromium",
              file=sys.stderr)
        return 2
    Tries.folder = words[0] if words else os.path.join(TOP, "out", "statement")
    os.makedirs(Tries.folder, exist_ok=True)
    return not unittest.main(argv=sys.argv[:1], exit=False).result.wasSuccessful()


if __name__ == "__main__":
    sys.exit(main(sys.argv[1:]))
