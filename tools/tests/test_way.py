"""Tests of bench/measure/way.py: the longest way through the proofs of a gate, and its clock."""
import importlib.util
import os
import unittest

SCRIPT = os.path.join(os.path.dirname(os.path.abspath(__file__)), "../../bench/measure/way.py")
SPEC = importlib.util.spec_from_file_location("way", SCRIPT)
way = importlib.util.module_from_spec(SPEC)
SPEC.loader.exec_module(way)

CRATES = """# What each stands on.
low:
left: low itoa
right main=Threads: low
top: left right   # the program
"""
TABLE = """crate                   proof    tests    edits
left                       60        0        0
low                       120        0      600
right                     180       30        0
top                        60        0        0
all                       420       30      600
"""


class Way(unittest.TestCase):
    def setUp(self):
        self.below, self.costs = way.below_of(CRATES), way.costs_of(TABLE)

    def test_crates_and_table_are_read(self):
        self.assertEqual(
            self.below, {"low": [], "left": ["low"], "right": ["low"], "top": ["left", "right"]})
        self.assertEqual(self.costs["right"], {"proof": 180, "tests": 30, "edits": 0})
        self.assertNotIn("all", self.costs)

    def test_the_way_goes_through_what_is_ready_last(self):
        self.assertEqual(
            way.way_to(self.below, self.costs, "top"), [("low", 120), ("right", 300), ("top", 360)])

    def test_the_clock_of_one_processor_is_all_work_and_of_many_the_longest_end(self):
        self.assertEqual(way.clock(self.below, self.costs, 1), 1050)
        self.assertEqual(way.clock(self.below, self.costs, 2), 600)
        self.assertEqual(way.clock(self.below, self.costs, 9), 600)

    def test_what_is_printed(self):
        lines = list(way.told(self.below, self.costs, "top", 4))
        self.assertEqual(lines[2], f"{'right':<20} {'3.0':>8} {'5.0':>8}  low")
        self.assertEqual(
            lines[4], "the longest way to top: 6.0 minutes at one processor for a crate")
        self.assertEqual(lines[5], "the longest of all is to top: 6.0")
        self.assertEqual(lines[6], "all: 17.5, on 4 processors 4.4 at least")
        self.assertEqual(lines[7], "each task as soon as one is free: 10.0")


if __name__ == "__main__":
    unittest.main()
