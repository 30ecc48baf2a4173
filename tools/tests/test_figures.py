"""Tests of figures as a text for Prometheus."""
import unittest

import figures


class Told(unittest.TestCase):
    def test_the_text(self):
        families = [
            figures.gauge("one", "A number.", 1),
            figures.Family("two", "counter", "By name.", [
                figures.Sample({"name": 'a"\\\n', "other": "b"}, 2), figures.Sample({}, 3, "_sum")])]
        self.assertEqual(figures.exposed(families), (
            "# HELP one A number.\n# TYPE one gauge\none 1\n"
            "# HELP two By name.\n# TYPE two counter\n"
            'two{name="a\\"\\\\\\n",other="b"} 2\ntwo_sum 3\n'))
