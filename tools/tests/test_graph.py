"""Tests of graph.py: the picture of a small audit, worked out by hand."""
import json
import os
import re
import tempfile
import unittest

import graph
import networks
from tests.runs import link_line, within

AUDIT = f"""epoch 1
{link_line(0, "a", "h", 10, 1, 0)}
{link_line(1, "b", "h", 10, 2, 5)}
{link_line(2, "c", "h", 10, 3, 10)}
live 0 cost 40
"""
TOPOLOGY = "node a\nnode b\nnode c\nnode h\n" \
    "link a h 10 1\nlink b h 10 2\nlink c h 10 3\nend\n"
JSON = json.dumps({"nodes": ["a", "b", "c", "h"], "links": [
    {"a": name, "b": "h", "capacity": 10, "length": length}
    for name, length in (("a", 1), ("b", 2), ("c", 3))]})
# A hue of a third is green, and one of 0 red; a link's width goes from 1 to 12, by its load.
DRAWN = [
    'graph {',
    '  "a" -- "h" [label="0: 0", penwidth=1.0, color="0.333 1 0.8"];',
    '  "b" -- "h" [label="1: 5", penwidth=6.5, color="0.167 1 0.8"];',
    '  "c" -- "h" [label="2: 10", penwidth=12.0, color="0.000 1 0.8"];',
    '}',
]
REPLIES = f"""bye
{link_line(2, "c", "h", 10, 3, 10, out=True, at=1)}
{link_line(1, "b", "h", 10, 2, 5, out=True, at=2)}
{link_line(1, "b", "h", 10, 2, 5, at=3)}
"""


class Graphs(unittest.TestCase):
    def test_an_audit(self):
        self.assertEqual(graph.graph(graph.read_links(AUDIT)), DRAWN)

    def test_a_link_is_dashed_that_was_told_last_to_be_out(self):
        replies = networks.read_link_replies(REPLIES)
        dashed = [line for line in graph.graph(graph.read_links(AUDIT), replies) if "dash" in line]
        self.assertEqual(dashed, [DRAWN[3].replace("];", ", style=dashed];")])

    def test_replies_alone(self):
        drawn = graph.graph(graph.read_links(REPLIES))
        self.assertEqual([line.split(" [")[0] for line in drawn],
                         ['graph {', '  "b" -- "h"', '  "c" -- "h"', '}'])

    def test_another_text(self):
        sentence = "line 2: .*, and the text is neither an audit nor a topology"
        with self.assertRaisesRegex(networks.WrongText, sentence):
            graph.read_links("bye\nlink a b 1 1\n")

    def test_a_topology(self):
        """Its links carry nothing: each is as thin as they get, and green."""
        drawn = [DRAWN[0], DRAWN[1], *(DRAWN[1].replace('"a"', name).replace("0: 0", f"{link}: 0")
                                       for link, name in ((1, '"b"'), (2, '"c"'))), DRAWN[4]]
        for name, text in (("star.txt", TOPOLOGY), ("star.json", JSON)):
            with tempfile.TemporaryDirectory() as folder:
                path = os.path.join(folder, name)
                with open(path, "w", encoding="ascii") as file:
                    file.write(text)
                self.assertEqual(within("graph.py", graph.main, path),
                                 (0, "".join(f"{line}\n" for line in drawn), ""))

    def test_a_book_under_a_tariff(self):
        """What links cost is not drawn."""
        audit = re.sub("cost [123] ", "cost 1 ", AUDIT)
        self.assertEqual(graph.graph(graph.read_links(audit)), DRAWN)
