"""Tests of page.py and what it stands on, by small networks. try_page.sh tries it in a browser."""
import html.parser
import json
import math
import os
import subprocess
import sys
import tempfile
import unittest

import networks
import page
import picture
import places
from tests import made_network
from tests.runs import DEMO, TOOLS, link_line, within

STAR = """node a
node b
node h
# at a 0 0
# at b 20 0
# at h 10 5
link a h 10 1
link b h 40 2
link h b 40 3
end
"""
STAR_AUDIT = f"""epoch 7
{link_line(0, "a", "h", 10, 1, 10)}
{link_line(1, "b", "h", 40, 2, 10)}
{link_line(2, "h", "b", 40, 3, 0)}
vpn 7 acme cost 30 ends a:10 b:12 links 0:10 1:10
live 1 cost 30
"""
OUT = link_line(2, "h", "b", 40, 3, 0, out=True, at=7) + "\n"
# The picture is 1000 wide, with margins of 60: a unit of a place is 44 of it. Y grows downward.
NODES = [["a", 60, 280], ["b", 940, 280], ["h", 500, 60]]
LINKS = [[0, 2, 10, 1, 1, 10, 0], [1, 2, 40, 2, 2, 10, 0], [2, 1, 40, 3, 3, 0, 1]]
DEGREES = [(1, 100, "used1", "1 %"), (24, 100, "used1", "24 %"), (25, 100, "used2", "25 %"),
           (74, 100, "used3", "74 %"), (999, 1000, "used4", "99 %"), (1, 1000, "used1", "1 %"),
           (5, 5, "full", "100 %")]
SIDES = [([], "n"), ([0], "w"), ([math.pi / 2], "s"), ([0, math.pi / 2, math.pi], "s"),
         ([-3 * math.pi / 4], "ne")]


def star():
    topology = networks.read_topology(STAR)
    return (*page.audited(topology, None, STAR_AUDIT), page.out_of(topology, OUT))


class Parts(html.parser.HTMLParser):
    """The texts of a page by the identities of their elements, and all attributes."""

    def __init__(self, text):
        super().__init__()
        self.texts, self.attributes, self.now = {}, [], None
        self.feed(text)

    def handle_starttag(self, tag, attrs):
        self.now = dict(attrs).get("id")
        self.attributes += [(tag, *pair) for pair in attrs]

    def handle_data(self, data):
        self.texts.setdefault(self.now, data)


class Pages(unittest.TestCase):
    def test_what_the_script_is_told(self):
        parts = Parts(page.page("star.txt", *star()))
        told = json.loads(parts.texts["network"])
        self.assertEqual(told["nodes"], NODES)
        self.assertEqual([link[:7] for link in told["links"]], LINKS)
        self.assertEqual(told["links"][0][7:], [280, 170])
        self.assertEqual(parts.texts["vpns"], "7 acme 30 a:10,b:12 0:10,1:10")

    def test_a_page_needs_nothing_else(self):
        text = page.page("<b>.txt", *star())
        self.assertTrue(text.isascii())
        self.assertNotIn("<b>", text)
        for tag, name, value in Parts(text).attributes:
            if name in ("href", "src"):
                self.assertEqual((tag, value), ("link", "data:,"))

    def test_each_link_is_drawn_by_its_use(self):
        topology, audit, out = star()
        loads = [link.load for link in audit.links]
        drawn = picture.svg(picture.Picture(topology), loads, out)
        links = [element for element in drawn if "data-link" in element]
        # The busiest link is drawn last, over the others.
        for words, element in zip((('data-link="2"', "link out", "--width:14.0"),
                                   ('data-link="1"', "used2", "--width:14.0", "--width:3.5"),
                                   ('data-link="0"', "full", "--width:7.0", "--width:7.0")), links):
            for word in words:
                self.assertIn(word, element)

    def test_links_between_the_same_nodes_part(self):
        topology, _, _ = star()
        one, other = (picture.Picture(topology).middle(link) for link in topology.links[1:])
        self.assertAlmostEqual(math.dist(one, other), picture.GAP)
        for place in (one, other):  # as far from b as from h
            self.assertAlmostEqual(math.dist(place, (940, 280)), math.dist(place, (500, 60)))

    def test_nodes_at_one_place_are_moved_apart(self):
        """Two, three and twenty nodes, in the middle of the picture, at its edge, and alone."""
        for count in (2, 3, 20):
            for east, north in ((5, 5), (0, 0), (10, 10), (None, None)):
                names = [f"n{node}" for node in range(count)]
                text = "".join(f"node {name}\n# at {name} {east or 0} {north or 0}\n"
                               for name in names)
                if east is not None:
                    text += "node a\n# at a 0 10\nnode b\n# at b 10 0\n"
                text += "".join(f"link {one} {other} 1 1\n"
                                for one, other in zip(names, names[1:]))
                drawn = picture.Picture(networks.read_topology(text + "end\n"))
                near = min(math.dist(one, other) for place, one in enumerate(drawn.nodes)
                           for other in drawn.nodes[:place])
                with self.subTest(count=count, east=east):
                    self.assertGreater(near, 12 if east is None else 20)
                    self.assertTrue(all(0 < x < picture.WIDTH and 0 < y < drawn.height
                                        for x, y in drawn.nodes))
        self.assertEqual(picture.parted([(1.0, 2.0), (9.0, 2.0)], 300), [(1.0, 2.0), (9.0, 2.0)])

    def test_a_link_between_nodes_at_one_place(self):
        """Two links from a to b, of which each has a point that is far from both nodes."""
        topology = networks.read_topology(
            "node a\nnode b\nnode c\n# at a 0 0\n# at b 0 0\n# at c 9 9\n"
            "link a b 1 1\nlink b a 1 1\nlink a c 1 1\nend\n")
        drawn = picture.Picture(topology)
        self.assertAlmostEqual(math.dist(*drawn.ends(topology.links[0])), picture.APART)
        middles = [drawn.middle(link) for link in topology.links[:2]]
        self.assertAlmostEqual(math.dist(*middles), picture.APART / 3)
        for middle in middles:
            for end in drawn.ends(topology.links[0]):
                self.assertGreater(math.dist(middle, end), picture.APART / 2 - 0.001)

    def test_degrees(self):
        for load, capacity, name, percent in DEGREES:
            with self.subTest(load=load, capacity=capacity):
                self.assertEqual(picture.degree(load, capacity), name)
                self.assertEqual(picture.percent(load, capacity), percent)

    def test_names_stand_where_there_is_room(self):
        for angles, side in SIDES:
            self.assertEqual(picture.freest(angles), side)


class Places(unittest.TestCase):
    def test_springs_are_as_long_as_links_lead(self):
        text = "node a\nnode b\nnode c\nlink a b 1 1\nlink b c 1 1\nend\n"
        at = places.places_of(networks.read_topology(text))
        for one, other, length in ((0, 1, 1), (1, 2, 1), (0, 2, 2)):
            self.assertAlmostEqual(math.dist(at[one], at[other]), length, delta=0.05)
        self.assertEqual(at, places.places_of(networks.read_topology(text)))

    def test_many_nodes_are_laid_out_by_another_program(self):
        """A program that puts the nodes 0, 1 and 2 at (0, 0), (1, 1) and (2, 0)."""
        echo = ("sed", "-n", "s/^1$/node 1 1 1/p; s/^[02]$/node & & 0/p")
        at = places.laid_out(3, [(0, 1), (1, 2)], echo)
        for (x, y), place in zip(at, ((0, 0), (1, 1), (2, 0))):
            self.assertAlmostEqual(math.dist((x - at[0][0], y - at[0][1]), place), 0)
        for words in (("sfdp-that-is-not-there",), ("false",), ("echo", "node 0 0 0"),
                      ("echo", "node a b c")):
            self.assertIsNone(places.laid_out(3, [(0, 1), (1, 2)], words), words)

    def test_what_is_laid_out_is_as_broad_as_a_picture(self):
        for before, after in (([(0, 0), (1, 1)], 1.75), ([(0, 0), (1, 4)], 0.5),
                              ([(0, 0), (9, 1)], 9)):
            (left, low), (right, high) = places.broad(before)
            self.assertAlmostEqual((right - left) / (high - low), after)

    def test_what_has_a_place_stays_there(self):
        text = STAR.replace("# at b 20 0\n", "")
        at = places.places_of(networks.read_topology(text))
        self.assertEqual((at[0], at[2]), ((0, 0), (10, 5)))
        self.assertAlmostEqual(math.dist(at[1], at[2]), math.hypot(10, 5), delta=0.5)

    def test_the_places_of_a_topology_in_json(self):
        links = '"links": [{"a": "a", "b": "b", "capacity": 1, "length": 1}]'
        topology = networks.read_json(f"""{{"nodes": ["a", "b", "c", "d"], {links}, "places":
            {{"a": [8.5, -47], "b": ["8", 47], "c": [1], "d": [true, 1], "e": [1, 2]}}}}""")
        self.assertEqual(topology.places, {"a": (8.5, -47.0)})
        self.assertEqual(networks.read_json(f'{{"nodes": ["a", "b"], {links}, "places": 7}}').places,
                         {})

    def test_networks_that_have_no_extent(self):
        for text in ("node a\nend\n", "node a\nnode b\nend\n",
                     "node a\n# at a 3 3\nnode b\n# at b 3 3\nlink a b 1 1\nend\n"):
            drawn = picture.Picture(networks.read_topology(text))
            self.assertTrue(all(0 <= x <= 1000 and 0 <= y <= drawn.height
                                for x, y in drawn.nodes), text)


class MadeNetworks(unittest.TestCase):
    def test_loads_are_what_vpns_reserve(self):
        topology, audit = made_network.made(30, 60, 50)
        _, audit = page.audited(networks.read_topology(topology), None, audit)
        loads = [0] * 60
        for vpn in audit.vpns:
            for link, amount in vpn.amounts:
                loads[link] += amount
        self.assertEqual([link.load for link in audit.links], loads)
        self.assertTrue(all(link.load <= link.capacity for link in audit.links))


class Tariffs(unittest.TestCase):
    """The lengths of STAR are 1, 2 and 3, so `hops` costs 1, 1, 1 and `long` 7, 9, 11."""

    AUDITS = {name: STAR_AUDIT.replace("cost 1 load", f"cost {costs[0]} load")
              .replace("cost 2 load", f"cost {costs[1]} load")
              .replace("cost 3 load", f"cost {costs[2]} load")
              for name, costs in (("hops", (1, 1, 1)), ("long", (7, 9, 11)))}

    def test_the_costs_are_those_of_the_audit(self):
        topology = networks.read_topology(STAR)
        for name, audit in self.AUDITS.items():
            for tariff in (None, name):
                found, _ = page.audited(topology, tariff, audit)
                self.assertEqual(found, networks.priced(topology, name))
        for tariff, audit in (("hops", self.AUDITS["long"]), ("long", STAR_AUDIT),
                              (None, STAR_AUDIT.replace("cost 3 load", "cost 4 load"))):
            with self.assertRaisesRegex(networks.OtherNetwork, "link [02] is "):
                page.audited(topology, tariff, audit)

    def test_a_topology_in_json(self):
        """The page of demo/alps.json has the links of demo/alps.txt, with the costs of `hops`."""
        topology = networks.load_topology(os.path.join(DEMO, "alps.json"))
        text = networks.load_topology(os.path.join(DEMO, "alps.txt"))
        self.assertEqual((topology.nodes, topology.links, topology.places),
                         (text.nodes, text.links, text.places))
        self.assertEqual(len(topology.places), len(topology.nodes))
        lines = "".join(link_line(link.number, link.a, link.b, link.capacity, 1, 0) + "\n"
                        for link in text.links)
        with tempfile.NamedTemporaryFile("w") as audit:
            audit.write(f"epoch 0\n{lines}live 0 cost 0\n")
            audit.flush()
            for words in ([], ["--tariff", "hops"]):
                status, output, error = within("page.py", page.main, *words,
                                               os.path.join(DEMO, "alps.json"), audit.name)
                self.assertEqual((status, error), (0, ""))
                told = json.loads(Parts(output).texts["network"])
                self.assertEqual([link[2:6] for link in told["links"]],
                                 [[link.capacity, link.length, 1, 0] for link in text.links])


class Program(unittest.TestCase):
    def ended(self, *words, **how):
        return subprocess.run([sys.executable, os.path.join(TOOLS, "page.py"), *words],
                              stderr=subprocess.PIPE, universal_newlines=True, **how)

    def test_wrong_input_is_told_in_one_sentence(self):
        with tempfile.TemporaryDirectory() as folder:
            for name, text in (("star", STAR), ("audit", STAR_AUDIT), ("png", "\x89PNG\0"),
                               ("other", STAR_AUDIT.replace("capacity 10", "capacity 11")),
                               ("out", OUT), ("out_other", OUT.replace("link 2", "link 3"))):
                with open(os.path.join(folder, name), "w", encoding="latin-1") as file:
                    file.write(text)
            for words, sentence in (
                    ("nothing", "nothing cannot be read: No such file or directory"),
                    (".", ". cannot be read: Is a directory"),
                    ("png", "png is not a text"),
                    ("audit", "audit, line 1: 'epoch 7' is not a line of a topology"),
                    ("star star", "star, line 1: it is not an audit"),
                    ("star other", "other is of another network than star: link 0 is a h capacity "
                                   "11 cost 1, and that of the network is a h capacity 10 cost 1"),
                    ("star audit audit", "audit, line 2: "),
                    ("star audit out_other", "out_other is of another network than star: there is "
                                             "a link 3, and the network has 3 links")):
                with self.subTest(words=words):
                    ended = self.ended(*words.split(), cwd=folder, stdout=subprocess.PIPE)
                    self.assertEqual((ended.returncode, ended.stdout), (2, ""))
                    self.assertTrue(ended.stderr.startswith(f"page.py: {sentence}"), ended.stderr)
                    self.assertEqual(ended.stderr.count("\n"), 1)
            ended = self.ended("star", "audit", "out", cwd=folder, stdout=subprocess.DEVNULL)
            self.assertEqual((ended.returncode, ended.stderr), (0, ""))

    def test_a_pipe_that_nobody_reads(self):
        reads, writes = os.pipe()
        os.close(reads)
        try:
            ended = self.ended("-", input=STAR, stdout=writes)
        finally:
            os.close(writes)
        self.assertEqual((ended.returncode, ended.stderr), (networks.NOBODY_READS, ""))
