"""Tests of topologies.py, from_graphml.py and from_sndlib.py, by small networks in data/ and demo/.

The lengths were worked out by hand: a degree of a great circle is 111.195 km.
"""
import json
import math
import os
import tempfile
import unittest

import from_graphml
import from_sndlib
import networks
import topologies
from networks import Link, WrongInput
from tests.runs import DEMO, TOOLS, within
from topologies import Draft

DATA = os.path.join(TOOLS, "tests", "data")

QUIRKS = """\
# at zurich 0 0
node zurich
# at frankfurt-am-mai 1 0
node frankfurt-am-mai
# at frankfurt-am-m-2 180 0
node frankfurt-am-m-2
# at n3 0 0.001
node n3
node n4
node plain-5
link zurich frankfurt-am-mai 45 111
link frankfurt-am-mai zurich 1 111
link zurich frankfurt-am-m-2 1000000000 20015
link zurich n3 155 1
link zurich n4 7 9
link n4 plain-5 7 9
end
"""
CHANGES = [
    "the first of 2 graphs is taken",
    "the graph is directed, and each edge becomes a link for both directions",
    "node 'Zürich' is zurich",
    "node 'Frankfurt am Main Nord' is frankfurt-am-mai",
    "node 'Frankfurt am Main Ost' is frankfurt-am-m-2",
    "node '???' is n3",
    "node 'n4' has no place: '0', '95' are no longitude and latitude",
    "a second node 'n4' is dropped",
    "node 'n5' has no place: '0', 'nowhere' are no longitude and latitude",
    "the graph within node 'n5' is dropped",
    "link 0 from zurich to frankfurt-am-mai has the capacity 45 in place of 45.5",
    "link 1 from frankfurt-am-mai to zurich has the capacity 1 in place of 0.5",
    "link 2 from zurich to frankfurt-am-m-2 has the capacity 1000000000 in place of 2000000000",
    "link 3 from zurich to n3 is shorter than a km, and has the length 1",
    "a link from n3 to itself is dropped",
    "a link to 'n9', which is no node, is dropped",
    "a LinkSpeedRaw of 'fast' is none",
    "edges of more than two nodes are dropped: 1",
    "2 of 6 links have the capacity 7 by --capacity",
    "2 of 6 links have the length 9 by --length",
]
SNDLIB = """\
# at aa 0 0
node aa
# at bb-1 1 0
node bb-1
# at bb-1-2 0 -1
node bb-1-2
link aa bb-1 9920 111
link aa bb-1-2 622 111
link bb-1 bb-1-2 3 157
end
"""
SNDLIB_CHANGES = [
    "node 'Aa' is aa",
    "node 'Bb_1' is bb-1",
    "node 'BB.1' is bb-1-2",
    "link 0 from aa to bb-1 has the capacity 9920 in place of 9920.5",
    "a link from bb-1-2 to itself is dropped",
    "1 of 3 links have the capacity 3 by --capacity",
]
HEAD = "?SNDlib native format; type: network; version: 1.0\n"


def drafted(read, name, capacity=None, length=None):
    with open(os.path.join(DATA, name), "rb") as file:
        content = file.read()
    draft = Draft(capacity, length)
    read(content, draft)
    return draft


def run(tool, *words):
    """The program's status, output and what it says on standard error."""
    read = from_graphml if tool == "from_graphml.py" else from_sndlib
    return within(tool, lambda: topologies.main(read.__doc__, read.read), *words)


class Drafts(unittest.TestCase):
    def test_names(self):
        draft = Draft()
        for label in ("a", "A", "a-2", "?", "!", "x" * 20, "x" * 17, "-a b-", "a" * 15 + " b"):
            draft.add_node(f"{len(draft.names)}", label, None)
        self.assertEqual(list(draft.names.values()), [
            "a", "a-2", "a-2-2", "3", "4", "x" * 16, "x" * 14 + "-2", "a-b", "a" * 15,
        ])

    def test_marks(self):
        """Letters with a mark lose it, whether it stands apart or not; others are spelled out."""
        for label, name in (
            ("Z\xfcrich", "zurich"), ("Zu\u0308rich", "zurich"), ("ZU\u0308RICH", "zurich"),
            ("Troms\xf8", "tromso"), ("\u0141\xf3d\u017a", "lodz"), ("Gie\xdfen", "giessen"),
            ("\xc6r\xf8", "aero"), ("\u0130zmir", "izmir"), ("S\xe3o Paulo", "sao-paulo"),
            ("\u041a\u0438\u0435\u0432", ""), ("\ufb01ve", "five"), ("\xb2", "2"),
        ):
            self.assertEqual(topologies.name_of(label), name)

    def test_great_circles(self):
        for one, other, km in (
            ((0, 0), (1, 0), 111.195), ((179.5, 0), (-179.5, 0), 111.195),
            ((7, 45), (7, 46), 111.195), ((20, 90), (-90, -90), 20015.114), ((3, 4), (3, 4), 0),
        ):
            self.assertAlmostEqual(topologies.kilometres(one, other), km, places=3)

    def test_places(self):
        self.assertEqual(topologies.place("-180", "90.0"), (-180, 90))
        for texts in (("180.5", "0"), ("0", "-90.5"), ("nan", "0"), ("0", None), ("e", "n")):
            self.assertIsNone(topologies.place(*texts))

    def test_limits(self):
        """What stands at a limit is taken, and one more is refused."""
        draft = Draft(capacity=1, length=1)
        for node in range(512):
            draft.add_node(f"{node}", f"{node}", None)
        for link in range(2048):
            draft.add_link("0", f"{1 + link % 511}", None)
        found = networks.read_topology(networks.text_of(draft.topology()))
        self.assertEqual((len(found.nodes), len(found.links)), (512, 2048))
        with self.assertRaisesRegex(WrongInput, "more than 512 nodes"):
            draft.add_node("512", "512", None)
        with self.assertRaisesRegex(WrongInput, "more than 2048 links"):
            draft.add_link("0", "1", None)
        with self.assertRaisesRegex(WrongInput, "there is no node"):
            Draft().topology()


class GraphMl(unittest.TestCase):
    def test_quirks(self):
        draft = drafted(from_graphml.read, "quirks.graphml", capacity=7, length=9)
        self.assertEqual(networks.text_of(draft.topology()), QUIRKS)
        self.assertEqual(draft.changes, CHANGES)

    def test_the_text_is_one_of_a_topology(self):
        draft = drafted(from_graphml.read, "quirks.graphml", capacity=7, length=9)
        self.assertEqual(networks.read_topology(QUIRKS), draft.topology())

    def test_what_is_wanted(self):
        """All at once."""
        capacity = "2 of 6 links have no capacity: give one by --capacity"
        length = "2 of 6 links have no length, as n4, plain-5 have no place: give one by --length"
        for given, sentence in (
            ({"length": 1}, capacity), ({"capacity": 1}, length), ({}, f"{capacity}; {length}"),
        ):
            with self.assertRaises(WrongInput) as caught:
                drafted(from_graphml.read, "quirks.graphml", **given).topology()
            self.assertEqual(str(caught.exception), sentence)

    def test_many_nodes_without_a_place(self):
        draft = Draft(capacity=1)
        for node in range(7):
            draft.add_node(f"{node}", f"{node}", None)
        draft.add_link("0", "1", None)
        with self.assertRaisesRegex(WrongInput, "have no length, as 0, 1, 2, 3, 4 and 2 more have"):
            draft.topology()

    def test_networkx(self):
        """Two attributes of one name, of different types; parallel links; a node without label."""
        found = drafted(from_graphml.read, "networkx.graphml").topology()
        self.assertEqual(found.nodes, ["hub-a", "b", "3"])
        self.assertEqual(found.links, [
            Link(0, "hub-a", "b", 1000, 111, 111), Link(1, "hub-a", "b", 2500, 111, 111),
            Link(2, "hub-a", "3", 100, 111, 111),
        ])

    def test_what_is_no_graphml(self):
        for content, sentence in (
            (b"", "it is not GraphML, nor any other XML: no element found"),
            (b"node a\nend\n", "it is not GraphML, nor any other XML: syntax error"),
            (b"\x00\xff\x7fELF", "nor any other XML"),
            (b'<?xml version="1.0" encoding="nope"?><graphml/>', "nor any other XML"),
            (b"<html><graph/></html>", "its root is 'html'"),
            (b"<graphml><key/></graphml>", "there is no graph in it"),
        ):
            with self.assertRaisesRegex(WrongInput, sentence):
                from_graphml.read(content, Draft())


class SndLib(unittest.TestCase):
    def test_small(self):
        for name in ("small_sndlib.txt", "small_sndlib.xml"):
            draft = drafted(from_sndlib.read, name, capacity=3)
            self.assertEqual(networks.text_of(draft.topology()), SNDLIB)
            self.assertEqual(draft.changes, SNDLIB_CHANGES)

    def test_a_node_without_coordinates(self):
        """It has no place, and the others have theirs. A degree is 111 km."""
        links = "LINKS ( l ( a b ) 1 0 0 0 ( ) m ( b c ) 1 0 0 0 ( ) )"
        with open(os.path.join(DATA, "small_sndlib.xml"), encoding="latin-1") as file:
            xml = file.read()
        gone = "<coordinates><x>1.00</x><y>0.00</y></coordinates>"
        for text, nodes, lengths in (
            (HEAD + "NODES ( a ( 0 0 ) b ( 1 0 ) c ) " + links, "ab", [111, 5]),
            (HEAD + "NODES ( a b ( 1 0 ) c ( ) ) " + links, "b", [5, 5]),
            (HEAD + "NODES ( a b c ) " + links, "", [5, 5]),
            (xml.replace(gone, ""), ["aa", "bb-1-2"], [5, 111, 5]),
            (xml.replace(gone, "<coordinates/>"), ["aa", "bb-1-2"], [5, 111, 5]),
        ):
            draft = Draft(capacity=1, length=5)
            from_sndlib.read(text.encode(), draft)
            self.assertEqual(list(draft.topology().places), list(nodes))
            self.assertEqual([link.length for link in draft.links], lengths)
            self.assertFalse([change for change in draft.changes if "coordinates" in change])

    def test_a_picture_in_xml(self):
        with open(os.path.join(DATA, "small_sndlib.xml"), "rb") as file:
            content = file.read().replace(b"geographical", b"pixel")
        draft = Draft(capacity=1, length=5)
        from_sndlib.read(content, draft)
        self.assertEqual(draft.topology().places, {})
        self.assertIn("the coordinates are 'pixel', so no node has a place", draft.changes)

    def test_a_file_in_latin_1(self):
        draft = Draft(capacity=1, length=5)
        text = HEAD + "NODES ( Z\xfcrich ( 8 47 ) ) LINKS ( )"
        for encoding in ("utf-8", "latin-1"):
            draft = Draft()
            from_sndlib.read(text.encode(encoding), draft)
            self.assertEqual(list(draft.names.values()), ["zurich"])

    def test_coordinates_of_a_picture(self):
        draft = Draft(capacity=1, length=5)
        text = HEAD + "NODES ( a ( 10 20 ) b ( 640 480 ) ) LINKS ( l ( a b ) 0 0 0 0 ( ) )"
        from_sndlib.read(text.encode(), draft)
        self.assertEqual((draft.topology().places, draft.links), ({}, [Link(0, "a", "b", 1, 5, 5)]))
        self.assertIn("not all longitudes and latitudes", draft.changes[0])

    def test_what_is_no_network_of_sndlib(self):
        for text, sentence in (
            ("", "it begins neither as XML nor with"),
            ("node a\nend\n", "it begins neither as XML nor with"),
            (HEAD.replace("network", "model"), "it begins neither as XML nor with"),
            ("<network", "it is not SNDlib's XML, nor any other XML"),
            ("<graphml/>", "its root is 'graphml', not 'network'"),
            ("<network/>", "there is no networkStructure with nodes in it"),
            ("<network><networkStructure><nodes/></networkStructure></network>", "links in it"),
            ("<network><networkStructure><nodes/><links><link id='l'><source>a</source></link>"
             "</links></networkStructure></network>", "link 1 does not have two nodes"),
            (HEAD, "no section NODES"),
            (HEAD + "NODES ( a ( 1 2 ) ) LINKS", "no section LINKS"),
            (HEAD + "NODES ( a ( 1 2 ) LINKS ( )", r"a \( has no \) after it"),
            (HEAD + "NODES ( ) )", r"a \) has no \( before it"),
            (HEAD + "NODES ( a ( 1 2 ) ( 3 4 ) ) LINKS ( )", "node 1 is not as in SNDlib"),
            (HEAD + "NODES ( ( 1 2 ) ) LINKS ( )", "node 0 is not as in SNDlib"),
            (HEAD + "NODES ( a ( ( 1 2 ) ) ) LINKS ( )", "node 1 is not as in SNDlib"),
            (HEAD + "NODES ( ) LINKS ( l ( a b ) 1 0 0 ( ) )", "link 1 is not as in SNDlib"),
            (HEAD + "NODES ( ) LINKS ( l ( a ) 1 0 0 0 ( ) )", "link 1 does not have two nodes"),
        ):
            with self.assertRaisesRegex(WrongInput, sentence):
                from_sndlib.read(text.encode(), Draft())


class Programs(unittest.TestCase):
    def test_the_alps(self):
        """The topology in demo/, and its lengths by the law of cosines."""
        with open(os.path.join(DEMO, "alps.txt"), encoding="ascii") as file:
            text = file.read()
        status, output, error = run("from_graphml.py", os.path.join(DEMO, "alps.graphml"))
        self.assertEqual((status, output), (0, text))
        self.assertIn("from_graphml.py: a link from milan to itself is dropped\n", error)
        topology = networks.read_topology(text)
        for link in topology.links:
            (east, north), (far_east, far_north) = (
                map(math.radians, topology.places[name]) for name in (link.a, link.b)
            )
            angle = math.acos(
                math.sin(north) * math.sin(far_north)
                + math.cos(north) * math.cos(far_north) * math.cos(east - far_east)
            )
            self.assertEqual(link.length, round(6371.0088 * angle))

    def test_json(self):
        status, output, _ = run(
            "from_sndlib.py", "--json", "--capacity", "3", os.path.join(DATA, "small_sndlib.txt")
        )
        self.assertEqual((status, json.loads(output)), (0, {
            "nodes": ["aa", "bb-1", "bb-1-2"],
            "links": [
                {"a": "aa", "b": "bb-1", "capacity": 9920, "length": 111},
                {"a": "aa", "b": "bb-1-2", "capacity": 622, "length": 111},
                {"a": "bb-1", "b": "bb-1-2", "capacity": 3, "length": 157},
            ],
            "places": {"aa": [0, 0], "bb-1": [1, 0], "bb-1-2": [0, -1]},
        }))

    def test_one_sentence_and_status_2(self):
        star = os.path.join(DEMO, "star.txt")
        with tempfile.TemporaryDirectory() as folder:
            for tool in ("from_graphml.py", "from_sndlib.py"):
                for file in (star, folder, os.path.join(folder, "none")):
                    status, output, error = run(tool, file)
                    self.assertEqual((status, output, error.count("\n")), (2, "", 1))
                    self.assertTrue(error.startswith(f"{tool}: {file}"), error)
        status, output, error = run("from_graphml.py", "--capacity", "0", star)
        self.assertEqual((status, output), (2, ""))
        self.assertIn("'0' is not a whole number of 1 to 1,000,000,000", error)
