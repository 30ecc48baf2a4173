"""Tests of networks.py, by texts after docs/GUIDE.md."""
import contextlib
import io
import json
import os
import tempfile
import unittest
from unittest import mock

import networks
from networks import Audit, Link, LinkState, Topology, Vpn

TOPOLOGY = """# Two nodes and a third, which no link reaches.
# at a 0 -1.5
node a

  node  b
# at b 12.25 3
# at nobody 1 1
# at a far away
node c
link b a 10 7
link a b 20 7 3
end
acme admit a:1 b:1
"""
AUDIT = """epoch 3
link 0 b a capacity 10 cost 7 load 0
link 1 a b capacity 20 cost 3 load 5
vpn 3 acme cost 15 ends a:5 b:6 links 1:5
live 1 cost 15
"""
LINKS = [Link(0, "b", "a", 10, 7, 7), Link(1, "a", "b", 20, 7, 3)]
STATES = [LinkState(0, "b", "a", 10, 7, 0), LinkState(1, "a", "b", 20, 3, 5)]

WRONG_TOPOLOGIES = [
    # the text, the line, and words of the sentence
    ("", 1, "without its line `end`"),
    ("node a\n", 2, "without its line `end`"),
    ("end\n", 1, "no node"),
    ("epoch 2\n", 1, "'epoch 2' is not a line of a topology"),
    ("node a\nnode a\nend\n", 2, "a node a already"),
    ("node a\nlink a z 1 1\nend\n", 2, "no node z"),
    ("node a\nnode b\nlink a b 1 1.5\nend\n", 3, "not a line of a topology"),
    ("node a\nnode b\nlink a b 0 1\nend\n", 3, "no capacity"),
    ("node <script>\nend\n", 1, "not a line of a topology"),
    ("node a\r\nend\r\n", 1, r"'node a\r'"),
    ("node a\r\nend\r\n", 1, ", and a carriage return stands in it"),
    ("node a\nend\r\n", 2, ", and a carriage return stands in it"),
    ("node " + "a" * 99 + "\nend\n", 1, "aaa...'"),
]
WRONG_AUDITS = [
    ("", 1, "not an audit"),
    ("node a\nend\n", 1, "not an audit"),
    ("epoch 0\nlive 1 cost 0\n", 2, "1 VPNs, and 0"),
    ("epoch 0\nlive 0 cost 0\ncabinet\n", 3, "ended with the line before"),
    ("epoch 0\nlink 1 a b capacity 1 cost 1 load 0\nlive 0 cost 0\n", 2, "link 0 should stand"),
    ("epoch 0\nlink 0 a b capacity 0 cost 1 load 0\nlive 0 cost 0\n", 2, "no capacity"),
    ("epoch 0\nlink 0 a b capacity 9 cost 1 load 0 at 0\n", 2, "not the line of an audit"),
    ("epoch 1\nvpn 1 a cost 1 ends a:1 b:1 links 0:1\n", 2, "no link 0"),
    (AUDIT.replace(" links 1:5", ""), 4, "not the line of an audit"),
    (AUDIT[:-15], 5, "without its line `live K cost C`"),
]
WRONG_REPLIES = [
    ("link 0 a b capacity 9 cost 1 load 0 at 0\r\n", 1, "and a carriage return stands in it"),
    ("admitted 1 cost 1 at 1 links 0:1\n", 1, "no reply to `link`"),
    ("bye\nlink 0 a b capacity 9 cost 1 load 0\n", 2, "not a reply to `link`"),
]
NODES = '{"nodes": ["a", "b"], "links": '
JSON_LINK = '{"a": "a", "b": "b", "capacity": 9, "length": 7}'
WRONG_JSON = [
    # the text, and the beginning of the sentence
    ("", "it is no JSON: "),
    ("node a\nend\n", "it is no JSON: "),
    ("[" * 100000, "it is no JSON: "),
    ('{"nodes": ["a"], "links": [], "x": NaN}', "it is no JSON: NaN stands in it"),
    ("[]", "the JSON is no object"),
    ('{"links": []}', "nodes: "),
    ('{"nodes": [], "links": []}', "nodes: "),
    ('{"nodes": {"a": 1}, "links": []}', "nodes: "),
    ('{"nodes": ["a", "b", "a", 7], "links": []}', "nodes 2: '\"a\"' is no name, or one again"),
    ('{"nodes": ["a", ["b"]], "links": []}', "nodes 1: "),
    ('{"nodes": ["a", "B"], "links": []}', "nodes 1: "),
    ('{"nodes": ["a"]}', "links: "),
    (NODES + "{}}", "links: "),
    *((NODES + f"[{JSON_LINK}, {JSON_LINK.replace(*change)}]}}", "links 1: ") for change in (
        ('"a": "a"', '"a": "c"'), ('"b": "b"', '"b": "a"'), ('"b": "b"', '"b": ["b"]'),
        ("9", "0"), ("9", "9.0"), ("9", "true"), ("7", "-7"), (', "length": 7', ""),
        ("7", '7, "cost": 0'), ("7", '7, "cost": null'), (JSON_LINK, "7"))),
]
OTHER_NETWORKS = [
    ([LINKS[0], Link(1, "a", "b", 20, 7, 4)], "link 1 is a b capacity 20 cost 3"),
    ([*LINKS, Link(2, "a", "c", 1, 1, 1)], "it has 2 links, and the network has 3"),
    (LINKS[:1], "there is a link 1, and the network has 1 link"),
]


class Readers(unittest.TestCase):
    def test_a_topology(self):
        places = {"a": (0, -1.5), "b": (12.25, 3)}
        self.assertEqual(networks.read_topology(TOPOLOGY),
                         Topology(["a", "b", "c"], LINKS, places))

    def test_a_topology_as_a_text_again(self):
        self.assertEqual(networks.text_of(networks.read_topology(TOPOLOGY)),
                         "# at a 0 -1.5\nnode a\n# at b 12.25 3\nnode b\nnode c\n"
                         "link b a 10 7\nlink a b 20 7 3\nend\n")

    def test_a_topology_in_json(self):
        """Of a member that comes again the last one counts, and others are passed over."""
        text = json.dumps({"nodes": ["a", "b", "c"], "of": ["x"], "links": [
            {"a": "b", "b": "a", "capacity": 10, "length": 7, "label": None},
            {"a": "a", "b": "b", "capacity": 20, "length": 7, "cost": 3}]})
        again = text.replace('"nodes"', '"nodes": 7, "nodes"', 1)
        for told in (text, again):
            self.assertEqual(networks.read_json(told), Topology(["a", "b", "c"], LINKS))
        for told, sentence in WRONG_JSON:
            with self.subTest(text=told), self.assertRaises(networks.WrongJson) as caught:
                networks.read_json(told)
            self.assertTrue(str(caught.exception).startswith(sentence), caught.exception)

    def test_a_name_that_ends_in_json(self):
        with tempfile.TemporaryDirectory() as folder:
            for name, sentence in (("x.json", "x.json, it is no JSON"), ("y", None)):
                path = os.path.join(folder, name)
                with open(path, "w", encoding="ascii") as file:
                    file.write(TOPOLOGY)
                if sentence:
                    with self.assertRaisesRegex(networks.WrongInput, sentence):
                        networks.load_topology(path)
                else:
                    self.assertEqual(networks.load_topology(path).links, LINKS)

    def test_costs_by_a_tariff(self):
        """As docs/GUIDE.md has them: of the lengths 7 and 600,000, whatever else they cost."""
        links = [LINKS[1], Link(1, "a", "b", 1, 600_000, 600_000)]
        for name, costs in (("flat", [7, 600_000]), ("hops", [1, 1]), ("long", [19, 1_000_000])):
            found = networks.priced(Topology(["a", "b"], links), name)
            self.assertEqual([link.cost for link in found.links], costs)

    def test_an_audit(self):
        vpn = Vpn(3, "acme", 15, [("a", 5), ("b", 6)], [(1, 5)])
        self.assertEqual(networks.read_audit(AUDIT), Audit(3, STATES, [vpn], 1, 15))

    def test_replies_to_link(self):
        text = ("welcome at 2\nlink 1 a b capacity 20 cost 3 load 5 at 3\n"
                "link 0 b a capacity 10 cost 7 load 0 out at 3\nbye")
        out = LinkState(0, "b", "a", 10, 7, 0, out=True)
        self.assertEqual(networks.read_link_replies(text), [STATES[1], out])

    def test_wrong_texts(self):
        for reader, rows in ((networks.read_topology, WRONG_TOPOLOGIES),
                             (networks.read_audit, WRONG_AUDITS),
                             (networks.read_link_replies, WRONG_REPLIES)):
            for text, line, words in rows:
                with self.subTest(reader=reader.__name__, text=text):
                    with self.assertRaises(networks.WrongText) as caught:
                        reader(text)
                    self.assertEqual(caught.exception.line, line)
                    self.assertIn(words, caught.exception.what)

    def test_the_audit_of_another_network(self):
        audit = networks.read_audit(AUDIT)
        networks.check_audit(networks.read_topology(TOPOLOGY), audit)
        for links, words in OTHER_NETWORKS:
            with self.subTest(words=words), self.assertRaises(networks.WrongInput) as caught:
                networks.check_audit(Topology(["a", "b", "c"], links), audit)
            self.assertIn(words, str(caught.exception))
        self.assertEqual(networks.of_audit(networks.read_topology(TOPOLOGY), audit),
                         networks.read_topology(TOPOLOGY))
        with self.assertRaisesRegex(networks.OtherNetwork, "link 1 is a b capacity 20 cost 3"):
            networks.of_audit(networks.read_topology(TOPOLOGY), audit, "flat")
        with self.assertRaisesRegex(networks.WrongInput, "an endpoint at b, which is no node"):
            networks.check_audit(Topology(["a", "c"], LINKS), audit)


class Files(unittest.TestCase):
    def test_files_of_another_kind(self):
        with tempfile.TemporaryDirectory() as folder:
            for content, words in ((b"\x89PNG\0", "is not a text"),
                                   (b"\1HOSE\1" + bytes(33), "is a journal"),
                                   (b"node \xff\nend\n", "x, line 1: ")):
                with self.subTest(content=content):
                    path = os.path.join(folder, "x")
                    with open(path, "wb") as file:
                        file.write(content)
                    with self.assertRaisesRegex(networks.WrongInput, words):
                        networks.load(networks.read_topology, path)
            for path, words in ((folder, "Is a directory"), (folder + "/y", "No such file")):
                with self.assertRaisesRegex(networks.WrongInput, words):
                    networks.read_file(path)

    def test_a_comment_may_have_any_bytes(self):
        with tempfile.NamedTemporaryFile() as file:
            file.write(b"# Z\xfcrich\nnode a\nend\n")
            file.flush()
            self.assertEqual(networks.load(networks.read_topology, file.name).nodes, ["a"])


class Statuses(unittest.TestCase):
    def test_wrong_input_is_one_sentence_and_status_2(self):
        def main():
            raise networks.WrongInput("it is wrong")

        told = io.StringIO()
        with contextlib.redirect_stderr(told), mock.patch("sys.argv", ["tools/page.py"]):
            self.assertEqual(networks.status_of(main), 2)
        self.assertEqual(told.getvalue(), "page.py: it is wrong\n")
