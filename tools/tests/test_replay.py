"""Tests of replay.py: a small audit whose move was worked out by hand, and that of demo/."""
import json
import os
import tempfile
import unittest

import networks
import replay
from tests.runs import DEMO, link_line, within

AUDIT = networks.read_audit(f"""epoch 9
{link_line(0, "a", "h", 10, 1, 5)}
{link_line(1, "b", "h", 10, 2, 4)}
{link_line(2, "c", "h", 10, 3, 3)}
vpn 2 acme cost 9 ends a:3 b:4 links 0:3 1:3
vpn 5 beta cost 8 ends a:2 c:9 links 0:2 2:2
vpn 9 acme cost 5 ends b:1 c:1 links 1:1 2:1
live 3 cost 22
""")
SCRIPT = ["acme admit a:3 b:4", "beta admit a:2 c:9", "acme admit b:1 c:1"]
# What a network might answer that costs twice as much, and has less room to c.
OUTPUT = """admitted 1 cost 18 at 1 links 0:3 1:3
refused at 1 side a b
admitted 2 cost 10 at 2 links 1:1 2:1
"""
MOVES = [
    "vpn 2 acme is 1 cost 9 now 18",
    "vpn 5 beta refused: refused at 1 side a b",
    "vpn 9 acme is 2 cost 5 now 10",
]


def run(*words):
    """The program's status, output and what it says on standard error."""
    return within("replay.py", replay.main, *words)


def demo(name):
    return os.path.join(DEMO, name)


class Replays(unittest.TestCase):
    def test_script(self):
        self.assertEqual(replay.script(AUDIT), SCRIPT)

    def test_moves(self):
        found = replay.moves(AUDIT, OUTPUT)
        self.assertEqual([str(move) for move in found], MOVES)
        self.assertEqual(replay.total(found), "moved 2 of 3 cost 14 now 28")

    def test_replies_to_changes_of_links(self):
        """Before the first VPN, between two, and behind the last one."""
        for before in ("down 3 at 1\n", "down 3 at 1\nalready 3 at 1\n"):
            found = replay.moves(AUDIT, before + OUTPUT)
            self.assertEqual([str(move) for move in found], MOVES)
        first, second, third = OUTPUT.splitlines()
        for lines in ([first, "down 3 at 2", second, third], [first, second, third, "down 4 at 9"],
                      ["down 3 at 1", first, "up 3 at 3", second, "already 3 at 3", third],
                      ["already 1 at 0", first, second, "down 2 at 2", "down 3 at 3", third]):
            found = replay.moves(AUDIT, "\n".join(lines) + "\n")
            self.assertEqual([str(move) for move in found], MOVES)
        for wrong, at in ((["denied at 0", first, second, third], 1), (["down 3 at 1"], 2),
                          (["down 3 at 1", first, second], 4),
                          ([first, "down 3 at 2", second, third, third], 5)):
            with self.assertRaises(networks.WrongText) as caught:
                replay.moves(AUDIT, "\n".join(wrong) + "\n")
            self.assertEqual(caught.exception.line, at)

    def test_a_link_that_was_not_taken_out(self):
        """`bad 3` answers an `operator down` where a line more stands there than VPNs were asked."""
        for before, refusal in (("", "bad 3"), ("down 1 at 1\n", "bad 3"), ("", "memory"),
                                ("already 1 at 0\n", "disk at 0"), ("", "spent at 9")):
            with self.assertRaisesRegex(networks.WrongText, "answers an `operator down`") as caught:
                replay.moves(AUDIT, f"{before}{refusal}\n{OUTPUT}")
            self.assertEqual(caught.exception.line, before.count("\n") + 1)
        self.assertEqual(len(replay.moves(AUDIT, "bad 3\nbad 4\nmemory\n")), 3)

    def test_a_carriage_return(self):
        with self.assertRaisesRegex(networks.WrongText, "line 1: .* a carriage return stands"):
            replay.moves(AUDIT, OUTPUT.replace("\n", "\r\n"))

    def test_a_node_that_is_gone(self):
        output = "bad 4\nfull at 0\nmemory\n"
        self.assertEqual([str(move) for move in replay.moves(AUDIT, output)], [
            "vpn 2 acme refused: bad 4, at b:4",
            "vpn 5 beta refused: full at 0",
            "vpn 9 acme refused: memory",
        ])

    def test_an_output_of_something_else(self):
        first, second, third = OUTPUT.splitlines()
        for lines, at, words in (
            (["topology 3 2"], 1, "'topology 3 2' is no reply to 'acme admit a:3 b:4'"),
            ([first, "released 1 at 2", third], 2, "'released 1 at 2' is no reply"),
            ([first, "bad 5", third], 2, "'bad 5' is no reply"),
            ([first, second], 3, "the replies end after 2 of 3 VPNs"),
            ([first, second, third, "cabinet"], 4, "'cabinet' stands after the replies to all 3"),
        ):
            with self.assertRaisesRegex(networks.WrongText, f"line {at}: {words}"):
                replay.moves(AUDIT, "\n".join(lines) + "\n")


class Program(unittest.TestCase):
    def test_the_backbone(self):
        """The VPNs of the audit were admitted by the first two lines of the script in demo/."""
        with open(demo("backbone_script.txt"), encoding="ascii") as text:
            lines = text.readlines()[:2]
        self.assertEqual(run(demo("backbone_audit.txt")), (0, "".join(lines), ""))

    def test_the_whole_input_of_run(self):
        """A topology in JSON, with a cost of its own, as text; links that are out; the script."""
        links = [{"a": "a", "b": "b", "capacity": 9, "length": 7, "cost": 3}]
        lines = ["node a", "node b", "link a b 9 7 3", "end", "operator down 0", "operator down 2"]
        with open(demo("backbone_script.txt"), encoding="ascii") as text:
            lines += text.read().splitlines()[:2]
        with tempfile.NamedTemporaryFile("w", suffix=".json") as topology:
            json.dump({"nodes": ["a", "b"], "links": links}, topology)
            topology.flush()
            told = run("--topology", topology.name, "--down", "0", "--down", "2",
                       demo("backbone_audit.txt"))
        self.assertEqual(told, (0, "".join(f"{line}\n" for line in lines), ""))

    def test_status_1(self):
        with tempfile.NamedTemporaryFile("w") as output:
            output.write("admitted 1 cost 38200 at 1 links 0:1\nrefused at 1 side hou\n")
            output.flush()
            self.assertEqual(run(demo("backbone_audit.txt"), output.name), (
                1,
                "vpn 1 acme is 1 cost 38200 now 38200\n"
                "vpn 2 beta refused: refused at 1 side hou\n"
                "moved 1 of 2 cost 38200 now 38200\n",
                "",
            ))

    def test_one_sentence_and_status_2(self):
        for words, sentence in (
            (["star.txt"], "star.txt, line 1: it is not an audit"),
            (["no_such_file"], "no_such_file cannot be read"),
            (["backbone_audit.txt", "."], " cannot be read: Is a directory"),
            (["backbone_audit.txt", "alps_output.txt"], "line 3: 'quoted 1 cost"),
            (["backbone_audit.txt", "star_output.txt"], "line 3: 'vpn 1 cost"),
        ):
            status, output, error = run(*map(demo, words))
            self.assertEqual((status, output, error.count("\n")), (2, "", 1))
            self.assertIn(sentence, error)
