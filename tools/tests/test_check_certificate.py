"""Tests of check_certificate.py: certificates that were worked out by hand, and each rule broken
by one."""
import json
import os
import tempfile
import unittest

import check_certificate
import networks
from tests.runs import DEMO, program, within

STAR = networks.load(networks.read_topology, os.path.join(DEMO, "star.txt"))
TEXT = networks.read_file(os.path.join(DEMO, "star_certificate.txt"))
LINES = TEXT.splitlines()

# Two links side by side from p to q, of cost 7 and 5, and a node s of its own. Over the first link
# alone 2 and 3 cost 7 * 2 = 14, over both 10. From s no walk leads to p or q.
PAIR = networks.read_topology(
    "node p\nnode q\nnode s\nlink p q 9 7\nlink q p 9 9 5\nend\n")
WITHOUT = """cost 14
hose q:3 p:2
use 0 2
without 1
pot 0 0 0 7 0
pot 1 0 7 0 0
pot 2 0 3 3 0
end
"""
OVER_BOTH = """cost 10
hose p:2 q:3
use 1 2
pot 0 0 0 5 0
pot 1 0 5 0 0
pot 2 0 2 2 0
end
"""
# A ring of four links of cost 1, by which p and r are joined both ways.
RING = networks.read_topology("node p\nnode q\nnode r\nnode s\n"
                              "link p q 9 1\nlink q r 9 1\nlink r s 9 1\nlink s p 9 1\nend\n")
ROUND = """cost 2
hose p:1 r:1
use 0 1
use 1 1
pot 0 0 0 1 2 1
pot 1 0 1 0 1 2
pot 2 0 2 1 0 1
pot 3 0 1 2 1 0
end
"""
# 65 nodes in a line, of which the numbers of a root stand in two lines; each link costs 1.
LINE = networks.read_topology("".join(f"node n{node}\n" for node in range(65))
                              + "".join(f"link n{node} n{node + 1} 9 1\n" for node in range(64))
                              + "end\n")


def line_rows():
    """The lines of numbers for LINE."""
    for root in range(65):
        row = [str(abs(node - root)) for node in range(65)]
        yield f"pot {root} 0 {' '.join(row[:64])}"
        yield f"pot {root} 64 {row[64]}"


ALONG = ["cost 1", "hose n0:1 n1:1", "use 0 1", *line_rows(), "end"]


def judged(*lines, of=STAR):
    return check_certificate.judged(of, "".join(f"{line}\n" for line in lines))


def changed(at, line):
    """The certificate of the star with another line at a place, which is counted from 0."""
    return judged(*LINES[:at], line, *LINES[at + 1:])


class Certificates(unittest.TestCase):
    def test_the_star(self):
        self.assertEqual(judged(*LINES), "yes 26")
        for at, line, answer in ((0, "cost 25", "no 3"), (2, "use 0 4", "no 2"),
                                 (8, "pot 3 0 2 2 3 0", "no 5"), (8, "pot 3 0 0 2 3 0", "no 6"),
                                 (8, "pot 3 0 1 2 3 1", "no 4")):
            self.assertEqual(changed(at, line), answer)
        self.assertEqual(judged(*LINES[:-1]), "no 1")

    def test_a_link_left_out(self):
        for text, answer in (
            (WITHOUT, "yes 14"),
            (WITHOUT.replace("without 1\n", ""), "no 5"),
            (WITHOUT.replace("without 1", "without 0"), "no 1"),
            (WITHOUT.replace("without 1", "without 2"), "no 1"),
            (OVER_BOTH, "yes 10"),
            (OVER_BOTH.replace("use 1 2\n", "use 1 2\nwithout 0\n"), "yes 10"),
            (OVER_BOTH.replace("use 1 2\n", "use 0 2\nwithout 1\n"), "no 3"),
            # Both links do not stand for a tree.
            (OVER_BOTH.replace("use 1 2\n", "use 0 2\nuse 1 2\n"), "no 2"),
            # Nor do they where the hose is not joined.
            (OVER_BOTH.replace("q:3", "s:3"), "no 2"),
            # A root that reaches no endpoint has to weigh as much as any: 2 * 2 + 3 * 2 = 10.
            (OVER_BOTH.replace("2 0 2 2 0", "2 0 2 1 0"), "no 6"),
            (OVER_BOTH.replace("2 0 2 2 0", "2 0 4 1 0"), "yes 10"),
            # Rule 5 asks that its numbers at p and q are as near as the cheaper link.
            (OVER_BOTH.replace("2 0 2 2 0", "2 0 7 2 0"), "yes 10"),
            (OVER_BOTH.replace("2 0 2 2 0", "2 0 8 2 0"), "no 5"),
            (OVER_BOTH.replace("2 0 2 2 0", "2 0 40000000000000000 40000000000000000 0"), "yes 10"),
            (OVER_BOTH.replace("2 0 2 2 0", "2 0 40000000000000001 40000000000000001 0"), "no 1"),
        ):
            self.assertEqual(check_certificate.judged(PAIR, text), answer, text)

    def test_a_ring(self):
        for old, new, answer in (
            ("", "", "yes 2"),
            # The other way round costs the same.
            ("use 0 1\nuse 1 1\n", "use 2 1\nuse 3 1\n", "yes 2"),
            # All four links are no tree, and two that do not meet are none.
            ("use 1 1\n", "use 1 1\nuse 2 1\nuse 3 1\n", "no 2"),
            ("use 1 1\n", "use 2 1\n", "no 2"),
            ("use 1 1\n", "", "no 2"),
            # On a link that parts no endpoints nothing is reserved, so there is none.
            ("use 1 1\n", "use 1 1\nuse 2 1\n", "no 2"),
            # Its way costs 2, whatever the text says.
            ("cost 2", "cost 1", "no 3"), ("cost 2", "cost 3", "no 3"),
        ):
            self.assertEqual(check_certificate.judged(RING, ROUND.replace(old, new)), answer, new)

    def test_rule_6_at_its_edge_at_each_root(self):
        """What the rates weigh: with the least that is enough, and the most that is not and keeps
        the nodes as near as their links say."""
        for root, row, weight in (
            (0, "0 3 3 1", 4 * 3 + 5 * 3), (0, "0 1 4 1", 4 * 1 + 5 * 4),
            (1, "2 0 4 2", 3 * 2 + 5 * 4), (1, "3 0 3 2", 3 * 3 + 5 * 3),
            (2, "2 5 0 3", 3 * 2 + 4 * 5), (2, "3 4 0 3", 3 * 3 + 4 * 4),
            (3, "1 2 3 0", 3 * 1 + 4 * 2 + 5 * 3), (3, "0 2 3 0", 4 * 2 + 5 * 3),
        ):
            answer = "yes 26" if weight >= 26 else "no 6"
            self.assertEqual(changed(5 + root, f"pot {root} 0 {row}"), answer, row)

    def test_rules_5_and_4_at_each_root_and_node(self):
        for root in range(4):
            numbers = [int(word) for word in LINES[5 + root].split()[3:]]
            for node in range(4):
                more = [*numbers[:node], numbers[node] + 1, *numbers[node + 1:]]
                line = " ".join(map(str, ["pot", root, 0, *more]))
                self.assertEqual(changed(5 + root, line), "no 4" if node == root else "no 5")

    def test_the_lowest_rule_is_told(self):
        self.assertEqual(judged("cost 25", LINES[1], "use 0 4", *LINES[3:]), "no 2")
        self.assertEqual(judged("cost 25", *LINES[1:8], "pot 3 0 1 2 3 1", "end"), "no 3")
        self.assertEqual(judged("cost 25", *LINES[1:8], "pot 3 0 1 2 3 1"), "no 1")
        self.assertEqual(changed(8, "pot 3 0 0 0 0 9"), "no 4")
        self.assertEqual(changed(8, "pot 3 0 9 0 0 0"), "no 5")


class Texts(unittest.TestCase):
    """Rule 1."""

    def test_each_line_missing_doubled_and_exchanged(self):
        for at, line in enumerate(LINES):
            self.assertNotIn("yes", judged(*LINES[:at], *LINES[at + 1:]))
            self.assertEqual(judged(*LINES[:at], line, *LINES[at:]), "no 1")
            if at:
                turned = [*LINES[:at - 1], line, LINES[at - 1], *LINES[at + 1:]]
                self.assertEqual(judged(*turned), "no 1")
        for at in (2, 3, 4):  # without a pair the hose is not joined
            self.assertEqual(judged(*LINES[:at], *LINES[at + 1:]), "no 2")

    def test_spaces_and_line_ends(self):
        for at, line in enumerate(LINES):
            for other in (f"{line} ", f" {line}", line.replace(" ", "  ", 1) + " " * (at == 9),
                          f"{line}\r", f"{line}\t", line.upper(), f"{line}\n"):
                self.assertEqual(changed(at, other), "no 1", other)
        self.assertEqual(check_certificate.judged(STAR, TEXT[:-1]), "yes 26")
        for text in ("", "\n", f"{TEXT}\n", f"{TEXT} ", f"\n{TEXT}", f"{TEXT[:-1]}\0", TEXT * 2):
            self.assertEqual(check_certificate.judged(STAR, text), "no 1")

    def test_numbers(self):
        for at, line in (
            (0, "cost 026"), (0, "cost +26"), (0, "cost 26.0"), (0, "cost -26"), (0, "cost"),
            (0, "cost 26 26"), (0, "cost 40000000000000001"), (0, "cost \u0662\u0666"),
            (1, "hose a:3"), (1, "hose a:3 b:4 z:5"), (1, "hose a:3 a:4 c:5"), (1, "hose"),
            (1, "hose a:3 b c:5"), (1, "hose a:3 b:0 c:5"), (1, "hose a:3 b:1000001 c:5"),
            (1, "hose a:3 b:4: c:5"), (1, "hose a:3 b:04 c:5"), (1, "hose A:3 b:4 c:5"),
            (1, "hose a:3 :4 c:5"),
            (2, "use 0 0"), (2, "use 0 32000001"), (2, "use 00 3"), (2, "use 0"), (2, "use 0 3 3"),
            (4, "use 3 5"), (4, "use 1 5"), (4, "use 2047 5"),
            (5, "pot 0 0 0 3 4"), (5, "pot 0 0 0 3 4 1 1"), (5, "pot 0 0"), (5, "pot 1 0 0 3 4 1"),
            (5, "pot 0 1 0 3 4 1"), (5, "pot 0 64 0 3 4 1"), (5, "pot 0 0 0 03 4 1"),
            (8, "pot 4 0 1 2 3 0"), (9, "end end"), (9, "ends"),
        ):
            self.assertEqual(changed(at, line), "no 1", line)

    def test_the_greatest_numbers_break_no_limit(self):
        for at, line, answer in (
            (0, "cost 40000000000000000", "no 3"), (0, "cost 0", "no 3"),
            (1, "hose a:3 b:1000000 c:5", "no 2"), (2, "use 0 32000000", "no 2"),
            (8, "pot 3 0 40000000000000000 2 3 0", "no 5"),
        ):
            self.assertEqual(changed(at, line), answer)

    def test_endpoints_in_any_order(self):
        self.assertEqual(changed(1, "hose c:5 a:3 b:4"), "yes 26")

    def test_rows_of_more_than_64_numbers(self):
        self.assertEqual(judged(*ALONG, of=LINE), "yes 1")
        first, second = ALONG[3:5]
        for lines in ([f"{first} 64"], [first, f"{second} 0"], [first[:-3], second], [first],
                      [first, "pot 0 63 64"], [first, "pot 0 65 64"], [second, first],
                      [first, second, "pot 0 128 0"]):
            self.assertEqual(judged(*ALONG[:3], *lines, *ALONG[5:], of=LINE), "no 1", lines)
        # The number of node 64 is that of the second line: at node 63 it is 63.
        for number, answer in ((61, "no 5"), (62, "yes 1"), (64, "yes 1"), (65, "no 5")):
            lines = [*ALONG[:4], f"pot 0 64 {number}", *ALONG[5:]]
            self.assertEqual(judged(*lines, of=LINE), answer)

    def test_more_than_64_endpoints(self):
        hose = "hose " + " ".join(f"n{node}:1" for node in range(65))
        self.assertEqual(judged(ALONG[0], hose, *ALONG[2:], of=LINE), "no 1")
        self.assertEqual(judged(ALONG[0], hose[:-6], *ALONG[2:], of=LINE), "no 2")


class Program(unittest.TestCase):
    def run_on(self, text):
        star = os.path.join(DEMO, "star.txt")
        return within("check_certificate.py", check_certificate.main, star, text=text)

    def test_statuses(self):
        self.assertEqual(self.run_on(TEXT), (0, "yes 26\n", ""))
        self.assertEqual(self.run_on(TEXT[1:]), (10, "no 1\n", ""))

    def test_bytes_that_are_no_text(self):
        """As `check` says of them: rule 1 fails."""
        for text in (TEXT[:-1] + "\0", "\0", "\1HOSE\1" + "\0" * 33, TEXT.replace("a:3", "\xe4:3")):
            self.assertEqual(self.run_on(text), (10, "no 1\n", ""))

    def test_a_tariff_and_json(self):
        """By `hops` each link of the star costs 1: 3 + 4 + 5, from the middle 1, else 2."""
        star = os.path.join(DEMO, "star.txt")
        rows = ["0 2 2 1", "2 0 2 1", "2 2 0 1", "1 1 1 0"]
        text = "\n".join(["cost 12", *LINES[1:5], *(f"pot {root} 0 {row}" for root, row
                                                   in enumerate(rows)), "end", ""])
        links = [{"a": link.a, "b": link.b, "capacity": 10, "length": link.length}
                 for link in STAR.links]
        with tempfile.TemporaryDirectory() as folder:
            path = os.path.join(folder, "star.json")
            with open(path, "w", encoding="ascii") as file:
                json.dump({"nodes": STAR.nodes, "links": links}, file)
            for topology in (star, path):
                for words, of, answer in (
                        ([], TEXT, (0, "yes 26\n", "")), ([], text, (10, "no 3\n", "")),
                        (["--tariff", "hops"], text, (0, "yes 12\n", "")),
                        (["--tariff", "hops"], TEXT, (10, "no 3\n", ""))):
                    told = within("check_certificate.py", check_certificate.main, *words, topology,
                                  text=of)
                    self.assertEqual(told, answer)

    def test_files(self):
        names = (os.path.join(DEMO, name) for name in ("star.txt", "star_certificate.txt"))
        self.assertEqual(program("check_certificate.py", *names), (0, "yes 26\n", ""))

    def test_one_sentence_and_status_2(self):
        status, output, error = within("check_certificate.py", check_certificate.main, "nowhere")
        self.assertEqual((status, output, error.count("\n")), (2, "", 1))
        self.assertIn("nowhere cannot be read", error)

    def test_it_is_short(self):
        with open(check_certificate.__file__, encoding="utf-8") as file:
            self.assertLessEqual(len(file.readlines()), 80)
