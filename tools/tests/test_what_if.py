"""Tests of what_if.py: by a program that tells a book and gives the replies that it was left, and
writes down what it was given. bench/judge/examples.py runs the real one."""
import os
import stat
import sys
import tempfile
import unittest

import what_if
from tests.runs import DEMO, within

AUDIT = os.path.join(DEMO, "backbone_audit.txt")
TOPOLOGY = os.path.join(DEMO, "backbone.txt")
# Tells the audit, or the replies of a file; what it is given lies beside it.
PROGRAM = """#!{python}
import os, sys
home = os.path.dirname(os.path.abspath(__file__))
text = sys.stdin.read()
with open(os.path.join(home, "given_" + sys.argv[1]), "w") as given:
    given.write("\\n".join([*sys.argv[1:-1], text]))
with open(sys.argv[-1], "a") as copy:
    copy.write("changed")
with open(os.path.join(home, sys.argv[1])) as answer:
    print(answer.read(), end="")
"""
# Of two VPNs the first is over link 11, and the second over 8 and 12.
RUNS = [
    # links, the script after the topology, the replies, the output, the status
    ([11], ["operator down 11", "acme release 1", "acme admit sea:400 lax:600 chi:500 nyc:1000"],
     ["down 11 at 3", "released 1 at 4", "admitted 5 cost 42400 at 5 links 1:400"],
     ["vpn 1 acme over 11 cost 38200 now 42400",
      "links 11 lost 1 of 2 again 1 cost 38200 now 42400"], 0),
    ([11], None, ["already 11 at 2", "released 1 at 3", "refused at 3 side sea svl lax"],
     ["vpn 1 acme over 11 refused: refused at 3 side sea svl lax",
      "links 11 lost 1 of 2 again 0 cost 0 now 0"], 1),
    ([8, 9, 12, 11, 9],
     ["operator down 8", "operator down 9", "operator down 12", "operator down 11",
      "acme release 1", "beta release 2", "acme admit sea:400 lax:600 chi:500 nyc:1000",
      "beta admit hou:300 was:200"],
     ["down 8 at 3", "down 9 at 4", "down 12 at 5", "down 11 at 6", "released 1 at 7",
      "released 2 at 8", "refused at 8 side sea", "admitted 9 cost 7000 at 9 links 4:200"],
     ["vpn 1 acme over 9 11 refused: refused at 8 side sea",
      "vpn 2 beta over 8 12 cost 3200 now 7000",
      "links 8 9 12 11 lost 2 of 2 again 1 cost 3200 now 7000"], 1),
    ([0, 13], ["operator down 0", "operator down 13"], ["down 0 at 3", "down 13 at 4"],
     ["links 0 13 lost 0 of 2 again 0 cost 0 now 0"], 0),
]


class Folder:
    """A folder with a journal and the program that tells an audit and these replies."""

    def __init__(self, replies, audit=AUDIT):
        self.home = tempfile.TemporaryDirectory()
        self.journal, self.program = self.path("journal"), self.path("hosed")
        with open(audit, encoding="ascii") as file:
            self.write("audit", file.read())
        self.write("run", "".join(f"{line}\n" for line in replies))
        self.write("journal", "what it holds")
        self.write("hosed", PROGRAM.format(python=sys.executable))
        os.chmod(self.program, stat.S_IRWXU)

    def path(self, name):
        return os.path.join(self.home.name, name)

    def write(self, name, text):
        with open(self.path(name), "w", encoding="ascii") as file:
            file.write(text)

    def read(self, name):
        with open(self.path(name), encoding="ascii") as file:
            return file.read()

    def told(self, *words):
        return within("what_if.py", what_if.main, "--program", self.program, *words)


class WhatIf(unittest.TestCase):
    def test_what_is_lost_and_admitted_anew(self):
        for links, script, replies, output, status in RUNS:
            folder = Folder(replies)
            with folder.home, self.subTest(links=links, replies=replies):
                told = folder.told(TOPOLOGY, folder.journal, *links)
                self.assertEqual(told, (status, "".join(f"{line}\n" for line in output), ""))
                if script:
                    given = folder.read("given_run").partition("\nend\n")[2].splitlines()
                    self.assertEqual(given, script)
                self.assertEqual(folder.read("journal"), "what it holds")

    def test_the_network_and_its_tariff(self):
        """A network in JSON is given to `audit` as it is and to `run` as a text."""
        alps = os.path.join(DEMO, "alps.json")
        folder = Folder(["down 0 at 1"])
        with folder.home:
            folder.write("audit", "epoch 0\nlive 0 cost 0\n")
            told = folder.told("--tariff", "hops", alps, folder.journal, 0)
            self.assertEqual(told, (0, "links 0 lost 0 of 0 again 0 cost 0 now 0\n", ""))
            self.assertEqual(folder.read("given_audit").splitlines()[:4],
                             ["audit", "--tariff", "hops", alps])
            words = folder.read("given_run").splitlines()
            self.assertEqual(words[:3], ["run", "--tariff", "hops"])
            lines = [line for line in words[3:] if not line.startswith("#")]
            self.assertEqual(lines[0], "node zurich")

    def test_one_sentence_and_status_2(self):
        folder = Folder(["down 0 at 1", "cabinet"])
        with folder.home:
            for words, sentence in (
                ((TOPOLOGY, folder.path("none"), 0), "none cannot be copied: No such file"),
                ((folder.path("none"), folder.journal, 0), "none cannot be read"),
                ((TOPOLOGY, folder.journal, 14), "backbone.txt has no link 14"),
                ((TOPOLOGY, folder.journal, "-1"), "backbone.txt has no link -1"),
                ((TOPOLOGY, folder.journal, 0), "the program did not answer the script"),
                (("--program", folder.path("none"), TOPOLOGY, folder.journal, 0), "cannot be run"),
                (("--program", "false", TOPOLOGY, folder.journal, 0),
                 "false audit ended with the status 1"),
            ):
                status, output, error = folder.told(*words)
                self.assertEqual((status, output, error.count("\n")), (2, "", 1), error)
                self.assertIn(sentence, error)
