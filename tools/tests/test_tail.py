"""Tests of tail.py, by the journals and packets that are put together by hand."""
import io
import os
import subprocess
import sys
import tempfile
import unittest
from unittest import mock

import networks
import tail
from tests.runs import DEMO, TOOLS
from tests.test_following import FIRST, SECOND
from tests.test_read_journal import ADMITTED, CHAINED, DIGEST, PLAIN, RELEASED, SEALED

STAR = os.path.join(DEMO, "star.txt")
DETOUR = os.path.join(DEMO, "detour.txt")
ONE = CHAINED[:120] + b"\0"  # one entry, and then a gate that is closed


class Journals(unittest.TestCase):
    def setUp(self):
        folder = tempfile.TemporaryDirectory()
        self.addCleanup(folder.cleanup)
        self.folder, self.journal = folder.name, os.path.join(folder.name, "journal")

    def put(self, held):
        with open(self.journal, "wb") as file:
            file.write(held)

    def ended(self, *words):
        """The status, the output, and what is told on standard error."""
        error = io.StringIO()
        with tempfile.TemporaryFile() as output:
            wrapped = io.TextIOWrapper(io.BufferedRandom(io.FileIO(output.fileno(), "r+",
                                                                   closefd=False)))
            with mock.patch("sys.argv", ["tail.py", *words]), \
                    mock.patch.multiple(sys, stdout=wrapped, stderr=error):
                try:
                    status = networks.status_of(tail.main)
                except SystemExit as end:
                    status = end.code
            output.seek(0)
            return status, output.read(), error.getvalue().replace(self.journal, "J")


class Once(Journals):
    def test_what_is_there(self):
        for held in CHAINED, PLAIN, SEALED:
            self.put(held)
            for start, packets in ((), FIRST + SECOND), (("1",), FIRST + SECOND), \
                    (("2",), SECOND), (("3",), b""):
                self.assertEqual(self.ended("--once", STAR, self.journal, *start),
                                 (0, packets, ""))

    def test_with_the_chain_value_of_a_follower(self):
        self.put(CHAINED)
        for start, value, packets in ("1", DIGEST, FIRST + SECOND), ("2", ADMITTED, SECOND), \
                ("3", RELEASED, b""):
            words = "--once", "--synced", "--after", value, STAR, self.journal, start
            self.assertEqual(self.ended(*words), (0, packets, ""))
        told = self.ended("--once", "--after", RELEASED, STAR, self.journal, "2")
        self.assertEqual(told, (13, b"", "tail.py: J and the follower have 1 entry each, and not "
                                f"the same ones: their chain values are {ADMITTED} and "
                                f"{RELEASED}\n"))

    def test_an_epoch_that_the_journal_has_not(self):
        self.put(ONE)
        self.assertEqual(self.ended("--once", STAR, self.journal, "3"),
                         (13, b"", "tail.py: J has 1 entry, and the follower has 2\n"))

    def test_a_journal_that_is_not_begun(self):
        self.put(b"")
        self.assertEqual(self.ended("--once", STAR, self.journal), (0, b"", ""))

    def test_a_network_in_json_and_under_a_tariff(self):
        self.put(CHAINED)
        text = ('{"nodes": ["a", "b", "c", "h"], "links": ['
                '{"a": "a", "b": "h", "capacity": 10, "length": 1},'
                '{"a": "b", "b": "h", "capacity": 10, "length": 2},'
                '{"a": "c", "b": "h", "capacity": 10, "length": 3}]}')
        path = os.path.join(self.folder, "star.json")
        with open(path, "w", encoding="ascii") as file:
            file.write(text)
        for tariff in (), ("--tariff", "flat"):
            self.assertEqual(self.ended("--once", *tariff, path, self.journal),
                             (0, FIRST + SECOND, ""))
        status, _, error = self.ended("--once", "--tariff", "hops", path, self.journal)
        self.assertEqual(status, 12)
        self.assertIn("J is the journal of another network", error)


class Faults(Journals):
    def test_each_with_a_status_and_a_sentence(self):
        missing = os.path.join(self.folder, "nothing")
        self.put(CHAINED)
        for words, status, sentence in (
                ((STAR, missing), 6, f"{missing} cannot be read: No such file or directory"),
                ((STAR, self.folder), 6, f"{self.folder} is no regular file"),
                ((missing, self.journal), 2, f"{missing} cannot be read: No such file or "
                                             "directory"),
                ((self.journal, self.journal), 2, "J is a journal; `hosed audit TOPOLOGY JOURNAL` "
                                                  "tells what it holds")):
            self.assertEqual(self.ended("--once", *words),
                             (status, b"", f"tail.py: {sentence}\n"))
        status, output, error = self.ended("--once", DETOUR, self.journal)
        self.assertEqual((status, output), (12, b""))
        self.assertIn(f"another network: it keeps the digest {DIGEST}, and that of", error)

    def test_damage_is_told_behind_what_is_whole(self):
        self.put(CHAINED[:150] + b"\xff" + CHAINED[151:])
        self.assertEqual(self.ended("--once", STAR, self.journal),
                         (5, FIRST, "tail.py: J is damaged at 120\n"))
        self.put(b"a note of more than thirty-nine letters, at the path of a journal")
        self.assertEqual(self.ended("--once", STAR, self.journal),
                         (5, b"", "tail.py: J is damaged at 0\n"))

    def test_words(self):
        self.put(CHAINED)
        for words in ((STAR,), (STAR, self.journal, "0"), (STAR, self.journal, "4000000001"),
                      (STAR, self.journal, "x"), ("--after", "12", STAR, self.journal),
                      ("--tariff", "none", STAR, self.journal)):
            status, output, error = self.ended("--once", *words)
            self.assertEqual((status, output), (2, b""))
            self.assertIn("usage: ", error)

    def test_no_more_than_a_follower_reads(self):
        self.put(CHAINED)
        with mock.patch("following.MOST_INPUT", len(FIRST + SECOND) - 1), \
                mock.patch("live_journal.PIECE", 83):
            self.assertEqual(self.ended("--once", STAR, self.journal),
                             (0, FIRST, "tail.py: 1 GiB is written: go on from 2\n"))


class Live(Journals):
    """The program beside a writer."""

    def start(self, held, *words):
        self.put(held)
        tailing = subprocess.Popen(
            [sys.executable, os.path.join(TOOLS, "tail.py"), STAR, self.journal, *words],
            stdout=subprocess.PIPE, stderr=subprocess.PIPE, bufsize=0)
        self.addCleanup(tailing.stderr.close)
        self.addCleanup(tailing.stdout.close)
        self.addCleanup(tailing.wait)
        self.addCleanup(tailing.kill)
        return tailing

    def write(self, at, written):
        with open(self.journal, "r+b", buffering=0) as file:
            file.seek(at)
            file.write(written)

    def read(self, tailing, size):
        given = b""
        while len(given) < size:
            more = tailing.stdout.read(size - len(given))
            if not more:
                self.fail(tailing.stderr.read())
            given += more
        return given

    def test_entries_as_they_come(self):
        tailing = self.start(b"")
        self.write(0, ONE)
        self.assertEqual(self.read(tailing, len(FIRST)), FIRST)
        self.write(121, CHAINED[121:])
        self.write(120, b"\1")
        self.assertEqual(self.read(tailing, len(SECOND)), SECOND)
        tailing.stdout.close()  # the program ends, though nothing is to be written
        self.assertEqual(tailing.wait(), networks.NOBODY_READS)

    def test_an_entry_that_is_taken_back(self):
        tailing = self.start(CHAINED, "2")
        self.assertEqual(self.read(tailing, len(SECOND)), SECOND)
        self.write(120, b"\0")
        self.assertEqual((tailing.wait(), tailing.stdout.read()), (13, b""))
        self.assertEqual(tailing.stderr.read().decode(),
                         f"tail.py: {self.journal} ends behind the entry 1 by now, and was read "
                         "up to 2\n")

    def test_another_file_with_the_same_entries_and_more(self):
        tailing = self.start(ONE)
        self.assertEqual(self.read(tailing, len(FIRST)), FIRST)
        with open(self.journal + ".new", "wb") as file:
            file.write(SEALED)
        os.rename(self.journal + ".new", self.journal)
        self.assertEqual(self.read(tailing, len(SECOND)), SECOND)
