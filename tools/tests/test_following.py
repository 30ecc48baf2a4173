"""Tests of following.py: packets and answers as docs/GUIDE.md has them, byte by byte."""
import tempfile
import unittest

import following
from following import Answer, WrongAnswer
from live_journal import LiveJournal, OtherHistory
from tests.test_read_journal import ADMISSION, ADMITTED, CHAINED, DIGEST, RELEASE

FIRST = bytes.fromhex(f"002d00000001{DIGEST}{ADMISSION}")
SECOND = bytes.fromhex(f"000a00000002{ADMITTED}{RELEASE}")
ZERO = "00" * 32
NETWORK = bytes.fromhex(DIGEST)


class Packets(unittest.TestCase):
    def test_those_of_a_journal(self):
        self.assertEqual((len(FIRST), len(SECOND)), (83, 48))
        with tempfile.NamedTemporaryFile() as file:
            file.write(CHAINED)
            file.flush()
            with LiveJournal(file.name) as journal:
                packets = list(map(following.packet_of, journal.read()))
        self.assertEqual(packets, [FIRST, SECOND])

    def test_questions(self):
        self.assertEqual(following.ASK_EPOCH, bytes.fromhex(f"0001ffffffff{ZERO}00"))
        self.assertEqual(following.ask_value(258), bytes.fromhex(f"000100000103{ZERO}00"))


class Answers(unittest.TestCase):
    def test_each(self):
        for line, answer in (
                ("have 12", Answer("have", 12)), ("want 13\n", Answer("want", 13)),
                ("unsound 3", Answer("unsound", 3)), ("disk at 0", Answer("disk at", 0)),
                ("memory", Answer("memory")),
                (f"differs at 0 {DIGEST} {ZERO}", Answer("differs", 0, NETWORK, bytes(32)))):
            self.assertEqual(following.read_answer(line), answer)

    def test_lines_that_are_none(self):
        for line in ("", "have", "have x", "have 1 2", "Have 1", "packet 0", "differs at 0 ab cd",
                     "journal damaged at 38", "cabinet"):
            with self.assertRaises(WrongAnswer):
                following.read_answer(line)

    def test_where_a_follower_is(self):
        self.assertEqual(following.asked_epoch("want 1"), 0)
        self.assertEqual(following.asked_epoch("want 4000000001"), 4_000_000_000)
        for line in "have 1", "want 0", "memory":
            with self.assertRaises(WrongAnswer):
                following.asked_epoch(line)
        line = f"differs at 7 {ADMITTED} {ZERO}"
        self.assertEqual(following.asked_value(line, 7).hex(), ADMITTED)
        for line, epoch in (line, 6), (f"differs at 7 {ADMITTED} {DIGEST}", 7), ("have 7", 7):
            with self.assertRaises(WrongAnswer):
                following.asked_value(line, epoch)


class Comparing(unittest.TestCase):
    def compared(self, held, epoch, value, digest=NETWORK):
        with tempfile.NamedTemporaryFile() as file:
            file.write(held)
            file.flush()
            with LiveJournal(file.name, digest) as journal:
                try:
                    following.compare(journal, epoch, value)
                except OtherHistory as other:
                    return str(other).replace(file.name, "J")
                return [record.epoch for record in journal.read()]

    def test_the_same_entries(self):
        self.assertEqual(self.compared(CHAINED, 0, NETWORK), [1, 2])
        self.assertEqual(self.compared(CHAINED, 1, bytes.fromhex(ADMITTED)), [2])
        self.assertEqual(self.compared(CHAINED, 2, None), [])
        self.assertEqual(self.compared(b"", 0, NETWORK), [])

    def test_others_and_fewer(self):
        other = bytes(32)
        for held, epoch, own in (CHAINED, 1, ADMITTED), (CHAINED, 0, DIGEST), (b"", 0, DIGEST):
            entries = "1 entry" if epoch else "0 entries"
            self.assertEqual(
                self.compared(held, epoch, other), f"J and the follower have {entries} each, and "
                f"not the same ones: their chain values are {own} and {ZERO}")
        self.assertEqual(self.compared(CHAINED, 3, None),
                         "J has 2 entries, and the follower has 3")
        self.assertEqual(self.compared(b"", 3, None), "J has 0 entries, and the follower has 3")
