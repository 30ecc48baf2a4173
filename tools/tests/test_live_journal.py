"""Tests of live_journal.py: each moment at which a reader may come while a program writes. The
bytes are those that test_read_journal.py has, put together by hand."""
import os
import tempfile
import unittest
import unittest.mock

import live_journal
from journals import Damaged, Down, Release
from live_journal import (Bytes, DamagedJournal, LiveJournal, Lost, OtherHistory, OtherNetwork,
                          Reader, Unreadable)
from tests.test_read_journal import (ADMISSION, ADMITTED, CHAINED, CHANGES, DIGEST, PLAIN, RELEASE,
                               RELEASED, SEALED)

FIRST, SECOND, END = 38, 120, 167  # the gates of CHAINED
SEAL = 88  # the gate before the seal of SEALED
NETWORK = bytes.fromhex(DIGEST)
BODIES = [bytes.fromhex(ADMISSION), bytes.fromhex(RELEASE)]
VALUES = [NETWORK, bytes.fromhex(ADMITTED), bytes.fromhex(RELEASED)]
EMPTY = CHAINED[:FIRST] + b"\0"
ONE = CHAINED[:SECOND] + b"\0"
SHORT = CHANGES[:78] + b"\0"  # another first entry, with a shorter record


def bodies(records):
    return [record.body for record in records]


class Scripted:
    """A file that has other bytes at each read; the last ones stay."""

    def __init__(self, *states):
        self.states = list(states)

    def read_at(self, at, size):
        held = self.states.pop(0) if len(self.states) > 1 else self.states[0]
        return held[at:at + size]


def appended(held, written):
    """The states of a file while a record is written behind its last gate, which opens in the
    last one."""
    gate = len(held) - 1
    for size in range(1, len(written) + 1):
        yield held + written[:size]
    yield held[:gate] + b"\1" + written


def taken_back(held, gate, written):
    """The states of a file while the record at a gate is taken back and another one written."""
    closed = held[:gate] + b"\0" + held[gate + 1:]
    for size in range(len(written) + 1):
        yield closed[:gate + 1] + written[:size] + closed[gate + 1 + size:]
    yield closed[:gate] + b"\1" + written + closed[gate + 1 + len(written):]


class WhileWritten(unittest.TestCase):
    """A reader that comes at each state of a file."""

    def read_through(self, file, states):
        """What is given at the last state alone."""
        reader = Reader(file)
        reader.records()
        *amid, last = states
        for held in amid:
            file.held = held
            self.assertEqual(reader.records(), [])
        file.held = last
        return reader.records()

    def test_an_entry_is_given_once_its_gate_is_open(self):
        for held, written, body in (
                (EMPTY, CHAINED[FIRST + 1:SECOND] + b"\0", BODIES[0]),
                (ONE, CHAINED[SECOND + 1:], BODIES[1]),
                (SEALED[:126] + b"\0", SEALED[127:], BODIES[1])):
            records = self.read_through(Bytes(held), appended(held, written))
            self.assertEqual(bodies(records), [body])

    def test_a_seal_is_no_entry_and_what_follows_it_is_chained(self):
        held = PLAIN[:SEAL] + b"\0"
        file = Bytes(held)
        records = self.read_through(file, appended(held, SEALED[SEAL + 1:126] + b"\0"))
        self.assertEqual([record.entry for record in records], [None])
        reader = Reader(file)
        self.assertEqual(len(reader.records()), 2)
        self.assertTrue(reader.place.chained)
        file.held = SEALED
        self.assertEqual(bodies(reader.records()), BODIES[1:])

    def test_a_journal_is_there_once_its_first_gate_is_open(self):
        file = Bytes(b"")
        reader = Reader(file)
        for size in range(38):
            file.held = b"\0" + EMPTY[1:1 + size]
            self.assertFalse(reader.is_begun())
        file.held = b"\0" + EMPTY[1:]
        self.assertEqual(reader.records(), [])
        self.assertIsNone(reader.place)
        file.held = EMPTY
        self.assertEqual(reader.records(), [])
        self.assertEqual(reader.place.value, NETWORK)

    def test_what_was_given_and_taken_back_is_told(self):
        for written in CHAINED[FIRST + 1:SECOND] + b"\0", CHANGES[FIRST + 1:78] + b"\0":
            for held in taken_back(SHORT, FIRST, written):
                file = Bytes(SHORT)
                reader = Reader(file)
                self.assertEqual(reader.records()[0].entry, Down(0))
                file.held = held
                if held.startswith(SHORT[:-1]):
                    self.assertEqual(reader.records(), [])
                    continue
                with self.assertRaises(Lost):
                    reader.records()

    def test_what_was_not_given_is_taken_back_unseen(self):
        for held in taken_back(ONE, FIRST, CHANGES[FIRST + 1:78] + b"\0"):
            file = Bytes(EMPTY)
            reader = Reader(file)
            reader.records()
            file.held = held
            given = reader.records()
            file.held = CHANGES
            self.assertEqual(bodies(given + reader.records()), [b"\3\0\0", b"\4\0\0"])


class AmidARead(unittest.TestCase):
    """A file that changes within a read, which then gives of both."""

    def test_a_record_that_was_half_overwritten(self):
        for size in range(1, len(SHORT) - 1 - FIRST):
            mixed = SHORT[:FIRST + size] + ONE[FIRST + size:]
            reader = Reader(Scripted(EMPTY, mixed, ONE))
            self.assertEqual(bodies(reader.records()), BODIES[:1])

    def test_a_file_that_grows_after_its_length_was_looked_at(self):
        for size in range(FIRST + 1, SECOND + 1):
            reader = Reader(Scripted(EMPTY, CHAINED[:size], ONE))
            self.assertEqual(bodies(reader.records()), BODIES[:1])

    def test_one_that_is_taken_back_meanwhile(self):
        mixed = CHAINED[:60] + CHANGES[60:78] + b"\0"
        reader = Reader(Scripted(EMPTY, mixed, EMPTY))
        self.assertEqual(reader.records(), [])

    def test_the_same_bytes_twice_are_damage(self):
        for held, at in ((CHAINED[:60] + b"\xff" + CHAINED[61:], FIRST), (CHAINED[:100], FIRST),
                         (CHAINED[:END] + b"\1", END)):
            reader = Reader(Bytes(held))
            if at == END:
                self.assertEqual(bodies(reader.records()), BODIES)
            with self.assertRaises(Damaged) as caught:
                reader.records()
            self.assertEqual(caught.exception.at, at)

    def test_what_stands_before_the_damage_is_given_first(self):
        reader = Reader(Bytes(CHAINED[:150] + b"\xff" + CHAINED[151:]))
        self.assertEqual(bodies(reader.records()), BODIES[:1])
        with self.assertRaises(Damaged) as caught:
            reader.records()
        self.assertEqual(caught.exception.at, SECOND)


class Files(unittest.TestCase):
    def setUp(self):
        folder = tempfile.TemporaryDirectory()
        self.addCleanup(folder.cleanup)
        self.path = os.path.join(folder.name, "journal")

    def put(self, held, path=None):
        """Puts the bytes into the file that is there, as `cp` does."""
        with open(path or self.path, "wb") as file:
            file.write(held)

    def replace(self, held):
        """Puts another file at the path, as `mv` does."""
        self.put(held, self.path + ".new")
        os.rename(self.path + ".new", self.path)

    def live(self, held, digest=NETWORK):
        self.put(held)
        journal = LiveJournal(self.path, digest)
        self.addCleanup(journal.close)
        return journal

    def assert_ends(self, journal, fault, sentence):
        with self.assertRaises(fault) as caught:
            (journal or LiveJournal(self.path, NETWORK)).read()
        self.assertEqual(str(caught.exception), f"{self.path} {sentence}")


class Reading(Files):
    def test_entries_with_their_places_in_the_chain(self):
        for held in CHAINED, PLAIN, SEALED:
            journal = self.live(held)
            records = journal.read()
            self.assertEqual(bodies(records), BODIES)
            self.assertEqual(records[1].entry, Release("acme", 1))
            self.assertEqual([record.epoch for record in records], [1, 2])
            self.assertEqual([record.before for record in records], VALUES[:2])
            self.assertEqual((journal.epoch, journal.value), (2, VALUES[2]))
            self.assertEqual((journal.read(), journal.size()), ([], len(held)))

    def test_what_is_synced_is_given_then(self):
        self.put(CHAINED)
        with LiveJournal(self.path, NETWORK, synced=True) as journal, \
                unittest.mock.patch("os.fdatasync") as sync:
            self.assertEqual(bodies(journal.read(until=1)), BODIES[:1])
            sync.side_effect = OSError(5, "Input/output error")
            with self.assertRaises(Unreadable):
                journal.read()
            self.assertEqual(sync.call_count, 2)

    def test_up_to_an_epoch_and_behind_one(self):
        for held in CHAINED, PLAIN, SEALED:
            journal = self.live(held)
            self.assertEqual(bodies(journal.read(until=1)), BODIES[:1])
            self.assertEqual(journal.read(until=1), [])
            self.assertEqual(bodies(journal.read()), BODIES[1:])
            journal = self.live(held)
            self.assertTrue(journal.skip(1))
            self.assertEqual(journal.value, VALUES[1])
            self.assertFalse(journal.skip(3))
            self.assertEqual(journal.epoch, 2)

    def test_in_small_pieces(self):
        for held, size in (CHAINED, 83), (PLAIN, 64), (SEALED, 64):
            with unittest.mock.patch.object(live_journal, "PIECE", size):
                journal = self.live(held)
                self.assertEqual(bodies(journal.read()), BODIES[:1])
                self.assertEqual(bodies(journal.read()), BODIES[1:])
                self.assertTrue(self.live(held).skip(2))

    def test_a_journal_that_is_begun_later(self):
        journal = self.live(b"")
        self.assertEqual((journal.read(), journal.epoch, journal.value), ([], 0, None))
        self.put(CHAINED)
        self.assertEqual(bodies(journal.read()), BODIES)


class Faults(Files):
    def test_a_path_that_leads_to_no_file(self):
        for path, reason in ((self.path, "cannot be read: No such file or directory"),
                             (os.path.dirname(self.path), "is no regular file"),
                             ("a\0b", "cannot be read: embedded null byte")):
            with self.assertRaises(Unreadable) as caught:
                LiveJournal(path)
            self.assertEqual(str(caught.exception), f"{path} {reason}")

    def test_another_network(self):
        other = "00" * 32
        self.put(CHAINED[:6] + bytes(32) + CHAINED[38:])
        self.assert_ends(
            None, OtherNetwork, f"is the journal of another network: it keeps the digest {other}, "
            f"and that of the topology is {DIGEST}")
        self.assertEqual(bodies(self.live(CHAINED, None).read()), BODIES)

    def test_damage(self):
        for held, at in ((b"\0" + CHAINED[1:], 0), (b"\1HOUSE" + CHAINED[6:], 1),
                         (b"some text that is long enough to be no journal", 0)):
            self.put(held)
            self.assert_ends(None, DamagedJournal, f"is damaged at {at}")
        journal = self.live(CHAINED[:130])
        self.assertEqual(bodies(journal.read()), BODIES[:1])
        self.assert_ends(journal, DamagedJournal, "is damaged at 120")


class OtherFiles(Files):
    def test_another_file_with_the_same_entries_is_read_on(self):
        for held in CHAINED, SEALED, PLAIN:
            for put in self.put, self.replace:
                journal = self.live(ONE)
                self.assertEqual(bodies(journal.read()), BODIES[:1])
                put(held)
                self.assertEqual(bodies(journal.read()), BODIES[1:])

    def test_fewer_entries(self):
        for held, epoch in (ONE, 1), (EMPTY, 0), (b"", 0), (CHAINED[:50], None):
            for put in self.put, self.replace:
                journal = self.live(CHAINED)
                journal.read()
                put(held)
                if epoch is None:
                    self.assert_ends(journal, DamagedJournal, "is damaged at 38")
                else:
                    self.assert_ends(journal, OtherHistory, f"ends behind the entry {epoch} by "
                                                            "now, and was read up to 2")

    def test_other_entries(self):
        for put in self.put, self.replace:
            journal = self.live(CHAINED)
            journal.read()
            put(CHANGES)
            self.assert_ends(journal, OtherHistory, "has other entries by now than those that were "
                                                    "read, up to 2")

    def test_an_entry_that_is_taken_back(self):
        journal = self.live(CHAINED)
        journal.read()
        self.put(CHAINED[:SECOND] + b"\0" + CHAINED[SECOND + 1:])
        self.assert_ends(journal, OtherHistory, "ends behind the entry 1 by now, and was read up "
                                                "to 2")

    def test_another_network(self):
        journal = self.live(ONE)
        journal.read()
        self.replace(ONE[:6] + bytes(32) + ONE[38:])
        with self.assertRaises(OtherNetwork):
            journal.read()

    def test_a_path_that_leads_nowhere_changes_nothing(self):
        journal = self.live(ONE)
        journal.read()
        os.rename(self.path, self.path + ".old")
        self.assertEqual(journal.read(), [])
        self.put(CHAINED, self.path + ".old")
        self.assertEqual(bodies(journal.read()), BODIES[1:])
