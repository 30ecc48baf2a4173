"""Tests of read_journal.py: journals whose bytes were put together by hand, whole and damaged. The
chain values are what `sha256sum` gives."""
import os
import tempfile
import unittest

import read_journal
from tests.runs import program, within

DIGEST = "24fcb75877abb3e7844a793bdf784d862da4700e66d9e0ec6fbcf8c50249eda4"
ADMISSION = ("010461636d65030000000000030001000000040002000000050003"
             "000000000003000100000004000200000005")
RELEASE = "020461636d6500000001"
ADMITTED = "e662f63176f39652521dddf6bf2dc305b63bfc316b5650bda74bae00a6bfe071"
RELEASED = "57aa0483bb9af89c1d0de48e40b8a50f6cbedbc94aecac36d029b5e1a41850d3"
PLAIN = bytes.fromhex(f"01484f534501{DIGEST}010000002d{ADMISSION}010000000a{RELEASE}00")
CHAINED = bytes.fromhex(f"01484f534502{DIGEST}010000002d{ADMITTED}{ADMISSION}"
                        f"010000000a{RELEASED}{RELEASE}00")
SEALED = bytes.fromhex(f"01484f534501{DIGEST}010000002d{ADMISSION}010000002105{ADMITTED}"
                       f"010000000a{RELEASED}{RELEASE}00")
# Link 0 goes out of service, and back.
OUT = "060112e4ce2c5cdfc9314a3085a4cedac9236dbb1a413f0ee9bf84bb952c8671"
BACK = "edf2aa382c6072ded19b2a973db41c71bcd1be362511f42b4e6c2c1464035dfd"
CHANGES = bytes.fromhex(f"01484f534502{DIGEST}0100000003{OUT}0300000100000003{BACK}04000000")
ENTRIES = "acme admit 0:3 1:4 2:5 links 0:3 1:4 2:5", "acme release 1"


def lines(held):
    return list(read_journal.lines(held))


def last(held):
    return lines(held)[-1]


def turned(held, bit):
    return held[:bit // 8] + bytes([held[bit // 8] ^ 1 << bit % 8]) + held[bit // 8 + 1:]


def with_body(body):
    """A journal of version 1 of one record."""
    return PLAIN[:38] + b"\1" + len(body).to_bytes(4, "big") + body + b"\0"


class Whole(unittest.TestCase):
    def test_of_the_first_version(self):
        self.assertEqual(lines(PLAIN), [
            f"version 1 digest {DIGEST}", f"at 38 1 {ENTRIES[0]}", f"at 88 2 {ENTRIES[1]}",
            f"at 103 end, chain {RELEASED}"])

    def test_of_the_second_version(self):
        self.assertEqual(lines(CHAINED), [
            f"version 2 digest {DIGEST}", f"at 38 1 {ENTRIES[0]}", f"at 120 2 {ENTRIES[1]}",
            f"at 167 end, chain {RELEASED}"])

    def test_of_links_out_of_service_and_back(self):
        self.assertEqual(lines(CHANGES), [
            f"version 2 digest {DIGEST}", "at 38 1 down 0", "at 78 2 up 0",
            f"at 118 end, chain {BACK}"])
        self.assertEqual(lines(with_body(b"\4\7\xff"))[1], "at 38 1 up 2047")

    def test_with_a_seal(self):
        self.assertEqual(lines(SEALED), [
            f"version 1 digest {DIGEST}", f"at 38 1 {ENTRIES[0]}", "at 88 seal",
            f"at 126 2 {ENTRIES[1]}", f"at 173 end, chain {RELEASED}"])

    def test_what_follows_a_closed_gate_means_nothing(self):
        self.assertEqual(lines(CHAINED[:120] + b"\0" + CHAINED[121:]),
                         lines(CHAINED)[:2] + [f"at 120 end, chain {ADMITTED}"])
        self.assertEqual(last(PLAIN[:38] + b"\2\1\1"), f"at 38 end, chain {DIGEST}")

    def test_that_was_not_begun(self):
        for held in b"", CHAINED[:38], b"\0" + CHAINED[1:38] + b"\0":
            self.assertEqual(lines(held), ["not begun"])
        self.assertEqual(last(CHAINED[:38] + b"\0"), f"at 38 end, chain {DIGEST}")


class Damage(unittest.TestCase):
    def each_bit(self, held, first, end, place):
        for bit in range(8 * first, 8 * end):
            self.assertEqual(last(turned(held, bit)), f"damaged at {place}", bit)

    def test_each_bit_of_a_chained_record(self):
        self.each_bit(CHAINED, 39, 120, 38)
        self.each_bit(CHAINED, 121, 167, 120)

    def test_each_bit_behind_a_seal_and_of_it(self):
        self.each_bit(SEALED, 89, 126, 88)
        self.each_bit(SEALED, 127, 173, 126)

    def test_each_bit_of_an_entry_before_a_seal(self):
        # The entry may be another one by its form, but then the seal is of another list.
        for bit in range(8 * 39, 8 * 88):
            self.assertIn(last(turned(SEALED, bit)), ("damaged at 38", "damaged at 88"))

    def test_each_bit_of_the_head(self):
        self.each_bit(CHAINED, 0, 1, 0)
        self.each_bit(CHAINED, 1, 5, 1)
        self.assertEqual(last(CHAINED[:5] + b"\3" + CHAINED[6:]), "damaged at 1")
        self.assertEqual(last(CHAINED[:5] + b"\0" + CHAINED[6:]), "damaged at 1")
        self.each_bit(CHAINED, 6, 38, 38)  # the chain begins with the digest

    def test_each_length(self):
        for held, gates in (PLAIN, (38, 88, 103)), (CHAINED, (38, 120, 167)), \
                (SEALED, (38, 88, 126, 173)):
            for gate, after in zip(gates, gates[1:]):
                for length in range(gate + 1, after + 1):
                    self.assertEqual(last(held[:length]), f"damaged at {gate}", length)

    def test_a_gate_that_is_open_at_the_end(self):
        self.assertEqual(last(CHAINED[:167] + b"\1"), "damaged at 167")

    def test_a_seal_where_none_may_stand(self):
        seal = bytes.fromhex(f"010000002105{ADMITTED}00")
        self.assertEqual(last(CHAINED[:120] + seal), "damaged at 120")
        self.assertEqual(last(SEALED[:126] + seal), "damaged at 126")
        self.assertEqual(last(PLAIN[:88] + seal[:-2] + b"\0\0"), "damaged at 88")

    def test_bodies_that_spell_no_entry(self):
        admission, release = bytes.fromhex(ADMISSION), bytes.fromhex(RELEASE)
        for body in (b"", b"\3" + release[1:], b"\5\0\0", release + b"\0", release[:-1],
                     b"\3\0", b"\4\0\0\0", b"\3\x08\0",  # link 2,048
                     release.replace(b"acme", b"Acme"), b"\2\0" + release[6:],
                     b"\2\x11" + b"a" * 17 + release[6:],
                     admission.replace(b"\0\2", b"\0\1"),  # numbers that do not ascend
                     admission[:13] + b"\2\0" + admission[15:],  # node 512
                     admission[:9] + bytes(4) + admission[13:],  # a rate of 0
                     admission[:9] + (1_000_001).to_bytes(4, "big") + admission[13:],
                     release[:6] + (4_000_000_001).to_bytes(4, "big")):
            self.assertEqual(last(with_body(body)), "damaged at 38", body)
        self.assertNotEqual(last(with_body(release)), "damaged at 38")

    def test_a_body_that_is_too_long(self):
        self.assertEqual(last(PLAIN[:38] + b"\1" + (3_472).to_bytes(4, "big") + bytes(4_000)),
                         "damaged at 38")


class Program(unittest.TestCase):
    def told_of(self, held, run):
        with tempfile.TemporaryDirectory() as folder:
            path = os.path.join(folder, "journal")
            with open(path, "wb") as file:
                file.write(held)
            return run(path)

    def test_a_whole_one(self):
        told = self.told_of(SEALED, lambda path: program("read_journal.py", path))
        self.assertEqual(told, (0, "\n".join(lines(SEALED)) + "\n", ""))

    def test_a_damaged_one(self):
        told = self.told_of(CHAINED[:-1], lambda path: program("read_journal.py", path))
        self.assertEqual(told, (5, "\n".join(lines(CHAINED)[:2]) + "\ndamaged at 120\n", ""))

    def test_one_that_is_not_there(self):
        status, output, error = within("read_journal.py", read_journal.main, "/nowhere/journal")
        self.assertEqual((status, output), (6, ""))
        self.assertEqual(error, "read_journal.py: /nowhere/journal cannot be read: No such file or "
                                "directory\n")
