"""Tests of lines.py and of what makes its tables, by small sources. That the tables are those of
the repository's sources is a test of make_documents.py."""
import os
import tempfile
import unittest
from dataclasses import fields

import client
import line_tables
import lines

VERB = """
pub(crate) enum Verb {
    // `CUSTOMER put K NAME:RATE ..`
    Put,
    // `CUSTOMER look`
    Look,
    // `operator shut L`
    Shut,
}
pub(crate) const VERBS: [(Verb, &[u8]); 3] = [
    (Verb::Put, b"put"),
    (Verb::Look, b"look"),
    (Verb::Shut, b"shut"),
];
"""
REPLY_WORDS = """
-- at an epoch
abbrev pub at_epoch : Nat
at_epoch at = codes "at" ∷ decimal at ∷ []

-- whether it is shut
abbrev pub shut_words : Nat
shut_words true at = codes "shut" ∷ at_epoch at
shut_words false at = at_epoch at

-- what is told of it
abbrev pub told_of : Nat
told_of network None = []
told_of network (Some door) = name_of network door.inside ∷ decimal door.width ∷ []

-- the words of a reply
abbrev pub reply_words : Nat
reply_words network (PutAt id amounts) =
    codes "put" ∷ decimal id ∷ codes "links" ∷ map pair_word amounts
reply_words network (Nothing at) = codes "no" ∷ codes "room" ∷ at_epoch at
reply_words network (Door door out at) = codes "door" ∷ decimal door
    ∷ told_of network (slice_get network.doors door) ++ shut_words out at
reply_words network (All at ids) = codes "all" ∷ map decimal ids ++ at_epoch at
reply_words network Memory = codes "memory" ∷ []
"""
ANSWER = """
use Rattle.hose_graph.specs.declared.command.Command.TheVariants.{Put, Look as LookCommand, Shut}
use Rattle.hose_graph.specs.declared.command.Reply.TheVariants.{PutAt, Nothing, Door, All, Memory}

-- the answer to a put
abbrev pub IsPutAnswer : Type 0
IsPutAnswer book true (Nothing at) None = (at ≡ book)
IsPutAnswer book false (Nothing at) None = ⊥
IsPutAnswer book put (PutAt id amounts) (Some entry) = (id ≡ book)
IsPutAnswer book put reply entry = ⊥

-- the answer to a look
abbrev pub IsLookAnswer : Type 0
IsLookAnswer book None reply entry = (reply ≡ Nothing book) × (entry ≡ None)
IsLookAnswer book (Some door) (Door told out at) None = (told ≡ door)

-- the answer
abbrev pub IsAnswer : Type 0
IsAnswer book (Put hose) reply entry =
    (after ≡ held) × IsPutAnswer (book_of book) true reply entry
IsAnswer book LookCommand reply entry = IsLookAnswer book (first book) reply entry
IsAnswer book (Shut door) reply entry = IsPutAnswer book false reply entry

-- want of memory
abbrev pub MayWantMemory : Type 0
MayWantMemory book (Put hose) = ⊤
MayWantMemory book LookCommand = ⊥
MayWantMemory book (Shut door) = book ≡ door
"""


def write_lines(folder, reply_words=REPLY_WORDS):
    for path, text in (("hose_proto/src/verb.rt", VERB), ("hose_law/specs/Answer.antt", ANSWER),
                       ("hose_proto/specs/ReplyWords.antt", reply_words)):
        whole = os.path.join(folder, "crates", path)
        os.makedirs(os.path.dirname(whole), exist_ok=True)
        with open(whole, "w", encoding="utf-8") as file:
            file.write(text)
    return folder


class Made(unittest.TestCase):
    def test_commands(self):
        with tempfile.TemporaryDirectory() as folder:
            found = line_tables.commands_of(write_lines(folder))
        self.assertEqual(dict(found), {
            "put": ("CUSTOMER", ["K", "NAME:RATE .."], "PutAt",
                    ["Nothing", "PutAt", "Disk", "Memory"]),
            "look": ("CUSTOMER", [], None, ["Nothing", "Door"]),
            "shut": ("operator", ["L"], "PutAt", ["Nothing", "PutAt", "Disk", "Memory"])})

    def test_replies(self):
        with tempfile.TemporaryDirectory() as folder:
            forms, kinds = line_tables.replies_of(write_lines(folder))
        self.assertEqual(dict(forms), {
            "PutAt": "put <id> links <links>", "Nothing": "no room at <epoch>",
            "Door": "door <door> <inside> <width> <out> at <epoch>", "All": "all <ids> at <epoch>",
            "Memory": "memory"})
        self.assertEqual(kinds, {"ids": "numbers", "inside": "name", "links": "amounts",
                                 "out": "flag shut"})

    def test_what_is_not_read_is_told(self):
        changes = [("name_of network door.inside", "digest door"),
                   ("map decimal ids", "map end_word at"),
                   ("false at = at_epoch at", "false at = []"),
                   ("shut_words true", "shut_words other")]
        for old, new in changes:
            with self.subTest(old), tempfile.TemporaryDirectory() as folder:
                self.assertIn(old, REPLY_WORDS)
                with self.assertRaises(line_tables.Unknown):
                    line_tables.replies_of(write_lines(folder, REPLY_WORDS.replace(old, new)))


class Lines(unittest.TestCase):
    def test_told(self):
        for want, reply, values in (
                ("vpns at 3", "Vpns", [(), 3]), ("vpns 1 5 at 9", "Vpns", [[1, 5], 9]),
                ("bye", "Bye", []), ("no vpn 7 at 3", "NoVpn", [7, 3]),
                ("refused at 1 side a b", "Refused", [1, "ab"]),
                ("link 0 a h capacity 10 cost 1 load 3 out at 4", "LinkState",
                 [0, "a", "h", 10, 1, 3, True, 4]),
                ("vpn 1 cost 3 at 3 ends a:3 b:3 links 0:3", "Shown",
                 [1, 3, 3, {"a": 3, "b": 3}, [(0, 3)]])):
            self.assertEqual(lines.told(reply, *values), want)
            self.assertEqual(str(client.read_reply(want)), want)
        for values in ([], [1, 2]):
            with self.assertRaises((AssertionError, StopIteration)):
                lines.told("Bad", *values)

    def test_orders_and_what_tells_of_entries(self):
        self.assertEqual(lines.ORDERS, ("admit", "admit-after", "take", "release", "down", "up"))
        self.assertEqual(lines.ENTERED, ("admitted", "released", "down", "up"))
        self.assertEqual(lines.usage("admit-after"), "admit-after K NAME:RATE ..")

    def test_each_reply_of_the_client_has_the_fields_of_its_line(self):
        self.assertEqual(sorted(kind.line for kind in client.KINDS), sorted(lines.REPLIES))
        for kind in client.KINDS:
            names = [field.name for field in fields(kind)] if lines.fields_of(kind.line) else []
            self.assertEqual(names, lines.fields_of(kind.line), kind)

    def test_a_reply_that_is_named_has_a_line(self):
        for command in lines.COMMANDS.values():
            self.assertLessEqual({*command.replies, command.entered} - {None}, set(lines.REPLIES))
