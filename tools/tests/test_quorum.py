"""Tests of quorum.py, with an etcd in memory, a leader and a program made for tests."""
import argparse
import os
import signal
import socket
import sys
import tempfile
import threading
import time
import unittest
from hashlib import sha256
from unittest import mock

import etcd
import following
import quorum
import quorum_book
from etcd import Etcd, Refused, Unsure
from following import Packet
from quorum_book import Book, Fenced, Head, Put, Stop
from tests.fake_etcd import FakeEtcd, served
from tests.fake_leader import ASK_HAVE, Leader
from tests.runs import DEMO, TOOLS, program, within
from tests.test_standby import FakeLink

STAR = os.path.join(DEMO, "star.txt")
DIGEST = sha256(b"a network").digest()
PROGRAM = os.path.join(TOOLS, "tests", "fake_hosed.py")
ROOT = "/hosed/orders/"


def bodies(*numbers):
    """Releases of acme's."""
    return [b"\2\4acme" + number.to_bytes(4, "big") for number in numbers]


def history(*numbers):
    """The chain values of these entries, from none on, and their packets."""
    values, packets = [DIGEST], []
    for body in bodies(*numbers):
        packets.append(Packet(len(packets) + 1, values[-1], body))
        values.append(packets[-1].after())
    return values, packets


def spelled(packets):
    return [following.packet(*one) for one in packets]


def journal_of(*numbers):
    """The bytes of a journal."""
    _, packets = history(*numbers)
    records = (b"\1" + len(one.body).to_bytes(4, "big") + one.after() + one.body for one in packets)
    return b"\1HOSE\2" + DIGEST + b"".join(records) + b"\0"


class Trials(unittest.TestCase):
    def setUp(self):
        self.fake, self.told = FakeEtcd(), []
        asked = mock.patch.object(
            Etcd, "_ask", lambda _, path, question: self.fake.answer(path, question))
        for patch in (asked, mock.patch("quorum_book.told", self.told.append),
                      mock.patch("quorum.told", self.told.append)):
            patch.start()
            self.addCleanup(patch.stop)
        self.book = Book(Etcd("http://one,http://two"), "orders")

    def put_book(self, *numbers, term=0, machine="nobody", first=1):
        """A book with these entries, of which etcd has those from one on."""
        values, packets = history(*numbers)
        for one in packets[first - 1:]:
            self.set(f"entries/{one.epoch:012d}", following.packet(*one))
        self.set("head", Head(len(packets), values[-1], term, machine).text())
        return values, packets

    def set(self, key, value, lease=0):
        self.fake.kv_txn({"compare": [], "success": [etcd.put(ROOT + key, value, lease)]})

    def stand(self, machine="a"):
        """A candidate's lease, and its key."""
        lease = self.book.etcd.grant(5)
        return lease, self.book.stand(lease, machine)

    def head(self):
        return self.fake.told(ROOT + "head").decode().split()

    def assert_stop(self, status, call, *words):
        with self.assertRaises(Stop) as stop:
            call(*words)
        self.assertEqual(stop.exception.status, status, stop.exception)


# ---- etcd.


class Gateway(unittest.TestCase):
    """The client, over http."""

    def setUp(self):
        self.fake = FakeEtcd()
        server = served(self.fake)
        self.url = server.__enter__()
        self.addCleanup(server.__exit__, None, None, None)

    def at(self, urls):
        here = Etcd(urls)
        self.addCleanup(lambda: here._link and here._link.close())
        return here

    def test_a_transaction_that_compares(self):
        here = self.at(self.url)
        self.assertEqual(here.transact([etcd.created_at("key", 0)], [etcd.put("key", b"\0\xff")]),
                         (True, [[]]))
        self.assertEqual(here.transact([etcd.created_at("key", 0)], []), (False, []))
        is_done, ((found,),) = here.transact([etcd.value_is("key", b"\0\xff")], [etcd.get("key")])
        self.assertEqual((is_done, found), (True, etcd.Value("key", b"\0\xff", 2)))
        here.transact([etcd.none_in("kez", "l")], [etcd.delete("a", "z")])
        self.assertEqual(self.fake.keys, {})

    def test_leases(self):
        here = self.at(self.url)
        lease = here.grant(5)
        self.assertEqual(here.keep_alive(lease), 5)
        here.revoke(lease)
        self.assertEqual(here.keep_alive(lease), 0)
        here.compact("key")
        self.assertEqual(self.fake.compacted, self.fake.revision)

    def test_the_next_member_is_asked(self):
        here = self.at(f"http://127.0.0.1:1,{self.url}")
        self.assertEqual(here.grant(5), 0x51)
        self.fake.faults = ["before"]
        with self.assertRaises(Unsure):
            here.grant(5)
        self.assertEqual(here.grant(5), 0x52)

    def test_a_slow_member_is_waited_for_longer(self):
        """As the next one is, until they are not slow any more."""
        here, waited = Etcd("http://one,http://two,http://three"), []

        def ask(slow, *_):
            waited.append(min(slow, here.seconds))
            if slow > here.seconds:
                raise TimeoutError
            return {"ID": "1"}

        for slow, wanted in ((0.1, [0.1]), (1.2, [1.0, 1.2]), (1.2, [1.2]), (0.4, [0.4]),
                             (1.2, [1.0, 1.2]), (2.5, [2.0] * 3), (1.9, [1.9])):
            waited.clear()
            with mock.patch.object(Etcd, "_ask", lambda *_: ask(slow)), \
                    mock.patch("etcd.now", lambda: sum(waited)):
                if slow > 2:
                    self.assertRaises(Unsure, here.grant, 5)
                else:
                    self.assertEqual((here.grant(5), here.asked_at), (1, sum(wanted[:-1])))
            self.assertEqual(waited, wanted, slow)
        self.fake.faults = ["before", ""]
        here = self.at(f"{self.url},{self.url}")
        here.seconds = 2.0
        here.grant(5)
        self.assertEqual(here._link.sock.gettimeout(), here.seconds)

    def test_what_is_refused(self):
        with self.assertRaises(Refused), mock.patch.object(
                FakeEtcd, "lease_grant", side_effect=KeyError("lease")):
            self.at(self.url).grant(5)

    def test_https(self):
        here = Etcd("https://one:2379", "context")
        with mock.patch("http.client.HTTPSConnection", side_effect=OSError) as link:
            with self.assertRaises(Unsure):
                here.grant(5)
        link.assert_called_with("one:2379", timeout=etcd.SECONDS, context="context")


# ---- put.


class Puts(Trials):
    def setUp(self):
        super().setUp()
        self.values, self.packets = self.put_book(1, 2)
        self.lease, self.fence = self.stand()
        self.put, self.killed, self.idle = Put(self.book, self.fence), [], 0
        for patch in (mock.patch("quorum_book.select.select", self.select),
                      mock.patch("quorum_book.os.kill", lambda *words: self.killed.append(words))):
            patch.start()
            self.addCleanup(patch.stop)

    def select(self, *_):
        """Bytes have come, but where nothing is to come for a while."""
        self.idle -= 1
        return [1] if self.idle < 0 else [], [], []

    def answers(self, *pieces, then=lambda: None):
        """What is answered to bytes that come in these pieces, before the last of which something
        happens."""
        near, far = socket.socketpair()
        found = []

        def read(_):
            piece = pieces[len(found)] if len(found) < len(pieces) else b""
            found.append(piece)
            if len(found) == len(pieces):
                then()
            return piece

        with far, near:
            self.put.host = mock.Mock(recv=read, sendall=near.sendall, fileno=near.fileno)
            try:
                self.put.run()
            finally:
                near.close()
                said = b""
                for piece in iter(lambda: far.recv(1 << 16), b""):
                    said += piece
                self.said = said.decode().splitlines()
        return self.said

    def test_answers_are_a_followers(self):
        value = self.values[2].hex()
        self.assertEqual(
            self.answers(following.ASK_EPOCH + following.ask_value(2), ASK_HAVE),
            ["want 3", f"differs at 2 {value} {bytes(32).hex()}", "have 2"])
        self.assertEqual(self.answers(*spelled(self.packets)), ["have 2", "have 2"])

    def test_entries_are_put_before_they_are_told(self):
        values, packets = history(1, 2, 3, 4)
        sent = b"".join(spelled(packets[2:]))
        told = self.answers(sent[:30], sent[30:], ASK_HAVE)
        self.assertEqual(told, ["have 3", "have 4", "have 4"])
        self.assertEqual(self.head(), ["4", values[4].hex(), "0", "nobody"])
        self.assertEqual(self.fake.told(ROOT + "entries/000000000004"), spelled(packets)[3])
        before = self.fake.revision
        self.assertEqual(self.answers(*spelled(packets)), ["have 4"] * 4)
        self.assertEqual(self.fake.revision, before)

    def test_many_entries_go_in_few_transactions(self):
        _, packets = history(*range(1, 251))
        self.fake.keys[ROOT + "head"] = (Head(0, DIGEST, 0, "nobody").text(), 1, 0)
        self.fake.keys = {key: row for key, row in self.fake.keys.items() if "entries" not in key}
        before = self.fake.revision
        self.assertEqual(self.answers(b"".join(spelled(packets))),
                         [f"have {number}" for number in range(1, 251)])
        self.assertEqual(self.fake.revision, before + 3)

    def test_an_entry_of_another_history(self):
        other = Packet(3, self.values[1], bodies(7)[0])
        self.assertEqual(self.answers(following.packet(*other)),
                         [f"differs at 2 {self.values[2].hex()} {self.values[1].hex()}"])

    def test_what_is_no_packet_ends_the_connection(self):
        with self.assertRaises(following.WrongAnswer):
            self.answers(ASK_HAVE, bytes(40))
        self.assertEqual(self.said, ["have 2"])

    def test_nothing_is_answered_once_the_fence_is_gone(self):
        _, packets = history(1, 2, 3)
        for piece in following.ASK_EPOCH, following.ask_value(2), ASK_HAVE, spelled(packets)[2]:
            lease, fence = self.stand()
            self.put = Put(self.book, fence)
            with self.assertRaises(Fenced):
                self.answers(ASK_HAVE, piece, then=lambda: self.fake.ended(lease))
            self.assertEqual((self.said, self.head()[0]), (["have 2"], "2"))

    def test_a_lost_answer(self):
        _, packets = history(1, 2, 3)
        for faults in ["before"], ["after"], ["before", "before", "after"], ["after"] * 2:
            self.fake.keys[ROOT + "head"] = (Head(2, self.values[2], 0, "nobody").text(), 1, 0)
            self.fake.keys.pop(ROOT + "entries/000000000003", None)
            said = self.answers(spelled(packets)[2],
                                then=lambda: setattr(self.fake, "faults", list(faults)))
            self.assertEqual((said, self.head()[0]), (["have 3"], "3"), faults)

    def test_a_lost_answer_and_a_fence_that_is_gone(self):
        """The entry stands there, as a new leader may have put the same one: nothing is told."""
        _, packets = history(1, 2, 3)

        def fault(path, question):
            found = FakeEtcd.answer(self.fake, path, question)
            if found and any("request_put" in part for part in question["success"]):
                self.fake.ended(self.lease)
                raise OSError("lost")
            return found

        with mock.patch.object(self.fake, "answer", fault), self.assertRaises(Fenced):
            self.answers(spelled(packets)[2])
        self.assertEqual((self.said, self.head()[0]), ([], "3"))

    def test_other_entries_behind_the_head(self):
        _, packets = history(1, 2, 3)
        self.assert_stop(25, lambda: self.answers(
            spelled(packets)[2], then=lambda: self.set("entries/000000000003", b"x")))
        self.assertEqual((self.said, self.head()[0]), ([], "2"))

    def test_a_host_that_has_gone_is_waited_for_no_more(self):
        near, far = socket.socketpair()
        far.close()
        self.put.host, self.fake.faults = near, ["before"] * 4
        with near, self.assertRaises(OSError):
            self.put.run()

    def test_a_leader_as_a_host_is(self):
        values, packets = history(1, 2, 3, 4, 5)
        leader = Leader(values, spelled(packets[:4]))
        door, near = socket.socket(socket.AF_UNIX), socket.socket(socket.AF_UNIX)
        with tempfile.TemporaryDirectory() as folder, door, near:
            door.bind(os.path.join(folder, "door"))
            door.listen()
            threading.Thread(target=self.serve, args=(door,), daemon=True).start()
            near.connect(os.path.join(folder, "door"))
            lines = near.makefile("r")

            def go(count):
                near.sendall(leader.unsent())
                for _ in range(count):
                    leader.take(lines.readline().rstrip("\n"))

            for count in 1, 1, 3:
                go(count)
            self.assertEqual((leader.stage, leader.start, leader.heard), ("following", 2, 4))
            leader.packets = spelled(packets)
            leader.ask()
            go(2)
            self.assertEqual((leader.heard, leader.why, self.head()[0]), (5, "", "5"))
            self.fake.ended(self.lease)
            leader.ask()
            near.sendall(leader.unsent())
            self.assertEqual(lines.readline(), "")
            self.assertEqual(self.killed, [(os.getpid(), signal.SIGKILL)])

    def test_the_fence_is_looked_at_where_nothing_comes(self):
        self.idle = 3
        self.assertEqual(self.answers(ASK_HAVE), ["have 2"])
        self.idle = 3
        with mock.patch.object(self.put, "look", side_effect=[None, None, Fenced(24, "")]), \
                self.assertRaises(Fenced):
            self.answers(ASK_HAVE)
        self.assertEqual(self.said, [])

    def serve(self, door):
        try:
            self.put.serve(door)
        except Stop:
            self.put.host.close()

    def test_leaders_that_are_not_followed_by_it(self):
        for values, packets, why in ((*history(1), "ahead"), (*history(1, 7), "other"),
                                     (*history(1, 7, 8), "other")):
            leader = Leader(values, spelled(packets))
            while leader.stage != "ended" and leader.stage != "following":
                for line in self.answers(leader.unsent()):
                    leader.take(line)
            self.assertEqual(leader.why, why)


# ---- A machine's journal.


class Files(Trials):
    """With a journal, whose follower is within the test."""

    def setUp(self):
        super().setUp()
        self.fault = []
        link = mock.patch("quorum.FollowerLink", lambda words: FakeLink([words[-1], *self.fault]))
        for patch in link, mock.patch("quorum.PAUSE", 0):
            patch.start()
            self.addCleanup(patch.stop)
        folder = tempfile.TemporaryDirectory()
        self.addCleanup(folder.cleanup)
        self.path = os.path.join(folder.name, "orders.journal")
        self.given = argparse.Namespace(journal=self.path, topology=STAR, tariff=None, machine="a",
                                        program=PROGRAM, ttl=5, margin=1.0, kind="lead")
        self.journal = quorum.Journal(self.given, self.book)
        self.addCleanup(self.journal.end)

    def write(self, held, mark=None):
        with open(self.path, "wb") as file:
            file.write(held)
        if mark:
            with open(self.path + ".led", "w") as file:
                file.write(f"{mark[0]} {mark[1]}\n")

    def held(self, path=None):
        with open(path or self.path, "rb") as file:
            return file.read()

    def bring(self):
        return self.journal.bring(self.book.head())

    def aside(self):
        folder = os.path.dirname(self.path)
        return [os.path.join(folder, name) for name in os.listdir(folder) if ".aside-" in name]


class Journals(Files):
    def test_entries_are_given_to_the_follower(self):
        self.put_book(1, 2, 3)
        self.write(journal_of(1))
        self.assertTrue(self.bring())
        self.assertEqual(self.held(), journal_of(1, 2, 3))
        self.assertEqual(self.fake.told(ROOT + "have/a"), b"3")
        self.put_book(1, 2, 3, 4)
        self.assertTrue(self.bring())
        self.assertEqual(self.held(), journal_of(1, 2, 3, 4))

    def test_more_input_than_one_follower_reads(self):
        self.put_book(1, 2, 3)
        self.write(journal_of())
        with mock.patch("following.MOST_INPUT", 1 << 24):
            self.bring()
            self.assertIsNone(self.journal.link)
        self.assertTrue(self.bring())

    def test_a_mark_of_an_earlier_lead_goes(self):
        self.put_book(1, 2, term=9, machine="b")
        self.write(journal_of(1), (1, 7))
        self.assertTrue(self.bring())
        self.assertFalse(os.path.exists(self.path + ".led"))

    def test_what_only_this_leader_had_is_kept_where_nobody_has_led_since(self):
        _, packets = self.put_book(1, 2, 3, term=7, machine="a")
        self.write(journal_of(1, 2, 3, 4, 5), (2, 7))
        for _ in range(2):
            self.assertTrue(self.bring())
            self.assertIsNone(self.journal.link)
        self.assertEqual(self.journal.surplus, history(1, 2, 3, 4, 5)[1][3:])
        self.assertEqual(self.aside(), [])
        self.put_book(1, 2, 3, term=8, machine="b")
        self.assertFalse(self.bring())
        self.assertEqual(self.held(), journal_of(1, 2, 3))

    def test_what_only_an_old_leader_had_is_cut_off(self):
        for theirs, mine in (((1, 2, 3), (1, 2, 3, 8, 9)), ((1, 2, 3, 4), (1, 2, 3, 8)),
                             ((1, 2, 3, 4, 5, 6), (1, 2, 8, 9))):
            self.put_book(*theirs, term=8, machine="b")
            self.write(journal_of(*mine), (2, 7))
            self.journal.end()
            self.assertFalse(self.bring())
            (aside,) = self.aside()
            self.assertEqual(self.held(aside), journal_of(*mine))
            self.assertTrue(journal_of(*theirs).startswith(self.held()[:-1]))
            self.assertTrue(self.bring())
            self.assertEqual(self.held(), journal_of(*theirs))
            os.unlink(aside)

    def test_a_copy_that_is_none_is_made_by_the_program(self):
        self.put_book(1, 2, 3, term=8, machine="b")
        self.write(journal_of(1, 2, 8) + b"what a stop left", (2, 7))
        self.assertFalse(self.bring())
        self.assertEqual(self.held(), journal_of(1, 2))

    def test_a_program_that_refuses(self):
        self.put_book(1, 2, 3, term=8, machine="b")
        self.write(journal_of(1, 2, 8), (2, 7))
        run = self.journal._run
        with mock.patch.object(self.journal, "_run", lambda verb, *more: run(
                "sip" if verb == "cut" else verb, *more)):
            self.assert_stop(28, self.bring)
        self.assertEqual((self.held(), self.aside()), (journal_of(1, 2, 8), []))

    def test_etcd_has_lost_entries(self):
        for mine, mark in (((1, 2, 3), None), ((1, 2, 3), (3, 7)), ((1, 8, 9), (2, 7)),
                           ((8,), None)):
            if os.path.exists(self.path + ".led"):
                os.unlink(self.path + ".led")
            self.put_book(1, 2, term=9, machine="b")
            self.write(journal_of(*mine), mark)
            self.assert_stop(25, self.bring)
            self.assertEqual(self.held(), journal_of(*mine))
        self.put_book(1, 2, 3)
        self.write(journal_of(1, 2, 3))
        self.assertTrue(self.bring())
        self.put_book(1, 2)
        self.assert_stop(25, self.bring)

    def test_etcd_has_deleted_what_the_journal_lacks(self):
        for key in list(self.fake.keys):
            del self.fake.keys[key]
        self.put_book(1, 2, 3, first=3)
        self.write(journal_of(1))
        self.assert_stop(26, self.bring)

    def test_no_book(self):
        self.assert_stop(27, self.bring)

    def test_a_follower_that_refuses(self):
        self.put_book(1)
        self.write(journal_of())
        for line, status in ("journal damaged at 38", "5"), ("topology 1 2", "2"):
            self.fault = "0", line + "\n", status
            self.assert_stop(28, self.bring)

    def test_faults_that_pass(self):
        self.put_book(1)
        self.write(journal_of())
        for line, status in ("cabinet", "6"), ("memory", "wait"), ("nonsense", "wait"):
            self.fault = "0", line + "\n", status
            self.assertFalse(self.bring())
        self.fault = []
        self.assertTrue(self.bring())

    def test_answers_of_a_follower_to_entries(self):
        self.put_book(1, 2)
        self.write(journal_of())
        self.journal.place()
        with mock.patch.object(self.journal.link, "answers", return_value=["unsound 1"]):
            self.assert_stop(28, self.bring)
        with mock.patch.object(self.journal.link, "answers", return_value=["disk at 0"]):
            self.assertFalse(self.bring())
        with mock.patch("quorum.PATIENCE", -1):
            self.assertFalse(self.bring())
        self.assertIn("the follower: it does not answer", self.told)


# ---- lead, begin and trim.


class Leads(Files):
    def setUp(self):
        super().setUp()
        with mock.patch("signal.signal"):
            self.machine = quorum.Machine(self.given, self.book)
        self.machine.journal = self.journal
        self.commands = []

        def command(lease, fence, head):
            self.commands.append((head.epoch, head.term, head.machine))
            self.machine.stop.set()

        self.patched = mock.patch.object(self.machine, "command", command)
        self.patched.start()
        self.addCleanup(lambda: self.patched.stop())

    def lead(self):
        self.machine.lead()
        self.assertEqual([key for key in self.fake.keys if "leader" in key and "5" not in key], [])

    def test_the_first_one_leads(self):
        self.put_book(1, 2)
        self.write(journal_of(1))
        self.lead()
        ((epoch, term, machine),) = self.commands
        self.assertEqual((epoch, machine, self.head()[2:]), (2, "a", [str(term), "a"]))
        self.assertEqual(self.held(self.path + ".led"), f"2 {term}\n".encode())
        self.assertEqual(self.fake.told(ROOT + "have/a"), b"2")
        self.assertEqual(self.fake.leases, set())

    def test_one_who_stands_behind_another_follows(self):
        self.put_book(1, 2)
        self.write(journal_of())
        lease, _ = self.stand("b")
        self.bring()
        with mock.patch.object(self.machine.stop, "wait", side_effect=lambda _: (
                self.put_book(1, 2, 3), self.fake.ended(lease))):
            self.lead()
        self.assertEqual(self.commands[0][0], 3)
        self.assertEqual(self.held(), journal_of(1, 2, 3))

    def test_what_it_has_beyond_is_put_with_its_claim(self):
        numbers = list(range(1, 206))
        self.put_book(*numbers[:3], term=7, machine="a")
        self.write(journal_of(*numbers), (2, 7))
        self.lead()
        self.assertEqual(self.commands[0][0], 205)
        self.assertEqual(self.head()[1], history(*numbers)[0][-1].hex())
        self.assertEqual(self.fake.told(ROOT + f"entries/{205:012d}"),
                         spelled(history(*numbers)[1])[-1])

    def test_a_claim_beside_another_leaders(self):
        self.put_book(1, 2)
        self.write(journal_of(1, 2))
        self.bring()
        fence = self.stand()[1]
        self.put_book(1, 2, 3)
        with self.assertRaises(Unsure):
            self.machine.claim(fence, Head(2, history(1, 2)[0][2], 0, "nobody"))
        self.assertFalse(os.path.exists(self.path + ".led"))

    def test_one_that_has_more_leaves_where_another_one_leads(self):
        self.put_book(1, 2, term=7, machine="a")
        self.write(journal_of(1, 2, 8), (2, 7))
        self.stand("b")
        with mock.patch.object(self.machine.stop, "wait", side_effect=lambda _: self.put_book(
                1, 2, term=9, machine="b")):
            self.lead()
        self.assertEqual((self.commands, self.held()), ([], journal_of(1, 2, 8)))
        self.lead()
        self.assertEqual(self.held(), journal_of(1, 2))

    def test_one_that_cannot_bring_its_journal_on_lets_another_one(self):
        self.put_book(1)
        self.write(journal_of(1))
        self.bring()
        self.put_book(1, 2)
        clock = iter(range(1000))
        with mock.patch.object(self.journal, "bring", side_effect=[True] + [False] * 99), \
                mock.patch("quorum.now", lambda: next(clock)), \
                mock.patch.object(quorum.Lease, "_keep"), \
                mock.patch.object(quorum.Lease, "is_held", return_value=True), \
                mock.patch.object(self.machine.stop, "wait"):
            self.lead()
        self.assertIn("leads, and cannot bring its journal on: another one may", self.told)

    def test_a_lease(self):
        with etcd.Lease(self.book.etcd, 5, 1.0) as lease:
            self.assertTrue(lease.is_held())
            with mock.patch("etcd.now", lambda: time.clock_gettime(time.CLOCK_BOOTTIME) + 4.1):
                self.assertFalse(lease.is_held())
            lease.until = etcd.now() + 100
            self.fake.ended(lease.id)
            with mock.patch("etcd.time.sleep"):
                lease._keep()
            self.assertFalse(lease.is_held())
            lease.until = etcd.now() + 100
        self.assertFalse(lease.is_held())

    def run_command(self, host, put="sleep 60", held=lambda: True):
        """What is told of a host's end, where `put` is this, and how long it took."""
        self.patched.stop()
        self.given.socket = os.path.join(os.path.dirname(self.path), "put")
        self.given.command = ["sh", "-c", "exec " + host]
        self.given.etcd, self.given.name = "http://one", "orders"
        self.given.cacert = self.given.cert = self.given.key = None
        begun, words, start = quorum.begun, [["sh", "-c", "exec " + put]], time.monotonic()

        def fake_begun(these, **how):
            self.put_words = self.put_words or these
            return begun(words.pop() if words else these, **how)

        self.put_words = None
        with mock.patch("quorum.begun", fake_begun):
            self.machine.command(mock.Mock(is_held=held), quorum.Fence("key", 7),
                                 Head(0, DIGEST, 7, "a"))
        self.patched.start()
        self.assertLess(time.monotonic() - start, 20)
        return self.told[-1]

    def test_a_host_that_ends(self):
        self.assertEqual(self.run_command("true"), "the host ended by itself: put -9, host 0")
        self.assertEqual(self.put_words[1:], [quorum.__file__, "put", "--etcd=http://one",
                                              "--name=orders", "key", "7"])
        self.assertTrue(os.stat(self.given.socket).st_mode & 0o777 == 0o600)

    def test_put_that_ends_ends_the_host(self):
        self.assertEqual(self.run_command("sleep 60", "sh -c 'exit 24'"),
                         "the host ended by itself: put 24, host -9")

    def test_a_lease_that_is_over_ends_the_host(self):
        held = iter([True, True] + [False] * 9)
        self.assertEqual(self.run_command("sleep 60", held=lambda: next(held)),
                         "the host ended as the lease is over: put -9, host -9")

    def test_a_stop_that_is_asked_for(self):
        self.machine.stop.set()
        self.assertEqual(self.run_command("sleep 60"), "the host ended as asked: put -9, host -9")

    def test_a_host_ends_with_who_leads(self):
        path = os.path.join(os.path.dirname(self.path), "pid")
        pid = os.fork()
        if pid == 0:
            try:
                child = quorum.begun(["sleep", "60"])
                with open(path, "w") as file:
                    file.write(str(child.pid))
            finally:
                os.kill(os.getpid(), signal.SIGKILL)
        os.waitpid(pid, 0)
        with open(path) as file:
            child = int(file.read())
        for _ in range(200):
            try:
                with open(f"/proc/{child}/stat") as file:
                    if file.read().rpartition(")")[2].split()[0] == "Z":
                        break
            except FileNotFoundError:
                break
            time.sleep(0.05)
        else:
            self.fail("it is there still")

    def test_follow(self):
        self.given.kind = "follow"
        self.put_book(1, 2)
        self.write(journal_of())
        with mock.patch.object(self.machine.stop, "wait", side_effect=lambda _:
                               self.machine.stop.set()):
            self.machine.run()
        self.assertEqual(self.held(), journal_of(1, 2))

    def test_etcd_that_is_not_there(self):
        self.put_book(1)
        self.fake.faults = ["before"] * 2
        with mock.patch.object(self.machine.stop, "wait", side_effect=lambda _:
                               self.machine.stop.set()):
            self.machine.run()
        self.assertIn("no member of etcd answers: before it was done", self.told)


class Words(Files):
    """By the program's words."""

    def run_words(self, *words):
        with mock.patch("signal.signal"):
            return within("quorum.py", quorum.main, *words)

    def begin(self, *words):
        return self.run_words("begin", "--etcd", "http://one", "--program", PROGRAM, *words, STAR,
                              self.path)

    def test_begin(self):
        self.write(journal_of(*range(1, 151)))
        self.assertEqual(self.begin(), (0, "head 150\n", ""))
        values, packets = history(*range(1, 151))
        self.assertEqual(self.head(), ["150", values[-1].hex(), "0", "nobody"])
        self.assertEqual(self.fake.told(ROOT + "entries/000000000150"), spelled(packets)[-1])
        self.assertEqual(self.begin()[0], 27)

    def test_begin_that_was_broken_off(self):
        self.write(journal_of(*range(1, 151)))
        self.fake.faults = ["", "before", "before"]
        with mock.patch.object(Etcd, "call", side_effect=Unsure("gone")):
            self.assertEqual(self.begin(), (29, "", "quorum.py: gone\n"))
        self.fake.faults = []
        self.assertEqual(self.begin("--start", "120")[0], 0)
        self.assertNotIn(ROOT + "entries/000000000119", self.fake.keys)
        self.write(journal_of())
        self.assertEqual(self.begin("--name", "other"), (0, "head 0\n", ""))

    def test_trim(self):
        self.put_book(*range(1, 9), machine="a")
        for machine, have in ("a", b"1"), ("b", b"6"), ("c", b"7"):
            self.set(f"have/{machine}", have)
        trimmed = self.run_words("trim", "--etcd", "http://one", "2")
        self.assertEqual(trimmed, (0, "trimmed up to 4\n", ""))
        self.assertEqual([key for key in sorted(self.fake.keys) if "entries" in key],
                         [ROOT + f"entries/{number:012d}" for number in range(5, 9)])
        self.assertEqual(self.fake.compacted, self.fake.revision)
        trimmed = self.run_words("trim", "--etcd", "http://one", "9")
        self.assertEqual(trimmed[1], "trimmed up to 0\n")
        self.assertEqual(self.book.first(self.book.head()), 4)

    def test_words_that_are_wrong(self):
        lead = "lead", "--etcd", "http://one", STAR, self.path
        for words in ((), ("lead",), (*lead, "hosed", "host"), (*lead, "host", "--standby", "p"),
                      (*lead, "host", "--standby-or-stop"),
                      ("follow", "--etcd", "u", "--machine", "a b", STAR, self.path)):
            self.assertEqual(self.run_words(*words)[0], 2, words)

    def test_a_program_that_is_not_there(self):
        for kind in "begin", "follow":
            words = kind, "--etcd", "http://one", "--program", "no-hosed", STAR, self.path
            self.assertEqual(self.run_words(*words)[0], 2)

    def test_put_whose_leader_is_gone(self):
        door, near = socket.socket(socket.AF_UNIX), socket.socket(socket.AF_UNIX)
        with tempfile.TemporaryDirectory() as folder, door, near:
            door.bind(os.path.join(folder, "door"))
            door.listen()
            near.connect(os.path.join(folder, "door"))
            self.put_book(1)
            with mock.patch("quorum.os.dup", return_value=os.dup(door.fileno())), \
                    mock.patch("quorum_book.os.kill") as kill:
                told = self.run_words("put", "--etcd", "http://one", ROOT + "leader/51", "7")
        self.assertEqual(told[0], 24)
        kill.assert_called_once_with(os.getpid(), signal.SIGKILL)

    def test_as_a_program(self):
        status, _, error = program("quorum.py", "trim", "--etcd", "http://127.0.0.1:1", "0")
        self.assertEqual(status, 29, error)
        self.assertIn("no member of etcd answers", error)


class Telling(unittest.TestCase):
    def test_what_stays_so_is_told_once_a_minute(self):
        with mock.patch("builtins.print") as printed, mock.patch("quorum_book.last", ("", 0.0)):
            for what, now in ("one", 1.0), ("one", 2.0), ("one", 70.0), ("two", 71.0):
                with mock.patch("time.monotonic", return_value=now):
                    quorum_book.told(what)
        self.assertEqual([call.args[0] for call in printed.call_args_list],
                         ["quorum.py: one", "quorum.py: one", "quorum.py: two"])


if __name__ == "__main__":
    sys.exit(unittest.main())
