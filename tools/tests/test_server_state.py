"""Tests of server_state.py, by locks and a server of this process."""
import fcntl
import os
import tempfile
import unittest
from unittest import mock

import server_state
from replies import read_reply
from tests.fake_server import FakeServer
from tests.runs import link_line

FIGURES = (b"figures connections 1 ever 2 lines 3 admitted 4 refused 5 released 6 down 7 up 8 disk 9 "
           b"memory 10 lost 11 timed 3 took 4000000 over-100us 3 over-1ms 2 over-10ms 1 over-100ms 1 "
           b"over-1s 1 over-10s 0 synced 1500 at 12\n")
WELCOME, LINK = b"welcome at 0\n", link_line(0, "a", "b", 9, 1, 0, at=0).encode() + b"\n"
LOCKS = """1: FLOCK  ADVISORY  WRITE 77 {other} 0 EOF
2: FLOCK  ADVISORY  WRITE 78 {one} 0 EOF
2: -> FLOCK  ADVISORY  WRITE 79 {one} 0 EOF
"""


class Held(unittest.TestCase):
    def setUp(self):
        folder = tempfile.TemporaryDirectory()
        self.addCleanup(folder.cleanup)
        self.path, self.locks = (os.path.join(folder.name, name) for name in ("journal", "locks"))
        with open(self.path, "w", encoding="ascii"):
            self.inode = os.stat(self.path).st_ino

    def told(self, major, minor, locks):
        """Whether the file is held where it is on this device and these are the locks."""
        with open(self.locks, "w", encoding="ascii") as file:
            file.write(locks)
        state = mock.Mock(st_dev=os.makedev(major, minor), st_ino=self.inode)
        with mock.patch("os.stat", return_value=state):
            return server_state.is_held(self.path, self.locks)

    def test_locks_as_the_system_tells_them(self):
        one, other = f"fe:01:{self.inode}", f"fe:01:{self.inode + 1}"
        for major, minor, held in ((0xfe, 1, True), (0xfe, 2, False), (0, 44, True)):
            self.assertEqual(self.told(major, minor, LOCKS.format(one=one, other=other)), held)
        self.assertIs(self.told(0xfe, 1, LOCKS.format(one=other, other=other)), False)
        self.assertIs(self.told(0xfe, 1, ""), False)
        self.assertIs(self.told(0xfe, 1, "what is no lock\n"), False)
        self.assertIsNone(server_state.is_held(self.path, f"{self.locks}.none"))
        self.assertIsNone(server_state.is_held(f"{self.path}.none", self.locks))

    @unittest.skipUnless(os.path.exists(server_state.LOCKS), "this system tells no locks")
    def test_a_lock(self):
        with open(self.path, encoding="ascii") as file:
            self.assertIs(server_state.is_held(self.path), False)
            fcntl.flock(file, fcntl.LOCK_EX)
            self.assertIs(server_state.is_held(self.path), True)
        self.assertIs(server_state.is_held(self.path), False)


class Questions(unittest.TestCase):
    def test_a_session_that_stays_and_one_that_is_lost(self):
        with FakeServer([WELCOME, LINK, b"memory\n"], [WELCOME, LINK]) as server:
            question = server_state.Question(server.port, "metrics", 5)
            self.addCleanup(question.close)
            told = []
            for _ in range(4):
                question.ask()
                told.append((question.answers, question.seconds.samples()[-1].value))
        # A refusal is an answer, too; the third question has none, and the fourth a new session.
        self.assertEqual(told, [(True, 1), (True, 2), (False, 2), (True, 3)])
        self.assertEqual(server.lines, ["hello metrics", "link 0", "link 0", "hello metrics",
                                        "link 0"])

    def test_nobody_is_there(self):
        question = server_state.Question("/nowhere/socket", "metrics", 5)
        question.ask()
        names = [family.name for family in question.families()]
        self.assertEqual((question.answers, names),
                         (False, ["hosed_answers", "hosed_answer_seconds"]))


class Hosts(unittest.TestCase):
    def samples(self, question):
        return {(family.name, *sample.labels.values()): sample.value
                for family in question.families() for sample in family.samples
                if family.kind != "histogram"}

    def test_what_a_host_tells_its_operator(self):
        """A session that was lost with the host of before is opened anew at once."""
        with FakeServer([WELCOME, FIGURES], [WELCOME, FIGURES, b"denied at 12\n"]) as server:
            question = server_state.HostQuestion(server.port, 5)
            self.addCleanup(question.close)
            for _ in range(2):
                question.ask()
                told = self.samples(question)
                self.assertEqual(told["hosed_up",], 1)
                self.assertEqual(told["hosed_host_replies_total", "disk"], 9)
                self.assertEqual([told[f"hosed_host_{name}",] for name in (
                    "connections", "connections_ever", "lines_total", "log_lines_lost_total",
                    "epoch")], [1, 2, 3, 11, 12])
            question.ask()  # at a door where another customer is believed
            self.assertEqual(self.samples(question), {("hosed_up",): 0})
        self.assertEqual(server.lines, ["hello operator", "figures", "hello operator", "figures",
                                        "figures"])

    def test_how_long_a_host_took(self):
        """Of three orders one took more than a second, one more, and none more, than a millisecond:
        so much is below each bound."""
        told = read_reply(FIGURES.decode().rstrip())
        families = {family.name: family for family in server_state.of_host(told, 1000.0)}
        times = families["hosed_host_reply_seconds"]
        self.assertEqual([(sample.end, sample.labels.get("le"), str(sample.value))
                          for sample in times.samples], [
            ("_bucket", "0.0001", "0"), ("_bucket", "0.001", "1"), ("_bucket", "0.01", "2"),
            ("_bucket", "0.1", "2"), ("_bucket", "1.0", "2"), ("_bucket", "10.0", "3"),
            ("_bucket", "+Inf", "3"), ("_sum", None, "0.004000"), ("_count", None, "3")])
        synced = families["hosed_host_last_sync_time_seconds"].samples
        self.assertEqual([sample.value for sample in synced], ["998.500"])

    def test_how_far_a_standby_is(self):
        told = read_reply(FIGURES.decode().rstrip() + " standby 11 alone 0")
        values = {family.name: [sample.value for sample in family.samples]
                  for family in server_state.of_host(told, 1000.0)}
        self.assertEqual([values[f"hosed_host_{name}"] for name in (
            "epoch", "standby_epoch", "alone")], [[12], [11], [0]])

    def test_nobody_is_there(self):
        question = server_state.HostQuestion("/nowhere/socket", 5)
        question.ask()
        self.assertEqual(self.samples(question), {("hosed_up",): 0})
