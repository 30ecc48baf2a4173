"""Tests of standby.py, with a follower made for tests, and journals put together by hand."""
import os
import sys
import tempfile
import unittest
from unittest import mock

import follower_link
import standby
from tests import fake_follower
from tests.runs import DEMO, TOOLS, within
from tests.test_read_journal import ADMITTED, BACK, CHAINED, CHANGES, DIGEST, RELEASED, SEALED

STAR, DETOUR = os.path.join(DEMO, "star.txt"), os.path.join(DEMO, "detour.txt")
EMPTY, ONE = CHAINED[:38] + b"\0", CHAINED[:120] + b"\0"
FAKE = os.path.join(TOOLS, "tests", "fake_follower.py")


class FakeLink:
    """A run of fake_follower.py within the test: a `FollowerLink` that needs no process."""

    def __init__(self, words):
        self.path, *fault = words
        self.most, line, self.status = (int(fault[0]), *fault[1:]) if fault else (1 << 62, "", "0")
        self.last = line.rstrip("\n")
        self.unsent, self.sent, self.count, self.is_closed = b"", 0, 0, False

    answers = follower_link.FollowerLink.answers

    def send(self, packets):
        self.unsent += packets

    def turn(self, _):
        lines = []
        while self.unsent and self.count < self.most:
            size = 38 + int.from_bytes(self.unsent[:2], "big")
            packet, self.unsent = self.unsent[:size], self.unsent[size:]
            epoch = int.from_bytes(packet[2:6], "big")
            lines.append(fake_follower.answer(self.path, epoch, packet[6:38], packet[38:]))
            self.sent, self.count = self.sent + size, self.count + 1
        if lines or self.count < self.most and not self.is_closed:
            return lines
        if self.status == "wait" and not self.is_closed:
            self.unsent, told, self.last = b"", self.last, ""
            return [told] if told else []
        raise follower_link.Ended(0 if self.status == "wait" else int(self.status), self.last)

    def close_input(self):
        self.is_closed = True

    def __enter__(self):
        return self

    def __exit__(self, *_):
        pass


class Trials(unittest.TestCase):
    def setUp(self):
        folder = tempfile.TemporaryDirectory()
        self.addCleanup(folder.cleanup)
        self.folder = folder.name
        self.leader, self.own = (os.path.join(folder.name, name) for name in ("leader", "own"))
        self.pauses = []

    def put(self, path, held):
        with open(path, "wb") as file:
            file.write(held)

    def held(self, path):
        with open(path, "rb") as file:
            return file.read()

    def kept(self, leader, own, *words, topology=STAR, fault=(), then=None, lasts=1, link=FakeLink):
        """The status and what is told of a run up to the end of the leader's journal. After so many
        pauses the fault is over; then something may happen."""
        self.put(self.leader, leader)
        self.put(self.own, own)
        command = [self.own, *fault]

        def pause(seconds):
            self.pauses.append(seconds)
            if len(self.pauses) == lasts:
                command[1:] = ()
                if then:
                    then()

        with mock.patch("standby.begun", lambda _: link(command)), \
                mock.patch("standby.sleep", pause):
            status, output, error = within("standby.py", standby.main, "--once", *words, topology,
                                           self.leader, "COMMAND")
        error = error.replace(self.leader, "J").replace("standby.py: ", "")
        return status, output, error.splitlines()


class Processes(Trials):
    """The same with a process."""

    def assert_kept(self, told, *fault):
        def link(command):
            return follower_link.FollowerLink([sys.executable, FAKE, *command])

        ended = self.kept(CHAINED, EMPTY, fault=fault, link=link)
        self.assertEqual((ended[0], ended[1].splitlines()[-1]), (0, "have 2"))
        self.assertEqual(self.held(self.own), CHAINED)
        self.assertIn(told, ended[2])

    def test_one_that_goes_on(self):
        self.assert_kept("the follower has 0 entries, as the journal begins")

    def test_one_that_ends(self):
        self.assert_kept("the follower is gone: it ended with status 11: packet 78; again in 1 s",
                         "2", "packet 78\n", "11")

    def test_one_that_stays(self):
        self.assert_kept("the follower is left: it answers disk at 0 behind `have 0`; again in 1 s",
                         "2", "disk at 0\n", "wait")

    def test_one_that_answers_nothing_is_killed(self):
        with mock.patch("follower_link.END", 0), \
                follower_link.FollowerLink(["sh", "-c", "trap '' TERM; sleep 60"]) as link:
            pass
        self.assertEqual(link.process.returncode, -9)


class Once(Trials):
    def test_what_the_standby_has_not_is_sent(self):
        for leader in CHAINED, SEALED:
            for own, had in (EMPTY, "0 entries"), (ONE, "1 entry"), (CHAINED, "2 entries"):
                told = self.kept(leader, own)
                self.assertEqual(told, (0, "have 2\n",
                                        [f"the follower has {had}, as the journal begins"]))
                self.assertEqual(self.held(self.own), CHAINED)
        self.assertEqual(self.pauses, [])

    def test_one_run_of_the_follower_takes_no_more_than_it_may(self):
        # Two questions have 78 bytes, and a packet 83.
        with mock.patch("following.MOST_INPUT", 80), mock.patch("standby.FULL", 1), \
                mock.patch("live_journal.PIECE", 83):
            status, output, told = self.kept(CHAINED, EMPTY)
        self.assertEqual((status, output), (0, "have 1\nhave 2\n"))
        self.assertEqual(told, [f"the follower has {had}, as the journal begins"
                                for had in ("0 entries", "1 entry", "2 entries")])

    def test_a_follower_that_is_asked_where_it_is_between_entries(self):
        with mock.patch("standby.BEAT", 0), mock.patch("live_journal.PIECE", 83):
            status, output, _ = self.kept(CHAINED, EMPTY)
        self.assertEqual((status, output, self.held(self.own)), (0, "have 2\n", CHAINED))


class Troubles(Trials):
    """What passes: the command is begun again, and goes on where the follower is."""

    def assert_kept(self, reason, *fault):
        status, output, told = self.kept(CHAINED, EMPTY, fault=fault)
        self.assertEqual((status, output.splitlines()[-1], self.held(self.own)),
                         (0, "have 2", CHAINED))
        self.assertIn(f"{reason}; again in 1 s", told)
        self.assertEqual(self.pauses, [1])

    def test_a_link_that_breaks(self):
        for after in "0", "1", "2", "3":
            self.pauses = []
            self.assert_kept("the follower is gone: it ended with status 255", after, "", "255")

    def test_a_packet_that_was_cut_off(self):
        self.assert_kept("the follower is gone: it ended with status 11: packet 78", "2",
                         "packet 78\n", "11")

    def test_answers_that_none_should_give(self):
        for line, reason in (
                ("disk at 0", "it answers disk at 0 behind `have 0`"),
                ("memory", "it answers memory behind `have 0`"),
                ("want 1", "it answers want 1 behind `have 0`"),
                ("have 2", "it answers have 2 behind `have 0`"),
                ("hello", "the follower answers 'hello'")):
            self.pauses = []
            self.assert_kept(f"the follower is left: {reason}", "2", f"{line}\n", "wait")

    def test_one_that_answers_nothing(self):
        link = mock.Mock(turn=mock.Mock(return_value=[]))
        with mock.patch("standby.monotonic") as clock:
            clock.return_value = 100
            session = standby.Session(None, link, mock.Mock(), 30)
            clock.return_value = 200
            self.assertEqual(session.turn(1), [])  # nothing was asked
            session.send([b"packet"])
            clock.return_value = 229
            session.send([b"packet"])
            self.assertEqual(session.turn(1), [])
            clock.return_value = 230
            with self.assertRaises(standby.Trouble):
                session.turn(1)
            link.turn.return_value = ["have 1"]
            self.assertEqual(session.turn(1), ["have 1"])
            clock.return_value, link.turn.return_value = 259, []
            self.assertEqual(session.turn(1), [])

    def test_one_that_begins_slowly(self):
        """Until its first answer a command has a time of its own."""
        link = mock.Mock(turn=mock.Mock(return_value=[]))
        with mock.patch("standby.monotonic", return_value=0) as clock:
            session = standby.Session(None, link, mock.Mock(), 200)
            session.send([b"packet"])
            clock.return_value = 199
            self.assertEqual(session.turn(1), [])
            link.turn.return_value = ["want 1"]
            self.assertEqual(session.turn(1), ["want 1"])
            session.send([b"packet"])
            link.turn.return_value, clock.return_value = [], 199 + standby.PATIENCE
            with self.assertRaisesRegex(standby.Trouble, "nothing for 30 seconds"):
                session.turn(1)

    def test_a_sentence_each_minute(self):
        """As long as nothing answers, and nothing else was said of it."""
        with mock.patch("standby.monotonic", return_value=0) as clock, \
                mock.patch("standby.told") as told, mock.patch("service.notify") as notify, \
                mock.patch("builtins.print"):
            report = standby.Report()
            for second in range(0, 200):
                clock.return_value = second
                report.remind()
            report.takes(7)
            for second in range(200, 290):
                clock.return_value = second
                report.remind()
                if second == 230:
                    report.explain("the follower is gone")
        sentences = [call.args[0] for call in told.call_args_list]
        self.assertEqual(sentences, [
            *(f"the follower is missing for {seconds} s; nothing is known of it"
              for seconds in (60, 120, 180)), "the follower is gone"])
        statuses = [f"STATUS={sentence}" for sentence in sentences]
        statuses.insert(3, "STATUS=the follower has 7 entries")
        self.assertEqual([call.args[0] for call in notify.call_args_list], statuses)

    def test_figures(self):
        """They are written while nothing answers, too."""
        def samples():
            return [f"{family.name} {family.samples[0].value}" for family in report.families()]

        with mock.patch("standby.time", return_value=1_000.0), mock.patch("builtins.print"), \
                mock.patch("standby.monotonic", return_value=0) as clock:
            report = standby.Report()
            clock.return_value = 2
            self.assertEqual(samples(), ["hosed_standby_heard_time_seconds 998.000"])
            report.takes(7)
            clock.return_value = 5
            self.assertEqual(samples(), ["hosed_standby_epoch 7",
                                         "hosed_standby_heard_time_seconds 997.000"])

    def test_figures_in_a_file(self):
        report, path = standby.Report(), os.path.join(self.folder, "standby.prom")
        with mock.patch("standby.sleep", side_effect=InterruptedError) as sleep, \
                self.assertRaises(InterruptedError):
            report.keep(path)
        sleep.assert_called_once_with(standby.EVERY)
        self.assertIn(b"\nhosed_standby_heard_time_seconds ", self.held(path))

    def test_systemd_is_told_once_it_was_compared(self):
        with mock.patch("service.notify") as notify:
            self.kept(CHAINED, EMPTY, fault=("0", "", "1"))
        told = [call.args[0] for call in notify.call_args_list]
        self.assertEqual(told, [
            "STATUS=the follower is gone: it ended with status 1; again in 1 s",
            "STATUS=the follower has 0 entries, as the journal begins", "READY=1",
            "STATUS=the follower has 2 entries"])

    def test_pauses_grow(self):
        status, _, told = self.kept(CHAINED, EMPTY, fault=("0", "", "1"), lasts=8)
        self.assertEqual((status, self.pauses), (0, [1, 2, 4, 8, 16, 32, 60, 60]))
        self.assertEqual(told[0], "the follower is gone: it ended with status 1; again in 1 s")


class Ends(Trials):
    """What does not pass, each with a status and a sentence."""

    def test_the_standby_has_entries_that_the_journal_has_not(self):
        for leader, entries in (ONE, "1 entry"), (EMPTY, "0 entries"), (b"", "0 entries"):
            told = self.kept(leader, CHAINED)
            self.assertEqual(told, (13, "", [f"J has {entries}, and the follower has 2"]))
            self.assertEqual(self.held(self.own), CHAINED)

    def test_the_standby_has_other_entries(self):
        self.assertEqual(self.kept(CHAINED, CHANGES), (
            13, "", ["J and the follower have 2 entries each, and not the same ones: their chain "
                     f"values are {RELEASED} and {BACK}"]))
        # It is behind, and of another history all the same: its `have` would mean nothing.
        status, _, told = self.kept(CHAINED, CHANGES[:78] + b"\0")
        self.assertEqual(status, 13)
        self.assertIn("have 1 entry each, and not the same ones: their chain values are "
                      f"{ADMITTED} and ", told[0])

    def test_the_standby_is_of_another_network(self):
        status, _, told = self.kept(CHAINED, EMPTY[:6] + b"\1" * 32 + b"\0")
        self.assertEqual((status, told), (
            13, ["J and the follower have 0 entries each, and not the same ones: their chain "
                 f"values are {DIGEST} and {'01' * 32}"]))

    def test_faults_of_the_journal(self):
        for leader, topology, status, sentence in (
                (CHAINED[:130], STAR, 5, "J is damaged at 120"),
                (CHAINED, DETOUR, 12, "J is the journal of another network: it keeps the digest ")):
            with mock.patch("standby.SETTLED", 0):
                ended = self.kept(leader, ONE, topology=topology)
            self.assertEqual(ended[:2], (status, "have 1\n" if status == 5 else ""))
            self.assertTrue(ended[2][-1].startswith(sentence), ended)

    def test_a_journal_that_is_damaged_once_it_went_well_is_looked_at_again(self):
        def then():
            self.put(self.leader, CHAINED)

        self.put(self.own, ONE)
        status, output, told = self.kept(CHAINED[:130], ONE, then=then)
        self.assertEqual((status, output), (0, "have 1\nhave 2\n"))
        self.assertEqual(told[1], "J is damaged at 120; again in 1 s")

    def test_a_path_that_was_mistyped(self):
        with mock.patch("standby.begun"):
            ended = within("standby.py", standby.main, STAR, self.leader, "COMMAND")
        self.assertEqual(ended, (6, "", f"standby.py: {self.leader} cannot be read: No such file "
                                        "or directory\n"))

    def test_what_the_follower_refuses(self):
        for line, status in ("words 3", "1"), ("topology 4 1", "2"), ("journal damaged at 38", "5"):
            told = self.kept(CHAINED, EMPTY, fault=("0", line + "\n", status))
            self.assertEqual(told, (14, "", [f"the follower ended: {line}"]))
            self.assertEqual(self.pauses, [])

    def test_an_entry_that_it_does_not_take(self):
        status, _, told = self.kept(CHAINED, EMPTY, fault=("2", "unsound 1\n", "wait"), lasts=9)
        self.assertEqual((status, self.pauses), (14, [1, 2]))
        self.assertEqual(told[-1], "the follower does not take the entry of epoch 1")

    def test_no_answer_for_long(self):
        with mock.patch("standby.Report.silence", side_effect=[1, 2, 3]):
            status, _, told = self.kept(CHAINED, EMPTY, "--give-up", "3", fault=("0", "", "1"),
                                        lasts=9)
        self.assertEqual((status, self.pauses), (15, [1, 2, 4]))
        self.assertEqual(told[-1], "no follower answers for 3 seconds")

    def test_words(self):
        for words, sentence in ((STAR, self.leader), "COMMAND is missing"), \
                (("--give-up", "0", STAR, self.leader, "x"), "a number of seconds"):
            status, _, error = within("standby.py", standby.main, *words)
            self.assertEqual(status, 2)
            self.assertIn(sentence, error)
        self.put(self.leader, CHAINED)
        status, _, error = within("standby.py", standby.main, STAR, self.leader, "/no/program")
        self.assertEqual(status, 2)
        self.assertIn("/no/program cannot be begun", error)
