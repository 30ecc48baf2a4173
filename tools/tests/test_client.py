"""Tests of client.py: replies as in docs/GUIDE.md, given by a fake server of this process."""
import os
import socket
import subprocess
import sys
import tempfile
import threading
import unittest
from unittest import mock

import client
import replies
from client import ConnectionLost, LinkState, MalformedReply, NoAnswer, Session
from tests.fake_server import FakeServer
from tests.runs import TOOLS, link_line, within

# A reply of each kind, and its value.
REPLIES = [
    ("welcome at 0", client.Welcome(0)),
    (
        "admitted 7 cost 26 at 7 links 0:3 1:4 2:5",
        client.Admitted(7, 26, 7, {0: 3, 1: 4, 2: 5}),
    ),
    ("quoted 16 cost 6 at 3 links 0:2 11:2", client.Quoted(16, 6, 3, {0: 2, 11: 2})),
    ("released 1 at 2", client.Released(1, 2)),
    ("vpn 1 cost 9 at 2 ends a:3 b-2:6 links 0:3", client.Vpn(1, 9, 2, {"a": 3, "b-2": 6}, {0: 3})),
    ("vpns 1 5 9 at 12", client.Vpns((1, 5, 9), 12)),
    ("vpns at 0", client.Vpns((), 0)),
    (
        "link 0 a h capacity 10 cost 1 load 3 at 1",
        LinkState(0, "a", "h", 10, 1, 3, False, 1),
    ),
    (
        "link 0 a h capacity 10 cost 1 load 0 out at 1",
        LinkState(0, "a", "h", 10, 1, 0, True, 1),
    ),
    ("down 3 at 7", client.Down(3, 7)),
    ("up 0 at 8", client.Up(0, 8)),
    ("bye", client.Bye()),
    ("ending at 3", client.Ending(3)),
    ("figures connections 1 ever 2 lines 3 admitted 4 refused 5 released 6 down 7 up 8 disk 9 "
     "memory 10 lost 11 timed 12 took 13 over-100us 14 over-1ms 15 over-10ms 16 over-100ms 17 "
     "over-1s 18 over-10s 19 synced 20 at 21", client.Figures(*range(1, 22))),
    ("figures connections 1 ever 2 lines 3 admitted 4 refused 5 released 6 down 7 up 8 disk 9 "
     "memory 10 lost 11 timed 12 took 13 over-100us 14 over-1ms 15 over-10ms 16 over-100ms 17 "
     "over-1s 18 over-10s 19 synced 20 at 21 standby 22 alone 1",
     replies.FiguresWithStandby(*range(1, 23), 1)),
    ("refused at 1 side a b", client.Refused(1, ("a", "b"))),
    ("stale 3 4", client.Stale(3, 4)),
    ("newest 5 at 7", client.Newest(5, 7)),
    ("newest 0 at 7", client.Newest(0, 7)),
    ("no vpn 9 at 4000000000", client.NoVpn(9, 4_000_000_000)),
    ("no quote 1 at 2", client.NoQuote(1, 2)),
    ("too many quotes at 2", client.TooManyQuotes(2)),
    ("already 3 at 7", client.Already(3, 7)),
    ("denied at 2", client.Denied(2)),
    ("full at 2", client.Full(2)),
    ("spent at 2", client.Spent(2)),
    ("disk at 2", client.DiskFailed(2)),
    ("memory", client.OutOfMemory()),
    ("bad 2", client.Bad(2)),
    ("long", client.TooLong()),
]
NO_REPLIES = [
    "", "welcome", "welcome at 01", "welcome at -1", "welcome at 0 ", "welcome  at 0", "bye bye",
    "admitted 1 cost 1 at 1 links", "admitted 1 cost 1 at 1 links 0:1 0:1",
    "admitted 1 cost 1 at 1 links 0", "refused at 1 side",
    "link 0 a h capacity 10 cost 1 load 3 down at 1", "down at 1", "up 1 2", "already 3", "denied",
    "bad x", "vpns", "vpns 1 5 9", "vpns 5 1 at 9", "vpns 5 5 at 9", "vpns  at 9", "vpns 01 at 9",
    "newest at 7", "newest -1 at 7", "ending", "figures at 3", "HTTP/1.1 400 Bad Request\r",
]
WELCOME, BYE = b"welcome at 0\n", b"bye\n"


def run(port, *words, text=""):
    """The program's status, output and what it says on standard error."""
    return within("client.py", client.main, port, *words, text=text)


class Replies(unittest.TestCase):
    def test_each_kind(self):
        self.assertEqual({type(value) for _, value in REPLIES}, set(client.KINDS))
        for line, value in REPLIES:
            with self.subTest(line=line):
                found = client.read_reply(line)
                self.assertEqual((type(found), vars(found)), (type(value), vars(value)))
                self.assertEqual(str(value), line)

    def test_what_is_none(self):
        for line in NO_REPLIES:
            self.assertIsNone(client.read_reply(line), line)


class Sessions(unittest.TestCase):
    def test_each_command(self):
        with FakeServer([
            WELCOME, b"admitted 1 cost 9 at 1 links 0:3\n", b"quoted 1 cost 6 at 1 links 0:2 1:2\n",
            b"admitted 2 cost 6 at 2 links 0:2 1:2\n",
            b"vpn 2 cost 6 at 2 ends a:2 b:2 links 0:2 1:2\n", b"released 2 at 3\n",
            link_line(1, "b", "h", 10, 2, 0, out=True, at=3).encode() + b"\n", BYE,
        ]) as server:
            with Session("127.0.0.1", server.port, "acme") as session:
                self.assertEqual(session.welcome.epoch, 0)
                self.assertEqual(session.admit({"a": 3, "b": 4}).links, {0: 3})
                quoted = session.quote({"a": 2, "b": 2})
                taken = session.take(quoted.quote)
                self.assertEqual((quoted.cost, taken.id, taken.epoch), (6, 2, 2))
                self.assertEqual(session.show(taken.id).ends, {"a": 2, "b": 2})
                self.assertEqual(session.release(taken.id).epoch, 3)
                self.assertTrue(session.link(1).out)
        self.assertEqual(server.lines, [
            "hello acme", "admit a:3 b:4", "quote a:2 b:2", "take 1", "show 2", "release 2",
            "link 1", "bye",
        ])

    def test_the_own_list_and_an_order_bound_to_it(self):
        texts = [
            WELCOME, b"vpns at 4\n", b"admitted 5 cost 9 at 5 links 0:3\n", b"vpns 5 at 5\n",
            b"newest 5 at 6\n", b"newest 0 at 7\n", b"newest 0 at 7\n",
        ]
        with FakeServer(texts) as server:
            session = Session("127.0.0.1", server.port, "acme")
            self.assertEqual(session.vpns().newest(), 0)
            self.assertEqual(session.admit_after(0, {"a": 3, "b": 4}).id, 5)
            self.assertEqual(session.vpns().ids, (5,))
            for newest in (5, 0):
                with self.assertRaises(client.Newest) as refused:
                    session.admit_after(1, {"a": 3, "b": 4})
                self.assertEqual(refused.exception.id, newest)
            with self.assertRaisesRegex(MalformedReply, "'newest 0 at 7', which is no reply"):
                session.admit_after(0, {"a": 3, "b": 4})
        self.assertEqual(server.lines, [
            "hello acme", "vpns", "admit-after 0 a:3 b:4", "vpns", "admit-after 1 a:3 b:4",
            "admit-after 1 a:3 b:4", "admit-after 0 a:3 b:4",
        ])

    def test_a_list_of_as_many_as_may_be(self):
        ids = " ".join(str(4_000_000_000 - 20_000 + number) for number in range(20_000))
        with FakeServer([WELCOME, f"vpns {ids} at 4000000000\n".encode(), BYE]) as server:
            with Session("127.0.0.1", server.port, "acme") as session:
                vpns = session.vpns()
        self.assertEqual((len(vpns.ids), vpns.newest()), (20_000, 3_999_999_999))
        self.assertLess(len(str(vpns)), client.LONGEST_REPLY)

    def test_figures_of_a_host(self):
        """With a standby and without."""
        told = [line for line, _ in REPLIES if line.startswith("figures")]
        self.assertEqual(len(told), 2)
        with FakeServer([WELCOME, *(f"{line}\n".encode() for line in told), BYE]) as server:
            with Session("127.0.0.1", server.port, "operator") as session:
                self.assertEqual([str(session.figures()) for _ in told], told)

    def test_a_link_out_of_service_and_back(self):
        texts = [WELCOME, b"down 1 at 1\n", b"already 1 at 1\n", b"up 1 at 2\n", BYE]
        with FakeServer(texts, [WELCOME, b"denied at 2\n", b"up 2 at 3\n"]) as server:
            with Session("127.0.0.1", server.port, "operator") as session:
                self.assertEqual(vars(session.down(1)), {"link": 1, "epoch": 1})
                with self.assertRaises(client.Already) as refused:
                    session.down(1)
                self.assertEqual((refused.exception.link, refused.exception.epoch), (1, 1))
                self.assertEqual(session.up(1).epoch, 2)
            session = Session("127.0.0.1", server.port, "acme")
            with self.assertRaises(client.Denied):
                session.down(1)
            with self.assertRaisesRegex(MalformedReply, "'up 2 at 3'"):
                session.up(1)
        self.assertEqual(server.lines, [
            "hello operator", "down 1", "down 1", "up 1", "bye", "hello acme", "down 1", "up 1",
        ])

    def test_a_session_goes_on_after_a_refusal(self):
        texts = [WELCOME, b"refused at 5 side a c\n", b"no vpn 1 at 5\n", BYE]
        with FakeServer(texts) as server:
            with Session("127.0.0.1", server.port, "acme") as session:
                with self.assertRaises(client.Refused) as refused:
                    session.admit({"a": 8, "b": 8})
                self.assertEqual((refused.exception.epoch, refused.exception.side), (5, ("a", "c")))
                self.assertEqual(str(session.reply_to("show 1")), "no vpn 1 at 5")
        self.assertEqual(server.lines[-1], "bye")

    def test_a_customer_that_is_refused(self):
        with FakeServer([b"bad 2\n"]) as server:
            with self.assertRaises(client.Bad):
                Session("127.0.0.1", server.port, "ACME")

    def test_a_line_feed_in_a_name_gives_no_second_command(self):
        with FakeServer([WELCOME, BYE]) as server:
            with Session("127.0.0.1", server.port, "acme") as session:
                with self.assertRaises(ValueError):
                    session.admit({"a": 1, "b:1\nrelease 1\nadmit c": 1})
        self.assertEqual(server.lines, ["hello acme", "bye"])

    def test_an_order_in_doubt(self):
        """Each way in which no reply to an order comes tells the order, and ends the session."""
        ways = [
            ([WELCOME, b""], ConnectionLost, "closed the connection$"),
            ([WELCOME, b"admitted 1 co"], ConnectionLost, "in mid-line, after 'admitted 1 co'"),
            ([WELCOME, b"HTTP/1.1 200 OK\r\n"], MalformedReply, "which is no reply"),
            ([WELCOME, b"released 1 at 1\n"], MalformedReply, "'released 1 at 1'"),
            ([WELCOME, b"bye\n"], MalformedReply, "'bye'"),
            ([WELCOME, b"\xff\xfe\n"], MalformedReply, "no text"),
            ([WELCOME, b"x" * (client.LONGEST_REPLY + 1)], MalformedReply, "without a line feed"),
        ]
        for texts, kind, sentence in ways:
            with self.subTest(texts=texts[-1][:20]), FakeServer(texts) as server:
                session = Session("127.0.0.1", server.port, "acme")
                with self.assertRaisesRegex(kind, sentence) as lost:
                    with session:
                        session.admit({"a": 1, "b": 1})
                self.assertEqual(lost.exception.unanswered, "admit a:1 b:1")
                with self.assertRaisesRegex(ConnectionLost, "over"):
                    session.link(0)

    def test_a_reply_about_another_vpn_or_one_too_many(self):
        for reply in (b"released 2 at 3\n", b"no vpn 2 at 3\n"):
            with FakeServer([WELCOME, reply]) as server, self.assertRaises(MalformedReply):
                Session("127.0.0.1", server.port, "acme").release(1)
        with FakeServer([WELCOME + b"bye\n", BYE]) as server:
            session = Session("127.0.0.1", server.port, "acme")
            with self.assertRaisesRegex(MalformedReply, "more than it was asked"):
                session.bye()

    def test_a_bye_without_reply_is_told_where_nothing_else_is(self):
        with FakeServer([WELCOME, b""], [WELCOME, b""]) as server:
            with self.assertRaisesRegex(ConnectionLost, "closed the connection"):
                with Session("127.0.0.1", server.port, "acme"):
                    pass
            with self.assertRaisesRegex(KeyError, "of the caller"):
                with Session("127.0.0.1", server.port, "acme"):
                    raise KeyError("of the caller")

    def test_no_reply_in_time(self):
        never = threading.Event()
        with FakeServer([WELCOME], at_last=never) as server:
            session = Session("127.0.0.1", server.port, "acme", timeout=0.2)
            with self.assertRaisesRegex(NoAnswer, "did not answer in 0.2 s") as lost:
                session.release(1)
            self.assertEqual(lost.exception.unanswered, "release 1")
            never.set()

    def test_no_command_after_one_whose_reply_was_not_waited_for(self):
        with FakeServer([WELCOME, BYE]) as server:
            session = Session("127.0.0.1", server.port, "acme")
            with mock.patch.object(session._lines, "_take", side_effect=KeyboardInterrupt):
                with self.assertRaises(KeyboardInterrupt):
                    session.release(1)
            with self.assertRaisesRegex(ConnectionLost, "not asked") as lost:
                session.release(2)
            self.assertEqual(lost.exception.unanswered, "release 1")

    def test_no_server(self):
        with socket.create_server(("127.0.0.1", 0)) as taken:
            port = taken.getsockname()[1]
        refused = f"127.0.0.1:{port}: Connection refused"
        with self.assertRaisesRegex(ConnectionLost, refused) as lost:
            Session("127.0.0.1", port, "acme")
        self.assertIsNone(lost.exception.unanswered)


ENDS, ADMIT = {"a": 3, "b": 4}, "admit-after 2 a:3 b:4"
ADMITTED = b"admitted 7 cost 9 at 7 links 0:3\n"
SHOWN = b"vpn 7 cost 9 at 8 ends a:3 b:4 links 0:3\n"
OTHER = b"vpn 7 cost 9 at 8 ends a:3 b:5 links 0:3\n"
TWO = [WELCOME, b"vpns 1 2 at 6\n"]  # at first


class Once(unittest.TestCase):
    """Orders that stand once: each server here says what one would whose connections break off."""

    def order(self, *connections, tries=4, known=None):
        """What is raised or answered, and the lines after each `hello`."""
        with FakeServer(*connections) as server:
            customer = client.Customer("127.0.0.1", server.port, "acme", 5, tries, 0.001)
            try:
                found = customer.order_once(ENDS, known)
            except (*client.FAULTS, client.InDoubt) as fault:
                found = fault
        self.assertEqual(server.lines.count("hello acme"), len(connections))
        return found, [line for line in server.lines if line not in ("hello acme", "bye")]

    def test_without_a_fault(self):
        found, lines = self.order([*TWO, BYE], [WELCOME, ADMITTED, BYE])
        self.assertEqual((str(found), lines), (ADMITTED.decode()[:-1], ["vpns", ADMIT]))

    def test_a_lost_reply_to_an_order_that_stands(self):
        found, lines = self.order([*TWO, BYE], [WELCOME, b"admitted 7 co"],
                                  [WELCOME, b"vpns 1 2 7 9 at 9\n", SHOWN, BYE])
        self.assertEqual((found, lines), (client.Admitted(7, 9, 7, {0: 3}),
                                          ["vpns", ADMIT, "vpns", "show 7"]))

    def test_a_lost_reply_to_one_that_does_not(self):
        """The same line is given again, and so where it was lost on its way again."""
        again = [WELCOME, b"vpns 1 2 at 6\n", b""]
        found, lines = self.order([*TWO, BYE], [WELCOME, b""], again,
                                  [WELCOME, b"vpns 1 2 at 6\n", ADMITTED, BYE])
        self.assertEqual((found.id, lines), (7, ["vpns", *[ADMIT, "vpns"] * 2, ADMIT]))

    def test_the_line_that_was_lost_comes_first_after_all(self):
        found, lines = self.order(
            [*TWO, BYE], [WELCOME, b""],
            [WELCOME, b"vpns 1 2 at 6\n", b"newest 7 at 7\n", b"vpns 1 2 7 at 7\n", SHOWN, BYE])
        self.assertEqual((found.id, lines), (7, ["vpns", ADMIT, "vpns", ADMIT, "vpns", "show 7"]))

    def test_another_session_orders_meanwhile(self):
        """Before the order is given, and after its reply was lost."""
        found, lines = self.order([*TWO, BYE], [
            WELCOME, b"newest 7 at 7\n", b"admitted 8 cost 9 at 8 links 0:3\n", BYE])
        self.assertEqual((found.id, lines), (8, ["vpns", ADMIT, "admit-after 7 a:3 b:4"]))
        found, lines = self.order([*TWO, BYE], [WELCOME, b""], [
            WELCOME, b"vpns 1 2 7 9 at 9\n", OTHER, b"admitted 10 cost 9 at 10 links 0:3\n", BYE])
        self.assertEqual((found.id, lines), (10, ["vpns", ADMIT, "vpns", "show 7",
                                                  "admit-after 9 a:3 b:4"]))

    def test_a_refusal(self):
        """It is in doubt where the line before it has no reply, and may be done later."""
        refused = b"refused at 6 side a\n"
        found, lines = self.order([*TWO, BYE], [WELCOME, refused, BYE])
        self.assertEqual((type(found), lines), (client.Refused, ["vpns", ADMIT]))
        found, lines = self.order([*TWO, BYE], [WELCOME, b""],
                                  [WELCOME, b"vpns 1 2 at 6\n", refused, BYE])
        self.assertEqual((type(found), found.known), (client.InDoubt, 2))

    def test_a_disk_that_fails(self):
        disk = [WELCOME, b"disk at 6\n", BYE]
        found, lines = self.order([*TWO, BYE], disk,
                                  [WELCOME, b"vpns 1 2 at 6\n", ADMITTED, BYE])
        self.assertEqual((found.id, lines), (7, ["vpns", ADMIT, "vpns", ADMIT]))

    def test_enough_tries_and_a_later_call(self):
        found, _ = self.order([*TWO, BYE], [WELCOME, b""], [WELCOME, b"vpns 1"], tries=2)
        self.assertEqual((type(found), found.known), (client.InDoubt, 2))
        found, lines = self.order([WELCOME, b"vpns 1 2 7 at 7\n", SHOWN, BYE], known=found.known)
        self.assertEqual((found.id, lines), (7, ["vpns", "show 7"]))
        found, _ = self.order([WELCOME, b""], [b""], tries=2)
        self.assertIsInstance(found, ConnectionLost)

    def test_a_bye_without_a_reply(self):
        found, lines = self.order([*TWO, b""], [WELCOME, ADMITTED, b""], tries=1)
        self.assertEqual((found.id, lines), (7, ["vpns", ADMIT]))


class Program(unittest.TestCase):
    def test_once(self):
        """An order, one that is refused, one in doubt, and what is no `admit` of two nodes."""
        words = ("--once", "acme", "admit", "a:3", "b:4")
        with FakeServer([*TWO, BYE], [WELCOME, ADMITTED, BYE]) as server:
            self.assertEqual(run(server.port, *words), (0, ADMITTED.decode(), ""))
        with FakeServer([*TWO, BYE], [WELCOME, b"full at 6\n", BYE]) as server:
            self.assertEqual(run(server.port, *words), (1, "full at 6\n", ""))
        with FakeServer(*[[WELCOME, b""]] * client.TRIES) as server:
            with mock.patch.object(client.time, "sleep"):
                status, output, error = run(server.port, "--known", "2", *words)
            self.assertEqual((status, output), (2, ""))
            self.assertIn("it may have been done; --known 2 goes on from there", error)
        for wrong in (["quote", "a:3", "b:4"], ["admit", "a:3"], ["admit", "a:3", "a:4"],
                      ["admit", "a:3", "b"]):
            status, output, error = run(7000, "--once", "acme", *wrong)
            self.assertEqual((status, output, error.count("\n")), (2, "", 1))

    def test_status_of_a_reply_and_of_a_refusal(self):
        admitted, refused = b"admitted 1 cost 9 at 1 links 0:3 1:3\n", b"refused at 1 side a\n"
        with FakeServer([WELCOME, admitted, BYE], [WELCOME, refused, BYE]) as server:
            words = ("acme", "admit", "a:3", "b:4")
            self.assertEqual(run(server.port, *words), (0, admitted.decode(), ""))
            self.assertEqual(run(server.port, *words), (1, refused.decode(), ""))

    def test_a_unix_socket(self):
        with tempfile.TemporaryDirectory() as folder:
            path = os.path.join(folder, "socket")
            with FakeServer([WELCOME, b"bad 1\n", BYE], path=path):
                self.assertEqual(run(path, "acme", "fly"), (1, "bad 1\n", ""))
            os.remove(path)
            status, output, error = run(path, "acme", "fly")
            self.assertEqual((status, output), (2, ""))
            self.assertIn(f"{path}: No such file or directory", error)

    def test_lines_of_the_input_are_one_session(self):
        quoted, taken = b"quoted 1 cost 6 at 0 links 0:2\n", b"stale 0 1\n"
        with FakeServer([WELCOME, quoted, taken, BYE]) as server:
            found = run(server.port, "acme", text="quote a:2 b:2\ntake 1\nbye\nlink 0\n")
        self.assertEqual(found, (1, (quoted + taken).decode(), ""))
        self.assertEqual(server.lines, ["hello acme", "quote a:2 b:2", "take 1", "bye"])

    def test_one_sentence_and_status_2(self):
        ways = [
            ([b"SSH-2.0-OpenSSH_9.2\r\n"], "'hello acme' is answered 'SSH-2.0-OpenSSH_9.2\\\\r'"),
            ([b"welcome"], "in mid-line, after 'welcome'"),
            ([WELCOME, b""], "closed the connection\n"),
            ([b"bad 2\n"], "the server takes no customer 'acme': bad 2"),
        ]
        for texts, sentence in ways:
            with self.subTest(sentence=sentence), FakeServer(texts) as server:
                status, output, error = run(server.port, "acme", "link", "0")
                self.assertEqual((status, output, error.count("\n")), (2, "", 1))
                self.assertRegex(error, sentence)

    def test_an_order_without_a_reply(self):
        with FakeServer([WELCOME, b"released 1 a"]) as server:
            status, output, error = run(server.port, "acme", "release", "1")
        self.assertEqual((status, output), (2, ""))
        self.assertIn("closed the connection in mid-line, after 'released 1 a'; "
                      "'release 1' may have been done\n", error)

    def test_a_change_of_service_without_a_reply(self):
        with FakeServer([WELCOME, b"down 0 at"]) as server:
            status, output, error = run(server.port, "operator", "down", "0")
        self.assertEqual((status, output), (2, ""))
        self.assertIn("'down 0' may have been done\n", error)

    def test_usage(self):
        for words in ([], ["acme", "--timeout", "0"]):
            status, output, error = run(70000 if words else 7000, *words)
            self.assertEqual((status, output), (2, ""))
            self.assertIn("client.py: error:", error)

    def test_a_closed_pipe_ends_quietly(self):
        with FakeServer([WELCOME] + [b"bad 1\n"] * 3) as server:
            program = subprocess.Popen(
                [sys.executable, os.path.join(TOOLS, "client.py"), str(server.port), "acme"],
                stdin=subprocess.PIPE, stdout=subprocess.PIPE, stderr=subprocess.PIPE,
            )
            program.stdout.close()
            _, error = program.communicate(b"x\n" * 3, timeout=20)
        self.assertEqual(error, b"")
