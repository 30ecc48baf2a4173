"""Tests of client_shell.py and reply_tables.py: what is typed and shown, with a fake server of this
process; the last one types at a terminal."""
import os
import pty
import select
import sys
import tempfile
import time
import unittest

import client
from client_shell import HELPS, Known, Shell
from reply_tables import tabled
from tests.fake_server import FakeServer
from tests.runs import TOOLS, link_line, within
from tests.test_client import REPLIES

WELCOME, BYE = b"welcome at 0\n", b"bye\n"
ADMITTED = "admitted 1 cost 26 at 1 links 0:3 11:4"
TABLED = """admitted
 vpn | cost | epoch
-----+------+-------
   1 |   26 |     1

 link | reserved
------+----------
    0 |        3
   11 |        4"""
LINKS = [*(link_line(link, name, "h", 9, 1, 0, at=0).encode() + b"\n"
           for link, name in enumerate("ab")), b"bad 2\n"]
TOLD = link_line(0, "a", "h", 9, 1, 0, at=4)


def typed(server, *lines, **how):
    """What a shell says to lines, and the prompts at which they were read."""
    said, prompts, left = [], [], list(lines)

    def read(prompt):
        prompts.append(prompt)
        if not left:
            raise EOFError
        return left.pop(0)

    shell = Shell("acme", lambda: client.Session("127.0.0.1", server.port, "acme", 5), read,
                  said.append, pause=0.001, **how)
    shell.run()
    return said, prompts


class Tables(unittest.TestCase):
    def test_a_reply_with_a_list(self):
        self.assertEqual(tabled(client.read_reply(ADMITTED)), TABLED)

    def test_replies_of_each_kind(self):
        for line, reply in REPLIES:
            words = tabled(reply).split()
            self.assertEqual(words[0], line.split()[0])
            for name, value in vars(reply).items():
                values = value if isinstance(value, (dict, tuple)) else [value]
                for one in values:
                    self.assertIn({True: "yes", False: "no"}.get(one, str(one))
                                  if isinstance(one, bool) else str(one), words, (line, name))

    def test_in_a_pipe_they_are_asked_for(self):
        for words, output in (([], f"{ADMITTED}\n"), (["--table"], f"{TABLED}\n")):
            with FakeServer([WELCOME, f"{ADMITTED}\n".encode(), BYE]) as server:
                told = within("client.py", client.main, *words, server.port, "acme",
                              text="admit a:3 b:4\n")
            self.assertEqual(told, (0, output, ""))


class Lines(unittest.TestCase):
    def test_the_prompt_has_the_epoch(self):
        texts = [WELCOME, b"released 7 at 8\n", b"bad 1\n", BYE]
        with FakeServer(texts) as server:
            said, prompts = typed(server, "release 7", "", "fly")
        self.assertEqual(said, ["released 7 at 8", "bad 1"])
        self.assertEqual(prompts, ["acme at 0> ", "acme at 8> ", "acme at 8> ", "acme at 8> "])
        self.assertEqual(server.lines, ["hello acme", "release 7", "fly", "bye"])

    def test_an_admit_is_bound_to_the_newest(self):
        texts = [WELCOME, b"vpns 5 at 5\n", b"admitted 6 cost 9 at 6 links 0:3\n",
                 b"vpns 5 6 at 6\n", b"bad 4\n", b"bad 2\n", BYE]
        with FakeServer(texts) as server:
            said, _ = typed(server, "admit a:3 b:4", "admit a:3 x:4", "admit a", "table", "bye",
                            "fly")
        # Words are counted as they were typed, without the number of the newest.
        self.assertEqual(said, ["admitted 6 cost 9 at 6 links 0:3", "bad 3", "bad 2"])
        self.assertEqual(server.lines, ["hello acme", "vpns", "admit-after 5 a:3 b:4", "vpns",
                                        "admit-after 6 a:3 x:4", "admit a", "bye"])

    def test_a_lost_reply_to_an_admit(self):
        """It stands, or it does not, and in both cases one VPN comes of it."""
        first = [WELCOME, b"vpns at 0\n", b""]
        stands = [WELCOME, b"vpns 1 at 1\n", b"vpn 1 cost 9 at 1 ends a:3 b:4 links 0:3\n", BYE]
        is_given_again = [WELCOME, b"vpns at 0\n", b"admitted 1 cost 9 at 1 links 0:3\n", BYE]
        for second, asked in ((stands, ["vpns", "show 1"]),
                              (is_given_again, ["vpns", "admit-after 0 a:3 b:4"])):
            with FakeServer(first, second) as server:
                said, prompts = typed(server, "admit a:3 b:4")
            self.assertRegex(said[0], "closed the connection; connecting again$")
            self.assertEqual(said[1:], ["admitted 1 cost 9 at 1 links 0:3"])
            self.assertEqual(prompts[-1], "acme at 1> ")
            self.assertEqual(server.lines, [
                "hello acme", "vpns", "admit-after 0 a:3 b:4", "hello acme", *asked, "bye"])

    def test_an_admit_in_doubt_is_gone_on_with(self):
        """The server is gone for longer than the shell waits; the same words go on, too."""
        for words in ("again", "admit a:3 b:4"):
            first = [WELCOME, b"vpns at 0\n", b""]
            second = [WELCOME, b"vpns 1 at 1\n", b"vpn 1 cost 9 at 1 ends a:3 b:4 links 0:3\n", BYE]
            with FakeServer(first, second) as server:
                said, lines = [], iter(["admit a:3 b:4", words])
                shell = Shell("acme", lambda: client.Session("127.0.0.1", server.port, "acme", 5),
                              say=said.append)
                shell.tries = 1
                shell.session()
                for line in lines:
                    shell.do(line)
                shell.leave()
            self.assertRegex(said[0], "it may have been done: `again` goes on with it$")
            self.assertEqual(said[1:], ["admitted 1 cost 9 at 1 links 0:3"])
            self.assertIsNone(shell.in_doubt)

    def test_other_lines_after_a_loss(self):
        """A question and a release are given again, a take is not, and an `admit-after` is looked
        for first."""
        for line, second, said, asked in (
                ("link 0", [TOLD.encode() + b"\n"], [TOLD], ["link 0"]),
                ("release 7", [b"no vpn 7 at 8\n"], ["no vpn 7 at 8"], ["release 7"]),
                ("admit-after 2 a:1 b:1",
                 [b"vpns 2 3 at 3\n", b"vpn 3 cost 2 at 3 ends a:1 b:1 links 0:1\n"],
                 ["admitted 3 cost 2 at 3 links 0:1"], ["vpns", "show 3"]),
                ("admit-after 2 a:1 b:1", [b"vpns 1 at 3\n", b"newest 1 at 3\n"],
                 ["newest 1 at 3"], ["vpns", "admit-after 2 a:1 b:1"])):
            with FakeServer([WELCOME, b""], [WELCOME, *second, BYE]) as server:
                told, _ = typed(server, line)
            self.assertEqual(told[1:], said)
            self.assertEqual(server.lines, ["hello acme", line, "hello acme", *asked, "bye"])
        with FakeServer([WELCOME, b""]) as server:
            told, prompts = typed(server, "take 1")
        self.assertRegex(told[0], "closed the connection; `take 1` may have been done$")
        self.assertEqual(prompts[-1], "acme (not connected)> ")

    def test_a_host_is_ended_once(self):
        with FakeServer([WELCOME, b"ending at 4\n"]) as server:
            said, prompts = typed(server, "end", "figures")
        self.assertEqual((said, prompts), (["ending at 4"], ["acme at 0> "]))
        self.assertEqual(server.lines, ["hello acme", "end"])
        with FakeServer([WELCOME, b""]) as server:
            said, _ = typed(server, "end")
        self.assertRegex(said[0], "closed the connection$")

    def test_help(self):
        with FakeServer([WELCOME, BYE]) as server:
            said, _ = typed(server, "help", "help take", "help fly")
        for name in HELPS:
            self.assertIn(f"  {HELPS[name].usage}", said)
        self.assertTrue(any(line.startswith("take Q\nAdmits what was quoted") for line in said))
        self.assertIn("there is no command fly", said)

    def test_each_command_has_help(self):
        self.assertEqual(set(client.DONE) - {"hello"},
                         set(HELPS) - {"help", "table", "again"})


class Completion(unittest.TestCase):
    def test_commands_nodes_and_numbers(self):
        with FakeServer([WELCOME, *LINKS, b"vpns 3 31 at 31\n", b"vpns 3 31 at 31\n",
                         b"quoted 2 cost 1 at 31 links 0:1\n", BYE]) as server:
            shell = Shell("acme", lambda: client.Session("127.0.0.1", server.port, "acme", 5),
                          say=lambda line: None)
            shell.session()
            for line, part, found in (
                    ("ad", "ad", ["admit ", "admit-after "]), ("help ta", "ta", ["take", "table"]),
                    ("admit ", "", ["a:", "h:", "b:"]), ("admit a:3 ", "", ["h:", "b:"]),
                    ("quote b", "b", ["b:"]), ("link ", "", ["0", "1"]),
                    ("release 3", "3", ["3", "31"]), ("admit-after ", "", ["31 "]),
                    ("vpns ", "", []), ("fly a", "a", [])):
                self.assertEqual(shell.completions(line, part), found, line)
            shell.do("quote a:1 b:1")
            self.assertEqual(shell.completions("take ", ""), ["2"])
            shell.leave()
        self.assertEqual(server.lines[1:4], ["link 0", "link 1", "link 2"])

    def test_nobody_waits_for_a_server_that_is_gone(self):
        with FakeServer([WELCOME]) as server:
            shell = Shell("acme", lambda: client.Session("127.0.0.1", server.port, "acme", 5),
                          say=lambda line: None)
            shell.session()
            self.assertEqual(shell.completions("show ", ""), [])
            self.assertEqual(shell.completions("s", "s"), ["show "])

    def test_what_is_not_known_is_not_offered(self):
        self.assertEqual(Known().offered(["admit-after"]), ["0 "])
        self.assertEqual(Known().offered(["take", "1"]), [])


class Places(unittest.TestCase):
    def test_a_socket_needs_no_slash(self):
        for text, place in (("7000", 7000), ("acme.sock", "acme.sock"), ("./7000", "./7000")):
            self.assertEqual(client.place(text), place)
        with tempfile.TemporaryDirectory() as folder:
            path = os.path.join(folder, "acme.sock")
            with FakeServer([WELCOME, b"vpns at 0\n", BYE], path=path):
                before = os.getcwd()
                os.chdir(folder)
                try:
                    told = within("client.py", client.main, "acme.sock", "acme", "vpns")
                finally:
                    os.chdir(before)
        self.assertEqual(told, (0, "vpns at 0\n", ""))


class Terminals(unittest.TestCase):
    def test_a_terminal(self):
        """Words are completed by the tab key, and lines are kept for their owner alone."""
        with tempfile.TemporaryDirectory() as folder, FakeServer(
                [WELCOME, b"vpns 4 at 4\n", b"released 4 at 5\n", BYE]) as server:
            history = os.path.join(folder, "history")
            child, terminal = pty.fork()
            if child == 0:
                os.environ.update(HOSED_HISTORY=history, TERM="dumb")
                os.execv(sys.executable, [sys.executable, os.path.join(TOOLS, "client.py"),
                                          str(server.port), "acme"])
            shown = typed_at(terminal, b"acme at 0> ", b"rel\t\t\n", b"acme at 5> ", b"\4")
            self.assertEqual(os.waitpid(child, 0)[1], 0)
            os.close(terminal)
            self.assertIn("release 4\r\nreleased 4 at 5\r\n", shown)
            self.assertEqual(server.lines, ["hello acme", "vpns", "release 4", "bye"])
            with open(history, encoding="ascii") as file:
                self.assertIn("release 4\n", file.read())
            self.assertEqual(os.stat(history).st_mode & 0o777, 0o600)


def typed_at(terminal, *waits):
    """What a terminal shows, where each second text is typed once the one before it is shown."""
    shown, place, last = b"", 0, time.monotonic() + 20
    while time.monotonic() < last:
        if place < len(waits) and waits[place] in shown:
            os.write(terminal, waits[place + 1])
            shown, place = shown + b" ", place + 2
        if select.select([terminal], [], [], 0.1)[0]:
            try:
                piece = os.read(terminal, 4096)
            except OSError:  # the program has ended
                break
            shown += piece
            if not piece:
                break
    return shown.decode()
