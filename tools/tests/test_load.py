"""Tests of load.py: figures worked out by hand, and loads of a fake server."""
import io
import os
import socket
import tempfile
import unittest
from collections import Counter
from xml.etree import ElementTree

import load
from load import Found, Tally
from tests.fake_server import FakeHosed, FakeServer
from tests.runs import program, within

SVG = "{http://www.w3.org/2000/svg}"

# A hundred replies to `link` in two seconds, and one refusal of an admission after a millisecond.
HUNDRED = Counter({100: 50, 200: 49, 900: 1})
FOUND = Found({"admit": Tally(Counter({1_000: 1}), 1), "link": Tally(HUNDRED)}, 5.0, 7.0, 3)
TABLE = """\
command      replies    a second     refused   median us     99 % us    worst us
admit              1           0           1       1,000       1,000       1,000
link             100          50           0         100         200         900
all              101          50           1         200         900       1,000"""


def run(*words):
    """The program's status, output and what it says on standard error."""
    return program("load.py", *words)


class Figures(unittest.TestCase):
    def test_table(self):
        self.assertEqual(load.table(FOUND), TABLE)

    def test_plot(self):
        """The axis goes from 100 us to 1 ms, and `link` and `all` come equally often."""
        picture = ElementTree.fromstring(load.plot(FOUND, "of a test"))
        medians = [mark.get("cx") for mark in picture.iter(f"{SVG}circle") if mark.get("class")]
        left, right = load.SCALE, load.WIDTH - 30
        third = left + (right - left) * 0.30103  # the logarithm of 2
        self.assertEqual(medians, [f"{right:.1f}", f"{left:.1f}", f"{third:.1f}"])
        texts = [text.text for text in picture.iter(f"{SVG}text")]
        for text in ("100 us", "1 ms", "admit", "link", "all", "of a test"):
            self.assertIn(text, texts)


class Screen(io.StringIO):
    def isatty(self):
        return True


class Lines(unittest.TestCase):
    def test_progress(self):
        """Once a second over the last line on a terminal, and every ten seconds elsewhere."""
        screen, log = Screen(), io.StringIO()
        for stream in (screen, log):
            progress = load.Progress(20, stream)
            for seconds in (0.2, 1.0, 1.9, 2.2, 10.1):
                progress(seconds, int(seconds * 1000))
            progress.end()
        told = ["load: 1 s of 20, 1,000 replies", "load: 2 s of 20, 2,200 replies",
                "load: 10 s of 20, 10,100 replies"]
        self.assertEqual(screen.getvalue(), "\r".join(told) + "\r\n")
        self.assertEqual(log.getvalue(), told[-1] + "\n")


class Loads(unittest.TestCase):
    def test_each_command_is_given_and_all_is_given_up(self):
        with FakeHosed(workers=3) as server, tempfile.TemporaryDirectory() as folder:
            picture = os.path.join(folder, "load.svg")
            mix = ",".join(f"{kind}:2" for kind in load.KINDS)
            status, output, error = run("--plot", picture, "--mix", mix, server.port, 2, 0.5)
            ElementTree.parse(picture)
        self.assertEqual((status, error), (0, ""))
        told = {line.split()[0]: int(line.split()[1].replace(",", ""))
                for line in output.splitlines()[1:]}
        self.assertEqual(set(told), {*load.KINDS, "all"})
        said = Counter(line.split()[0] for line in server.lines)
        self.assertEqual(server.live, set())
        self.assertEqual(said["hello"], 3)  # the one that learns the network, and two customers
        for kind in ("admit", "quote", "take", "show"):
            self.assertEqual(told[kind], said[kind])
        self.assertEqual(told["link"], said["link"] - 2)  # which learned the network
        self.assertEqual(told["all"], sum(told.values()) - told["all"])

    def test_a_mix(self):
        with FakeHosed(workers=1) as server:
            status, output, _ = run("--mix", "link:1", server.port, 1, 0.2)
        self.assertEqual(status, 0)
        self.assertEqual([line.split()[0] for line in output.splitlines()[1:]], ["link", "all"])

    def test_more_customers_than_workers(self):
        # The first connection is that which learns the network.
        with FakeHosed(workers=1, served=2) as server:
            status, output, error = run(server.port, 2, 0.4)
        self.assertEqual((status, output.splitlines()[-1].split()[0]), (2, "all"))
        self.assertEqual(error, "load.py: 1 of 2 customers were greeted in 0.4 s: "
                                "the server has no worker for more\n")

    def test_a_server_that_breaks_off_after_what_was_measured(self):
        with FakeHosed(workers=1, breaks_after=20) as server:
            status, output, error = run(server.port, 1, 20)
        self.assertEqual((status, output.splitlines()[-1].split()[:2]), (2, ["all", "19"]))
        self.assertRegex(error, r"^load.py: .* closed the connection in mid-line, after .*\n$")

    def test_one_sentence_and_status_2(self):
        with FakeServer([b"220 mail ESMTP\r\n"]) as server:
            status, output, error = within("load.py", load.main, server.port, 1, 1)
        self.assertEqual((status, output, error.count("\n")), (2, "", 1))
        self.assertIn("which is no reply", error)
        with socket.create_server(("127.0.0.1", 0)) as taken:
            port = taken.getsockname()[1]
        for words, sentence in (
            ((port, 1, 1), "Connection refused"),
            (("--plot", "/", port, 1, 1), "/ cannot be written: Is a directory"),
            (("--mix", "fly:1", port, 1, 1), "'fly:1' in 'fly:1' is no command with its weight"),
            ((port, 257, 1), "'257' is not 1 to 256 customers"),
        ):
            status, output, error = within("load.py", load.main, *words)
            self.assertEqual((status, output), (2, ""))
            self.assertIn(sentence, error)
