#!/usr/bin/env python3
"""Runs the program to each of its statuses, and compares what it says on standard error.

At the status 0 that is nothing, or the log of a host, and else one sentence, which names what the
words named. What is wanted stands here, written by hand. Each status has one trial at least, and
each command one that ends well; 1, 6 and 9 have one for each cause that an operator meets: a word
that is wrong, missing or empty, or the name of no node; a file that is not there, a folder that is
not, rights that are missing, a journal that another program holds; a port that is taken, a path
where no socket can, or one that another program serves; a disk that fails as a move writes to it.
Where who reads the output has gone there is no sentence. A host's port is open at 127.0.0.1 alone,
and a socket that nobody serves is taken over. Two trials have as many words as their command takes,
and a host with a standby takes orders of as many endpoints as there may be. Files that no words
name lie beside, and have to stay as they are; a socket has to be gone. Ends with status 1 where a
status, a sentence, an output that is written here or such a file is another one. The gate runs it,
since no clause says what `main` does around the one call that it makes.

usage: bench/judge/reasons.py [PROGRAM]

The PROGRAM is crates/hosed_main/out/hosed_main where none is named. It listens at a port of
127.0.0.1 at most, and at sockets beside its files, which lie in a folder that is removed at the
end. One trial reads 1 GiB, which takes a second or two.
"""
import errno
import os
import re
import resource
import shutil
import signal
import socket
import stat
import subprocess
import sys
import tempfile

sys.path.insert(0, os.path.join(os.path.dirname(os.path.abspath(__file__)), "..", "parts"))
from usage import TOP, tell_usage

from planner import link_line

PROGRAM = os.path.join(TOP, "crates", "hosed_main", "out", "hosed_main")
SECONDS = 120  # after which a program hangs
NOBODY = 65_534  # a user without rights
GIB, JSON_LIMIT = 1 << 30, 16 << 20

HELP = ", see hosed --help"
HERE, ELSEWHERE = "127.0.0.1", "127.0.0.2"
LAST = "the last line of the output tells"
UNREAD, UNKEPT = "could not be read", "could not be opened, read, written or closed"
OTHER = "is that of another network, or of other costs, than the topology"
RETURNS = "(a line ends with a line feed alone)"
TWO_NODES = "node a\nnode b\nlink a b 10 7\nend\n"
BESIDE = ("orders.journal", "other.journal", "beside.txt")  # that no words name
ENDS = 64  # of a hose at most
DOORS = [f"./door{place}" for place in range(63)]  # one fewer than at most
HOST = ["--tariff", "flat", "--operator", "./operator", "--quiet", "net.txt", "j"]  # all but doors
RULE = 1  # the lowest that the certificate breaks: its text has no numbers of nodes
TIMES = re.compile(" timed .* synced [0-9]+ ")  # of a host's figures, which no two runs share
CERTIFICATE = "cost 1\nhose a:1 b:1\nuse 0 1\nend\n"


class Trials:
    """Trials of a program in a folder, and how many did otherwise than was wanted."""

    def __init__(self, program, folder):
        self.program, self.folder = program, folder
        self.wrong = 0

    def path(self, name):
        return os.path.join(self.folder, name)

    def write(self, name, text):
        with open(self.path(name), "w", encoding="ascii") as file:
            file.write(text)

    def lay_beside(self):
        for name in BESIDE:
            self.write(name, name)

    def are_beside(self):
        """Whether the files that no words name are as they were laid there, and no socket is."""
        for name in os.listdir(self.folder):
            if stat.S_ISSOCK(os.lstat(self.path(name)).st_mode):
                return False
        for name in BESIDE:
            with open(self.path(name), encoding="ascii") as file:
                if file.read() != name:
                    return False
        return True

    def comes(self, words, status, sentence, text="", output=None, **streams):
        """Runs the program, and tells where it did not end so. Gives what it wrote."""
        how = {"stdout": subprocess.PIPE, **streams}
        if "stdin" not in how:
            how["input"] = text
        done = subprocess.run([self.program, *words], cwd=self.folder, timeout=SECONDS, text=True,
                              stderr=subprocess.PIPE, check=False, **how)
        want = f"hosed: {sentence}\n" if sentence else ""
        same = ((done.returncode, done.stderr) == (status, want) and self.are_beside()
                and output in (None, done.stdout))
        self.wrong += not same
        shown = " ".join(words if len(words) < 10 else [*words[:4], f".. {len(words)} words"])
        print(f"{'as wanted' if same else 'OTHERWISE'}: {shown or '(no words)'}: "
              f"{done.returncode} {done.stderr.rstrip()}")
        if not same:
            print(f"  wanted: {status} {want.rstrip()}, and beside it is the same: "
                  f"{self.are_beside()}; {done.stdout!r} where {output!r} was wanted")
        return done.stdout


def words_that_are_wrong(trials):
    trials.comes([], 1, f"word 1 is not allowed: it is missing{HELP}")
    trials.comes(["fly"], 1, f'word 1 is not allowed: "fly"{HELP}')
    trials.comes(["run", "--tariff", "nope"], 1, f'word 3 is not allowed: "nope"{HELP}')
    trials.comes(["audit", "net.txt"], 1, f"word 3 is not allowed: it is missing{HELP}")
    trials.comes(["serve", "net.txt", "j", "0", "1", "1"], 1,
                 f'word 4 is not allowed: "0"{HELP}')
    for words, wrong in ((["net.txt", "j"], None), (["net.txt", "j", "0"], "0"),
                         (["net.txt", "j", "./a=A"], "./a=A"),
                         (["--operator", "acme", "net.txt", "j", "./door"], "acme"),
                         (["--quiet", "--tariff", "hops", "net.txt", "j", "./door"], "--tariff"),
                         (["net.txt", "j", "./door", "--quiet"], "--quiet"),
                         ([*HOST, *DOORS, "./door", "./more"], "./more")):
        at = 2 + words.index(wrong) if wrong else 2 + len(words)
        told = f'"{wrong}"' if wrong else "it is missing"
        trials.comes(["host", *words], 1, f"word {at} is not allowed: {told}{HELP}", "",
                     f"words {at}\n")
    trials.comes(["run", ""], 1, f"word 2 is not allowed: it is empty, too long or no text{HELP}")
    trials.comes(["run", "j", 'a "b"\nc'], 1, f'word 3 is not allowed: "a \\"b\\"\\nc"{HELP}')
    trials.comes(["prove", "net.txt", "a:1", "z:1"], 1,
                 'word 4 is not allowed: "z:1" is an endpoint at no node of the topology "net.txt"')


def topologies(trials):
    trials.write("returns.txt", TWO_NODES.replace("\n", "\r\n"))
    trials.write("later.txt", "# one\r\n" + TWO_NODES.replace("7\n", "7\r\n"))
    trials.write("bad.txt", "# one\r\nnode a b\n")
    trials.write("bad.json", "{}\r\n")
    refused = "the topology in the input is not allowed at line"
    for text, place in (("node a\r\n", "1, word 2"), ("node a b\n", "1, word 3"),
                        (TWO_NODES.replace("7\n", "7\r\n"), "3, word 5")):
        trials.comes(["run"], 2, f"{refused} {place} {RETURNS}", text)
    for name, place in (("returns.txt", f"line 1, word 2 {RETURNS}"),
                        ("later.txt", f"line 4, word 5 {RETURNS}"),
                        ("bad.txt", f"line 2, word 3 {RETURNS}"),
                        ("bad.json", f"the place that {LAST}")):
        for command in (["audit", name, "j"], ["host", name, "j", "./door"]):
            trials.comes(command, 2, f'the topology "{name}" is not allowed at {place}')


def streams(trials):
    folder = os.open(trials.folder, os.O_RDONLY)
    trials.comes(["run"], 3, "the input could not be read", stdin=folder)
    os.close(folder)
    reader, writer = os.pipe()
    os.close(reader)
    with open("/dev/full", "w", encoding="ascii") as full:
        for words in (["--help"], ["run"], ["host", "net.txt", "j", "./door"]):
            text = TWO_NODES + "acme link 0\n"
            trials.comes(words, 4, "the output could not be written: its disk is full, or failed",
                         text, stdout=full)
            trials.comes(words, 4, None, text, stdout=writer)
    trials.comes(["fly"], 1, f'word 1 is not allowed: "fly"{HELP}', stdout=writer)
    os.close(writer)


def journals(trials):
    trials.comes(["run", "kept"], 0, None, TWO_NODES + "acme admit a:1 b:1\n")
    trials.comes(["run", "kept"], 5, f'the journal "kept" {OTHER} in the input tells',
                 TWO_NODES.replace("10 7", "10 8"))
    for command, door in (("audit", []), ("host", ["./door"])):
        trials.comes([command, "--tariff", "hops", "net.txt", "kept", *door], 5,
                     f'the journal "kept" {OTHER} "net.txt" tells')
    with open(trials.path("kept"), "rb") as kept, open(trials.path("torn"), "wb") as torn:
        torn.write(kept.read().replace(b"acme", b"bcme"))
    trials.comes(["audit", "net.txt", "torn"], 5,
                 'the journal "torn" is damaged: no whole record stands at byte 38, or one that '
                 "its network does not take", "", "journal damaged at 38\n")


def closed_error(trials):
    """Without a standard error the sentence goes nowhere, and no file has it."""
    with open(trials.path("kept"), "rb") as file:
        before = file.read()
    words = ["/bin/sh", "-c", 'exec "$@" 2>&-', trials.program, trials.program, "run", "kept"]
    done = subprocess.run(words, cwd=trials.folder, timeout=SECONDS, input=TWO_NODES.replace(
        "10 7", "10 8"), text=True, stdout=subprocess.DEVNULL, check=False)
    with open(trials.path("kept"), "rb") as file:
        same = (done.returncode, file.read()) == (5, before)
    trials.wrong += not same
    print(f"{'as wanted' if same else 'OTHERWISE'}: run kept 2>&-: {done.returncode}")


def files(trials):
    trials.comes(["audit", "none.txt", "j"], 6, f'the topology "none.txt" {UNREAD}: no such file')
    trials.comes(["check", "none.txt"], 6, f'the topology "none.txt" {UNREAD}: no such file')
    trials.comes(["host", "none.txt", "j", "./door"], 6,
                 f'the topology "none.txt" {UNREAD}: no such file', "", "cabinet\n")
    trials.comes(["check", "."], 6, f'the topology "." {UNREAD}: it is a folder')
    trials.comes(["audit", "net.txt", "."], 6, f'the journal "." {UNKEPT}: it is a folder')
    trials.comes(["run", "none/j"], 6,
                 f'the journal "none/j" {UNKEPT}: no such file, and none is made there', TWO_NODES)
    held = subprocess.Popen([trials.program, "run", "held"], cwd=trials.folder, text=True,
                            stdin=subprocess.PIPE, stdout=subprocess.PIPE)
    held.stdin.write(TWO_NODES + "acme link 0\n")
    held.stdin.flush()
    held.stdout.readline()
    for words in (["run", "held"], ["host", "net.txt", "held", "./door"]):
        trials.comes(words, 6, f'the journal "held" {UNKEPT}: another program holds it',
                     TWO_NODES)
    held.communicate(timeout=SECONDS)
    trials.write("closed.txt", TWO_NODES)
    os.chmod(trials.path("closed.txt"), 0)
    os.chmod(trials.folder, 0o755)
    nobody = {"preexec_fn": lambda: os.setuid(NOBODY)} if os.getuid() == 0 else {}
    trials.comes(["price", "closed.txt"], 6,
                 f'the topology "closed.txt" {UNREAD}: permission denied', **nobody)


def limits(trials):
    def starved():
        resource.setrlimit(resource.RLIMIT_AS, (8 << 20, 8 << 20))

    trials.comes(["gen", "1", "512", "2048", "10"], 7, "there was not enough memory",
                 preexec_fn=starved)
    with open(trials.path("long"), "wb") as file:
        file.write(TWO_NODES.encode())
        file.truncate(GIB + 1)
    with open(trials.path("long"), "rb") as file:
        trials.comes(["run"], 8, "the input is longer than 1 GiB", stdin=file)
    trials.write("long.json", " " * (JSON_LIMIT + 1))
    trials.comes(["check", "long.json"], 8,
                 'the topology "long.json", or the input, is longer than 1 GiB, or the topology is '
                 "in JSON and longer than 16 MiB")


def ports(trials):
    os.mkdir(trials.path("theirs"))
    with socket.socket() as other, socket.socket(socket.AF_UNIX) as theirs:
        other.bind(("127.0.0.1", 0))
        other.listen()
        theirs.bind(trials.path("theirs/door"))
        theirs.listen()
        port = str(other.getsockname()[1])
        trials.comes(["serve", "net.txt", "j", port, "1", "1"], 9,
                     f"the port {port} could not be opened: another program listens there, or "
                     "rights are missing; or accepting a connection failed")
        served, no_folder = "another program serves there", "its folder is not there"
        left = set(os.listdir(trials.folder))
        for words, door, why in (
                (["net.txt", "j", "./door", port], port, served),
                (["net.txt", "j", "./door", "./theirs/door"], "./theirs/door", served),
                (["net.txt", "j", "./door", "./none/door"], "./none/door", no_folder),
                (["net.txt", "j", "./door", "./beside.txt/door"], "./beside.txt/door", no_folder),
                (["net.txt", "j", "./door", "./beside.txt=acme"], "./beside.txt=acme",
                 "what lies there is no socket"),
                (["--operator", "./none/door", "net.txt", "j", "./door"], "./none/door",
                 no_folder),
                ([*HOST, *DOORS, "./none/door"], "./none/door", no_folder)):
            trials.comes(["host", *words], 9, f'the door "{door}" could not be opened: {why}', "",
                         f"door {2 + words.index(door)}\n")
            trials.wrong += set(os.listdir(trials.folder)) != left
        with socket.socket(socket.AF_UNIX) as peer:
            trials.wrong += peer.connect_ex(trials.path("theirs/door")) != 0
    if os.getuid() == 0:
        os.mkdir(trials.path("open"))
        os.chmod(trials.path("open"), 0o777)
        os.mkdir(trials.path("shut"))
        trials.comes(["host", "net.txt", "open/j", "./open/door", "./shut/door"], 9,
                     'the door "./shut/door" could not be opened: permission denied', "",
                     "door 5\n", preexec_fn=lambda: os.setuid(NOBODY))


def inputs(trials):
    trials.comes(["check", "net.txt"], 10, "the certificate in the input is not valid for the "
                 f'topology "net.txt": rule {RULE} is the lowest that fails', CERTIFICATE)
    trials.comes(["follow", "net.txt", "follower"], 11,
                 "the input has no whole packet at byte 0", "packet")


def limited():
    """A write past 60 bytes of a file fails, as on a disk that is full."""
    signal.signal(signal.SIGXFSZ, signal.SIG_IGN)
    resource.setrlimit(resource.RLIMIT_FSIZE, (60, 60))


def moves(trials):
    def comes(status, sentence, new="big.txt", to="moved", old="net.txt"):
        trials.comes(["move", old, "kept", new, to], status, sentence)

    trials.write("big.txt", TWO_NODES.replace("10 7", "20 7"))
    trials.write("small.txt", TWO_NODES.replace("10 7", "1 7"))
    trials.write("other.txt", TWO_NODES.replace("node b", "node c").replace("a b", "a c"))
    trials.comes(["run", "kept"], 0, None, TWO_NODES + "acme admit a:2 b:2\n")
    comes(0, None)
    comes(0, None)
    refused = f'the topology "bad.txt" is not allowed at line 2, word 3 {RETURNS}'
    comes(2, refused, "bad.txt")
    comes(2, refused, old="bad.txt")
    comes(5, f'the journal "moved" {OTHER} "small.txt" tells', "small.txt")
    comes(5, f'the journal "kept" {OTHER} "big.txt" tells', old="big.txt")
    for new, old in (("none.txt", "net.txt"), ("big.txt", "none.txt")):
        comes(6, f'the topology "none.txt" {UNREAD}: no such file', new, old=old)
    trials.comes(["move", "net.txt", "none", "big.txt", "moved"], 6,
                 f'the journal "none" {UNKEPT}: no such file, and none is made there')
    comes(6, f'the journal "none/j" {UNKEPT}: no such file, and none is made there', to="none/j")
    trials.comes(["move", "net.txt", "kept", "big.txt", "part"], 6,
                 f'the journal "part" {UNKEPT}: the system refused it, or its disk failed', "",
                 "new cabinet\n", preexec_fn=limited)
    os.symlink("kept", trials.path("link"))
    os.link(trials.path("kept"), trials.path("hard"))
    with open(trials.path("kept"), "rb") as file:
        before = file.read()
    for to in ("./kept", "link", "hard"):
        sentence = f'the journal "{to}" {UNKEPT}: it and the other journal are one file'
        trials.comes(["move", "net.txt", "kept", "big.txt", to], 6, sentence, "", "new cabinet\n")
        with open(trials.path("kept"), "rb") as file:
            trials.wrong += file.read() != before
    comes(8, 'the topology "long.json", or the input, is longer than 1 GiB, or the topology is in '
          "JSON and longer than 16 MiB", "long.json")
    comes(12, f'the topology "other.txt" does not go on from "net.txt": {LAST} the first node or '
          "link that is not where it was", "other.txt")
    comes(13, 'the topology "small.txt" has no room for an order of the journal "kept", which '
          'epoch 2 of "low" would be; "low" ends before it', "small.txt", "low")
    trials.comes(["run", "another"], 0, None, TWO_NODES.replace("10 7", "20 7")
                 + "acme admit a:3 b:3\n")
    comes(14, 'the journal "another" has another order than is to be moved at epoch 1',
          to="another")


def cuts(trials):
    """After `moves`: the journal has two entries."""
    def comes(status, sentence, words, output=None):
        trials.comes(["cut", *words], status, sentence, "", output)

    comes(0, None, ["net.txt", "kept", "1", "first"], "moved 1 live 1\n")
    comes(5, f'the journal "kept" {OTHER} "big.txt" tells', ["big.txt", "kept", "1", "first"])
    comes(6, f'the journal "none" {UNKEPT}: no such file, and none is made there',
          ["net.txt", "none", "1", "first"], "cabinet\n")
    comes(6, f'the journal "link" {UNKEPT}: it and the other journal are one file',
          ["net.txt", "kept", "1", "link"], "new cabinet\n")
    comes(14, 'the journal "first" has another order than is to be moved at epoch 1',
          ["net.txt", "kept", "0", "first"], "differs at 1\n")
    comes(15, 'the journal "kept" has fewer entries than are to be cut off: 2',
          ["net.txt", "kept", "3", "none"], "less 2\n")
    trials.wrong += os.path.exists(trials.path("none"))
    # A journal that may only be read is moved and cut.
    os.mkdir(trials.path("free"))
    os.chmod(trials.path("free"), 0o777)
    os.chmod(trials.path("kept"), 0o444)
    nobody = {"preexec_fn": lambda: os.setuid(NOBODY)} if os.getuid() == 0 else {}
    for words in (["cut", "net.txt", "kept", "2", "free/cut"],
                  ["move", "net.txt", "kept", "big.txt", "free/moved"]):
        trials.comes(words, 0, None, "", "moved 2 live 2\n", **nobody)


def commands(trials):
    """Each command ends well, by a tariff where it takes one, and writes what is right."""
    hops = ["--tariff", "hops"]
    trials.comes(["run", *hops, "well"], 0, None, TWO_NODES + "acme admit a:2 b:2\n",
                 "admitted 1 cost 2 at 1 links 0:2\n")
    trials.comes(["audit", *hops, "net.txt", "well"], 0, None, "",
                 f"epoch 1\n{link_line(0, 'a', 'b', 10, 1, 2)}\n"
                 "vpn 1 acme cost 2 ends a:2 b:2 links 0:2\nlive 1 cost 2\n")
    certificate = trials.comes(["prove", *hops, "net.txt", "a:2", "b:2"], 0, None)
    trials.comes(["check", *hops, "net.txt"], 0, None, certificate, "yes 2\n")
    trials.comes(["price", "net.txt"], 0, None, "acme a:2 b:2\n",
                 "price acme flat 14 2 14 hops 2 2 2 long 38 10 38 best hops\n")
    trials.comes(["gen", "7", "9", "27", "20"], 0, None)
    trials.comes(["follow", *hops, "net.txt", "standby"], 0, None, "", "")
    trials.comes(["ship", *hops, "net.txt", "well", "2"], 0, None, "", "")
    trials.comes(["move", *hops, "net.txt", "well", "net.txt", "grown"], 0, None, "",
                 "moved 1 live 1\n")
    for words in (["--help"], ["-h"], ["help"], ["--version"]):
        trials.comes(words, 0, None)


def serves(trials):
    """A server ends well once its one customer left."""
    with socket.socket() as probe:
        probe.bind(("127.0.0.1", 0))
        port = probe.getsockname()[1]
    served = subprocess.Popen([trials.program, "serve", "net.txt", "served", str(port), "1", "1"],
                              cwd=trials.folder, stdin=subprocess.DEVNULL, text=True,
                              stdout=subprocess.PIPE, stderr=subprocess.PIPE)
    served.stdout.readline()
    with socket.create_connection(("127.0.0.1", port), SECONDS) as peer:
        peer.sendall(b"hello acme\nadmit a:1 b:1\nbye\n")
        replies = peer.makefile().read()
    output, error = served.communicate(timeout=SECONDS)
    same = (served.returncode, error, replies) == (
        0, "", "welcome at 0\nadmitted 1 cost 7 at 1 links 0:1\nbye\n") and trials.are_beside()
    trials.wrong += not same
    print(f"{'as wanted' if same else 'OTHERWISE'}: serve: {served.returncode} {error} {replies!r} "
          f"{output!r}")


def hosts(trials):
    """A host ends well once its operator says so, and its order is in the journal."""
    with socket.create_server((HERE, 0)) as free:
        port = free.getsockname()[1]
    words = ["--operator", "./operator", "net.txt", "hosted", "./any", "./acme=acme", str(port)]
    order = "admitted 1 cost 7 at 1 links 0:1"
    book = (f"epoch 1\n{link_line(0, 'a', 'b', 10, 7, 1)}\n"
            "vpn 1 acme cost 7 ends a:1 b:1 links 0:1\nlive 1 cost 7\n")
    figures = ("figures connections 1 ever 6 lines 11 admitted 1 refused 0 released 0 down 0 up 0 "
               "disk 0 memory 0 lost 0 .. at 1")
    # A socket that nobody serves is taken over.
    with socket.socket(socket.AF_UNIX) as left:
        left.bind(trials.path("any"))
    host = subprocess.Popen([trials.program, "host", *words], cwd=trials.folder, text=True,
                            stdin=subprocess.DEVNULL, stdout=subprocess.PIPE,
                            stderr=subprocess.PIPE)
    try:
        replies = host.stdout.readline()
        # A port is open at one address alone, while it is.
        with socket.socket() as peer:
            elsewhere = peer.connect_ex((ELSEWHERE, port))
        for door, text in (("acme", "hello acme\nadmit a:1 b:1\nbye\n"), ("acme", "hello beta\n"),
                           ("any", "hello operator\n"), ("any", "hello beta\nend\nbye\n"),
                           (port, "hello beta\nbye\n"),
                           ("operator", "hello operator\nfigures\nend\n")):
            is_port = door == port
            with socket.socket(socket.AF_INET if is_port else socket.AF_UNIX) as peer:
                peer.settimeout(SECONDS)
                peer.connect((HERE, port) if is_port else trials.path(door))
                peer.sendall(text.encode())
                replies += TIMES.sub(" .. ", peer.makefile().read())
        output, error = host.communicate(timeout=SECONDS)
    finally:
        host.kill()
    same = (host.returncode, error, replies, output) == (
        0, f'acme "admit a:1 b:1" {order}\n',
        f"ready\nwelcome at 0\n{order}\nbye\nbad 2\nbad 2\nwelcome at 1\ndenied at 1\nbye\n"
        f"welcome at 1\nbye\nwelcome at 1\n{figures}\nending at 1\n", book) and trials.are_beside()
    same = same and elsewhere == errno.ECONNREFUSED
    trials.wrong += not same
    print(f"{'as wanted' if same else 'OTHERWISE'}: host: {host.returncode} {error} {replies!r} "
          f"{output!r} {os.strerror(elsewhere)}")
    trials.comes(["audit", "net.txt", "hosted"], 0, None, "", book)


def standbys(trials):
    """A host ends where its standby has more orders, and where one that had all is gone."""
    trials.comes(["run", "more"], 0, None, TWO_NODES + "acme admit a:1 b:1\n")
    empty = f"epoch 0\n{link_line(0, 'a', 'b', 10, 7, 0)}\nlive 0 cost 0\n"
    with_order = (f"epoch 1\n{link_line(0, 'a', 'b', 10, 7, 1)}\n"
                  "vpn 1 acme cost 7 ends a:1 b:1 links 0:1\nlive 1 cost 7\n")
    for follower, status, sentence, book, last in (
            ("more", 17, "the standby has 1 orders, more than the journal: orders of the journal "
             "were lost, or it is of an earlier time", empty, "ahead 1"),
            ("as_many", 16, "nothing was heard of the standby for too long, so the host ended",
             with_order, "standby")):
        with tempfile.TemporaryDirectory() as folder:
            path = os.path.join(folder, "door")
            with socket.socket(socket.AF_UNIX) as door:
                door.bind(path)
                door.listen()
                words = ["--quiet", "--standby", path, "--standby-seconds", "2",
                         "--standby-or-stop", "net.txt", "led", "./any"]
                host = subprocess.Popen([trials.program, "host", *words], cwd=trials.folder,
                                        text=True, stdin=subprocess.DEVNULL,
                                        stdout=subprocess.PIPE, stderr=subprocess.PIPE)
                taken, _ = door.accept()
            with taken:
                follow = subprocess.Popen([trials.program, "follow", "net.txt", follower],
                                          cwd=trials.folder, stdin=taken, stdout=taken)
            if status == 16:
                told_at(trials.path("any"), "hello acme\nadmit a:1 b:1\nbye\n")
                follow.kill()
            output, error = host.communicate(timeout=SECONDS)
            follow.wait(SECONDS)
        same = (host.returncode, error, output) == (
            status, f"hosed: {sentence}\n", f"ready\n{book}{last}\n") and trials.are_beside()
        trials.wrong += not same
        print(f"{'as wanted' if same else 'OTHERWISE'}: host --standby: {host.returncode} "
              f"{error.rstrip()} {output!r}")


def told_at(path, text):
    """What is replied at a host's socket. Once an order was told its standby has it."""
    with socket.socket(socket.AF_UNIX) as peer:
        peer.settimeout(SECONDS)
        peer.connect(path)
        peer.sendall(text.encode())
        return peer.makefile().read()


def most_words(trials):
    """All words are taken: a hose of the most endpoints, and then one whose last word is wrong."""
    leaves = [f"n{leaf}" for leaf in range(ENDS)]
    trials.write("wide.txt", "".join(f"node {leaf}\n" for leaf in leaves) + "node h\n"
                 + "".join(f"link {leaf} h 10 7\n" for leaf in leaves) + "end\n")
    ends = [f"{leaf}:1" for leaf in leaves]
    words = ["prove", "--tariff", "hops", "wide.txt"]
    certificate = trials.comes([*words, *ends], 0, None)
    hoses = [line for line in certificate.splitlines() if line.startswith("hose ")]
    trials.wrong += hoses != [" ".join(["hose", *ends])]
    trials.comes(["check", "--tariff", "hops", "wide.txt"], 0, None, certificate, f"yes {ENDS}\n")
    trials.comes([*words, *ends[:-1], "x:1"], 1,
                 f'word {len(words) + ENDS} is not allowed: "x:1" is an endpoint at no node of the '
                 'topology "wide.txt"', "", f"words {len(words) + ENDS}\n")
    trials.comes([*words, *ends, "h:1"], 1,
                 f'word {len(words) + ENDS + 1} is not allowed: "h:1"{HELP}', "",
                 f"words {len(words) + ENDS + 1}\n")


def most_ends(trials):
    """After `most_words`: a host and its standby take orders of the most endpoints."""
    ends = " ".join(f"n{leaf}:1" for leaf in range(ENDS))
    links = " ".join(f"{leaf}:1" for leaf in range(ENDS))
    named, hops = f"cost {ENDS} ends {ends} links {links}", ["--tariff", "hops"]
    book = ("epoch 4\n" + "".join(link_line(leaf, f"n{leaf}", "h", 10, 1, 2) + "\n"
                                  for leaf in range(ENDS))
            + f"vpn 2 acme {named}\nvpn 3 acme {named}\nlive 2 cost {2 * ENDS}\n")
    with tempfile.TemporaryDirectory() as folder, socket.socket(socket.AF_UNIX) as door:
        path = os.path.join(folder, "door")
        door.bind(path)
        door.listen()
        host = subprocess.Popen(
            [trials.program, "host", *hops, "--operator", "./operator", "--quiet", "--standby",
             path, "--standby-or-stop", "wide.txt", "most", "./any"], cwd=trials.folder, text=True,
            stdin=subprocess.DEVNULL, stdout=subprocess.PIPE, stderr=subprocess.PIPE)
        taken, _ = door.accept()
    try:
        with taken:
            follow = subprocess.Popen([trials.program, "follow", *hops, "wide.txt", "follows"],
                                      cwd=trials.folder, stdin=taken, stdout=taken)
        replies = told_at(trials.path("any"), f"hello acme\nadmit {ends}\nshow 1\nquote {ends}\n"
                          f"take 1\nadmit-after 2 {ends}\nvpns\nrelease 1\nbye\n")
        replies += told_at(trials.path("operator"), "hello operator\nend\n")
        output, error = host.communicate(timeout=SECONDS)
    finally:
        host.kill()
    follow.wait(SECONDS)
    plan = f"links {links}"
    same = (host.returncode, error, output, replies) == (
        0, "", f"ready\n{book}",
        f"welcome at 0\nadmitted 1 cost {ENDS} at 1 {plan}\nvpn 1 cost {ENDS} at 1 ends {ends} "
        f"{plan}\nquoted 1 cost {ENDS} at 1 {plan}\nadmitted 2 cost {ENDS} at 2 {plan}\n"
        f"admitted 3 cost {ENDS} at 3 {plan}\nvpns 1 2 3 at 3\nreleased 1 at 4\nbye\n"
        "welcome at 4\nending at 4\n") and trials.are_beside()
    trials.wrong += not same
    print(f"{'as wanted' if same else 'OTHERWISE'}: host of {ENDS} endpoints: {host.returncode} "
          f"{error.rstrip()}{'' if same else replies + output}")
    for journal in ("most", "follows"):
        trials.comes(["audit", *hops, "wide.txt", journal], 0, None, "", book)


def main(words):
    if "--help" in words or "-h" in words or len(words) > 1:
        print(__doc__.strip())
        return 0 if "--help" in words or "-h" in words else 2
    program = os.path.abspath(words[0] if words else PROGRAM)
    folder = tempfile.mkdtemp()
    try:
        trials = Trials(program, folder)
        trials.write("net.txt", TWO_NODES)
        trials.lay_beside()
        for part in (words_that_are_wrong, topologies, streams, journals, closed_error, files,
                     limits, ports, inputs, moves, cuts, commands, serves, hosts, standbys,
                     most_words, most_ends):
            part(trials)
    finally:
        shutil.rmtree(folder)
    print(f"{trials.wrong} did otherwise")
    return 1 if trials.wrong else 0


if __name__ == "__main__":
    tell_usage(__doc__)
    sys.exit(main(sys.argv[1:]))
