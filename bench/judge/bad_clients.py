#!/usr/bin/env python3
"""Serves customers who do not behave, and between them one who does, by a live `hosed serve`.

One never says a word and one never reads, each as long as all others are served; others close at
once, break off, say what is no text or no greeting, or send lines of 10 MB. After each of them a
customer who behaves is served as if they were alone. A second server at the same port ends with
status 9 and the line `door`. Before all that one customer is alone at a server. In the end the
audit has the orders of those who behave, and no others.

Then servers of one worker meet those who stand still for longer than they may: the next customer is
served, and the server ends. The times that the program asks of the system are ten minutes and one;
a library that gcc makes of bench/judge/edge.c makes two seconds of just these. It also has accepts
fail, for want of descriptors and as the network fails, for a while and for longer; and a server has
too few descriptors indeed. Who comes after the last connection is refused, and at another address.

With --host the first part is tried on `hosed host`, which ends by its operator alone, and never
does a last line without a line feed. A host at a port that is taken ends with status 9; one that
has descriptors for few customers at a time, or whose accepts fail, serves all of many. A path where
a socket lies that nobody serves is taken over; one that is served, and a file, are left alone, and
so is at the end what another program put at a host's path.

Prints what each was answered; or the first difference, and ends with status 1.

usage: bench/judge/bad_clients.py [--host] [PROGRAM]
The PROGRAM (./hosed) is seen from the top of the repository.
"""

import errno
import os
import resource
import socket
import struct
import subprocess
import sys
import tempfile
import time

sys.path.insert(0, os.path.join(os.path.dirname(os.path.abspath(__file__)), "..", "parts"))
from usage import tell_usage

from histories import HANGS, TRIES, Differs, client, same, start, start_host, told_of_host, way_of
from planner import link_line

HOST = "127.0.0.1"
STAR = "demo/star.txt"
LONG = b"x" * 10_000_000 + b"\n"
HOSE = {"a": 3, "b": 4, "c": 5}
QUIET = 2  # seconds in which nothing more is taken of one who never reads
SHORT = 2  # seconds after which a session ends where the peer stands still
PATIENCE = 10  # seconds for which an accept that fails is made again
FEW, MANY = 24, 40  # descriptors of a host, and customers at once


def connect(port):
    return socket.create_connection((HOST, port), HANGS)


def read_all(peer):
    pieces = []
    while piece := peer.recv(65536):
        pieces.append(piece)
    return b"".join(pieces)


def say(port, text):
    """Sends a text, and reads until the server closes the connection."""
    with connect(port) as peer:
        peer.sendall(text)
        peer.shutdown(socket.SHUT_WR)
        return read_all(peer)


def close_at_once(port):
    connect(port).close()


def reset(port):
    """Says a word, and breaks the connection off."""
    with connect(port) as peer:
        peer.sendall(b"hello acme\nadm")
        peer.setsockopt(socket.SOL_SOCKET, socket.SO_LINGER, struct.pack("ii", 1, 0))


def never_read(port):
    """Asks until the server takes no more, and gives the connection, with how much was taken."""
    peer, taken = connect(port), 0
    peer.sendall(b"hello acme\n")
    peer.settimeout(QUIET)
    try:
        while True:
            taken += peer.send(b"link 0\n" * 1_000)
    except socket.timeout:
        return peer, taken


# What each who is served to an end says, and is answered.
TOLD = (
    ("no line", b"", b""),
    ("no greeting", b"admit a:1 b:1\nbye\n", b"bad 1\n"),
    ("no text at first", b"\xff\xfe\x00\x80\n", b"bad 1\n"),
    ("no text later", b"hello acme\nadmit \xff:1 b:1\n\x00\nbye\n", b"welcome\nbad 2\nbad 1\nbye\n"),
    ("a first line of 10 MB", LONG, b"long\n"),
    ("lines of 10 MB", b"hello acme\n" + LONG * 3 + b"bye\n", b"welcome\nlong\nlong\nlong\nbye\n"),
    ("no line feed", b"hello acme", b"welcome\n"),
    ("lines after bye", b"hello acme\nbye\nadmit a:1 b:1\n", b"welcome\nbye\n"),
)


class Behaved:
    """Customers who behave, each of whom holds what those before did not give up."""

    def __init__(self, port):
        self.port, self.epoch = port, 0

    def come(self):
        """Admits and releases, and is told both."""
        at, admitted = self.epoch, self.epoch + 1
        with client.Session(HOST, self.port, "beta", HANGS) as session:
            told = session.welcome, session.admit(HOSE), session.release(admitted)
        wanted = (
            client.Welcome(at),
            client.Admitted(admitted, 26, admitted, {0: 3, 1: 4, 2: 5}),
            client.Released(admitted, at + 2),
        )
        same(told, wanted, "one who behaves")
        self.epoch += 2


def without_place(reply):
    """The greeting's place depends on those who were served before."""
    first, _, rest = reply.partition(b"\n")
    return b"welcome\n" + rest if first.startswith(b"welcome at ") else reply


def serve_all(port, behaved, told=TOLD):
    with connect(port):  # and never says a word
        reader, taken = never_read(port)
        with reader:
            print(f"one who never reads: {taken:,} bytes were taken")
            behaved.come()
            for name, text, reply in told:
                same(without_place(say(port, text)), reply, name)
                print(f"{name}: {reply!r}")
                behaved.come()
            for leave in (close_at_once, reset):
                leave(port)
                behaved.come()
    behaved.come()


ALONE = (
    "welcome at 0\nadmitted 1 cost 26 at 1 links 0:3 1:4 2:5\n"
    "vpn 1 cost 26 at 1 ends a:3 b:4 c:5 links 0:3 1:4 2:5\nbye\n"
)
BOOK_OF_ONE = f"""epoch 1
{link_line(0, "a", "h", 10, 1, 3)}
{link_line(1, "b", "h", 10, 2, 4)}
{link_line(2, "c", "h", 10, 3, 5)}
vpn 1 acme cost 26 ends a:3 b:4 c:5 links 0:3 1:4 2:5
live 1 cost 26
"""


def serve_alone(program, work):
    """One customer is the only one of a server."""
    server, port = start(program, STAR, os.path.join(work, "alone"), 1)
    told = say(port, b"hello acme\nadmit a:3 b:4 c:5\nshow 1\nbye\n").decode()
    same(told, ALONE, "one who is alone")
    same((server.stdout.read(), server.wait(HANGS)), (BOOK_OF_ONE, 0), "the book of one")
    print("one who is alone was served")


# ---- Servers of few workers, with calls of the system that the library changes.

# Errors of accepts after which the next one may succeed.
PASSING = (
    *(errno.EMFILE, errno.ENFILE, errno.ENOBUFS, errno.ENOMEM, errno.EPROTO, errno.ENETDOWN),
    *(errno.ENOPROTOOPT, errno.EHOSTDOWN, errno.ENONET, errno.EHOSTUNREACH, errno.EOPNOTSUPP),
    *(errno.ENETUNREACH, errno.EINTR, errno.ECONNABORTED),
)


class Changed:
    """Servers on journals of their own, each with calls that are changed."""

    def __init__(self, program, work):
        self.program, self.work, self.count = program, work, 0
        self.library = os.path.join(work, "edge.so")
        words = ["gcc", "-O1", "-shared", "-fPIC", "bench/judge/edge.c", "-o", self.library, "-ldl"]
        subprocess.run(words, check=True)

    def start(self, connections, workers=1, files=None, **edge):
        """A server that is ready, and its port."""
        self.count += 1
        journal = os.path.join(self.work, f"changed {self.count}")
        variables = {**os.environ, "LD_PRELOAD": self.library, **edge}

        def limit():
            if files:
                resource.setrlimit(resource.RLIMIT_NOFILE, (files, files))

        for _ in range(TRIES):
            with socket.socket() as probe:
                probe.bind((HOST, 0))
                port = probe.getsockname()[1]
            words = ["serve", STAR, journal, str(port), str(connections), str(workers)]
            streams = {"stdout": subprocess.PIPE, "text": True, "env": variables}
            server = subprocess.Popen([self.program, *words], preexec_fn=limit, **streams)
            first = server.stdout.readline()
            if first == "ready\n":
                return server, port
            same(first, "door\n", "the first line")
            server.wait(HANGS)
        raise Differs("no port could be opened")


def ends(server, status, last, name):
    """A server ends by itself, with this status and this last line."""
    rest = server.stdout.read().splitlines()
    same((server.wait(HANGS), rest[-1]), (status, last), name)


def stand_still(changed):
    """The only worker's session ends, and the next customer is served."""
    for name, stands in (("never says a word", connect), ("never reads", never_read_of)):
        server, port = changed.start(2, EDGE_SECONDS=str(SHORT))
        with stands(port):
            begun = time.monotonic()
            Behaved(port).come()
            took = time.monotonic() - begun
            ends(server, 0, "live 0 cost 0", name)
        print(f"one who {name}: the next was served after {took:.1f} s")


def never_read_of(port):
    return never_read(port)[0]


def fail_for_a_while(changed):
    """Each passing error, twice in a row."""
    for error in PASSING:
        name = errno.errorcode[error]
        server, port = changed.start(1, EDGE_ACCEPT=f"{error}:2")
        Behaved(port).come()
        ends(server, 0, "live 0 cost 0", name)
        print(f"two accepts that fail by {name}: the next customer was served")


def fail_for_longer(changed):
    """An error that does not pass, and one that would and goes on: the door has failed."""
    for error, count, least in ((errno.EINVAL, 1, 0), (errno.EMFILE, 1_000_000, PATIENCE - 1)):
        begun = time.monotonic()
        server, _ = changed.start(1, EDGE_ACCEPT=f"{error}:{count}")
        name = errno.errorcode[error]
        ends(server, 9, "door", name)
        took = time.monotonic() - begun
        if not least <= took <= 2 * PATIENCE:
            raise Differs(f"{name}: the door failed after {took:.1f} s")
        print(f"{name} goes on: the door failed after {took:.1f} s")


def run_out_of_descriptors(changed):
    """Four workers, and descriptors for one connection: others wait for its end."""
    server, port = changed.start(4, 4, files=8)
    with connect(port) as first:
        first.sendall(b"hello acme\n")
        same(first.recv(100), b"welcome at 0\n", "the first of four")
        others = [connect(port) for _ in range(3)]
        for other in others:
            other.sendall(b"hello beta\nbye\n")
        time.sleep(1)
    for other in others:
        with other:
            same(read_all(other), b"welcome at 0\nbye\n", "one of four")
    ends(server, 0, "live 0 cost 0", "too few descriptors")
    print("too few descriptors: all four were served")


def is_refused(address):
    try:
        socket.create_connection(address, HANGS).close()
    except ConnectionRefusedError:
        return True
    return False


def are_refused(changed):
    """Who comes to another address of the machine, or while the last session goes on."""
    server, port = changed.start(1)
    same(is_refused(("127.0.0.2", port)), True, "another address is refused")
    with connect(port) as last:
        last.sendall(b"hello acme\n")
        same(last.recv(100), b"welcome at 0\n", "the last customer")
        same(is_refused((HOST, port)), True, "one who came too late is refused")
    ends(server, 0, "live 0 cost 0", "one who came too late")
    print("another address and one who came too late were refused")


def change(program, work):
    changed = Changed(program, work)
    stand_still(changed)
    fail_for_a_while(changed)
    fail_for_longer(changed)
    run_out_of_descriptors(changed)
    are_refused(changed)


# ---- A host.

# What a host answers otherwise: a line without a line feed is none.
TOLD_OF_HOST = [(name, text, b"" if name == "no line feed" else reply)
                for name, text, reply in TOLD]


def host_alone(program, work):
    """One customer is the only one of a host."""
    journal = os.path.join(work, "alone")
    host, port = start_host(program, STAR, journal)
    told = say(port, b"hello acme\nadmit a:3 b:4 c:5\nshow 1\nbye\n").decode()
    same(told, ALONE, "one who is alone")
    same(told_of_host(host, journal), (0, BOOK_OF_ONE), "the book of one")
    print("one who is alone was served")


def limited():
    resource.setrlimit(resource.RLIMIT_NOFILE, (FEW, FEW))


def serve_many(program, journal, name, **how):
    """More customers than descriptors, or accepts that fail: all are served."""
    host, port = start_host(program, STAR, journal, **how)
    peers = [connect(port) for _ in range(MANY)]
    for peer in peers:
        peer.sendall(b"hello acme\nbye\n")
    for peer in peers:
        with peer:
            same(read_all(peer), b"welcome at 0\nbye\n", "one of many")
    same(told_of_host(host, journal)[0], 0, "the status")
    print(f"{name}, {MANY} customers at once: all were served")


def is_refused_at(path):
    with socket.socket(socket.AF_UNIX) as peer:
        return peer.connect_ex(path) != 0


def no_host(program, work, path, what):
    """A host that has this path for a door ends with status 9."""
    words = [program, "host", "--quiet", STAR, os.path.join(work, "none"), path]
    done = subprocess.run(words, stdout=subprocess.PIPE, text=True, timeout=HANGS)
    same((done.returncode, done.stdout.split()[:1]), (9, ["door"]), what)


def meet_at_paths(program, work):
    """What lies at a path of a host."""
    path, journal = os.path.join(work, "door"), os.path.join(work, "paths")
    left = socket.socket(socket.AF_UNIX)
    left.bind(path)
    left.close()  # its file stays
    host, _ = start_host(program, STAR, journal, doors=[path])
    same(is_refused_at(path), False, "a socket that nobody served")
    no_host(program, work, path, "a socket that is served")
    same(is_refused_at(path), False, "a socket that is served")
    os.remove(path)
    with socket.socket(socket.AF_UNIX) as other:
        other.bind(path)
        other.listen()
        same(told_of_host(host, journal)[0], 0, "the status")
        same(os.path.exists(path), True, "what another program put at the path")
    os.remove(path)
    with open(path, "w", encoding="ascii") as file:
        file.write("kept")
    no_host(program, work, path, "a file")
    with open(path, encoding="ascii") as file:
        same(file.read(), "kept", "a file")
    os.remove(path)
    print("sockets of the file system: taken over, left alone, taken away")


def serve_at_host(program, work):
    host_alone(program, work)
    journal, other = os.path.join(work, "journal"), os.path.join(work, "other")
    host, port = start_host(program, STAR, journal)
    words = [program, "host", "--quiet", STAR, other, str(port)]
    second = subprocess.run(words, stdout=subprocess.PIPE, text=True, timeout=HANGS)
    customers = Behaved(port)
    try:
        same((second.returncode, second.stdout.split()[:1]), (9, ["door"]), "a port that is taken")
        serve_all(port, customers, TOLD_OF_HOST)
        status, audit = told_of_host(host, journal)
        same(status, 0, "the status")
        same(audit.splitlines()[0], f"epoch {customers.epoch}", "the audit")
        same(audit.splitlines()[-1], "live 0 cost 0", "the audit")
    finally:
        host.kill()
    serve_many(program, os.path.join(work, "few"), f"{FEW} descriptors", files=limited)
    library = Changed(program, work).library
    for error in PASSING:
        name = errno.errorcode[error]
        environment = {**os.environ, "LD_PRELOAD": library, "EDGE_ACCEPT": f"{error}:2"}
        serve_many(program, os.path.join(work, name), f"two accepts that fail by {name}",
                   environment=environment)
    meet_at_paths(program, work)


def main():
    by_host, words = way_of(sys.argv[1:])
    program = os.path.abspath(words[0] if words else "./hosed")
    if by_host:
        with tempfile.TemporaryDirectory() as work:
            try:
                serve_at_host(program, work)
            except (Differs, OSError, *client.FAULTS) as difference:
                sys.exit(f"bad clients: {difference}")
        return
    behaved = 3 + len(TOLD) + 1
    connections = 2 + len(TOLD) + 2 + behaved
    with tempfile.TemporaryDirectory() as work:
        serve_alone(program, work)
        journal = os.path.join(work, "journal")
        server, port = start(program, STAR, journal, connections)
        words = [program, "serve", STAR, os.path.join(work, "other"), str(port), "1", "1"]
        second = subprocess.run(words, stdout=subprocess.PIPE, text=True, timeout=HANGS)
        try:
            same((second.returncode, second.stdout), (9, "door\n"), "a port that is taken")
            customers = Behaved(port)
            serve_all(port, customers)
            audit, status = server.stdout.read(), server.wait(HANGS)
            same(status, 0, "the status")
            same(audit.splitlines()[0], f"epoch {customers.epoch}", "the audit")
            same(audit.splitlines()[-1], "live 0 cost 0", "the audit")
            print(f"{behaved} who behave were served beside them")
            change(program, work)
        except (Differs, OSError, *client.FAULTS) as difference:
            server.kill()
            sys.exit(f"bad clients: {difference}")


if __name__ == "__main__":
    tell_usage(__doc__)
    main()
