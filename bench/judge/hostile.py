#!/usr/bin/env python3
"""Sends hostile lines to `hosed run` and hostile sessions to `hosed serve`, by files and sockets.

Lines are random bytes, commands with bytes that are set, added, left out, doubled or exchanged,
broken UTF-8, words without an end, numbers past all limits, and lines of 4,096 bytes and more; good
ones stand between them. Each line must have one reply, which a reader of lines here and the slow
planner of planner.py tell: the reader follows docs/GUIDE.md and shares no code with the
crates. Sessions come one after another over one book, some without a greeting, some of which end
within a line, and some that break off; the audit must have the orders of all. A process that dies,
that says less or more, or that is silent for a minute is a failure: then the input up to there is
printed, and it ends with status 1.

With --host there are sessions alone, with a host, which never does a last line without a line feed,
and denies its operator's lines, `end` and `figures`, to others.

usage: bench/judge/hostile.py [--host] [PROGRAM [LINES [SESSIONS [SEED]]]]
The PROGRAM (./hosed) is seen from the top of the repository; LINES (1,000,000), SESSIONS (10,000).
"""

import errno
import os
import random
import socket
import struct
import subprocess
import sys
import tempfile
from collections import Counter, defaultdict

sys.path.insert(0, os.path.join(os.path.dirname(os.path.abspath(__file__)), "..", "parts"))
from usage import TOP, tell_usage

from histories import Differs, same, start_host, told_of_host, way_of
from lines import COMMANDS, ENDS, told
from planner import FORCED, WEIGHTS, Server, audit_lines, random_command, random_network
from planner import topology_lines

LINES_OF_A_RUN = 2_000
MOST_LINE = 4_096
MOST_CONNECTIONS = 10_000
MOST = 4_000_000_000  # of a number of a quote or a VPN
MOST_RATE = 1_000_000
MOST_ENDS = 64
HANGS = 60  # seconds
ENDED = (errno.EPIPE, errno.ECONNRESET, errno.ENOTCONN)
HOST = "127.0.0.1"
TRIES = 10  # at ports that another program may take meanwhile
NAME = frozenset(b"abcdefghijklmnopqrstuvwxyz0123456789-")
DIGITS = frozenset(b"0123456789")
ENCODED = ("é", "Ü", "中", "🙂", "\u202e")


# ---- What a line is answered.


def is_name(word):
    return 1 <= len(word) <= 16 and set(word) <= NAME


def number_of(word, most):
    """The number that a word is, if it is one of at most so much."""
    if not word or not set(word) <= DIGITS or word[0:1] == b"0" and len(word) > 1:
        return None
    return int(word) if len(word) <= 20 and int(word) <= most else None


class Refused(Exception):
    """The first word that is not allowed, counted from 1."""


class Desk(Server):
    """The planner's server, which is given lines as bytes."""

    def __init__(self, network):
        super().__init__(network)
        self.quotes = defaultdict(dict)
        self.customer_of = {}
        self.needs_ends = False  # whether a last line without a line feed is never done
        self.nodes = {name.encode(): number for number, name in enumerate(network.nodes)}

    def hose_of(self, words, before):
        ends, named = [], set()
        for place, word in enumerate(words, before + 1):
            name, colon, rate = word.partition(b":")
            node, rate = self.nodes.get(name), number_of(rate, MOST_RATE)
            if not colon or node is None or node in named or not rate or len(named) == MOST_ENDS:
                raise Refused(place)
            named.add(node)
            ends.append((node, rate))
        if len(ends) < 2:
            raise Refused(before + len(ends) + 1)
        return ends

    def number(self, words, before, most):
        number = number_of(words[0], most) if words else None
        if number is None:
            raise Refused(before + 1)
        return number

    def command(self, customer, words, before):
        """The reply to the words of a command, before which so many stand."""
        word, rest = words[0].decode("latin-1") if words else "", words[1:]
        if word not in COMMANDS:
            raise Refused(before + 1)
        said, before = [], before + 1
        for field in COMMANDS[word].fields:
            if field == ENDS:
                said.append(self.hose_of(rest, before))
                rest = []
            else:
                most = len(self.network.links) - 1 if field == "L" else MOST
                said.append(self.number(rest, before, most))
                rest, before = rest[1:], before + 1
        if rest:
            raise Refused(before + 1)
        return self.answer(customer, word, said)

    def line(self, line):
        """The reply to a line of a run."""
        if len(line) > MOST_LINE:
            return told("Long")
        words = [word for word in line.split(b" ") if word]
        try:
            if not words or not is_name(words[0]):
                raise Refused(1)
            return self.command(words[0].decode(), words[1:], 1)
        except Refused as refused:
            return told("Bad", refused)

    def session(self, text, session):
        """The replies to all that a session says, of which the last line may have no line feed."""
        lines = text.split(b"\n")
        lines = lines if lines[-1] and not self.needs_ends else lines[:-1]
        if not lines:
            return []
        words = [word for word in lines[0].split(b" ") if word]
        if len(lines[0]) > MOST_LINE:
            return [told("Long")]
        if not words or words[0] != b"hello":
            return [told("Bad", 1)]
        if len(words) < 2 or not is_name(words[1]):
            return [told("Bad", 2)]
        if len(words) > 2:
            return [told("Bad", 3)]
        customer = words[1].decode()
        self.customer_of[session] = customer
        replies = [told("Welcome", self.epoch)]
        for line in lines[1:]:
            reply = self.later(line, session)
            replies.append(reply)
            if reply == told("Bye"):
                break
        return replies

    def later(self, line, session):
        if len(line) > MOST_LINE:
            return told("Long")
        words = [word for word in line.split(b" ") if word]
        if words == [b"bye"]:
            return told("Bye")
        if self.needs_ends and words in ([b"end"], [b"figures"]):
            return told("Denied", self.epoch)
        try:
            return self.command(session, words, 0)
        except Refused as refused:
            return told("Bad", refused)

    # A session's quotes may be its own; its VPNs and its right to change links are its customer's.

    def enter(self, customer, hose, plan, cost):
        return super().enter(self.customer_of.get(customer, customer), hose, plan, cost)

    def change(self, command, customer, number):
        return super().change(command, self.customer_of.get(customer, customer), number)

    def of_customer(self, customer, number):
        return super().of_customer(self.customer_of.get(customer, customer), number)

    def audit(self):
        return audit_lines(self.network, self.epoch, self.live)


# ---- What is said.


def random_bytes(draw, most):
    return bytes(draw.choice(b" :-019az\t\r\0\x7f\x80\xc3\xff") if draw.random() < 0.5
                 else draw.randrange(256) for _ in range(draw.randint(0, most)))


def mutated(draw, line):
    """A line in which something is changed, as bytes without a line feed."""
    at = draw.randint(0, len(line))
    kind = draw.randrange(12)
    if kind == 0:
        return line[:at] + bytes([draw.randrange(256)]) + line[at + 1:]
    if kind == 1:
        return line[:at] + random_bytes(draw, 4) + line[at:]
    if kind == 2:
        return line[:at] + line[at + draw.randint(1, 4):]
    if kind == 3:
        return line.replace(b" ", b" " * draw.randint(2, 5))
    if kind == 4:
        words = line.split(b" ")
        draw.shuffle(words)
        return b" ".join(words)
    if kind == 5:
        return line + b" " + draw.choice(line.split(b" "))
    if kind == 6:
        word = draw.choice(ENCODED).encode()
        return line[:at] + word[:draw.randint(1, len(word))] + line[at:]
    if kind == 7:
        big = str(draw.choice((MOST, MOST + 1, 1 << 32, 1 << 64, 10 ** 25, MOST_RATE + 1))).encode()
        return line.rstrip(b"0123456789") + big
    if kind == 8:
        return line.rstrip(b"0123456789") + b"0" * draw.randint(1, 3) + b"7"
    if kind == 9:
        return line + b" " * (draw.choice((MOST_LINE, MOST_LINE + 1, 20_000)) - len(line))
    if kind == 10:
        return line.upper() if draw.random() < 0.5 else line.replace(b" ", b"\t", 1)
    return line[:at] + b"x" * draw.choice((16, 17, MOST_LINE, MOST_LINE + 1)) + line[at:]


def hostile(draw, good):
    """A line that is mostly none, made of one that is good."""
    kind = draw.random()
    if kind < 0.25:
        return good
    if kind < 0.5:
        return random_bytes(draw, 40).replace(b"\n", b"")
    line = mutated(draw, good)
    return (mutated(draw, line) if draw.random() < 0.3 else line).replace(b"\n", b"")


# ---- The program.


def first_word(reply):
    return " ".join(word for word in reply.split()[:2] if word.isalpha())


def run_lines(program, draw, count, kinds):
    """One run of so many lines."""
    network = random_network(draw, FORCED)
    desk, good = Desk(network), Server(network)
    lines = []
    for _ in range(count):
        line, _ = random_command(draw, good, FORCED, WEIGHTS)
        lines.append(hostile(draw, line.encode()))
    text = "\n".join(topology_lines(network)).encode() + b"\n" + b"".join(
        line + b"\n" for line in lines)
    done = subprocess.run([program, "run"], input=text, stdout=subprocess.PIPE, timeout=HANGS)
    replies = done.stdout.decode("ascii", "replace").splitlines()
    for line, reply in zip(lines, replies):
        want = desk.line(line)
        same(reply, want, f"in a run, to {line[:200]!r}")
        kinds[first_word(reply)] += 1
    same((len(replies), done.returncode), (count, 0), "replies and status of a run")


def free_port():
    with socket.socket() as probe:
        probe.bind((HOST, 0))
        return probe.getsockname()[1]


def start(program, topology, journal, connections):
    """A server of one worker that is ready, and its port."""
    for _ in range(TRIES):
        port = free_port()
        words = [program, "serve", topology, journal, str(port), str(connections), "1"]
        process = subprocess.Popen(words, stdout=subprocess.PIPE, text=True)
        if process.stdout.readline() == "ready\n":
            return process, port
        process.wait(HANGS)
    raise Differs("no port could be opened")


def converse(port, text, breaks_off):
    """All replies to a text; or none, where the customer breaks off at once."""
    with socket.create_connection((HOST, port), HANGS) as peer:
        if breaks_off:
            peer.sendall(text)
            peer.setsockopt(socket.SOL_SOCKET, socket.SO_LINGER, struct.pack("ii", 1, 0))
            return None
        try:
            peer.sendall(text)
            peer.shutdown(socket.SHUT_WR)
        except OSError as fault:
            # The server ended the session before it had read all.
            if fault.errno not in ENDED:
                raise
        pieces = []
        try:
            while piece := peer.recv(65_536):
                pieces.append(piece)
        except ConnectionResetError:
            pass
        return b"".join(pieces).decode("ascii", "replace").splitlines()


def session_text(draw, good, asks_host):
    """What a session says: mostly a greeting, then lines, of which the last may be cut. Who is not
    the operator may ask a host for what it does for him alone."""
    kind = draw.random()
    lines = [draw.choice((b"hello acme", b"hello zeta", b"hello operator"))]
    if kind < 0.15:
        lines = [hostile(draw, lines[0])]
    for _ in range(draw.randint(0, 6)):
        line, _ = random_command(draw, good, FORCED, WEIGHTS)
        lines.append(hostile(draw, line.encode().split(b" ", 1)[1]))
    if asks_host and lines[0] in (b"hello acme", b"hello zeta") and draw.random() < 0.2:
        lines.append(draw.choice((b"end", b"figures", b" end ", b"figures  ")))
    if draw.random() < 0.5:
        lines.append(b"bye")
    text = b"".join(line + b"\n" for line in lines)
    return text[:draw.randint(0, len(text))] if draw.random() < 0.2 else text


def run_sessions(program, draw, count, kinds, by_host):
    """One server of so many sessions, one after another."""
    network = random_network(draw, FORCED)
    desk, good = Desk(network), Server(network)
    desk.needs_ends = by_host
    with tempfile.TemporaryDirectory() as work:
        files = [os.path.join(work, name) for name in ("topology", "journal")]
        with open(files[0], "w", encoding="ascii") as file:
            file.write("\n".join(topology_lines(network)) + "\n")
        served = start_host(program, *files) if by_host else start(program, *files, count)
        process, port = served
        try:
            for number in range(count):
                text = session_text(draw, good, by_host)
                breaks_off = draw.random() < 0.05
                if breaks_off:
                    # What it asks for changes nothing, whether it is read or not.
                    text = b"hello acme\nlink 0\nadm"
                replies = converse(port, text, breaks_off)
                if breaks_off:
                    kinds["a session that breaks off"] += 1
                    continue
                same(replies, desk.session(text, f"session {number}"), f"to {text[:400]!r}")
                kinds.update(first_word(reply) for reply in replies)
            if by_host:
                status, told = told_of_host(process, files[1])
            else:
                told, status = process.communicate(timeout=HANGS)[0], process.returncode
            same(told.splitlines(), desk.audit(), "the book of a server")
            same(status, 0, "the status of a server")
        finally:
            process.kill()


def parts(count, most):
    return [most] * (count // most) + ([count % most] if count % most else [])


def main():
    by_host, words = way_of(sys.argv[1:])
    program = os.path.abspath(words[0] if words else "./hosed")
    given = words[1:4]
    lines, sessions, seed = map(int, given + ["1000000", "10000", "1"][len(given):])
    said, served = Counter(), Counter()
    try:
        for number, count in enumerate(parts(0 if by_host else lines, LINES_OF_A_RUN)):
            run_lines(program, random.Random(f"{seed} lines {number}"), count, said)
        for number, count in enumerate(parts(sessions, MOST_CONNECTIONS)):
            draw = random.Random(f"{seed} sessions {number}")
            run_sessions(program, draw, count, served, by_host)
    except (Differs, OSError, subprocess.TimeoutExpired) as difference:
        sys.exit(f"hostile: {difference}")
    told = [(f"{sessions} sessions", served)]
    if not by_host:
        told.insert(0, (f"{lines} lines", said))
    for name, kinds in told:
        counts = ", ".join(f"{count} {kind}" for kind, count in sorted(kinds.items()))
        print(f"hostile: {name}, each answered as the planner says: {counts}")


if __name__ == "__main__":
    tell_usage(__doc__)
    os.chdir(TOP)
    main()
