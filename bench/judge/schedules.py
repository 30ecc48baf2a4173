#!/usr/bin/env python3
"""Judges followers from outside, each under a random schedule of a lossy link with restarts.

A schedule has a random network of up to 6 nodes and a leader, `hosed run` with a journal, that is
given random orders now and then; the slow planner of planner.py says what its journal must
be. `hosed ship` sends it on, and its packets must be those of that journal. They reach a follower
over a link that loses, repeats, reorders and keeps back, with packets of any time before among
them, in some runs of `hosed follow`: one that ends, one whose input is cut off, one that is killed
after some lines, one that is killed by the system where its journal would grow past a limit, so
that a part of its last write is left, and one whose disk fails there. Between two runs its journal
may be replaced by what a stop leaves within an append or its beginning, with any bytes in the range
of the write. In every fourth schedule packets of another history, with a bit turned, or with
another body come in between.

Each line is to be the one that the rules of docs/GUIDE.md give here. After each run the follower's
journal is read by tools/read_journal.py alone: its chain value after k entries is to be the
leader's after k, and k no less than was told by `have`; with strangers' packets the chain is that
of the packets that were taken. In the end all is sent in order, and an audit must tell the book of
a reader of journals in Python (forged.py). Then faults are planted in what is judged, each in some
schedules, and one of these has to tell it. Prints what came of all; or the first difference, with
the number of its schedule, and ends with status 1.

usage: bench/judge/schedules.py [PROGRAM [SCHEDULES [SEED]]]
The PROGRAM (./hosed) is seen from the top of the repository.
"""

import copy
import hashlib
import os
import random
import resource
import signal
import subprocess
import sys
import tempfile
import time
from collections import Counter
from concurrent.futures import ProcessPoolExecutor
from functools import partial

sys.path.insert(0, os.path.join(os.path.dirname(os.path.abspath(__file__)), "..", "parts"))
from usage import TOP, tell_usage

import read_journal
from forged import CHAINED, EMPTY, MOST_BODY, Book, Wrong, canonical, entry_of, journal_of, spelled
from planner import FORCED, Server, random_command, random_network
from tests.try_standby import FRONT, Link, cut

WORKERS, HANGS = 4, 60
WEIGHTS = {"admit": 10, "release": 5, "down": 2, "up": 3}
FIRST, LATER, TURNS = (4, 14), (0, 5), (3, 7)  # orders at first, and before a turn; turns
LOSSES = 0.02, 0.2, 0.5
WAYS = {"plain": 4, "cut": 2, "killed": 3, "past a limit": 3, "failing": 2}
STRANGERS = 4  # of so many schedules one has packets that its leader did not send
FAULTS = 20  # schedules, of which one has to tell a fault
PLANTED = ("a byte of a journal", "a lost entry", "an answer that tells one more",
           "a have that was not written", "an entry that is taken twice")


class Differs(Exception):
    pass


def same(got, want, where):
    if got != want:
        raise Differs(f"{where}\ntold:     {got}\nexpected: {want}")


# ---- What is right.


class History:
    """The entries of one journal: their bodies, and the chain value before each and after all."""

    def __init__(self, network):
        self.book = Book(network)
        self.bodies, self.values = [], [hashlib.sha256(canonical(network).encode()).digest()]

    def enters(self, body):
        """Enters the entry of a body, if it is one that is sound."""
        try:
            entered = self.book.enters(entry_of(body))
        except Wrong:
            return False
        if entered:
            self.bodies.append(body)
            self.values.append(hashlib.sha256(self.values[-1] + body).digest())
        return entered

    def packet(self, at):
        body = self.bodies[at]
        return (len(body).to_bytes(2, "big") + (at + 1).to_bytes(4, "big") + self.values[at] + body)

    def packets(self, start=1):
        return [self.packet(at) for at in range(start - 1, len(self.bodies))]

    def size(self):
        """The place of the last gate of the journal."""
        return EMPTY - 1 + sum(37 + len(body) for body in self.bodies)


class Killed(Exception):
    """The system kills the follower, whose journal would grow past the limit."""


def answer(own, packet, most, failing):
    """The line of a packet. `most` bytes the journal may have: a longer one fails, or kills."""
    epoch, value = int.from_bytes(packet[2:6], "big"), packet[6:FRONT]
    at, body = len(own.bodies), packet[FRONT:]
    if epoch <= at:
        return f"have {at}"
    if epoch > at + 1:
        return f"want {at + 1}"
    if value != own.values[at]:
        return f"differs at {at} {own.values[at].hex()} {value.hex()}"
    trial = copy.deepcopy(own)
    if not trial.enters(body):
        return f"unsound {epoch}"
    # The record, and a gate behind it, are written first.
    if trial.size() + 1 > most:
        if failing:
            return f"disk at {at}"
        raise Killed
    own.enters(body)
    return f"have {epoch}"


def followed(own, given, most=1 << 62, failing=False):
    """The lines of a follower and its status, and its history after each line: none but the first
    where it is killed before."""
    lines, at, after = [], 0, [copy.deepcopy(own)]
    while at < len(given):
        size = int.from_bytes(given[at:at + 2], "big")
        end = at + FRONT + size
        if len(given) < at + 2 or not 1 <= size <= MOST_BODY or end > len(given):
            return lines + [f"packet {at}"], 11, after
        try:
            lines.append(answer(own, given[at:end], most, failing))
        except Killed:
            return lines, -signal.SIGXFSZ, after
        after.append(copy.deepcopy(own))
        at = end
    return lines, 0, after


# ---- The leader.


def ordered(draw, server):
    """A random order, the reply to it, and the entry that it leaves, if one."""
    before = dict(server.live)
    line, reply = random_command(draw, server, FORCED, WEIGHTS)
    kind, number = reply.split()[0], reply.split()[1]
    if kind == "admitted":
        vpn = server.live[int(number)]
        return line, reply, ("admit", vpn.customer, vpn.hose, vpn.plan)
    if kind == "released":
        return line, reply, ("release", before[int(number)].customer, int(number))
    return line, reply, (kind, int(number)) if kind in ("down", "up") else None


class Leader:
    """A journal of random orders, and what it must be."""

    def __init__(self, draw, program, work):
        self.draw, self.program = draw, program
        self.server = Server(random_network(draw, FORCED))
        self.entries, self.history = [], History(self.server.network)
        self.topology, self.journal = (os.path.join(work, name) for name in ("topology", "leader"))
        with open(self.topology, "w", encoding="ascii") as file:
            file.write(canonical(self.server.network))

    def order(self, count):
        """Gives so many lines to a run of the leader, of which some leave an entry."""
        orders = [ordered(self.draw, self.server) for _ in range(count)]
        self.entries += [entry for _, _, entry in orders if entry]
        text = canonical(self.server.network) + "".join(f"{line}\n" for line, _, _ in orders)
        told = run(self.program, "run", self.journal, given=text.encode())
        same(told, (0, [reply for _, reply, _ in orders]), "a run of the leader")
        for entry in self.entries[len(self.history.bodies):]:
            assert self.history.enters(spelled(entry)), entry
        with open(self.journal, "rb") as file:
            held = file.read()
        same(held, journal_of(self.server.network, self.entries, CHAINED), "the leader's journal")

    def ship(self, start):
        words = [self.program, "ship", self.topology, self.journal, str(start)]
        done = subprocess.run(words, stdout=subprocess.PIPE, timeout=HANGS)
        packets = self.history.packets(start)
        same((done.returncode, done.stdout), (0, b"".join(packets)), f"ship from {start} on")
        return cut(done.stdout)


def run(program, *words, given=b"", before=None):
    done = subprocess.run([program, *words], input=given, stdout=subprocess.PIPE, timeout=HANGS,
                          preexec_fn=before)
    return done.returncode, done.stdout.decode("ascii", "replace").splitlines()


# ---- The link.


def turned(draw, packet):
    bit = draw.randrange(8 * len(packet))
    return packet[:bit // 8] + bytes([packet[bit // 8] ^ 1 << bit % 8]) + packet[bit // 8 + 1:]


def other_body(draw, packet):
    """The packet with another body: one of no entry, or of one that may not be sound."""
    body = packet[FRONT:]
    body = draw.choice((body + b"\0", body[:-1], b"\0" + body[1:], b"\5", b"\4\0\0",
                        b"\2\4acme\xee\x6b\x28\x00", body[:-1] + bytes([body[-1] ^ 1])))
    return len(body).to_bytes(2, "big") + packet[2:FRONT] + body


class Strangers:
    """Packets of another history of the network, and changed ones of the leader's."""

    def __init__(self, draw, network):
        self.draw, server, other = draw, Server(network), History(network)
        while len(other.bodies) < FIRST[1] and draw.random() < 0.95:
            _, _, entry = ordered(draw, server)
            if entry:
                other.enters(spelled(entry))
        self.others = other.packets()

    def among(self, packets):
        given = []
        for packet in packets:
            if self.draw.random() < 0.3:
                way = self.draw.randrange(3)
                if way < 2:
                    given.append((turned, other_body)[way](self.draw, packet))
                elif self.others:
                    given.append(self.draw.choice(self.others))
            given.append(packet)
        return given


# ---- What a stop leaves.


def torn(draw, old, at, written):
    """Bytes of a file in which this write was begun: any in its range, and any length up to its
    end."""
    end = at + len(written)
    size = draw.choice((len(old), max(len(old), end), draw.randint(len(old), max(len(old), end))))
    was = old + bytes(max(0, end - len(old)))
    now, way = bytearray(was[:at] + written + was[end:]), draw.randrange(5)
    for place in range(at, end):
        byte = (was[place], now[place], 0, 255, draw.randrange(256))[way]
        now[place] = draw.choice((was[place], now[place])) if draw.random() < 0.2 else byte
    return bytes(now[:size])


def begun(draw, network):
    """What a stop leaves of a journal within its beginning, of which no gate was opened yet."""
    whole = journal_of(network, [], CHAINED)
    held = torn(draw, b"\0", 1, whole[1:])
    return draw.choice((b"", held[:draw.randint(0, len(held))], held,
                        bytes([draw.choice((0, 2, 255))]) + whole[1:]))


def stopped(draw, held, own, body):
    """What a stop leaves within the append of a body, and whether its entry is there."""
    gate = own.size()
    record = len(body).to_bytes(4, "big") + hashlib.sha256(own.values[-1] + body).digest() + body
    if draw.random() < 0.6:
        return torn(draw, held, gate + 1, record + b"\0"), False
    byte = draw.choice((0, 1, 1, 1, 2, 255, draw.randrange(256)))
    return held[:gate] + bytes([byte]) + record + b"\0" + held[gate + len(record) + 2:], byte == 1


# ---- A schedule.


def at_most(size, ignored):
    signal.signal(signal.SIGXFSZ, signal.SIG_IGN if ignored else signal.SIG_DFL)
    resource.setrlimit(resource.RLIMIT_FSIZE, (size, size))


class Schedule:
    """A leader, a follower, and what the follower must have."""

    def __init__(self, program, work, name, with_strangers, fault):
        self.draw, self.program, self.fault = random.Random(name), program, fault
        self.leader = Leader(self.draw, program, work)
        network = self.leader.server.network
        self.own, self.told, self.journal = History(network), 0, os.path.join(work, "follower")
        self.link = Link(name, self.draw.choice(LOSSES))
        self.strangers = Strangers(self.draw, network) if with_strangers else None
        self.kinds = Counter()

    def held(self):
        try:
            with open(self.journal, "rb") as file:
                return file.read()
        except FileNotFoundError:
            return b""

    def put(self, held):
        with open(self.journal, "wb") as file:
            file.write(held)

    # -- Runs of the follower.

    def follow(self, packets, way):
        given = b"".join(packets)
        if way == "cut":
            given = given[:self.draw.randint(0, len(given))]
        if way == "killed":
            self.kill(given)
            return
        most, failing = 1 << 62, way == "failing"
        if way in ("past a limit", "failing"):
            most = self.own.size() + 1 + self.draw.randint(0, 40 * (1 + len(packets)))
        before = partial(at_most, most, failing) if most < 1 << 62 else None
        lines, status, _ = followed(self.own, given, most, failing)
        got = run(self.program, "follow", self.leader.topology, self.journal, given=given,
                  before=before)
        if self.fault == "an answer that tells one more":
            lines = [f"have {int(line.split()[1]) + 1}" if line.startswith("have") else line
                     for line in lines]
        same(got, (status, lines), f"a run of the follower, {way}")
        self.note(got[1])
        self.kinds[f"{way}, status {status}"] += 1

    def kill(self, given):
        """Kills a follower after some of its lines, which may have one entry more than it told."""
        lines, _, after = followed(self.own, given)
        # That no packet begins somewhere may be told only at the end of the input.
        soon = sum(not line.startswith("packet") for line in lines)
        words = [self.program, "follow", self.leader.topology, self.journal]
        pipes = {"stdin": subprocess.PIPE, "stdout": subprocess.PIPE}
        with subprocess.Popen(words, **pipes) as process:
            process.stdin.write(given)
            process.stdin.flush()
            got = [process.stdout.readline() for _ in range(self.draw.randint(0, soon))]
            if self.draw.random() < 0.5:
                time.sleep(self.draw.random() / 500)
            process.kill()
            got += process.stdout.readlines()
        got = [line.decode().rstrip("\n") for line in got]
        same(got, lines[:len(got)], "a run of the follower, killed")
        self.note(got)
        found = self.found()[0]
        may_be = after[min(len(got), len(after) - 1):][:2]  # no entry comes of a last line
        self.own = may_be[0] if found == len(may_be[0].bodies) else may_be[-1]
        self.kinds["killed" + ("" if self.own is may_be[0] else ", with an entry more")] += 1

    def note(self, lines):
        for line in lines:
            kind, number = line.split()[:2]
            self.kinds[f"line {kind}"] += 1
            if kind == "have":
                self.told = max(self.told, int(number))
            elif kind in ("differs", "unsound") and self.strangers is None:
                raise Differs(f"the leader's packet is answered {line}")

    def stop(self):
        """Puts what a stop leaves in the place of the follower's journal."""
        held, at = self.held(), len(self.own.bodies)
        if not at and self.draw.random() < 0.5:
            self.put(begun(self.draw, self.leader.server.network))
            self.kinds["stopped in its beginning"] += 1
            return
        bodies = self.leader.history.bodies
        if len(held) < EMPTY or held[0] != 1 or at >= len(bodies):
            return
        # With strangers' packets the leader's next entry may not be sound here.
        if self.own.values != self.leader.history.values[:at + 1]:
            return
        image, is_there = stopped(self.draw, held, self.own, bodies[at])
        self.put(image)
        if is_there:
            self.own.enters(bodies[at])
        self.kinds["stopped in an append" + (", whose entry is there" if is_there else "")] += 1

    # -- Judging.

    def found(self):
        """How many entries the journal has, and their chain value, by a reader of journals."""
        *lines, last = read_journal.lines(self.held())
        if last == "not begun":
            return 0, self.own.values[0].hex()
        if not last.split(" ", 2)[2:] or " end, chain " not in last:
            raise Differs(f"the follower's journal is {last}")
        return len(lines) - 1, last.split()[-1]

    def plant(self):
        """Plants the fault in the journal, if it is one there."""
        held, gate = bytearray(self.held()), self.own.size()
        if not self.own.bodies or len(held) <= gate:
            return
        last = gate - 37 - len(self.own.bodies[-1])
        if self.fault == "a byte of a journal":
            held[self.draw.randrange(EMPTY, gate)] ^= 1 << self.draw.randrange(8)
        elif self.fault == "a lost entry":
            held[last] = 0
        elif self.fault == "an entry that is taken twice":
            body = self.own.bodies[-1]
            value = hashlib.sha256(self.own.values[-1] + body).digest()
            held[gate:] = b"\1" + len(body).to_bytes(4, "big") + value + body + b"\0"
        self.put(bytes(held))

    def judge(self):
        self.plant()
        if self.fault == "a have that was not written":
            self.told = max(self.told, len(self.own.bodies)) + 1
        count, value = self.found()
        if count < self.told:
            raise Differs(f"the follower told that it has {self.told}, and has {count}")
        history = self.own if self.strangers else self.leader.history
        if count >= len(history.values):
            raise Differs(f"the follower has {count} entries, and the leader fewer")
        same(value, history.values[count].hex(), f"the chain value after {count} entries")
        same(count, len(self.own.bodies), "the entries of the follower's journal")

    # -- Turns.

    def turn(self):
        if self.draw.random() < 0.6:
            self.leader.order(self.draw.randint(*LATER))
        draw, epoch = self.draw, len(self.own.bodies)
        start = epoch + 1 if draw.random() < 0.7 else draw.randint(1, epoch + 2)
        packets = self.link.arrived(self.leader.ship(start)[:draw.randint(1, 20)])
        if draw.random() < 0.3:
            draw.shuffle(packets)
        everything = self.leader.history.packets()
        for _ in range(draw.randint(0, 3)):
            packets.insert(draw.randint(0, len(packets)), draw.choice(everything))
        if self.strangers:
            packets = self.strangers.among(packets)
        self.kinds["packets"] += len(packets)
        self.follow(packets, draw.choices(list(WAYS), list(WAYS.values()))[0])
        self.judge()
        if draw.random() < 0.4:
            self.stop()
            self.judge()

    def run(self):
        while not self.leader.entries:
            self.leader.order(self.draw.randint(*FIRST))
        for _ in range(self.draw.randint(*TURNS)):
            self.turn()
        self.follow(self.leader.ship(1), "plain")
        self.judge()
        if self.strangers is None:
            same(self.own.bodies, self.leader.history.bodies, "what the follower has in the end")
        audit = run(self.program, "audit", self.leader.topology, self.journal)
        same(audit, (0, self.own.book.audit()), "an audit of the follower's journal")
        self.kinds["packets lost"] += self.link.lost
        self.kinds["entries"] += len(self.own.bodies)
        return self.kinds


# ---- All schedules.


def outcome(program, seed, fault, number):
    """What came of a schedule, or what differs."""
    with tempfile.TemporaryDirectory() as work:
        name, strange = f"{seed} {number}", number % STRANGERS == 0
        try:
            return Schedule(program, work, name, strange, fault).run(), None
        except Differs as differs:
            return None, f"schedule {number}: {differs}"


def main():
    program = os.path.abspath(sys.argv[1] if len(sys.argv) > 1 else "./hosed")
    count, seed = (int(word) for word in (sys.argv[2:] + ["1000", "1"][len(sys.argv[2:]):]))
    begin, kinds = time.monotonic(), Counter()
    with ProcessPoolExecutor(WORKERS) as pool:
        numbers = range(1, count + 1)
        for told, differs in pool.map(partial(outcome, program, seed, None), numbers, chunksize=4):
            if differs:
                pool.shutdown(wait=False)
                sys.exit(f"schedules: {differs}")
            kinds += told
        for kind, number in sorted(kinds.items()):
            print(f"schedules: {number} {kind}")
        print(f"schedules: {count} agreed in {time.monotonic() - begin:.0f} s")
        for fault in PLANTED:
            planted = list(pool.map(partial(outcome, program, seed, fault), range(1, FAULTS + 1)))
            told = [differs for _, differs in planted if differs]
            if not told:
                sys.exit(f"schedules: no one of {FAULTS} tells {fault}")
            first = " ".join(told[0].split("\n")[0].split())
            print(f"schedules: {fault} is told by {len(told)} of {FAULTS}; {first}")


if __name__ == "__main__":
    tell_usage(__doc__)
    os.chdir(TOP)
    main()
