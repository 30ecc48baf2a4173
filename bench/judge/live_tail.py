#!/usr/bin/env python3
"""Tries tools/tail.py and tools/standby.py beside a program that writes, and is killed.

A leader, `hosed run` with a journal, is given orders one after another, each after the reply to the
one before. What is tried, each with new journals:

- lives: `tail` of its journal is piped into `hosed follow`, while the leader is killed after a
  random time and begun again, LIVES times. Each order whose reply was read has to be in the
  follower's journal at its epoch, and both journals have to have the same entries, byte by byte.
  How far behind the follower was is told: the time from the reply to an order to `have` of it,
  which is below zero where the follower was the first.
- breaks: the same by `standby`, whose follower is killed at random moments, a fifth as often.
- syncs that fail, where `strace` is there: the K-th sync of a leader of 8 orders fails, for each K.
  Where the journal took back an entry that tail had written, tail has to end with status 13, and
  else the follower has to have the leader's entries.
- speed: orders a second without a tail, with one, and with one that syncs, by turns.

Prints what came of each, and ends with status 1 where it is not as it has to be. How many of the
processors had work by other programs before is told first: figures of a busy machine are so.

usage: bench/judge/live_tail.py [FOLDER [PROGRAM [LIVES [SEED]]]]
FOLDER: on a real disk (the current one)
"""
import os
import random
import shutil
import signal
import statistics
import subprocess
import sys
import tempfile
import threading
import time

sys.path.insert(0, os.path.join(os.path.dirname(os.path.abspath(__file__)), "..", "parts"))
from usage import TOP, tell_usage

TOOLS, TOPOLOGY = os.path.join(TOP, "tools"), os.path.join(TOP, "demo", "star.txt")
CATCHES_UP, HANGS = 30, 60  # seconds
TURNS, TURN = 5, 2  # of the speeds, and the seconds of each
FAULTS = 18  # syncs of a leader of 8 orders, of which two are of its beginning


class Wrong(Exception):
    """Something is not as it has to be."""


def entries_of(path):
    """The records of a journal of version 2, read here by docs/GUIDE.md alone; none where it is
    not there yet."""
    try:
        with open(path, "rb") as file:
            held = file.read()
    except FileNotFoundError:
        return []
    found, at = [], 38
    while at < len(held) and held[at] == 1:
        end = at + 37 + int.from_bytes(held[at + 1:at + 5], "big")
        found.append(held[at:end])
        at = end
    return found


def busy():
    """How many processors had work in one second."""
    def times():
        with open("/proc/stat", encoding="ascii") as file:
            return [int(word) for word in file.readline().split()[1:9]]
    before = times()
    time.sleep(1)
    taken = [now - was for now, was in zip(times(), before)]
    return (os.cpu_count() or 1) * (1 - (taken[3] + taken[4]) / max(sum(taken), 1))


# ---- Programs.


class Leader:
    """A run with a journal, and when the reply to the order of each epoch was read."""

    def __init__(self, program, journal, before=()):
        self.words, self.journal = [*before, program, "run", journal], journal
        self.told, self.held, self.disk, self.count = {}, [], 0, 0

    def make(self):
        """Begins the journal, and orders nothing."""
        self.begin()
        self.end()

    def begin(self):
        self.process = subprocess.Popen(self.words, stdin=subprocess.PIPE, stdout=subprocess.PIPE,
                                        bufsize=0)
        with open(TOPOLOGY, "rb") as file:
            self.process.stdin.write(file.read())
        self.output = os.fdopen(os.dup(self.process.stdout.fileno()), "rb")

    def order(self):
        """Gives an order, each of another customer, so that none is the same as the one before.
        Whether it was answered."""
        self.count += 1
        customer, epoch = self.held[0] if len(self.held) > 3 else (f"c{self.count}", None)
        words = f"release {epoch}" if epoch else "admit a:1 b:1"
        try:
            self.process.stdin.write(f"{customer} {words}\n".encode())
            reply = self.output.readline().decode().split()
        except BrokenPipeError:
            return False
        if not reply:
            return False
        if reply[0] in ("admitted", "released"):
            epoch = int(reply[reply.index("at") + 1])
            self.told[epoch] = time.monotonic()
            if reply[0] == "admitted":
                self.held.append((customer, epoch))
            else:
                self.held.pop(0)
        elif reply[0] == "no":  # released by an order whose reply was lost
            self.held.pop(0)
        else:
            self.disk += reply[0] == "disk"
        return True

    def live(self, seconds):
        """Orders for a time, at whose end the leader is killed in the midst of one."""
        self.begin()
        killer = threading.Timer(seconds, self.process.kill)
        killer.start()
        while self.order():
            pass
        killer.join()
        self.end()

    def end(self):
        self.process.stdin.close()
        self.process.wait()
        self.output.close()
        self.process.stdout.close()


class Follower:
    """`tail` into `follow`, or `standby`; and when each `have` was read."""

    def __init__(self, program, leader, own, *words):
        tail = [sys.executable, os.path.join(TOOLS, "tail.py"), *words, TOPOLOGY, leader]
        self.tail = subprocess.Popen(tail, stdout=subprocess.PIPE, stderr=subprocess.PIPE)
        self.follow = subprocess.Popen([program, "follow", TOPOLOGY, own], stdin=self.tail.stdout,
                                       stdout=subprocess.PIPE)
        self.tail.stdout.close()
        self.have, self.wrong = {}, []
        self.thread = threading.Thread(target=self.read)
        self.thread.start()

    def read(self):
        for line in self.follow.stdout:
            kind, number = line.split()[:2]
            if kind != b"have":
                self.wrong.append(line)
            self.have[int(number)] = time.monotonic()

    def wait_for(self, count):
        last = time.monotonic() + CATCHES_UP
        while len(self.have) < count and time.monotonic() < last and self.tail.poll() is None:
            time.sleep(0.01)

    def end(self):
        """Ends tail, and with it what it writes to; gives its status and sentence."""
        self.tail.terminate()
        error = self.tail.communicate()[1].decode()
        self.follow.wait(HANGS)
        self.thread.join()
        self.follow.stdout.close()
        return self.tail.returncode, error


# ---- What is tried.


def compare(leader, own, told):
    """Both journals have the same entries, and those that were told."""
    theirs, found = entries_of(leader), entries_of(own)
    if theirs != found:
        at = next((at for at, pair in enumerate(zip(theirs, found)) if pair[0] != pair[1]),
                  min(len(theirs), len(found)))
        raise Wrong(f"the leader has {len(theirs)} entries, the follower {len(found)}; entry "
                    f"{at + 1} is the first that differs")
    if told and max(told) > len(found):
        raise Wrong(f"the order of epoch {max(told)} was answered, and the follower has "
                    f"{len(found)}")
    return len(found)


def milliseconds(values):
    values = sorted(1_000 * value for value in values)
    return (f"median {statistics.median(values):.1f}, 99 % {values[int(len(values) * 0.99)]:.1f}, "
            f"worst {values[-1]:.1f} ms")


def lives(program, place, count, draw):
    leader, own = os.path.join(place, "leader"), os.path.join(place, "own")
    writer = Leader(program, leader)
    writer.make()
    follower = Follower(program, leader, own)
    for _ in range(count):
        writer.live(draw.uniform(0.02, 0.6))
    entries = len(entries_of(leader))
    follower.wait_for(entries)
    status, error = follower.end()
    if status != -signal.SIGTERM or follower.wrong:
        raise Wrong(f"tail ended with {status}: {error}{follower.wrong[:1]}")
    compare(leader, own, writer.told)
    behind = [follower.have[epoch] - told for epoch, told in writer.told.items()]
    first = sum(value <= 0 for value in behind)
    print(f"lives: {count} times killed, {entries} entries, of which {len(writer.told)} were "
          "answered; both journals are the same")
    print(f"behind the reply: {milliseconds(behind)}; the follower was first with {first}")


def breaks(program, place, count, draw):
    leader, own, pid = (os.path.join(place, name) for name in ("leader", "own", "pid"))
    writer = Leader(program, leader)
    writer.make()
    command = ["sh", "-c", 'echo $$ > "$1"; shift; exec "$@"', "sh", pid, program, "follow",
               TOPOLOGY, own]
    words = [sys.executable, os.path.join(TOOLS, "standby.py"), TOPOLOGY, leader]
    with open(os.path.join(place, "told"), "wb") as told:
        keeper = subprocess.Popen([*words, *command], stdout=subprocess.DEVNULL, stderr=told)
        for _ in range(count):
            writer.live(draw.uniform(0.5, 3))
            if os.path.exists(pid):
                with open(pid, encoding="ascii") as file:
                    number = file.read().strip()
                try:
                    os.kill(int(number), signal.SIGKILL)
                except (ProcessLookupError, ValueError):
                    pass
        if keeper.poll() is not None:
            raise Wrong(f"standby ended with {keeper.returncode}")
        keeper.terminate()
        keeper.wait()
    once = subprocess.run([*words[:2], "--once", *words[2:], program, "follow", TOPOLOGY, own],
                          stdout=subprocess.PIPE, stderr=subprocess.PIPE, timeout=CATCHES_UP)
    if once.returncode:
        raise Wrong(f"standby --once ends with {once.returncode}: {once.stderr.decode()}")
    entries = compare(leader, own, writer.told)
    with open(os.path.join(place, "told"), encoding="ascii") as told:
        again = sum("again in" in line for line in told)
    if count > 3 and not again:
        raise Wrong("no follower was begun again")
    print(f"breaks: {count} times the leader and its follower killed, which was begun again "
          f"{again} times; both journals have the same {entries} entries")


def faults(program, place):
    """The K-th sync of a leader fails."""
    kinds = {}
    for number in range(3, FAULTS + 1):
        leader, own = (os.path.join(place, f"{name}{number}") for name in ("leader", "own"))
        Leader(program, leader).make()
        follower = Follower(program, leader, own)
        inject = ["strace", "-f", "-qq", "-o", os.path.join(place, "trace"), "-e",
                  f"inject=fdatasync:error=EIO:when={number}"]
        writer = Leader(program, leader, inject)
        writer.begin()
        for _ in range(8):
            writer.order()
            follower.wait_for(len(entries_of(leader)))
        writer.end()
        last = time.monotonic() + CATCHES_UP
        while (entries_of(leader) != entries_of(own) and follower.tail.poll() is None
               and time.monotonic() < last):
            time.sleep(0.01)
        status, error = follower.end()
        if status == 13:
            kind = "tail told that an entry was taken back"
            if not writer.disk:
                raise Wrong(f"sync {number}: nothing was taken back, and {error}")
        else:
            kind = "the follower has the leader's entries"
            if status != -signal.SIGTERM:
                raise Wrong(f"sync {number}: tail ends with {status}: {error}")
            compare(leader, own, writer.told)
        kinds[kind] = kinds.get(kind, 0) + 1
    print("syncs: " + "; ".join(f"{count} times {kind}" for kind, count in sorted(kinds.items())))


def speed(program, place):
    """Orders a second, by turns."""
    ways = {"without a tail": None, "with one": (), "with one that syncs": ("--synced",)}
    speeds = {way: [] for way in ways}
    for turn in range(TURNS):
        for way, words in ways.items():
            leader, own = (os.path.join(place, f"{name} {way} {turn}")
                           for name in ("leader", "own"))
            writer = Leader(program, leader)
            writer.make()
            follower = Follower(program, leader, own, *words) if words is not None else None
            writer.live(TURN)
            if follower:
                follower.end()
            speeds[way].append(len(writer.told) / TURN)
    plain = statistics.median(speeds["without a tail"])
    for way, values in speeds.items():
        middle = statistics.median(values)
        print(f"speed: {middle:.0f} orders a second {way}, {min(values):.0f} to {max(values):.0f}, "
              f"ratio {middle / plain:.2f}")


def main():
    folder, program, count, seed = sys.argv[1:] + [".", os.path.join(TOP, "hosed"), "50", "1"][
        len(sys.argv) - 1:]
    program, draw = os.path.abspath(program), random.Random(seed)
    print(f"live_tail: {busy():.1f} of {os.cpu_count()} processors had work by others")
    with tempfile.TemporaryDirectory(dir=folder) as work:
        def tried(trial, *words):
            place = tempfile.mkdtemp(dir=work)
            trial(program, place, *words)
            shutil.rmtree(place)

        tried(lives, int(count), draw)
        tried(breaks, max(int(count) // 5, 1), draw)
        if shutil.which("strace"):
            tried(faults)
        else:
            print("syncs: not tried, there is no strace")
        tried(speed)


if __name__ == "__main__":
    tell_usage(__doc__)
    try:
        main()
    except Wrong as wrong:
        sys.exit(f"live_tail: {wrong}")
