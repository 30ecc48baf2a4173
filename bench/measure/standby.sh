#!/usr/bin/env bash
# How fast a journal of 100,000 entries is shipped and followed. The journal is written here after
# docs/GUIDE.md: admissions of 3 endpoints up to 1,000 live VPNs, and then the release of the
# oldest one and an admission by turns; and the same of 64 endpoints. `ship` of each is measured
# beside `cat` and `sha256sum` of its file, by turns, the least of some runs of each: all read the
# file from the device and write to /dev/null, and what they take for a journal without an entry is
# taken off. `follow` of the entries of 3 endpoints into a new journal in FOLDER is measured beside
# a loop of the same writes and syncs on a file there. A sync may take many times as long at one
# moment as at another, so both go by short turns, and their figures are those of all turns; the
# first packet is answered before the first turn, so the start is not part of a figure. Each ratio
# is the speed over that of the reference: 0.3 of `cat` is wanted, and 0.9 of the loop. Ends with
# status 1 where a packet or an answer is not as wanted, or the follower's journal is not the
# leader's, byte by byte.
# usage: bench/measure/standby.sh [FOLDER [PROGRAM]]
# FOLDER: on a real disk; else the current one
[ "${1-}" != --help ] || exec sed -n '2,/^[^#]/s/^# \{0,1\}//p' "$0"
set -e
. "$(dirname "$0")/../parts/place.sh"

python3 - "$program" "$place" <<'END'
import hashlib
import os
import resource
import statistics
import subprocess
import sys
import time

sys.path.insert(0, "bench/parts")
from disk_loop import CLOSED, OPEN, Loop, star  # noqa: E402

PROGRAM, PLACE = sys.argv[1:]
ENTRIES, LIVE, ENDS = 100_000, 1_000, (3, 64)
RUNS, IN_A_TURN = 15, 250
TOPOLOGY, JOURNAL, EMPTY, FOLLOWER, LOOP = (
    os.path.join(PLACE, name) for name in ("topology", "journal", "empty", "follower", "loop"))

# ---- A journal and its packets, as docs/GUIDE.md has them.


def bodies(ends):
    """Those of acme's orders, each admission with a rate of 1 at each end."""
    ones = b"".join(number.to_bytes(2, "big") + b"\0\0\0\1" for number in range(ends))
    admission = b"\1\4acme" + bytes([ends]) + ones + ends.to_bytes(2, "big") + ones
    oldest, live = 1, 0
    for epoch in range(1, ENTRIES + 1):
        if live < LIVE:
            live += 1
            yield admission
            continue
        while is_release(oldest):
            oldest += 1
        yield b"\2\4acme" + oldest.to_bytes(4, "big")
        oldest, live = oldest + 1, live - 1


def is_release(epoch):
    return epoch > LIVE and (epoch - LIVE) % 2 == 1


def write_journal(ends):
    """Writes the journal and its topology; gives what an append writes first of each entry, and the
    packets."""
    value = hashlib.sha256(star(ends).encode()).digest()
    head, records, packets = b"\1HOSE\2" + value, [], []
    for epoch, body in enumerate(bodies(ends), 1):
        packets.append(len(body).to_bytes(2, "big") + epoch.to_bytes(4, "big") + value + body)
        value = hashlib.sha256(value + body).digest()
        records.append(len(body).to_bytes(4, "big") + value + body + CLOSED)
    whole = head + b"".join(OPEN + record[:-1] for record in records) + CLOSED
    for path, held in (TOPOLOGY, star(ends).encode()), (JOURNAL, whole), (EMPTY, head + CLOSED):
        with open(path, "wb") as file:
            file.write(held)
            file.flush()
            os.fsync(file.fileno())
    return records, packets


# ---- Shipping.


def seconds(words, journal):
    """The seconds that a command takes which reads a journal, of which no page is in memory, and
    those of a processor."""
    with open(journal, "rb") as file:
        os.posix_fadvise(file.fileno(), 0, 0, os.POSIX_FADV_DONTNEED)
    start, used = time.perf_counter(), resource.getrusage(resource.RUSAGE_CHILDREN)
    subprocess.run(words, check=True, stdout=subprocess.DEVNULL)
    end, then = time.perf_counter(), resource.getrusage(resource.RUSAGE_CHILDREN)
    return end - start, then.ru_utime + then.ru_stime - used.ru_utime - used.ru_stime


def least_of(turns):
    """The least of both seconds of each command, without those for a journal that has no entry."""
    least = [[min(column) for column in zip(*runs)] for runs in zip(*turns)]
    return [[whole - none for whole, none in zip(*pair)] for pair in zip(least[::2], least[1::2])]


def tell_ship(ends):
    _, packets = write_journal(ends)
    words = {journal: [PROGRAM, "ship", TOPOLOGY, journal, "1"] for journal in (JOURNAL, EMPTY)}
    told = subprocess.run(words[JOURNAL], check=True, stdout=subprocess.PIPE).stdout
    assert told == b"".join(packets), f"{len(told)} bytes are shipped, and not as wanted"
    runs = [(journal, words[journal] if command == "ship" else [command, journal])
            for command in ("ship", "cat", "sha256sum") for journal in (JOURNAL, EMPTY)]
    turns = [[seconds(words, journal) for journal, words in runs] for _ in range(RUNS)]
    shipped, read, digested = least_of(turns)
    size, told = os.path.getsize(JOURNAL), "{:.4f} s, {:.4f} of a processor"
    print(f"ship: {ENTRIES:,} entries of {ends} endpoints in {told.format(*shipped)}, {size} bytes")
    print(f"reference: cat of the journal in {told.format(*read)}, "
          f"ratio {read[0] / shipped[0]:.2f}; sha256sum of it in {told.format(*digested)}")


# ---- Following.


class Follower:
    """A run of `follow` with a new journal, which has answered one packet."""

    def __init__(self, first):
        words, pipes = [PROGRAM, "follow", TOPOLOGY, FOLLOWER], {"stdin": subprocess.PIPE}
        self.process = subprocess.Popen(words, stdout=subprocess.PIPE, **pipes)
        self.epoch = 0
        self.turn([first])

    def turn(self, packets):
        """Sends packets, and reads their answers; the seconds of that."""
        start = time.perf_counter()
        self.process.stdin.write(b"".join(packets))
        self.process.stdin.flush()
        answers = [self.process.stdout.readline() for _ in packets]
        taken = time.perf_counter() - start
        for told in answers:
            self.epoch += 1
            assert told == b"have %d\n" % self.epoch, told
        return taken

    def end(self):
        self.process.stdin.close()
        assert self.process.wait() == 0
        with open(JOURNAL, "rb") as leader, open(FOLLOWER, "rb") as follower:
            assert leader.read() == follower.read(), "the journals differ"


def tell_follow(ends):
    records, packets = write_journal(ends)
    follower, loop, program, plain = Follower(packets[0]), Loop(LOOP, records[0]), [], []
    for begin in range(1, ENTRIES, IN_A_TURN):
        turn = slice(begin, begin + IN_A_TURN)
        program.append(follower.turn(packets[turn]))
        plain.append(loop.turn(records[turn]))
    follower.end()
    taken, least = sum(program), sum(plain)
    speeds = [IN_A_TURN / seconds for seconds in program[:-1]]
    ratios = [other / one for one, other in zip(program, plain)]
    count = ENTRIES - 1
    print(f"follow: {count / taken:.0f} entries a second, {taken:.3f} s for {count:,} answered")
    print(f"turns of {IN_A_TURN:,}: {range_text(speeds, 0)} a second, "
          f"ratios {range_text(ratios, 2)}")
    print(f"reference: {least:.3f} s for the same writes and syncs, ratio {least / taken:.2f}")


def range_text(figures, digits):
    least, middle, most = min(figures), statistics.median(figures), max(figures)
    return f"{least:.{digits}f} to {most:.{digits}f}, median {middle:.{digits}f}"


for ends in ENDS:
    tell_ship(ends)
tell_follow(ENDS[0])
END
