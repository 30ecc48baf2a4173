#!/usr/bin/env bash
# How long `hosed move` of a journal of 100,000 entries takes, beside a loop of the same writes and
# syncs on a file in FOLDER. A sync may take many times as long at one moment as at another, so both
# go by turns: the program is stopped for as long as the loop comes as far as it has come. The
# journal is written here after docs/GUIDE.md: admissions of 3 endpoints up to 1,000 live VPNs, and
# then the release of the oldest one and an admission by turns. The new network has half of the
# capacity. A ratio of at most 1.3 is wanted. Then the same with --live, whose journal has the VPNs
# that are live.
# Ends with status 1 where a journal or a line is not as wanted.
# usage: bench/measure/moves.sh [FOLDER [PROGRAM [ENTRIES]]]
# FOLDER: on a real disk; else the current one
[ "${1-}" != --help ] || exec sed -n '2,/^[^#]/s/^# \{0,1\}//p' "$0"
set -e
. "$(dirname "$0")/../parts/place.sh"

python3 - "$program" "$place" "${3:-100000}" <<'END'
import hashlib
import os
import select
import signal
import subprocess
import sys
import time

sys.path.insert(0, "bench/parts")
from disk_loop import CLOSED, OPEN, Loop, star  # noqa: E402

PROGRAM, PLACE, ENTRIES = sys.argv[1], sys.argv[2], int(sys.argv[3])
LIVE, ENDS, TURN = 1_000, 3, 0.25  # seconds of the program in a turn
OLD, NEW, JOURNAL, MOVED, LOOP = (
    os.path.join(PLACE, name) for name in ("old", "new", "journal", "moved", "loop"))
TOPOLOGY = star(ENDS)
SMALLER = TOPOLOGY.replace(" 1000000000 ", " 500000000 ")
ONES = b"".join(number.to_bytes(2, "big") + b"\0\0\0\1" for number in range(ENDS))
ADMISSION = b"\1\4acme" + bytes([ENDS]) + ONES + ENDS.to_bytes(2, "big") + ONES


def bodies():
    """Those of acme's orders, and how many VPNs are live in the end."""
    live = []
    for epoch in range(1, ENTRIES + 1):
        if len(live) < LIVE:
            live.append(epoch)
            yield ADMISSION
        else:
            yield b"\2\4acme" + live.pop(0).to_bytes(4, "big")


def records_of(topology, entries):
    """The head of a journal, and what an append writes first of each entry."""
    value = hashlib.sha256(topology.encode()).digest()
    head, records = b"\1HOSE\2" + value, []
    for body in entries:
        value = hashlib.sha256(value + body).digest()
        records.append(len(body).to_bytes(4, "big") + value + body + CLOSED)
    return head, records


def journal_of(topology, entries):
    head, records = records_of(topology, entries)
    return head + b"".join(OPEN + record[:-1] for record in records) + CLOSED


class Moved:
    """A move that goes by turns, its seconds, and what it wrote."""

    def __init__(self, option):
        words = [PROGRAM, "move", *option, OLD, JOURNAL, NEW, MOVED]
        self.taken, self.output, self.start = 0, b"", time.perf_counter()
        self.process = subprocess.Popen(words, stdout=subprocess.PIPE)

    def turn(self):
        """Goes on for a turn, and is stopped then; False once it has ended."""
        pipe, pid, end = self.process.stdout.fileno(), self.process.pid, self.start + TURN
        while select.select([pipe], [], [], max(0, end - time.perf_counter()))[0]:
            piece = os.read(pipe, 65_536)
            self.output += piece
            if not piece:
                break
        os.kill(pid, signal.SIGSTOP)
        _, status = os.waitpid(pid, os.WUNTRACED)
        self.taken += time.perf_counter() - self.start
        if os.WIFSTOPPED(status):
            return True
        self.process.returncode = os.WEXITSTATUS(status) if os.WIFEXITED(status) else -1
        self.output += self.process.stdout.read()
        return False

    def go_on(self):
        self.start = time.perf_counter()
        self.process.send_signal(signal.SIGCONT)


def done(size):
    """Which part of the new journal is there."""
    return os.path.getsize(MOVED) / size if os.path.exists(MOVED) else 0


def tell(name, option, entries, live):
    _, records = records_of(SMALLER, entries)
    held, loop, least, place = journal_of(SMALLER, entries), Loop(LOOP, records[0]), 0, 1
    move = Moved(option)
    while move.turn():
        until = max(place, int(done(len(held)) * len(records)))
        least += loop.turn(records[place:until])
        place = until
        move.go_on()
    least += loop.turn(records[place:])
    last = f"moved {len(entries)} live {live}\n".encode()
    assert move.process.returncode == 0 and move.output.endswith(last), move.output[-80:]
    with open(MOVED, "rb") as file:
        assert file.read() == held, "the new journal"
    os.remove(MOVED)
    os.remove(LOOP)
    print(f"{name}: {move.taken:.3f} s for {len(entries):,} entries")
    print(f"reference: {least:.3f} s for the same writes and syncs, "
          f"ratio {move.taken / least:.2f}")


def main():
    for path, text in (OLD, TOPOLOGY), (NEW, SMALLER):
        with open(path, "w", encoding="ascii") as file:
            file.write(text)
    entries = list(bodies())
    held = journal_of(TOPOLOGY, entries)
    with open(JOURNAL, "wb") as file:
        file.write(held)
        file.flush()
        os.fsync(file.fileno())
    live = 2 * entries.count(ADMISSION) - len(entries)
    tell("move", [], entries, live)
    tell("move --live", ["--live"], [ADMISSION] * live, live)
    with open(JOURNAL, "rb") as file:
        assert file.read() == held, "the old journal"


main()
END
