#!/usr/bin/env bash
# Orders that are acknowledged in a second by a run with a new journal in FOLDER, admissions and
# releases, beside a loop of the same writes and syncs on a file there; and how long a run without a
# command takes to open a journal there of 20,000 live VPNs of 3 and of 64 endpoints, beside
# sha256sum of its file, and a run without a journal, and how long an audit of it takes, beside
# sha256sum of its text: the least of some runs. An audit of 64 endpoints is to take less than a
# second. A sync may take many times as long at one moment as at another, so the orders and the loop
# go by short turns, and their figures are those of all turns.
# usage: bench/measure/orders.sh [FOLDER [PROGRAM]]
# FOLDER: on a real disk; else the current one
[ "${1-}" != --help ] || exec sed -n '2,/^[^#]/s/^# \{0,1\}//p' "$0"
set -e
. "$(dirname "$0")/../parts/place.sh"

python3 - "$program" "$place" <<'END'
import hashlib
import os
import statistics
import subprocess
import sys
import time

sys.path.insert(0, "bench/parts")
from disk_loop import CLOSED, HEAD, OPEN, Loop, star  # noqa: E402

PROGRAM, PLACE = sys.argv[1:]
TURNS, IN_A_TURN = 40, 100  # orders, of which every second one is a release
VPNS, RUNS = 20_000, 5
JOURNAL, LOOP = f"{PLACE}/journal", f"{PLACE}/loop"
TOPOLOGY, AUDIT = f"{PLACE}/topology", f"{PLACE}/audit"
DIGEST, VALUE = slice(6, 38), 32  # the digest in it, and the bytes of a chain value

# ---- Records, as the journal's format has them.


def pair(first, second):
    return first.to_bytes(2, "big") + second.to_bytes(4, "big")


def record(spelling, value=bytes(VALUE)):
    """What an append writes first: a record with a chain value, and a closed gate after it."""
    return len(spelling).to_bytes(4, "big") + value + spelling + CLOSED


def admission(ends, links):
    """That of acme, with a rate of 1 at each of the first nodes, and these amounts."""
    ends = bytes([ends]) + b"".join(pair(node, 1) for node in range(ends))
    amounts = b"".join(pair(link, amount) for link, amount in links)
    return b"\1\4acme" + ends + len(links).to_bytes(2, "big") + amounts


def release(id):
    return b"\2\4acme" + id.to_bytes(4, "big")


# ---- Orders.

LINE = "node a\nnode b\nlink a b 1000000000 1\nend\n"


def run(journal, text):
    words = [PROGRAM, "run", journal]
    return subprocess.run(words, input=text, capture_output=True, text=True, check=True).stdout


class Served:
    """A run with a new journal, which has acknowledged one order."""

    def __init__(self, first):
        pipes = {"stdin": subprocess.PIPE, "stdout": subprocess.PIPE, "text": True}
        self.process = subprocess.Popen([PROGRAM, "run", JOURNAL], **pipes)
        self.replies = []
        self.turn(LINE + first, 1)

    def turn(self, text, count):
        """Sends a text, and reads so many replies; the seconds of that."""
        start = time.perf_counter()
        self.process.stdin.write(text)
        self.process.stdin.flush()
        self.replies += [self.process.stdout.readline() for _ in range(count)]
        return time.perf_counter() - start

    def end(self):
        self.process.stdin.close()
        assert self.process.wait() == 0


def measure_orders():
    """The seconds of each turn of the program, and of each of the loop."""
    admit, admitted = "acme admit a:1 b:1\n", record(admission(2, [(0, 1)]))
    served, loop, program, plain = Served(admit), Loop(LOOP, admitted), [], []
    for begin in range(1, TURNS * IN_A_TURN, IN_A_TURN):
        ids = range(begin, begin + IN_A_TURN, 2)
        text = "".join(f"acme release {id}\n{admit}" for id in ids)
        program.append(served.turn(text, IN_A_TURN))
        records = [written for id in ids for written in (record(release(id)), admitted)]
        plain.append(loop.turn(records))
    served.end()
    last = TURNS * IN_A_TURN + 1
    assert served.replies[-1] == f"admitted {last} cost 1 at {last} links 0:1\n", served.replies
    assert os.path.getsize(JOURNAL) == os.path.getsize(LOOP)
    os.remove(JOURNAL)
    return program, plain


def tell_orders(program, plain):
    orders, taken, least = TURNS * IN_A_TURN, sum(program), sum(plain)
    speeds = [IN_A_TURN / seconds for seconds in program]
    ratios = [one / other for one, other in zip(program, plain)]
    print(f"orders: {orders / taken:.0f} a second, {taken:.3f} s for {orders:,} acknowledged")
    print(f"turns of {IN_A_TURN}: {range_text(speeds, 0)} a second, ratios {range_text(ratios, 2)}")
    print(f"reference: {least:.3f} s for the same writes and syncs, ratio {taken / least:.2f}")


def range_text(figures, digits):
    least, middle, most = min(figures), statistics.median(figures), max(figures)
    return f"{least:.{digits}f} to {most:.{digits}f}, median {middle:.{digits}f}"


# ---- Openings.


def make_journal(ends):
    """A journal of live VPNs: the head by the program, the records here. Gives its bytes."""
    run(JOURNAL, star(ends))
    with open(JOURNAL, "rb") as file:
        head = file.read()
    assert len(head) == HEAD, len(head)
    spelling = admission(ends, [(link, 1) for link in range(ends)])
    value, records = head[DIGEST], []
    for _ in range(VPNS):
        value = hashlib.sha256(value + spelling).digest()
        records.append(OPEN + record(spelling, value)[:-1])
    with open(JOURNAL, "wb") as file:
        size = file.write(head[:-1] + b"".join(records) + CLOSED)
        file.flush()
        os.fsync(file.fileno())
    reply = run(JOURNAL, star(ends) + "x link 0\n")
    assert reply.endswith(f" load {VPNS} at {VPNS}\n"), reply
    return size


def least_seconds(words, text):
    seconds = []
    for _ in range(RUNS):
        start = time.perf_counter()
        subprocess.run(words, input=text, capture_output=True, text=True, check=True)
        seconds.append(time.perf_counter() - start)
    return min(seconds)


# ---- Audits.


def tell_audit(ends):
    """How long the audit of the journal takes, whose last line tells all VPNs and what they cost."""
    with open(TOPOLOGY, "w") as file:
        file.write(star(ends))
    words = [PROGRAM, "audit", TOPOLOGY, JOURNAL]
    audited = least_seconds(words, "")
    text = subprocess.run(words, capture_output=True, check=True).stdout
    assert text.endswith(f"live {VPNS} cost {VPNS * ends}\n".encode()), text[-80:]
    with open(AUDIT, "wb") as file:
        file.write(text)
    digest = least_seconds(["sha256sum", AUDIT], "")
    print(f"audit: {audited:.4f} s for {VPNS:,} VPNs of {ends} endpoints, {len(text)} bytes")
    print(f"reference: {digest:.4f} s for sha256sum, ratio {audited / digest:.2f}")


def main():
    tell_orders(*measure_orders())
    for ends in (3, 64):
        size = make_journal(ends)
        opened = least_seconds([PROGRAM, "run", JOURNAL], star(ends))
        digest = least_seconds(["sha256sum", JOURNAL], "")
        without = least_seconds([PROGRAM, "run"], star(ends))
        print(f"opening: {opened:.4f} s for {VPNS:,} VPNs of {ends} endpoints, {size} bytes")
        print(f"reference: {digest:.4f} s for sha256sum, ratio {opened / digest:.2f}; "
              f"{without:.4f} s without a journal")
        tell_audit(ends)
        os.remove(JOURNAL)


main()
END
