#!/usr/bin/env python3
"""Writes crates/cases_program/data/disk_faults_*.cases: runs over a journal whose disk fails.

Each call that the disk of a journal is asked for fails once: in a run of two orders, in an audit,
and in a server with one customer. In the run each two of them fail as well. What must come of each
is told by the plain model of star_model.py.

usage: bench/cases/disk_faults.py run | diff - crates/cases_program/data/disk_faults_run.cases
       and so with `audit` and `serve`
"""

import os
import sys

sys.path.insert(0, os.path.join(os.path.dirname(os.path.abspath(__file__)), "..", "parts"))
from usage import tell_usage

from star_model import EMPTY, PLAIN, STAR, Disk, Failed, Journal, Server, audit, hose_of, journal_of

ORDERS = ("admit a:3 b:4 c:5", "admit a:1 b:1")
# What a customer says, with a question after each order.
LINES = (ORDERS[0], "link 0", ORDERS[1], "link 0")
ONE = (("admit", "acme", hose_of(ORDERS[0].split()[1:])),)


def conversation(server):
    for line in LINES:
        yield line, server.reply(f"acme {line}")


def closed(journal):
    try:
        journal.close()
    except Failed:
        return ["> cabinet", "status 6"]
    return ["status 0"]


def run(disk, entries):
    try:
        journal = Journal(disk, entries)
    except Failed:
        return [f"< acme {order}" for order in ORDERS] + ["> cabinet", "status 6"]
    lines = []
    for line, reply in conversation(Server(journal)):
        lines += [f"< acme {line}", f"> {reply}"]
    return lines + closed(journal)


def audited(disk, entries):
    try:
        journal = Journal(disk, entries)
    except Failed:
        return ["> cabinet", "status 6"]
    end = closed(journal)
    return [f"> {line}" for line in audit(entries)] + end


def serve(disk, entries):
    try:
        journal = Journal(disk, entries)
    except Failed:
        return ["1< hello acme", "> cabinet", "status 6"]
    lines = ["> ready", "1< hello acme", f"1> welcome at {len(entries)}"]
    for line, reply in conversation(Server(journal)):
        lines += [f"1< {line}", f"1> {reply}"]
    lines += ["1< bye", "1> bye"]
    end = closed(journal)
    return lines + [f"> {line}" for line in audit(journal.entries)] + end


WAYS = {
    "run": (run, "words run j", "<"),
    "audit": (audited, "words audit t j", "="),
    "serve": (serve, "words serve t j 7000 1 1", "="),
}
BASES = {b"": "a new journal", EMPTY: "a journal without an entry",
         journal_of(ONE): "a journal of one order",
         journal_of(ONE, PLAIN): "a journal of version 1 of one order"}


def case(way, held, entries, failing):
    """The lines of a case, and the calls that its disk was asked for."""
    disk = Disk(held, failing)
    lines = WAYS[way][0](disk, entries)
    calls = " and then ".join(f"call {number} of the kind {kind}" for kind, number in failing)
    told = f"{calls} {'fails' if len(failing) == 1 else 'fail'}" if failing else "no call fails"
    begun = [f"case {BASES[held]}: {told}"] + ([f"journal {held.hex()}"] if held else [])
    begun += [f"disk-fails {kind} {number}" for kind, number in failing]
    return begun + lines + [f"left {disk.held.hex()}"], disk.calls


def cases(way, held, entries):
    lines, calls = case(way, held, entries, ())
    yield lines
    for one in calls:
        lines, after = case(way, held, entries, (one,))
        yield lines
        if way == "run":
            # The second failure is one of the calls that are made after the first.
            later = after[after.index(one) + 1:]
            yield from (case(way, held, entries, (one, two))[0] for two in later)


def main():
    way = sys.argv[1]
    _, words, mark = WAYS[way]
    print(f"# Written by bench/cases/disk_faults.py {way}: "
          "a call of the journal's disk fails, and in a")
    print("# run two do, on an empty disk, on a journal without an entry, on one of one order, and")
    print("# on one of one order in version 1, which is sealed first.")
    print(words)
    for line in STAR:
        print(f"{mark} {line}")
    for held in BASES:
        entries = ONE if len(held) > len(EMPTY) else ()
        for lines in cases(way, held, entries):
            print()
            print("\n".join(lines))


if __name__ == "__main__":
    tell_usage(__doc__)
    main()
