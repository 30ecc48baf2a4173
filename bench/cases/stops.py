#!/usr/bin/env python3
"""Writes crates/cases_program/data/stops.cases: what is found after a stop at each call of a disk.

Four orders are made in a new journal, one in a journal that has none, and one in a journal of
version 1 that has one and is sealed first, and each call of the disk fails once before the stop.
After so many calls, and with five ways in which bytes that no sync made durable may be left, an
audit of the journal must tell the entries that were acknowledged, or these and the one that is in
doubt: that whose gate was written and is neither synced nor closed again.
The texts come of the plain model of star_model.py.

usage: bench/cases/stops.py | diff - crates/cases_program/data/stops.cases
"""

import os
import sys

sys.path.insert(0, os.path.join(os.path.dirname(os.path.abspath(__file__)), "..", "parts"))
from usage import tell_usage

from star_model import EMPTY, PLAIN, Disk, Failed, Journal, Server, audit, hose_of, journal_of
from star_model import print_cases, stops_of

FOUR = ("acme admit a:3 b:4 c:5", "acme quote a:1 b:1", "acme take 1", "acme release 1")
SIX = (
    "acme admit a:1 b:1", "beta admit b:2 c:2", "acme release 1", "acme quote a:6 b:6",
    "acme take 1", "beta release 2",
)
ONE = (("admit", "acme", hose_of(FOUR[0].split()[2:])),)
# The sync of an open gate fails, and then a call that closes it again.
TWICE = (("sync", 3), ("write", 3)), (("sync", 3), ("sync", 4))
# What a journal that a case begins with is written by: a write and a sync.
WRITTEN = 2


def stopped(held, entries, failing, lines):
    """Lines and replies, status and disk, and from which calls on which books may be found."""
    disk = Disk(held, failing)
    told, status = [], 0
    try:
        journal = Journal(disk, entries)
    except Failed:
        return [f"< {line}" for line in lines] + ["> cabinet"], 6, disk, [(0, (entries,))]
    server = Server(journal)
    for line in lines:
        told += [f"< {line}", f"> {server.reply(line)}"]
    try:
        journal.close()
    except Failed:
        told, status = told + ["> cabinet"], 6
    return told, status, disk, journal.since


def name(name, failing):
    calls = " and then ".join(f"call {number} of the kind {kind}" for kind, number in failing)
    told = f"{calls} {'fails' if len(failing) == 1 else 'fail'}" if failing else "no call fails"
    return f"{name}, stopped after each call of the disk: {told}"


def case(base, held, entries, failing, lines):
    told, status, disk, since = stopped(held, entries, failing, lines)
    books, stops = stops_of(since, WRITTEN if held else 0, len(disk.calls))
    begun = [f"case {name(base, failing)}"] + ([f"journal {held.hex()}"] if held else [])
    begun += [f"disk-fails {kind} {number}" for kind, number in failing] + told
    audits = [f"{number}| {line}" for number, book in enumerate(books, 1) for line in audit(book)]
    return begun + audits + stops + [f"status {status}", f"left {disk.held.hex()}"]


def cases():
    for base, held, entries, lines in (
        ("four orders", b"", (), FOUR),
        ("an order", EMPTY, (), FOUR[:1]),
        ("an order after one of version 1", journal_of(ONE, PLAIN), ONE, FOUR[:1]),
    ):
        yield case(base, held, entries, (), lines)
        for call in stopped(held, entries, (), lines)[2].calls:
            yield case(base, held, entries, (call,), lines)
    for failing in TWICE:
        yield case("an order", EMPTY, (), failing, FOUR[:1])
    yield case("six orders", b"", (), (), SIX)


def main():
    heads = ["# Written by bench/cases/stops.py: "
             "stops after each call of the disk, of four orders,",
             "# of one in a journal that was begun before, of one in a journal of version 1, which is",
             "# sealed first, whose calls fail in turn, and of six.", "words run j"]
    print_cases(heads, "<", cases())


if __name__ == "__main__":
    tell_usage(__doc__)
    main()
