#!/usr/bin/env python3
"""Writes crates/cases_program/data/cut.cases: what becomes of a journal whose end is cut off.

The journals are spelled by move_cases.py; the lines that come of each case are written out by hand.

usage: bench/cases/cut_cases.py | diff - crates/cases_program/data/cut.cases
"""
import os
import sys

sys.path.insert(0, os.path.join(os.path.dirname(os.path.abspath(__file__)), "..", "parts"))
from usage import tell_usage

import move_cases
from move_cases import ACME, ALL, DOWN, GONE, LOW, STAR, UP, digest, journal

# How many VPNs are live after so many entries.
LIVE = (0, 1, 0, 1, 1)


def case(name, count, lines, status=0, **more):
    """A case that cuts so many entries off. The old journal is left as it was."""
    words = more.pop("words", f"cut t j {count} k")
    return move_cases.case(name, lines, status, new=STAR, words=words, **more)


def moved(count):
    return [f"moved {count} live {LIVE[count]}"]


def whole():
    for count in range(len(ALL) + 1):
        yield case(f"the first {count} of 4", count, moved(count), left=journal(STAR, ALL[:count]))
    yield case("none of a journal without an entry", 0, moved(0), old=journal(STAR, ()),
               left=journal(STAR, ()))
    yield case("none of a journal that was not begun, which is not begun", 0, moved(0), old=b"HOSE",
               left=journal(STAR, ()))
    yield case("a journal of version 1 is not sealed", 3, moved(3), old=journal(STAR, ALL, 1),
               left=journal(STAR, ALL[:3]))
    yield case("the network has the costs of the tariff", 1, moved(1),
               words="cut --tariff hops t j 1 k", old=journal(STAR, ALL, tariff="hops"),
               left=journal(STAR, ALL[:1], tariff="hops"))
    for had in range(4):
        yield case(f"gone on from {had} of 3 entries", 3, moved(3), had=journal(STAR, ALL[:had]),
                   left=journal(STAR, ALL[:3]))


def fewer():
    nothing = b""
    yield case("one more than there are", 5, ["less 4"], 15, left=nothing)
    yield case("as many as an epoch may be", 4000000000, ["less 4"], 15, left=nothing)
    yield case("one of a journal without an entry", 1, ["less 0"], 15, old=journal(STAR, ()),
               left=nothing)
    yield case("one of a journal that was not begun", 1, ["less 0"], 15, old=b"HOSE", left=nothing)
    had = journal(STAR, ALL)
    yield case("fewer, and the new journal has what there is", 5, ["less 4"], 15, had=had, left=had)


def journals_that_differ():
    had = journal(STAR, (ACME, DOWN))
    yield case("another entry of the epoch 2", 3, ["differs at 2"], 14, had=had, left=had)
    had = journal(STAR, ALL)
    yield case("more entries than are cut off", 2, ["differs at 3"], 14, had=had, left=had)
    had = journal(LOW, ALL)
    other = f"new journal other {digest(LOW).hex()} {digest(STAR).hex()}"
    yield case("a new journal of another network", 2, [other], 5, had=had, left=had)
    had = journal(STAR, ALL)[:60]
    yield case("a new journal that is damaged", 2, ["new journal damaged at 38"], 5, had=had,
               left=had)


def faults_of_the_old():
    nothing = b""
    yield case("an old journal that is not there", 0, ["cabinet"], 6, old=b"", left=nothing)
    yield case("a topology that is not there", 0, ["cabinet"], 6, words="cut x j 0 k", left=nothing)
    other = f"journal other {digest(LOW).hex()} {digest(STAR).hex()}"
    yield case("an old journal of another network", 1, [other], 5, old=journal(LOW, ALL),
               left=nothing)
    # The record of the third entry breaks off: the journal is read to its end, and judged so.
    cut_short = journal(STAR, ALL)[:len(journal(STAR, ALL[:2])) + 3]
    at = len(journal(STAR, ALL[:2])) - 1
    yield case("an old journal that is damaged behind what is cut off", 1,
               [f"journal damaged at {at}"], 5, old=cut_short, left=nothing)
    yield case("an old journal with an entry that is not sound", 1,
               [f"journal damaged at {len(journal(STAR, (ACME, GONE))) - 1}"], 5,
               old=journal(STAR, (ACME, GONE, UP)), left=nothing)
    yield case("an old journal whose disk fails", 1, ["cabinet"], 6, more=("disk-fails read 1",),
               left=nothing)
    yield case("an output that fails at the last line", 1, [], 4, more=("write-fails 1",),
               left=journal(STAR, ALL[:1]))


def wrong_words():
    for words, wrong in (("cut", 2), ("cut t", 3), ("cut t j", 4), ("cut t j 1", 5),
                         ("cut t j x k", 4), ("cut t j -1 k", 4), ("cut t j k 1", 4),
                         ("cut t j 4000000001 k", 4), ("cut t j 1 j", 5),
                         ("cut t j 1 --live", 5), ("cut t j 1 k x", 6), ("cut --live t j 1 k", 2),
                         ("cut --tariff nope t j 1 k", 3), ("cut --tariff hops t j 1 j", 7)):
        yield case(f"wrong words: {words}", 0, [f"words {wrong}"], 1, words=words, left=b"")


def main():
    cases = [*whole(), *fewer(), *journals_that_differ(), *faults_of_the_old(), *wrong_words()]
    print("# Written by bench/cases/cut_cases.py: the first entries of a journal in another one.")
    print("\n".join(f"= {line}" for line in STAR))
    for lines in cases:
        print()
        print("\n".join(lines))


if __name__ == "__main__":
    tell_usage(__doc__)
    main()
