#!/usr/bin/env python3
"""Prints the longest way through the proofs of the gate: which crates have to be proved one after
another up to one of them, how long each takes, and which crate below it is ready last. It reads a
table as bench/measure/gate.sh prints it, of processor seconds, and crates.txt.

Below the way stand what the gate takes at least by the clock: the way itself, at one processor for
a crate, and all of its work shared among the processors; and what it takes where each task begins
as soon as a processor is free, those first behind which most of the way lies. `rt ci` gives a crate
several processors where no other one waits, so that it may take less than the way.

usage: bench/measure/way.py TABLE [CRATE [PROCESSORS]]     (hosed_main and 4 where none is given)
"""

import heapq
import os
import pathlib
import re
import sys

sys.path.insert(0, os.path.join(os.path.dirname(os.path.abspath(__file__)), "..", "parts"))
from usage import tell_usage

KINDS = ("proof", "tests", "edits")


def below_of(text):
    """The crates that each crate of crates.txt names, of those that it lists."""
    lines = [it.split("#")[0].split(":") for it in text.split("\n")]
    named = {it[0].split()[0]: it[1].split() for it in lines if len(it) == 2}
    return {crate: [it for it in uses if it in named] for crate, uses in named.items()}


def costs_of(text):
    """The processor seconds of each crate, by kind, of a table of the gate."""
    rows = re.findall(r"(?m)^(\w+) +(\d+) +(\d+) +(\d+)$", text)
    return {name: dict(zip(KINDS, map(int, of))) for name, *of in rows if name != "all"}


def ready(below, costs, crate, known):
    """When a crate is proved at the earliest, where each has a processor."""
    if crate not in known:
        last = max((ready(below, costs, it, known) for it in below[crate]), default=0)
        known[crate] = last + costs.get(crate, {}).get("proof", 0)
    return known[crate]


def way_to(below, costs, crate):
    """The longest way to a crate, the lowest first: each with when it is proved."""
    known, way = {}, [crate]
    ready(below, costs, crate, known)
    while below[way[-1]]:
        way.append(max(below[way[-1]], key=known.get))
    return [(it, known[it]) for it in reversed(way)]


def clock(below, costs, processors):
    """By the clock, where each task begins as soon as a processor is free."""
    tasks = {(crate, kind): of[kind] for crate, of in costs.items() for kind in KINDS if of[kind]}
    waits = {it: [(low, "proof") for low in below.get(it[0], [])] for it in tasks}
    waits = {it: [low for low in lows if low in tasks] for it, lows in waits.items()}
    behind = dict.fromkeys(tasks, 0)
    for crate in reversed(list(below)):
        for it in [(crate, kind) for kind in KINDS if (crate, kind) in tasks]:
            behind[it] += tasks[it]
            for low in waits[it]:
                behind[low] = max(behind[low], behind[it])
    left, running, done, now = sorted(tasks, key=lambda it: -behind[it]), [], set(), 0
    while left or running:
        free = [it for it in left if done.issuperset(waits[it])]
        for it in free[: processors - len(running)]:
            left.remove(it)
            heapq.heappush(running, (now + tasks[it], it))
        now, ended = heapq.heappop(running)
        done.add(ended)
    return now


def told(below, costs, crate, processors):
    """The lines that are printed."""
    way = way_to(below, costs, crate)
    yield f"{'crate':<20} {'minutes':>8} {'so far':>8}  waits for"
    for place, (name, until) in enumerate(way):
        before, since = way[place - 1] if place else ("nothing", 0)
        yield f"{name:<20} {(until - since) / 60:>8.1f} {until / 60:>8.1f}  {before}"
    longest = max(below, key=lambda it: way_to(below, costs, it)[-1][1])
    until = way_to(below, costs, longest)[-1][1]
    whole = sum(sum(it.values()) for it in costs.values())
    yield f"the longest way to {crate}: {way[-1][1] / 60:.1f} minutes at one processor for a crate"
    yield f"the longest of all is to {longest}: {until / 60:.1f}"
    least = whole / processors / 60
    yield f"all: {whole / 60:.1f}, on {processors} processors {least:.1f} at least"
    yield f"each task as soon as one is free: {clock(below, costs, processors) / 60:.1f}"


def main(words):
    if not 1 <= len(words) <= 3:
        sys.exit(__doc__.split("usage: ")[1].strip())
    table, crate, processors = [*words, *["hosed_main", "4"][len(words) - 1 :]]
    listed = pathlib.Path(__file__).resolve().parents[2] / "crates.txt"
    below, costs = below_of(listed.read_text("utf-8")), costs_of(pathlib.Path(table).read_text())
    if crate not in below or not costs:
        sys.exit("way: there is no such crate, or the table has no line")
    print(*told(below, costs, crate, int(processors)), sep="\n")


if __name__ == "__main__":
    tell_usage(__doc__)
    main(sys.argv[1:])
