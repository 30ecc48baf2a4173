#!/usr/bin/env python3
"""Moves random journals to random networks by `hosed move`, beside a model of it in Python.

A journal of up to 60 random orders is made by the slow planner of planner.py, in version 1
or 2, and now and then left as a stop leaves it, damaged, of another network, not begun, or not
there. The new network goes on from the old one with more nodes and links, other capacities and
costs, or lower capacities; or it does not: a node has another name, a link joins other nodes, or
there are fewer. The new journal is not there, or has a part of what it should, as it is or as a
stop leaves it, another entry, one too many, a damage, or another network. All of this with and
without --live, and by the tariffs.

The model follows docs/GUIDE.md: entries are spelled and judged by forged.py, and read by
tools/journals.py. Status and output of each move have to be the model's, the new journal the
model's entries byte by byte, and the old one as it was. Some moves are ended by the system where
the new journal would grow past a limit, or have a disk that fails there. In every twentieth each
call of a disk, one after the other, is the last before a kill (strace). What is left has to be the
first entries of the model's, and the same move has to go on from there. Prints how many moves of
each kind agreed; or the first that differs, with its number, and ends with status 1.

usage: bench/judge/moves.py [PROGRAM [MOVES [SEED]]]     MOVES (1,000)
The PROGRAM (./hosed) is seen from the top of the repository.
"""

import os
import random
import shutil
import signal
import subprocess
import sys
import tempfile
import time
from collections import Counter
from concurrent.futures import ProcessPoolExecutor
from functools import partial
from itertools import takewhile
from typing import NamedTuple, Optional

sys.path.insert(0, os.path.join(os.path.dirname(os.path.abspath(__file__)), "..", "parts"))
from usage import TOP, tell_usage

import journals
from forged import CHAINED, PLAIN, Book, entry_of, journal_of, spelled
from planner import FORCED, Link, Network, Server, random_network, topology_lines
from schedules import HANGS, WORKERS, Differs, History, at_most, begun, ordered, same, stopped

MOST_ORDERS, FEW_ORDERS = 60, 8
KILLED = 20  # of so many moves one is killed at each call of a disk
CALLS = "fsync", "fdatasync", "ftruncate", "pread64", "pwrite64"
TARIFFS = {"flat": lambda length: length, "hops": lambda length: 1,
           "long": lambda length: min(5 + 2 * length, 1_000_000)}
CHANGES = {"the same": 1, "grown": 6, "lowered": 5, "renamed": 1, "relinked": 1, "fewer nodes": 1,
           "fewer links": 1}
OLD = {"as it is": 16, "of version 1": 4, "as a stop leaves it": 3, "damaged": 1,
       "of another network": 1, "not begun": 1, "not there": 1}
NEW = {"not there": 10, "a part": 6, "as a stop leaves it": 4, "another entry": 3,
       "one too many": 2, "damaged": 2, "of another network": 1, "not begun": 1}
ENDS = {"by itself": 6, "past a limit": 2, "failing": 2}


# ---- Networks.


def priced(network, tariff):
    if tariff is None:
        return network
    links = [link._replace(cost=TARIFFS[tariff](link.length)) for link in network.links]
    return Network(network.nodes, links)


def random_link(draw, nodes):
    a, b = draw.sample(range(nodes), 2)
    return Link(a, b, draw.randint(1, 16), draw.randint(1, 4), draw.randint(1, 4))


def turned(draw, link):
    """The same link, perhaps from its other end, with another length and cost."""
    a, b = draw.choice(((link.a, link.b), (link.b, link.a)))
    return link._replace(a=a, b=b, length=draw.randint(1, 4), cost=draw.randint(1, 4))


def grown(draw, network):
    free = [name for name in ("n1", "n2", "n3", "x-4") if name not in network.nodes]
    nodes = network.nodes + free[:draw.randint(0, 3)]
    links = [turned(draw, link)._replace(capacity=link.capacity + draw.randint(0, 5))
             for link in network.links]
    more = [random_link(draw, len(nodes)) for _ in range(draw.randint(0, 4))]
    return Network(nodes, links + more)


def changed(draw, network, how):
    """Another network, which goes on from this one or not."""
    if how == "the same":
        return network
    new = grown(draw, network)
    nodes, links = list(new.nodes), list(new.links)
    node, link = draw.randrange(len(network.nodes)), draw.randrange(len(network.links))
    if how == "lowered":
        for number in draw.sample(range(len(links)), draw.randint(1, len(links))):
            links[number] = links[number]._replace(capacity=draw.randint(1, 9))
    elif how == "renamed":
        nodes[node] = draw.choice(("z9", nodes[node] + "-"))
    elif how == "relinked":
        links[link] = random_link(draw, len(nodes))
    elif how == "fewer nodes":
        nodes = network.nodes[:node + 1]
        links = [one for one in links if max(one.a, one.b) < len(nodes)]
    elif how == "fewer links":
        links = links[:link]
    return Network(nodes, links)


def first_change(old, new):
    """The line of what does not stay where it was, or none."""
    for number, name in enumerate(old.nodes):
        if new.nodes[number:number + 1] != [name]:
            return f"network node {number}"
    for number, link in enumerate(old.links):
        if number >= len(new.links) or {*new.links[number][:2]} != {link.a, link.b}:
            return f"network link {number}"
    return None


# ---- What is right.


class Fault(Exception):
    """A last line, and its status."""

    def __init__(self, line, status):
        super().__init__(line)
        self.line, self.status = line, status


def entries_in(network, held, new="", wanted=None):
    """The entries of a journal, which has a part of those that are wanted, where some are. Raises
    `Fault`, whose line is told after `new `."""
    digest = History(network).values[0]
    try:
        head = journals.head_of(held)
    except journals.NotBegun:
        return []
    except journals.Damaged as damaged:
        raise Fault(f"{new}journal damaged at {damaged.at}", 5) from None
    if head.digest != digest:
        raise Fault(f"{new}journal other {head.digest.hex()} {digest.hex()}", 5)
    place, book, found = journals.first_place(head), Book(network), []
    while True:
        try:
            read = journals.record_at(held, place.gate, place)
        except journals.Wrong:
            raise Fault(f"{new}journal damaged at {place.gate}", 5) from None
        if read is None:
            return found
        record, place = read
        if record.entry is None:
            continue
        entry = entry_of(record.body)
        if not book.enters(entry):
            raise Fault(f"{new}journal damaged at {record.gate}", 5)
        want = [] if wanted is None else wanted[len(found):][:1]
        if wanted is not None and [spelled(one) for one in want] != [record.body]:
            raise Fault(f"differs at {len(found) + 1}", 14)
        found.append(entry)


def book_of(network, entries):
    book = Book(network)
    for entry in entries:
        assert book.enters(entry), entry
    return book


def stated(network, entries, live):
    """The entries that the new journal is to have, and the lines of numbers."""
    if not live:
        return entries, []
    book = book_of(network, entries)
    vpns = [("admit", vpn.customer, vpn.hose, vpn.plan) for vpn in book.live.values()]
    lines = [f"vpn {old} is {new}" for new, old in enumerate(book.live, 1)]
    return vpns + [("down", link) for link in sorted(book.out)], lines


def sound_part(network, entries):
    """The entries before the first one that is not sound."""
    return list(takewhile(Book(network).enters, entries))


class Wanted(NamedTuple):
    """What has to come of a move: its output and status, and the journal, where it is changed."""

    lines: list
    status: int
    held: Optional[bytes]
    entries: Optional[list]  # that are to be there in the end


def wanted(old, new, old_held, new_held, live):
    """What has to come of a move from one network to the other, of these journals."""
    lines = []
    try:
        change = first_change(old, new)
        if change:
            raise Fault(change, 12)
        if old_held is None:
            raise Fault("cabinet", 6)
        entries, lines = stated(old, entries_in(old, old_held), live)
        if new_held is not None:
            entries_in(new, new_held, "new ", entries)
    except Fault as fault:
        return Wanted([*lines, fault.line], fault.status, None, None)
    part = sound_part(new, entries)
    held = journal_of(new, part, CHAINED)
    if len(part) < len(entries):
        return Wanted([*lines, f"unsound {len(part) + 1}"], 13, held, part)
    count = len(book_of(new, entries).live)
    return Wanted([*lines, f"moved {len(entries)} live {count}"], 0, held, entries)


# ---- Journals to begin with.


def history_of(network, entries):
    history = History(network)
    for entry in entries:
        assert history.enters(spelled(entry)), entry
    return history


def as_stopped(draw, network, entries, more):
    """What a stop leaves of a journal of these entries within the append of one more; or within its
    beginning, where it has none."""
    if not entries and draw.random() < 0.5:
        return begun(draw, network)
    own = history_of(network, entries)
    return stopped(draw, journal_of(network, entries, CHAINED), own, spelled(more))[0]


def damaged(draw, held):
    place = draw.randrange(len(held))
    return held[:place] + bytes([held[place] ^ 1 << draw.randrange(8)]) + held[place + 1:]


def other_entry(draw, network, entries, than=None):
    """An entry that may follow these, and is not this one; none where there is none."""
    out = book_of(network, entries).out
    found = [("up" if link in out else "down", link) for link in range(len(network.links))]
    found = [entry for entry in found if entry != than]
    return draw.choice(found) if found else None


def old_journal(draw, network, entries, how):
    if how == "not there":
        return None
    if how == "of another network":
        network = network._replace(nodes=[*network.nodes, "other"])
    if how == "not begun":
        return draw.choice((b"", b"\0" * 39, bytes(draw.randrange(256) for _ in range(38))))
    if how == "as a stop leaves it" and entries:
        return as_stopped(draw, network, entries[:-1], entries[-1])
    held = journal_of(network, entries, PLAIN if how == "of version 1" else CHAINED)
    return damaged(draw, held) if how == "damaged" else held


def new_journal(draw, network, entries, how):
    """A journal of the new network that was there before, where these entries are wanted."""
    if how == "not there":
        return None
    if how == "not begun":
        return old_journal(draw, network, entries, how)
    if how == "of another network":
        return journal_of(network._replace(nodes=[*network.nodes, "other"]), [], CHAINED)
    sound = sound_part(network, entries)
    part = sound[:draw.randint(0, len(sound))]
    if how == "as a stop leaves it" and part:
        return as_stopped(draw, network, part[:-1], part[-1])
    if how == "one too many":
        part = sound
    more = other_entry(draw, network, part, (entries[len(part):] or [None])[0])
    if how in ("another entry", "one too many") and more:
        part = part + [more]
    held = journal_of(network, part, CHAINED)
    return damaged(draw, held) if how == "damaged" else held


# ---- A move.


class Move:
    """A move, and what has to come of it."""

    def __init__(self, program, work, name, most_orders):
        self.draw, self.program, self.kinds = random.Random(name), program, Counter()
        draw, self.work = self.draw, work
        self.live = draw.random() < 0.5
        self.tariff = draw.choice([None, None, None, *TARIFFS])
        network = random_network(draw, FORCED)
        how = self.chosen(CHANGES, "network")
        changed_one = changed(draw, network, how)
        self.old, self.new = priced(network, self.tariff), priced(changed_one, self.tariff)
        server, self.entries = Server(self.old), []
        for _ in range(draw.randint(0, most_orders)):
            entry = ordered(draw, server)[2]
            self.entries += [entry] if entry else []
        for name, one in (("old", network), ("new", changed_one)):
            self.write(name, "".join(f"{line}\n" for line in topology_lines(one)).encode())

    def chosen(self, ways, of):
        way = self.draw.choices(list(ways), list(ways.values()))[0]
        self.kinds[f"{of}: {way}"] += 1
        return way

    def begin(self, old, new):
        """Puts both journals there."""
        held = old_journal(self.draw, self.old, self.entries, old)
        goes_on = first_change(self.old, self.new) is None
        entries = stated(self.old, self.entries, self.live)[0] if goes_on else []
        self.write("old.journal", held)
        self.write("new.journal", new_journal(self.draw, self.new, entries, new))
        self.held = held

    # -- Files.

    def at(self, name):
        return os.path.join(self.work, name)

    def write(self, name, held):
        if held is not None:
            with open(self.at(name), "wb") as file:
                file.write(held)
        elif os.path.exists(self.at(name)):
            os.remove(self.at(name))

    def read(self, name):
        try:
            with open(self.at(name), "rb") as file:
                return file.read()
        except FileNotFoundError:
            return None

    # -- Runs.

    def words(self):
        options = ["--tariff", self.tariff] if self.tariff else []
        options += ["--live"] if self.live else []
        names = [self.at(name) for name in ("old", "old.journal", "new", "new.journal")]
        return [self.program, "move", *options, *names]

    def run(self, before=(), limit=None):
        done = subprocess.run([*before, *self.words()], stdin=subprocess.DEVNULL, timeout=HANGS,
                              stdout=subprocess.PIPE, stderr=subprocess.DEVNULL, preexec_fn=limit)
        return done.stdout.decode("ascii", "replace").splitlines(), done.returncode

    def judge(self):
        """Runs the move to its end, and compares what came of it with what has to."""
        before = self.read("new.journal")
        want = wanted(self.old, self.new, self.held, before, self.live)
        lines, status = self.run()
        same((lines, status), (want.lines, want.status), "output and status")
        self.judge_journals(before, want)
        self.kinds[f"status {status}{', --live' if self.live else ''}"] += 1
        return want

    def judge_journals(self, before, want):
        same(self.read("old.journal"), self.held, "the old journal")
        after = self.read("new.journal")
        if want.held is None:
            same(after, before, "the new journal, which is to be left")
            return
        # Behind a closed gate may stand what a stop left before.
        end = len(want.held) - 1
        same(after[:end], want.held[:end], "the new journal")
        if after[end] == 1:
            raise Differs(f"the new journal goes on behind {end}")
        same(entries_in(self.new, after), want.entries, "the entries of the new journal")

    def judge_part(self, want, where):
        """After a move that was ended: the new journal has a part of what it should."""
        same(self.read("old.journal"), self.held, f"the old journal, {where}")
        after = self.read("new.journal")
        try:
            found = entries_in(self.new, after or b"")
        except Fault as fault:
            raise Differs(f"the new journal, {where}, is {fault}") from None
        same(found, want.entries[:len(found)], f"the entries of the new journal, {where}")

    def limited(self, failing):
        """A move whose new journal may not grow past some bytes."""
        before = self.read("new.journal")
        want = wanted(self.old, self.new, self.held, before, self.live)
        if want.held is None:
            return
        most = self.draw.randint(1, len(want.held) + 10)
        lines, status = self.run(limit=partial(at_most, most, failing))
        numbers = [line for line in want.lines if line.startswith("vpn ")]
        if status == want.status:
            same(lines, want.lines, "the output within a limit")
        elif failing:
            same((lines, status), ([*numbers, "new cabinet"], 6), "the output of a failing disk")
        else:
            same((lines, status), (numbers, -signal.SIGXFSZ), "the output past a limit")
        if (status == want.status) != (max(most, len(before or b"")) >= len(want.held)):
            # A file that was longer before may have room that its limit does not give.
            if most >= len(want.held) or before is None:
                raise Differs(f"a limit of {most} bytes, status {status}")
        self.kinds[f"{'failing' if failing else 'past a limit'}, status {status}"] += 1
        self.judge_part(want, "at a limit")

    def killed(self):
        """Kills the move at each call of a disk, one after the other, and goes on from there."""
        begin = self.read("new.journal")
        want = wanted(self.old, self.new, self.held, begin, self.live)
        if want.held is None:
            return
        for call in CALLS:
            for nth in range(1, 1_000):
                self.write("new.journal", begin)
                inject = ["-e", f"trace={call}", "-e", f"inject={call}:signal=KILL:when={nth}"]
                lines, status = self.run(["strace", "-f", "-qq", "-o", self.at("trace"), *inject])
                if status == want.status:
                    same(lines, want.lines, "a move that was not killed")
                    break
                same(status, -signal.SIGKILL, f"the status of a kill at call {nth} of {call}")
                self.judge_part(want, f"killed at call {nth} of {call}")
                self.judge()
                self.kinds["kills"] += 1

    def go(self):
        self.begin(self.chosen(OLD, "old journal"), self.chosen(NEW, "new journal"))
        way = self.chosen(ENDS, "ended")
        if way != "by itself":
            self.limited(way == "failing")
        want = self.judge()
        if want.status == 0:
            self.judge()  # nothing is left to be done

    def go_by_kills(self):
        old = self.draw.choice(("as it is", "of version 1"))
        self.begin(old, self.draw.choice(("not there", "a part", "as a stop leaves it")))
        self.killed()


# ---- All moves.


def outcome(program, seed, number):
    """What came of a move, or what differs."""
    with tempfile.TemporaryDirectory() as work:
        by_kills = number % KILLED == 0
        move = Move(program, work, f"{seed} {number}", FEW_ORDERS if by_kills else MOST_ORDERS)
        try:
            (move.go_by_kills if by_kills else move.go)()
        except Differs as differs:
            return None, f"move {number}, {' '.join(move.words()[1:-4])}: {differs}"
        return move.kinds, None


def main():
    program = os.path.abspath(sys.argv[1] if len(sys.argv) > 1 else "./hosed")
    count, seed = (int(word) for word in (sys.argv[2:] + ["1000", "1"][len(sys.argv[2:]):]))
    if shutil.which("strace") is None:
        sys.exit("moves: strace is missing")
    subprocess.run([program, "--version"], stdout=subprocess.DEVNULL, check=True)
    begin, kinds = time.monotonic(), Counter()
    with ProcessPoolExecutor(WORKERS) as pool:
        numbers = range(1, count + 1)
        for told, differs in pool.map(partial(outcome, program, seed), numbers, chunksize=4):
            if differs:
                pool.shutdown(wait=False)
                sys.exit(f"moves: {differs}")
            kinds += told
    for kind, number in sorted(kinds.items()):
        print(f"moves: {number} {kind}")
    print(f"moves: {count} agreed in {time.monotonic() - begin:.0f} s")


if __name__ == "__main__":
    tell_usage(__doc__)
    os.chdir(TOP)
    main()
