#!/usr/bin/env bash
# Kills a run with a journal N times (100), each at a random moment of a stream of admissions,
# releases and links that go out of service and back: in its opening, or after some replies. A
# later run with the journal must then show each order whose reply line was written, in order, and
# at most the one sent next; before some of these another run is killed in its opening. Several
# runs go on from one journal in a row. Prints how many were killed and how many differed; ends
# with status 1 where one differed, or where no order was acknowledged.
# usage: bench/judge/kill.sh [N [SEED]]     TMPDIR: where the journals are made
[ "${1-}" != --help ] || exec sed -n '2,/^[^#]/s/^# \{0,1\}//p' "$0"
set -euo pipefail
export LC_ALL=C
cd "$(dirname "${BASH_SOURCE[0]}")/../.."
# The script ./hosed may build the program. The program itself is what is killed.
./hosed --version >/dev/null
work=$(mktemp -d)
trap 'rm -rf "$work"' EXIT

PYTHONPATH=tools python3 - crates/hosed_main/out/hosed_main "$work" "${1:-100}" "${2:-1}" <<'END'
import hashlib
import os
import random
import select
import subprocess
import sys
import time
from collections import Counter
from itertools import zip_longest
from typing import NamedTuple

from lines import told

PROGRAM, WORK, KILLS, SEED = sys.argv[1], sys.argv[2], int(sys.argv[3]), sys.argv[4]
LEAVES, CAPACITY = 64, 1_000_000_000
CUSTOMERS = ("acme", "beta", "a-name-of-16-too")
MOST_LIVE = 60
LINES_MORE = 1_000  # than have replies when a run is killed
MOST_ON_ONE_JOURNAL = 12  # kills
HANGS = 60  # seconds
OPEN, ADMIT, RELEASE = b"\1", b"\1", b"\2"
CHANGES = {"down": b"\3", "up": b"\4"}

# ---- The network is a star, in which each leaf's link carries the smaller side of its rate. Beside
# ---- some of them is a dearer link, which no tree uses, and which goes out of service and back.

SPARES = 4
NAMES = [f"n{leaf}" for leaf in range(LEAVES)] + ["h"]
COSTS = [1 + leaf % 7 for leaf in range(LEAVES)] + [100] * SPARES
LINKS = range(len(COSTS))
TOPOLOGY = "".join(
    [f"node {name}\n" for name in NAMES]
    + [f"link {NAMES[i % LEAVES]} h {CAPACITY} {cost} {cost}\n" for i, cost in enumerate(COSTS)]
    + ["end\n"]
)


def amounts_of(hose):
    total = sum(rate for _, rate in hose)
    return [(node, min(rate, total - rate)) for node, rate in hose if node < LEAVES]


def plan_of(hose):
    """What a hose costs, and its amounts on links."""
    amounts = amounts_of(hose)
    return sum(COSTS[link] * amount for link, amount in amounts), amounts


def ends_of(hose):
    return [(NAMES[node], rate) for node, rate in hose]


def ends_text(hose):
    return " ".join(f"{name}:{rate}" for name, rate in ends_of(hose))


# ---- The book, of which each entry is the next epoch.


class Entry(NamedTuple):
    customer: str
    hose: tuple  # of (node, rate), ascending; none but in an admission
    id: int  # of the VPN that is released, or of the link that changes
    change: str = ""  # `down` or `up`

    def spelling(self):
        if self.change:
            return CHANGES[self.change] + self.id.to_bytes(2, "big")
        name = bytes([len(self.customer)]) + self.customer.encode()
        if self.hose is None:
            return RELEASE + name + self.id.to_bytes(4, "big")
        amounts = amounts_of(self.hose)
        count = len(amounts).to_bytes(2, "big")
        ends = bytes([len(self.hose)]) + pairs(self.hose)
        return ADMIT + name + ends + count + pairs(amounts)


def pairs(of):
    return b"".join(first.to_bytes(2, "big") + second.to_bytes(4, "big") for first, second in of)


def image_of(entries):
    """What a journal of these entries begins with; its next gate is not open."""
    digest = hashlib.sha256(TOPOLOGY.encode()).digest()
    image, value = OPEN + b"HOSE\2" + digest, digest
    for entry in entries:
        body = entry.spelling()
        value = hashlib.sha256(value + body).digest()
        image += OPEN + len(body).to_bytes(4, "big") + value + body
    return image


class Book:
    def __init__(self, entries):
        self.entries, self.live, self.out = [], {}, set()
        for entry in entries:
            self.enter(entry)

    def enter(self, entry):
        self.entries.append(entry)
        if entry.change:
            self.out ^= {entry.id}
        elif entry.hose is None:
            del self.live[entry.id]
        else:
            self.live[len(self.entries)] = entry
        return entry

    def show(self, customer, id):
        vpn, epoch = self.live.get(id), len(self.entries)
        if vpn is None or vpn.customer != customer:
            return told("NoVpn", id, epoch)
        cost, amounts = plan_of(vpn.hose)
        return told("Shown", id, cost, epoch, ends_of(vpn.hose), amounts)

    def links(self):
        loads = Counter()
        for vpn in self.live.values():
            loads.update(dict(amounts_of(vpn.hose)))
        for link, cost in enumerate(COSTS):
            yield told("LinkState", link, NAMES[link % LEAVES], "h", CAPACITY, cost, loads[link],
                       link in self.out, len(self.entries))


# ---- Commands, each as its line, its reply, and its entry if it has one.


def random_hose(draw):
    count = draw.randint(2, 5) if draw.random() < 0.9 else draw.randint(6, LEAVES)
    nodes = sorted(draw.sample(range(len(NAMES)), count))
    return tuple((node, draw.randint(1, 1000)) for node in nodes)


def admission(draw, book):
    customer, hose = draw.choice(CUSTOMERS), random_hose(draw)
    cost, amounts = plan_of(hose)
    epoch = len(book.entries) + 1
    admitted = told("Admitted", epoch, cost, epoch, amounts)
    entry = book.enter(Entry(customer, hose, 0))
    if draw.random() < 0.8:
        return [(f"{customer} admit {ends_text(hose)}", admitted, entry)]
    quoted = told("Quoted", 1, cost, epoch - 1, amounts)
    quote = (f"{customer} quote {ends_text(hose)}", quoted, None)
    return [quote, (f"{customer} take 1", admitted, entry)]


def commands(draw, book):
    kind = draw.random()
    if kind < 0.1:
        customer, id = draw.choice(CUSTOMERS), draw.randint(0, len(book.entries) + 1)
        return [(f"{customer} show {id}", book.show(customer, id), None)]
    if kind < 0.2:
        link = draw.choice(LINKS[LEAVES:])
        change = "up" if link in book.out else "down"
        entry = book.enter(Entry("operator", None, link, change))
        reply = told(change.capitalize(), link, len(book.entries))
        return [(f"operator {change} {link}", reply, entry)]
    if not book.live or (kind < 0.6 and len(book.live) < MOST_LIVE):
        return admission(draw, book)
    id = draw.choice(list(book.live))
    customer = book.live[id].customer
    entry = book.enter(Entry(customer, None, id))
    return [(f"{customer} release {id}", told("Released", id, len(book.entries)), entry)]


def random_script(draw, entries, length):
    book, script = Book(entries), []
    while len(script) < length:
        script += commands(draw, book)
    return script[:length]


# ---- A run that is killed.


def start(journal):
    pipes = {"stdin": subprocess.PIPE, "stdout": subprocess.PIPE}
    process = subprocess.Popen([PROGRAM, "run", journal], bufsize=0, **pipes)
    os.set_blocking(process.stdin.fileno(), False)
    return process


class Fed:
    """What was written to a run, and what was read of it."""

    def __init__(self, process, lines, ahead):
        self.process, self.ahead = process, ahead
        self.lines = [(line + "\n").encode() for line in lines]
        self.unsent, self.offered, self.output = TOPOLOGY.encode(), 0, b""

    def replies(self):
        return self.output.count(b"\n")

    def sent(self):
        """How many lines were written whole; below 0 while the topology was not."""
        return self.offered - self.unsent.count(b"\n")

    def step(self, seconds):
        """Writes and reads what there is; false where the run has ended."""
        while self.offered < min(len(self.lines), self.replies() + self.ahead):
            self.unsent += self.lines[self.offered]
            self.offered += 1
        source, sink = self.process.stdin, self.process.stdout
        ready = select.select([sink], [source] if self.unsent else [], [], max(0, seconds))
        if ready[1]:
            try:
                self.unsent = self.unsent[source.write(self.unsent[:4096]) or 0 :]
            except BrokenPipeError:
                return False
        if ready[0]:
            read = sink.read(65536)
            self.output += read
            return bool(read)
        return True

    def until(self, replies, seconds):
        """Goes on until so many replies came, and so many seconds more; false where it ended."""
        hangs = time.perf_counter() + HANGS
        while self.replies() < replies:
            if not self.step(hangs - time.perf_counter()) or time.perf_counter() >= hangs:
                return False
        end = time.perf_counter() + seconds
        while time.perf_counter() < end:
            if not self.step(end - time.perf_counter()):
                return False
        return True

    def kill(self):
        """Kills the run, and reads what it had written."""
        self.process.kill()
        self.process.wait()
        self.output += self.process.stdout.read()
        self.process.stdin.close()
        self.process.stdout.close()


class Speed(NamedTuple):
    opening: float  # seconds to the first reply, with a new journal
    order: float  # seconds from a reply to the next


def measure():
    draw = random.Random(SEED)
    script = random_script(draw, [], 40)
    fed = Fed(start(f"{WORK}/measured"), [line for line, _, _ in script], len(script))
    begun = time.perf_counter()
    assert fed.until(1, 0), "no reply"
    first = time.perf_counter()
    assert fed.until(len(script), 0), "too few replies"
    last = time.perf_counter()
    fed.kill()
    return Speed(first - begun, (last - first) / (len(script) - 1))


def moment_of_opening(draw, speed):
    """Seconds after the start; small ones are as likely as great ones."""
    return speed.opening * 10 ** -draw.uniform(0, 2.5)


def random_moment(draw, speed):
    """After how many replies the run is killed, and how many seconds more."""
    kind = draw.random()
    if kind < 0.25:
        return 0, moment_of_opening(draw, speed)
    most = 5 if kind < 0.5 else 40 if kind < 0.9 else 200
    return draw.randint(1, most), draw.choice((0, 0.2, 2, 5)) * draw.random() * speed.order


# ---- What is in the journal afterwards.


def shown(journal, questions):
    text = TOPOLOGY + "".join(f"{question}\n" for question in questions)
    streams = {"input": text, "capture_output": True, "text": True, "timeout": HANGS}
    try:
        done = subprocess.run([PROGRAM, "run", journal], **streams)
    except subprocess.TimeoutExpired:
        return [f"no end after {HANGS} s"]
    return done.stdout.splitlines() + [f"status {done.returncode}"]


def wanted(book, asked):
    return [book.show(customer, id) for customer, id in asked] + [*book.links(), "status 0"]


def first_difference(want, found):
    for one, other in zip_longest(want, found):
        if one != other:
            return f"wanted: {one}\nfound: {other}"
    return None


def holds(journal, entries):
    """Whether these entries are in the journal's file, in order, and no other."""
    with open(journal, "rb") as file:
        found = file.read()
    image = image_of(entries)
    return found.startswith(image) and found[len(image) : len(image) + 1] not in (b"", OPEN)


def recovered(journal, entries, next_entry):
    """The entries that a run with the journal shows, and what differs if these are not right."""
    may_be = [entries] if next_entry is None else [entries, [*entries, next_entry]]
    owners = [entry.customer for entry in may_be[-1]] + [CUSTOMERS[0]]
    asked = [(customer, id) for id, customer in enumerate(owners, 1)]
    questions = [f"{customer} show {id}" for customer, id in asked]
    found = shown(journal, questions + [f"x link {link}" for link in LINKS])
    for right in may_be:
        if found == wanted(Book(right), asked):
            return right, None if holds(journal, right) else "the file has other entries"
    return entries, first_difference(wanted(Book(entries), asked), found)


def kill_opening(journal, seconds):
    """Kills a run that has no command."""
    fed = Fed(start(journal), [], 1)
    fed.until(0, seconds)
    fed.kill()


def killed(draw, journal, entries, speed, counts):
    """Kills one run; the entries that are in the journal then, and what differs."""
    replies, seconds = random_moment(draw, speed)
    more = 0 if replies and draw.random() < 0.15 else LINES_MORE
    script = random_script(draw, entries, replies + more)
    ahead = draw.choice((1, 3, len(script)))
    fed = Fed(start(journal), [line for line, _, _ in script], ahead)
    in_time = fed.until(replies, seconds)
    fed.kill()
    count = fed.replies()
    got = fed.output.decode().split("\n")[:count]
    if not in_time:
        return entries, f"the run ended or hung after {count} replies: {got[-1:]}"
    if got != [reply for _, reply, _ in script[:count]]:
        return entries, first_difference([reply for _, reply, _ in script[:count]], got)
    acknowledged = [entry for _, _, entry in script[:count] if entry is not None]
    following = script[count][2] if count < fed.sent() else None
    if draw.random() < 0.3:
        kill_opening(journal, moment_of_opening(draw, speed))
        counts["openings"] += 1
    found, fault = recovered(journal, entries + acknowledged, following)
    counts["acknowledged"] += len(acknowledged)
    counts["more"] += len(found) - len(entries) - len(acknowledged)
    counts["early"] += count == 0
    counts["unsent"] += following is None
    return found, fault


def main():
    speed, draw, counts = measure(), random.Random(SEED), Counter()
    journals = left = differed = 0
    for number in range(1, KILLS + 1):
        if left == 0:
            journals, left, entries = journals + 1, draw.randint(1, MOST_ON_ONE_JOURNAL), []
        journal = f"{WORK}/{journals}"
        entries, fault = killed(draw, journal, entries, speed, counts)
        left -= 1
        if fault is not None:
            differed, left = differed + 1, 0
            print(f"kill {number}, the journal after {len(entries)} entries differs\n{fault}")
        if left == 0:
            os.remove(journal)
    print(f"killed: {KILLS}, differed: {differed}")
    print(f"orders acknowledged: {counts['acknowledged']}, on {journals} journals")
    print(f"killed before a reply: {counts['early']}, with no order sent next: {counts['unsent']}")
    print(f"the order sent next was in the journal: {counts['more']}")
    print(f"openings killed before the later run: {counts['openings']}")
    sys.exit(1 if differed or not counts["acknowledged"] else 0)


main()
END
