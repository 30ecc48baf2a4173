"""A plain model of a server on a star, whose journal is on a disk that fails where it is told to.

It follows docs/GUIDE.md: a disk that is a text of bytes, of which a failed call changes nothing; a
journal of version 2, or one of version 1 that is sealed when it is opened, whose entry counts once
its gate is written and synced, and whose entry in doubt is revoked before the next one and at the
end; replies, whose texts are those of the table in tools/lines.py, and what an audit tells. Of a
link they have its number and what it carries, with a gap between them. It knows no plans but those
of a star, where each endpoint is at the end of a link, and shares no code with the crates.
"""

from collections import Counter
from hashlib import sha256

from lines import told

STAR = ("node a", "node b", "node c", "node h", "link a h 10 1", "link b h 10 2", "link c h 10 3",
        "end")
NAMES, COSTS = "abch", (1, 2, 3)
# What `sha256sum` gives for the canonical text.
DIGEST = "24fcb75877abb3e7844a793bdf784d862da4700e66d9e0ec6fbcf8c50249eda4"
PLAIN, CHAINED = 1, 2  # versions of a journal


def head(version):
    return b"\1HOSE" + bytes([version]) + bytes.fromhex(DIGEST)


EMPTY = head(CHAINED) + b"\0"


def print_cases(heads, topology, cases):
    """A file of cases: its first lines, the topology behind this mark, and the lines of each."""
    print("\n".join([*heads, *(f"{topology} {line}" for line in STAR)]))
    for lines in cases:
        print()
        print("\n".join(lines))


def stops_of(since, before, last):
    """The lines of stops after each call of a disk, so many calls before it and the last one, and
    the books that they tell by their numbers. `since` has the call from which on a stop may leave
    some books, and these books."""
    books, stops = [], []
    for (first, found), (then, _) in zip(since, since[1:] + [(last + 1, None)]):
        if first < then:
            books += [book for book in found if book not in books]
            numbers = " ".join(str(books.index(book) + 1) for book in found)
            stops.append(f"stop {before + first} {before + then - 1} {numbers}")
    return books, stops


class Failed(Exception):
    pass


class Disk:
    """What reads give, the calls so far, and those that fail."""

    def __init__(self, held, failing):
        self.held, self.failing, self.made, self.calls = held, failing, Counter(), []

    def call(self, kind):
        self.made[kind] += 1
        self.calls.append((kind, self.made[kind]))
        if self.calls[-1] in self.failing:
            raise Failed

    def write(self, at, written):
        self.call("write")
        self.held = self.held[:at] + written + self.held[at + len(written):]

    def put(self, at, written):
        self.write(at, written)
        self.call("sync")

    def cut(self, to):
        self.call("cut")
        self.held = self.held[:to]


# ---- Entries, and what is told of them.


def pairs_text(pairs):
    return " ".join(f"{number}:{value}" for number, value in pairs)


def hose_of(words):
    ends = [word.split(":") for word in words]
    return tuple(sorted((NAMES.index(node), int(rate)) for node, rate in ends))


def plan(hose):
    """What the hose reserves, where each endpoint is at the end of a link, and the cost."""
    total = sum(rate for _, rate in hose)
    links = tuple((node, min(rate, total - rate)) for node, rate in hose)
    return links, sum(COSTS[link] * amount for link, amount in links)


def live_of(entries):
    """The customers and hoses of the live VPNs."""
    live = {}
    for epoch, (kind, customer, what) in enumerate(entries, 1):
        if kind == "admit":
            live[epoch] = (customer, what)
        else:
            del live[what]
    return live


def load_of(entries, link):
    return sum(dict(plan(hose)[0]).get(link, 0) for _, hose in live_of(entries).values())


def ends_of(hose):
    return [(NAMES[node], rate) for node, rate in hose]


def audit(entries):
    """The text of the book of some entries."""
    live = live_of(entries)
    yield f"epoch {len(entries)}"
    for link in range(len(COSTS)):
        yield f"link {link} {{..}} load {load_of(entries, link)}"
    for epoch, (customer, hose) in live.items():
        links, cost = plan(hose)
        rest = f"ends {pairs_text(ends_of(hose))} links {pairs_text(links)}"
        yield f"vpn {epoch} {customer} cost {cost} {rest}"
    yield f"live {len(live)} cost {sum(plan(hose)[1] for _, hose in live.values())}"


def spelled_pairs(pairs):
    return b"".join(number.to_bytes(2, "big") + value.to_bytes(4, "big") for number, value in pairs)


def spelled(entry):
    """The body of an entry's record."""
    kind, customer, what = entry
    name = bytes([len(customer)]) + customer.encode()
    if kind == "release":
        return b"\2" + name + what.to_bytes(4, "big")
    links, _ = plan(what)
    counted = bytes([len(what)]) + spelled_pairs(what) + len(links).to_bytes(2, "big")
    return b"\1" + name + counted + spelled_pairs(links)


def chain(entries):
    """The chain value of these entries."""
    value = bytes.fromhex(DIGEST)
    for entry in entries:
        value = sha256(value + spelled(entry)).digest()
    return value


def record(entries, entry, version=CHAINED):
    """What follows the gate of an entry that comes after these."""
    body = spelled(entry)
    value = chain((*entries, entry)) if version == CHAINED else b""
    return len(body).to_bytes(4, "big") + value + body + b"\0"


def seal(entries):
    """What follows the gate of a seal that comes after these entries."""
    body = b"\5" + chain(entries)
    return len(body).to_bytes(4, "big") + body + b"\0"


def journal_of(entries, version=CHAINED):
    """The bytes of a journal of this version that has these entries, and no seal."""
    records = (record(entries[:at], entry, version) for at, entry in enumerate(entries))
    return head(version) + b"".join(b"\1" + written[:-1] for written in records) + b"\0"


# ---- The journal.


class Journal:
    """A journal on a disk that is empty or has some entries.

    In `since` is from which number of calls on which lists of entries a stop may leave.
    """

    def __init__(self, disk, entries=()):
        self.disk, self.entries, self.doubted = disk, entries, None
        self.gate = max(len(disk.held), len(EMPTY)) - 1  # the place of the last gate
        self.since = [(0, (entries,))]
        disk.call("sync")
        self.load()
        if not disk.held:
            disk.cut(0)
            disk.call("sync")
            disk.put(0, b"\0")
            disk.put(1, EMPTY[1:])
            disk.put(0, b"\1")
            self.load()
        elif disk.held == journal_of(entries, PLAIN):
            self.seal()

    def load(self):
        self.disk.call("len")
        self.disk.call("read")

    def seal(self):
        written = seal(self.entries)
        self.disk.put(self.gate + 1, written)
        self.disk.put(self.gate, b"\1")
        self.gate += len(written)

    def note(self, more=0):
        found = (self.entries,) if self.doubted is None else (self.entries, self.doubted)
        self.since.append((len(self.disk.calls) + more, found))

    def settle(self):
        if self.doubted is not None:
            self.disk.put(self.gate, b"\0")
            self.doubted = None
            self.note()

    def enter(self, entry):
        self.settle()
        written = record(self.entries, entry)
        self.disk.put(self.gate + 1, written)
        # The entry is in doubt as soon as its gate is written.
        self.doubted = self.entries + (entry,)
        self.note(1)
        self.disk.put(self.gate, b"\1")
        self.entries, self.doubted = self.doubted, None
        self.gate += len(written)
        self.note()

    def close(self):
        if self.doubted is not None:
            self.settle()
        else:
            self.disk.call("sync")


# ---- The server.


class Server:
    """What is replied to lines, over a journal."""

    def __init__(self, journal):
        self.journal, self.quotes = journal, {}

    def enter(self, entry, reply):
        try:
            self.journal.enter(entry)
        except Failed:
            return told("Disk", len(self.journal.entries))
        return reply

    def admit(self, customer, hose):
        links, cost = plan(hose)
        epoch = len(self.journal.entries) + 1
        return self.enter(("admit", customer, hose), told("Admitted", epoch, cost, epoch, links))

    def reply(self, line):
        customer, command, *words = line.split()
        at = len(self.journal.entries)
        if command == "admit":
            return self.admit(customer, hose_of(words))
        own = [number for number in range(1, at + 1) if self.is_live(customer, number)]
        if command == "vpns":
            return told("Vpns", own, at)
        if command == "admit-after":
            newest = own[-1] if own else 0
            if newest != int(words[0]):
                return told("Newest", newest, at)
            return self.admit(customer, hose_of(words[1:]))
        if command == "quote":
            self.quotes[1] = hose_of(words)
            links, cost = plan(self.quotes[1])
            return told("Quoted", 1, cost, at, links)
        if command == "take":
            return self.admit(customer, self.quotes.pop(1))
        number = int(words[0])
        if command == "link":
            return f"link {number} {{..}} load {load_of(self.journal.entries, number)} at {at}"
        if not self.is_live(customer, number):
            return told("NoVpn", number, at)
        if command == "show":
            hose = self.journal.entries[number - 1][2]
            links, cost = plan(hose)
            return told("Shown", number, cost, at, ends_of(hose), links)
        return self.enter(("release", customer, number), told("Released", number, at + 1))

    def is_live(self, customer, number):
        entries = self.journal.entries
        is_theirs = 0 < number <= len(entries) and entries[number - 1][:2] == ("admit", customer)
        return is_theirs and ("release", customer, number) not in entries
