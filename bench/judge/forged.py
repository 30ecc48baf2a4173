#!/usr/bin/env python3
"""Audits forged journals, and compares what is told with an independent reader of journals.

A journal of eight orders on a small network is made by the slow planner of planner.py, and
spelled here: in version 2, in version 1, and in version 1 with a seal after half of them. Each is
audited as it stands, cut to each length, with each single bit turned, and with
EDITS random edits by a rule with a SEED: bytes that are set, turned, added, left out or taken from
elsewhere, numbers that are one more or less, records that are doubled, left out or exchanged, and
other names. For each the reader here, which follows docs/GUIDE.md and shares no code with the
crates, says what must be told: the book, the place of the damage, or that the journal is another
network's; and how an audit must leave it: sealed where it is a sound one of version 1, and else as
it was. Of each, before and after, tools/read_journal.py must list the entries with the same chain
value, or the same damage, unless that is an entry which is not sound. Prints how many of each there
were, or the first that differs, with its bytes, and ends with status 1.

usage: bench/judge/forged.py [PROGRAM [EDITS [SEED]]]     EDITS of each of the three
The PROGRAM (./hosed) is seen from the top of the repository.
"""

import hashlib
import os
import random
import subprocess
import sys
import tempfile
from collections import Counter, namedtuple
from concurrent.futures import ThreadPoolExecutor

sys.path.insert(0, os.path.join(os.path.dirname(os.path.abspath(__file__)), "..", "parts"))
from usage import TOP, tell_usage

import read_journal
from planner import FORCED, WEIGHTS, Server, Vpn, audit_lines, loads_of, plan_cost, random_command
from planner import random_network

ORDERS = 8
EMPTY = 39  # bytes of a journal without an entry
MARK = b"HOSE"
PLAIN, CHAINED, SEAL = 1, 2, b"\5"
CHANGES = {"down": b"\3", "up": b"\4"}  # the first byte of each
VALUE = 32  # bytes of a chain value
MOST_BODY = 3_471
MOST = {"rate": 1_000_000, "amount": 32_000_000, "id": 4_000_000_000}
NAME = frozenset(b"abcdefghijklmnopqrstuvwxyz0123456789-")
HANGS = 60  # seconds
WORKERS = 4


# ---- Spelling.


def canonical(network):
    lines = [f"node {name}\n" for name in network.nodes]
    for link in network.links:
        a, b = network.nodes[link.a], network.nodes[link.b]
        lines.append(f"link {a} {b} {link.capacity} {link.length} {link.cost}\n")
    return "".join(lines) + "end\n"


def spelled_name(customer):
    return bytes([len(customer)]) + customer.encode()


def spelled_pairs(pairs):
    return b"".join(number.to_bytes(2, "big") + value.to_bytes(4, "big") for number, value in pairs)


def spelled(entry):
    kind, *rest = entry
    if kind in CHANGES:
        return CHANGES[kind] + rest[0].to_bytes(2, "big")
    customer, *rest = rest
    if kind == "release":
        return b"\2" + spelled_name(customer) + rest[0].to_bytes(4, "big")
    hose, plan = rest
    counted = bytes([len(hose)]) + spelled_pairs(hose) + len(plan).to_bytes(2, "big")
    return b"\1" + spelled_name(customer) + counted + spelled_pairs(plan)


def seal_of(value):
    """The record of a seal, with the gate before it."""
    return b"\1" + (1 + VALUE).to_bytes(4, "big") + SEAL + value


def journal_of(network, entries, version, sealed_after=None):
    """A journal of this version, or one of version 1 with a seal after so many entries."""
    value = hashlib.sha256(canonical(network).encode()).digest()
    held, chained = b"\1" + MARK + bytes([version]) + value, version == CHAINED
    for at, body in enumerate(map(spelled, entries)):
        if at == sealed_after:
            held += seal_of(value)
            chained = True
        value = hashlib.sha256(value + body).digest()
        held += b"\1" + len(body).to_bytes(4, "big") + (value if chained else b"") + body
    return held + b"\0"


# ---- Reading.


class Wrong(Exception):
    """A body that is the spelling of no entry."""


class Body:
    def __init__(self, held):
        self.held, self.at = held, 0

    def number(self, size, least, most):
        end = self.at + size
        if end > len(self.held):
            raise Wrong
        number = int.from_bytes(self.held[self.at:end], "big")
        self.at = end
        if not least <= number <= most:
            raise Wrong
        return number

    def name(self):
        size = self.number(1, 1, 16)
        name = self.held[self.at:self.at + size]
        self.at += size
        if len(name) < size or not set(name) <= NAME:
            raise Wrong
        return name.decode()

    def pairs(self, count, most_number, most_value):
        pairs = []
        for _ in range(count):
            number = self.number(2, pairs[-1][0] + 1 if pairs else 0, most_number)
            pairs.append((number, self.number(4, 1, most_value)))
        return pairs

    def end(self):
        if self.at != len(self.held):
            raise Wrong


def entry_of(held):
    body = Body(held)
    kind = body.number(1, 1, 4)
    customer = body.name() if kind < 3 else None
    if kind == 1:
        hose = body.pairs(body.number(1, 2, 64), 511, MOST["rate"])
        entry = ("admit", customer, hose, body.pairs(body.number(2, 1, 511), 2_047, MOST["amount"]))
    elif kind == 2:
        entry = ("release", customer, body.number(4, 0, MOST["id"]))
    else:
        entry = ("down" if kind == 3 else "up", body.number(2, 0, 2_047))
    body.end()
    return entry


class Book:
    """The live VPNs of a network, by the epochs after their admissions, and the links out."""

    def __init__(self, network):
        self.network, self.epoch, self.live, self.out = network, 0, {}, set()

    def is_tree_of(self, hose, plan):
        """Whether these amounts are what the hose reserves on a tree of the network's links."""
        network = self.network
        if hose[-1][0] >= len(network.nodes) or plan[-1][0] >= len(network.links):
            return False
        used = [number for number, _ in plan]
        ends = {node for number in used for node in network.links[number][:2]}
        everywhere = self.part(used, network.links[used[0]].a)
        if everywhere != ends or len(ends) != len(used) + 1:
            return False
        if not all(node in ends for node, _ in hose):
            return False
        total = sum(rate for _, rate in hose)
        for number, amount in plan:
            rest = [other for other in used if other != number]
            side = self.part(rest, network.links[number].a)
            rates = sum(rate for node, rate in hose if node in side)
            if amount != min(rates, total - rates):
                return False
        return True

    def part(self, links, start):
        """The nodes that these links lead to."""
        found, grows = {start}, True
        while grows:
            grows = False
            for number in links:
                pair = set(self.network.links[number][:2])
                if pair & found and not pair <= found:
                    found |= pair
                    grows = True
        return found

    def enters(self, entry):
        """Enters an entry if it is sound."""
        kind, *rest = entry
        if kind in CHANGES:
            if rest[0] >= len(self.network.links) or (rest[0] in self.out) == (kind == "down"):
                return False
            self.out ^= {rest[0]}
        elif kind == "release":
            customer, number = rest
            vpn = self.live.get(number)
            if vpn is None or vpn.customer != customer:
                return False
            del self.live[number]
        else:
            customer, hose, plan = rest
            if not self.is_tree_of(hose, plan) or any(n in self.out for n, _ in plan):
                return False
            loads = loads_of(self.network, self.live.values())
            if any(loads[n] + amount > self.network.links[n].capacity for n, amount in plan):
                return False
            vpn = Vpn(customer, hose, plan, plan_cost(self.network, plan))
            self.live[self.epoch + 1] = vpn
        self.epoch += 1
        return True

    def audit(self):
        return audit_lines(self.network, self.epoch, self.live)


# What an audit of some bytes must tell, its status, the bytes that it must leave, and the last line
# that a reader of journals must tell of them, which is free where an entry is not sound.
Judged = namedtuple("Judged", "lines status left last")


def judged(network, held):
    book = Book(network)
    if len(held) < EMPTY or len(held) == EMPTY and held[0] != 1:
        return Judged(book.audit(), 0, journal_of(network, [], CHAINED), "not begun")

    def damaged(place, last=()):
        line = f"damaged at {place}"
        return Judged([f"journal {line}"], 5, held, *last or (line,))

    if held[0] != 1:
        return damaged(0)
    if held[1:5] != MARK or held[5] not in (PLAIN, CHAINED):
        return damaged(1)
    digest = hashlib.sha256(canonical(network).encode()).hexdigest()
    if held[6:38].hex() != digest:
        return Judged([f"journal other {held[6:38].hex()} {digest}"], 5, held, None)
    gate, chained, value = 38, held[5] == CHAINED, held[6:38]
    while held[gate] == 1:
        size = int.from_bytes(held[gate + 1:gate + 5], "big")
        begin = gate + 5 + (VALUE if chained else 0)
        after, body = begin + size, held[begin:begin + size]
        try:
            if size > MOST_BODY or after >= len(held):
                raise Wrong
            if not chained and body == SEAL + value:
                chained, gate = True, after
                continue
            value = hashlib.sha256(value + body).digest()
            if chained and held[gate + 5:begin] != value:
                raise Wrong
            if not book.enters(entry_of(body)):
                return damaged(gate, (None,))
        except Wrong:
            return damaged(gate)
        gate = after
    seal = b"" if chained else seal_of(value) + b"\0"
    left = held[:gate] + seal + held[gate + len(seal):]
    return Judged(book.audit(), 0, left, f"at {gate} end, chain {value.hex()}")


def listed(wanted, held):
    """Whether the reader in tools/ tells of these bytes, and of those left, what it must."""
    before, after = (list(read_journal.lines(one)) for one in (held, wanted.left))
    if wanted.last is not None and before[-1] != wanted.last:
        return False
    if wanted.status != 0 or wanted.last == "not begun":
        return True
    entries = [[line.split(" ", 2)[2] for line in lines[1:-1] if not line.endswith(" seal")]
               for lines in (before, after)]
    chains = [lines[-1].split(" ")[-1] for lines in (before, after)]
    epoch = int(wanted.lines[0].split(" ")[1])
    return entries[0] == entries[1] and chains[0] == chains[1] and len(entries[0]) == epoch


# ---- Forging.


def orders(seed):
    """A network, and the entries of eight orders on it, some of each kind."""
    draw = random.Random(seed)
    while True:
        server, entries = Server(random_network(draw, FORCED)), []
        for _ in range(200):
            before = dict(server.live)
            _, reply = random_command(draw, server, FORCED, WEIGHTS)
            kind, number = reply.split()[0], reply.split()[1]
            if kind == "admitted":
                vpn = server.live[int(number)]
                entries.append(("admit", vpn.customer, vpn.hose, vpn.plan))
            elif kind == "released":
                entries.append(("release", before[int(number)].customer, int(number)))
            elif kind in CHANGES:
                entries.append((kind, int(number)))
            if len(entries) == ORDERS:
                if {entry[0] for entry in entries} == {"admit", "release", *CHANGES}:
                    return server.network, entries
                break


class Draws:
    """Numbers by a rule: the state is multiplied and added to, and its high bits are drawn."""

    def __init__(self, seed):
        self.state = seed

    def below(self, most):
        self.state = (self.state * 6364136223846793005 + 1442695040888963407) % (1 << 64)
        return (self.state >> 33) % most


def gates_of(held):
    gate, gates, chained = 38, [], held[5] == CHAINED
    while held[gate] == 1:
        gates.append(gate)
        begin = gate + 5 + (VALUE if chained else 0)
        chained = chained or held[begin:begin + 1] == SEAL
        gate = begin + int.from_bytes(held[gate + 1:gate + 5], "big")
    return gates + [gate]


def edited(held, draws):
    """The bytes after one edit. Places behind the head come more often than those in it."""
    at = draws.below(len(held)) if draws.below(4) == 0 else 38 + draws.below(len(held) - 38)
    other, few = draws.below(len(held)), 1 + draws.below(6)
    gates = gates_of(held)
    gate = gates[draws.below(len(gates) - 1)]
    after = gates[gates.index(gate) + 1]
    kind = draws.below(10)
    if kind == 0:
        return held[:at] + bytes([draws.below(256)]) + held[at + 1:]
    if kind == 1:
        return held[:at] + bytes([held[at] ^ (1 << draws.below(8))]) + held[at + 1:]
    if kind == 2:
        return held[:at] + bytes(draws.below(256) for _ in range(few)) + held[at:]
    if kind == 3:
        return held[:at] + held[at + few:]
    if kind == 4:
        return held[:at] + held[other:other + few] + held[at + few:]
    if kind == 5:
        # A number one above or below, in the two bytes of a place.
        number = int.from_bytes(held[at:at + 2], "big") + (1 if draws.below(2) else -1)
        return held[:at] + (number % 65_536).to_bytes(2, "big")[:len(held) - at] + held[at + 2:]
    if kind == 6:
        return held[:after] + held[gate:after] + held[after:]
    if kind == 7:
        return held[:gate] + held[after:]
    if kind == 8:
        # Two records in the other order, where there is one after this.
        then = gates[min(gates.index(after) + 1, len(gates) - 1)]
        return held[:gate] + held[after:then] + held[gate:after] + held[then:]
    # A name of the same length, in each place.
    return held.replace(b"acme", b"beta") if draws.below(2) else held.replace(b"zeta", b"acme")


def forged(held, edits, draws):
    yield "as it stands", held
    for length in range(len(held)):
        yield f"cut to {length} bytes", held[:length]
    for bit in range(8 * len(held)):
        place = bit // 8
        turned = bytes([held[place] ^ (1 << bit % 8)])
        yield f"bit {bit} turned", held[:place] + turned + held[place + 1:]
    for number in range(1, edits + 1):
        # An edit may leave a record that the next one cannot begin at: then it is one edit alone.
        changed = edited(held, draws)
        for _ in range(draws.below(2)):
            with_both = again(changed, draws)
            changed = changed if with_both is None else with_both
        yield f"edit {number}", changed


def again(held, draws):
    try:
        return edited(held, draws)
    except (IndexError, ValueError, ZeroDivisionError):
        return None


# ---- The program.


def told(program, topology, journal, held):
    with open(journal, "wb") as file:
        file.write(held)
    words = [program, "audit", topology, journal]
    done = subprocess.run(words, stdout=subprocess.PIPE, stdin=subprocess.DEVNULL, timeout=HANGS)
    with open(journal, "rb") as file:
        left = file.read()
    return done.stdout.decode("ascii", "replace").splitlines(), done.returncode, left


def kind_of(lines, status, left):
    return "a sound book" if status == 0 else " ".join(lines[0].split()[:2])


def compare(program, work, edits, seed):
    network, entries = orders(seed)
    journals = [journal_of(network, entries, CHAINED), journal_of(network, entries, PLAIN),
                journal_of(network, entries, PLAIN, ORDERS // 2)]
    topology = os.path.join(work, "topology")
    with open(topology, "w", encoding="ascii") as file:
        file.write(canonical(network))
    right = [judged(network, held) for held in journals]
    same = [one[:2] for one in right]
    assert right[0].status == 0 and same[1:] == same[:-1], "the reader refuses what is not forged"

    def differs(numbered):
        number, (name, changed) = numbered
        journal = os.path.join(work, f"journal {number % WORKERS}-{number}")
        wanted, found = judged(network, changed), told(program, topology, journal, changed)
        os.remove(journal)
        return name, changed, wanted, found

    kinds = Counter()
    with ThreadPoolExecutor(WORKERS) as pool:
        for name, changed, wanted, found in pool.map(
            differs, enumerate(one for held in journals for one in forged(held, edits, Draws(seed)))
        ):
            if wanted[:3] != found:
                sys.exit(f"forged: {name}\n{changed.hex()}\nexpected: {wanted}\ntold:     {found}")
            if not listed(wanted, changed):
                sys.exit(f"forged: {name}, as tools/read_journal.py lists it\n{changed.hex()}")
            kinds[kind_of(*found)] += 1
    return [len(held) for held in journals], kinds


def main():
    program = os.path.abspath(sys.argv[1] if len(sys.argv) > 1 else "./hosed")
    edits, seed = (int(word) for word in (sys.argv[2:] + ["10000", "7"][len(sys.argv[2:]):]))
    with tempfile.TemporaryDirectory() as work:
        sizes, kinds = compare(program, work, edits, seed)
    counts = ", ".join(f"{count} {kind}" for kind, count in sorted(kinds.items()))
    total = sum(kinds.values())
    print(f"forged: {total} journals, {3 * edits} by random edits, of three of {ORDERS} orders")
    print(f"forged: {counts}; all as the reader says, of {sizes} bytes before")


if __name__ == "__main__":
    tell_usage(__doc__)
    os.chdir(TOP)
    main()
