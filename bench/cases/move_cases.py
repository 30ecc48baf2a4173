#!/usr/bin/env python3
"""Writes crates/cases_program/data/move.cases: what moving a journal to another network comes to.

The journals are spelled here, by the tables of docs/GUIDE.md, over digests of tools/journals.py;
the lines that come of each case are written out by hand.

usage: bench/cases/move_cases.py | diff - crates/cases_program/data/move.cases
"""
import os
import sys
from hashlib import sha256

sys.path.insert(0, os.path.join(os.path.dirname(os.path.abspath(__file__)), "..", "parts"))
from usage import tell_usage

import journals
import networks

STAR = ("node a", "node b", "node c", "node h",
        "link a h 10 1", "link b h 10 2", "link c h 10 3", "end")
# More room and other costs, a node and a link more, and a link that names its ends the other way.
GROWN = ("node a", "node b", "node c", "node h", "node d",
         "link h a 40 7", "link b h 10 2 9", "link c h 12 3", "link d h 10 1", "end")
# The second link has room for 3, and for 1.
LOW = STAR[:5] + ("link b h 3 2",) + STAR[6:]
LOWEST = STAR[:5] + ("link b h 1 2",) + STAR[6:]
RENAMED = ("node a", "node b", "node d", "node h",
           "link a h 10 1", "link b h 10 2", "link d h 10 3", "end")
FEWER = ("node a", "node b", "node c", "link a b 10 1", "end")
SWAPPED = STAR[:4] + (STAR[5], STAR[4]) + STAR[6:]
SHORT = STAR[:6] + ("end",)
WRONG = STAR[:4] + ("link a x 10 1", "end")

ACME = ("admit", "acme", ((0, 3), (1, 4), (2, 5)), ((0, 3), (1, 4), (2, 5)))
SMALL = ("admit", "acme", ((0, 1), (1, 1)), ((0, 1), (1, 1)))
BETA = ("admit", "beta", ((0, 2), (1, 2)), ((0, 2), (1, 2)))
GONE = ("release", "acme", 1)
DOWN, UP = ("down", 2), ("up", 2)
ALL = (ACME, GONE, BETA, DOWN)
LIVE = (BETA, DOWN)


def spelled_pairs(pairs):
    return b"".join(number.to_bytes(2, "big") + value.to_bytes(4, "big") for number, value in pairs)


def spelled(entry):
    kind, *rest = entry
    if kind in ("down", "up"):
        return bytes([3 + (kind == "up")]) + rest[0].to_bytes(2, "big")
    name = bytes([len(rest[0])]) + rest[0].encode()
    if kind == "release":
        return b"\2" + name + rest[1].to_bytes(4, "big")
    ends, links = rest[1:]
    return (b"\1" + name + bytes([len(ends)]) + spelled_pairs(ends)
            + len(links).to_bytes(2, "big") + spelled_pairs(links))


def digest(topology, tariff=None):
    network = networks.read_topology("\n".join(topology) + "\n")
    return journals.digest_of(networks.priced(network, tariff) if tariff else network)


def journal(topology, entries, version=2, tariff=None):
    """The journal of a network that has these entries."""
    value = digest(topology, tariff)
    held = b"\1HOSE" + bytes([version]) + value
    for entry in entries:
        body = spelled(entry)
        value = sha256(value + body).digest()
        held += b"\1" + len(body).to_bytes(4, "big") + (value if version == 2 else b"") + body
    return held + b"\0"


def case(name, lines, status=0, *, new=GROWN, words="move t j u k", old=None, had=b"", left=None,
         more=()):
    """A case that has these lines of output. The old journal is left as it was."""
    old = journal(STAR, ALL) if old is None else old
    told = [f"case {name}", f"words {words}", *more, *(f"+ {line}" for line in new)]
    told += [f"journal {old.hex()}"] if old else []
    told += [f"new-journal {had.hex()}"] if had else []
    told += [f"> {line}" for line in lines] + [f"status {status}"]
    told += [f"left {old.hex()}"] + ([f"new-left {left.hex()}"] if left is not None else [])
    return told


def whole():
    moved = journal(GROWN, ALL)
    live = journal(GROWN, LIVE)
    yield case("all entries", ["moved 4 live 1"], left=moved)
    yield case("the live VPNs alone", ["vpn 3 is 1", "moved 2 live 1"],
               words="move --live t j u k", left=live)
    yield case("to the same network", ["moved 4 live 1"], new=STAR, left=journal(STAR, ALL))
    yield case("two live VPNs, one behind the other",
               ["vpn 1 is 1", "vpn 3 is 2", "moved 2 live 2"], words="move --live t j u k",
               old=journal(STAR, (SMALL, DOWN, BETA, UP)), left=journal(GROWN, (SMALL, BETA)))
    yield case("nothing is live", ["moved 0 live 0"], words="move --live t j u k",
               old=journal(STAR, (ACME, GONE)), left=journal(GROWN, ()))
    yield case("a journal without an entry", ["moved 0 live 0"], old=journal(STAR, ()),
               left=journal(GROWN, ()))
    yield case("a journal that was not begun is not begun", ["moved 0 live 0"], old=b"HOSE",
               left=journal(GROWN, ()))
    yield case("a journal of version 1 is not sealed", ["moved 4 live 1"],
               old=journal(STAR, ALL, 1), left=moved)
    hops = journal(GROWN, ALL, tariff="hops")
    yield case("both networks have the costs of the tariff", ["moved 4 live 1"],
               words="move --tariff hops t j u k", old=journal(STAR, ALL, tariff="hops"), left=hops)
    yield case("a tariff and the live VPNs", ["vpn 3 is 1", "moved 2 live 1"],
               words="move --tariff hops --live t j u k", old=journal(STAR, ALL, tariff="hops"),
               left=journal(GROWN, LIVE, tariff="hops"))
    for had in range(len(ALL) + 1):
        yield case(f"gone on from {had} entries", ["moved 4 live 1"],
                   had=journal(GROWN, ALL[:had]), left=moved)
    yield case("gone on from one live VPN", ["vpn 3 is 1", "moved 2 live 1"],
               words="move --live t j u k", had=journal(GROWN, LIVE[:1]), left=live)
    yield case("gone on from a beginning of version 1, which is sealed", ["moved 4 live 1"],
               had=journal(GROWN, ALL, 1), more=("taken 0",))


def networks_that_do_not_go_on():
    nothing = b""
    yield case("another node", ["network node 2"], 12, new=RENAMED, left=nothing)
    yield case("fewer nodes", ["network node 3"], 12, new=FEWER, left=nothing)
    yield case("links in another order", ["network link 0"], 12, new=SWAPPED, left=nothing)
    yield case("fewer links", ["network link 2"], 12, new=SHORT, left=nothing)
    yield case("before the journals are looked at", ["network link 2"], 12, new=SHORT, old=b"",
               left=nothing)


def entries_that_are_not_sound():
    yield case("less room than the first entry wants", ["unsound 1"], 13, new=LOW,
               left=journal(LOW, ()))
    yield case("less room than a later entry wants", ["unsound 3"], 13, new=LOWEST,
               old=journal(STAR, (SMALL, GONE, BETA, DOWN)), left=journal(LOWEST, (SMALL, GONE)))
    yield case("the same is told again", ["unsound 3"], 13, new=LOWEST,
               old=journal(STAR, (SMALL, GONE, BETA, DOWN)), had=journal(LOWEST, (SMALL, GONE)),
               left=journal(LOWEST, (SMALL, GONE)))
    yield case("what is live has room", ["vpn 3 is 1", "moved 2 live 1"], new=LOW,
               words="move --live t j u k", left=journal(LOW, LIVE))
    yield case("what is live has none", ["vpn 3 is 1", "unsound 1"], 13, new=LOWEST,
               words="move --live t j u k", left=journal(LOWEST, ()))


def journals_that_differ():
    others = ((1, (SMALL,)), (2, (ACME, DOWN)), (4, (ACME, GONE, BETA, ("release", "beta", 3))))
    for epoch, entries in others:
        had = journal(GROWN, entries)
        yield case(f"another entry of the epoch {epoch}", [f"differs at {epoch}"], 14, had=had,
                   left=had)
    had = journal(GROWN, ALL + (UP,))
    yield case("one entry too many", ["differs at 5"], 14, had=had, left=had)
    had = journal(GROWN, ALL)
    yield case("all entries, where live VPNs are wanted", ["vpn 3 is 1", "differs at 1"], 14,
               words="move --live t j u k", had=had, left=had)


def faults_of_the_old():
    nothing = b""
    yield case("an old journal that is not there", ["cabinet"], 6, old=b"", left=nothing)
    yield case("an old topology that is not there", ["cabinet"], 6, words="move x j u k",
               left=nothing)
    other = f"journal other {digest(LOW).hex()} {digest(STAR).hex()}"
    yield case("an old journal of another network", [other], 5, old=journal(LOW, ALL), left=nothing)
    yield case("an old journal that is damaged", ["journal damaged at 38"], 5,
               old=journal(STAR, ALL)[:60], left=nothing)
    yield case("an old journal whose head is damaged", ["journal damaged at 1"], 5,
               old=b"\1HOSX" + journal(STAR, ALL)[5:], left=nothing)
    yield case("an old journal whose disk fails", ["cabinet"], 6, more=("disk-fails read 1",),
               left=nothing)
    yield case("an output that fails at the numbers", [], 4, words="move --live t j u k",
               more=("write-fails 1",), left=nothing)
    yield case("an output that fails at the last line", [], 4, more=("write-fails 1",),
               left=journal(GROWN, ALL))


def faults_of_the_new():
    nothing = b""
    yield case("a new topology that is refused", ["new topology 5 3"], 2, new=WRONG, left=nothing)
    yield case("a new topology that is not there", ["new cabinet"], 6, words="move t j x k",
               left=nothing)
    had = journal(STAR, ALL)
    other = f"new journal other {digest(STAR).hex()} {digest(GROWN).hex()}"
    yield case("a new journal of another network", [other], 5, had=had, left=had)
    yield case("the same, once the numbers are out", ["vpn 3 is 1", other], 5,
               words="move --live t j u k", had=had, left=had)
    had = journal(GROWN, ALL)[:60]
    yield case("a new journal that is damaged", ["new journal damaged at 38"], 5, had=had, left=had)
    had = b"\1HOSX" + journal(GROWN, ALL)[5:]
    yield case("a new journal whose head is damaged", ["new journal damaged at 1"], 5, had=had,
               left=had)
    had = journal(GROWN, (ACME, ("release", "acme", 7)))
    at = len(journal(GROWN, (ACME,))) - 1
    yield case("a new journal with an entry that is not sound", [f"new journal damaged at {at}"], 5,
               had=had, left=had)


def wrong_words():
    for words, wrong in (("move", 2), ("move --live", 3), ("move --live --live t j u k", 3),
                         ("move --live --tariff hops t j u k", 3), ("move --tariff", 3),
                         ("move --tariff nope t j u k", 3), ("move --tariff hops", 4),
                         ("move --tariff hops --tariff hops t j u k", 4), ("move -t j u k", 2),
                         ("move t", 3), ("move t j", 4), ("move t j u", 5),
                         ("move t j u --live", 5),
                         ("move t j u j", 5), ("move --live t j u j", 6), ("move t j u k x", 6),
                         ("move --tariff hops --live t j u j", 8)):
        yield case(f"wrong words: {words}", [f"words {wrong}"], 1, words=words, left=b"")


def main():
    cases = [*whole(), *networks_that_do_not_go_on(), *entries_that_are_not_sound(),
             *journals_that_differ(), *faults_of_the_old(), *faults_of_the_new(), *wrong_words()]
    print("# Written by bench/cases/move_cases.py: a journal that is moved to another network.")
    print("\n".join(f"= {line}" for line in STAR))
    for lines in cases:
        print()
        print("\n".join(lines))


if __name__ == "__main__":
    tell_usage(__doc__)
    main()
