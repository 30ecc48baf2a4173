#!/usr/bin/env python3
"""Writes crates/cases_program/data/memory.cases: calls that may want memory, where there is plenty.

No clause ties want of memory to a growth that was refused, so a body that always tells it would be
proved. Each call that no other file has at a large size is here at a small and at a large one, by
hoses of 2, 9 and 64 endpoints: entries that are moved, cut off, shipped, followed and audited, and
what a run with a journal and a session of a server are asked; a certificate of 64 endpoints that is
judged; and `vpns` and `admit-after` in sessions up to the twelfth. An entry of 64 endpoints and 511
links, with the longest name, is the largest that there is. `run` without a journal, `prove`,
`price` and `gen` are at their largest in line.cases, large.cases, prove.cases, price_networks.cases
and gen.cases. A host has no file here: bench/judge/reasons.py has one of 64 endpoints.

Journals and packets are spelled by move_cases.py and packets.py; what is replied, and what an audit
tells, is by planner.py, but for the reservations of the largest entry, which are by hand.

usage: bench/cases/memory_cases.py | diff - crates/cases_program/data/memory.cases
"""
import os
import re
import sys
from hashlib import sha256
from typing import NamedTuple

sys.path.insert(0, os.path.join(os.path.dirname(os.path.abspath(__file__)), "..", "parts"))
from usage import tell_usage

import check_certificate
from certificate_cases import given, topology_of, written
from certificate_lines import certificate
from move_cases import digest, journal, spelled
from packets import packet_of, shown
from planner import Link, Network, Server, Vpn, audit_lines, canonical_plan, ends_text, plan_cost

LARGEST = 3_471  # bytes of a body
WIDE = ("64", "node n{0}"), "node h", ("64", "link n{0} h 100 1"), "end"
LONG = ("512", "node n{0}"), ("511", "link n{0} n{1} 100 1"), "end"
PAIR = "node a", "node b", "link a b 1000 1", "end"
SESSIONS, ADMITTED = 12, 50


class Order(NamedTuple):
    """A hose of rates of 1, what it reserves, and of how many admissions of it a journal is."""

    name: str
    network: tuple
    customer: str
    nodes: list
    plan: list
    times: int

    def told(self, done):
        many = "an entry" if self.times == 1 else "two entries"
        return f"{many} of {self.name} {'is' if self.times == 1 else 'are'} {done}"

    def hose(self):
        return [(node, 1) for node in self.nodes]

    def entry(self):
        return "admit", self.customer, self.hose(), self.plan

    def lines(self):
        """Those of the network."""
        return given(self.network).splitlines()

    def journal(self, times=None):
        return journal(self.lines(), [self.entry()] * (times or self.times))

    def packets(self):
        """Those of all entries of the journal."""
        value, body = digest(self.lines()), spelled(self.entry())
        for epoch in range(1, self.times + 1):
            yield packet_of(epoch, value, body)
            value = sha256(value + body).digest()


def planners(network):
    """The network as planner.py has it."""
    read = topology_of(network)
    links = [Link(read.nodes.index(link.a), read.nodes.index(link.b), link.capacity, link.length,
                  link.cost) for link in read.links]
    return Network(read.nodes, links)


def star_of(ends):
    """Each endpoint is at the end of a link."""
    network, nodes = planners(WIDE), list(range(ends))
    plan = canonical_plan(network, set(range(len(network.links))), [(node, 1) for node in nodes])
    return Order(f"{ends} endpoints", WIDE, "acme", nodes, plan, 2)


def largest():
    """Half of 64 endpoints stand at each end of a line: so many as are before a link, 32 at most,
    reserve 1 on it, and behind the middle so many as come after it."""
    nodes = [*range(32), *range(480, 512)]
    plan = [(link, min(link + 1, 32, 511 - link)) for link in range(511)]
    order = Order("64 endpoints and 511 links", LONG, "the-longest-name", nodes, plan, 1)
    assert len(spelled(order.entry())) == LARGEST
    assert plan_cost(planners(LONG), plan) == 2 * sum(range(1, 32)) + 32 * 449
    return order


def by_load(line):
    """A line of an audit; of a link its number and what it carries, with a gap between them."""
    return re.sub(r"^link (\d+) .* load ", r"link \1 {..} load ", line)


def moved(order):
    held = order.journal(1)
    for live in (False, True):
        yield [f"case {'the live VPN' if live else 'the journal'} of {order.name} is moved",
               f"words move {'--live ' if live else ''}t j u k",
               *written("=", order.network), *written("+", order.network),
               f"journal {held.hex()}", *(["> vpn 1 is 1"] if live else []), "> moved 1 live 1",
               "status 0", f"left {held.hex()}", f"new-left {held.hex()}"]


def cut(order):
    """Of two entries the last one is cut off."""
    held = order.journal()
    yield [f"case the last of two entries of {order.name} is cut off", "words cut t j 1 k",
           *written("=", order.network), *written("+", order.network), f"journal {held.hex()}",
           "> moved 1 live 1", "status 0", f"left {held.hex()}",
           f"new-left {order.journal(1).hex()}"]


def shipped(order):
    held = order.journal().hex()
    yield [f"case {order.told('shipped')}", "words ship t j 1",
           *written("=", order.network), f"journal {held}",
           *(f">. {shown(packet)}" for packet in order.packets()), "status 0", f"left {held}"]


def followed(order):
    packets = list(order.packets())
    yield [f"case {order.told('followed')}", "words follow t j",
           *written("=", order.network), *(f"<. {shown(packet)}" for packet in packets),
           *(f"> have {epoch}" for epoch in range(1, order.times + 1)),
           f"taken {sum(map(len, packets))}", "status 0", f"left {order.journal().hex()}"]


def audited(order):
    network, held = planners(order.network), order.journal().hex()
    vpn = Vpn(order.customer, order.hose(), order.plan, plan_cost(network, order.plan))
    live = {epoch: vpn for epoch in range(1, order.times + 1)}
    yield [f"case {order.told('audited')}", "words audit t j",
           *written("=", order.network), f"journal {held}",
           *(f"> {by_load(line)}" for line in audit_lines(network, order.times, live)), "status 0",
           f"left {held}"]


def judged(order):
    network, cost = planners(order.network), plan_cost(planners(order.network), order.plan)
    lines = certificate(network, range(len(network.links)), order.hose(), order.plan)
    assert check_certificate.judged(topology_of(order.network), given(lines)) == f"yes {cost}"
    yield [f"case a certificate of {order.name} is judged", "words check t",
           *written("=", order.network), *written("<", lines), f"> yes {cost}", "status 0",
           f"taken {len(given(lines))}"]


def asked(order):
    """What a customer says and is told, and the journal and the audit that this leads to."""
    server, told = Server(planners(order.network)), []
    ends = ends_text(server.network, order.hose())
    for words, said in ((f"admit {ends}", [order.hose()]), ("show 1", [1]),
                        (f"quote {ends}", [order.hose()]), ("take 1", [1]),
                        (f"admit-after 2 {ends}", [2, order.hose()]), ("vpns", []),
                        ("release 1", [1])):
        told.append((words, server.answer(order.customer, words.split()[0], said)))
    left = journal(order.lines(), [order.entry()] * 3 + [("release", order.customer, 1)])
    return told, left.hex(), audit_lines(server.network, server.epoch, server.live)


def in_a_run(order):
    told, left, _ = asked(order)
    yield [f"case orders and questions of {order.name}, in a run with a journal", "words run j",
           *written("<", order.network),
           *(line for words, reply in told
             for line in (f"< {order.customer} {words}", f"> {reply}")),
           "status 0", f"left {left}"]


def in_a_session(order):
    told, left, audit = asked(order)
    yield [f"case orders and questions of {order.name}, in a session of a server",
           "words serve t j 7000 1 1", *written("=", order.network), "> ready",
           f"1< hello {order.customer}", "1> welcome at 0",
           *(line for words, reply in told for line in (f"1< {words}", f"1> {reply}")),
           "1< bye", "1> bye", *(f"> {by_load(line)}" for line in audit), "status 0", f"left {left}"]


def sessions():
    numbers = " ".join(str(number + 1) for number in range(ADMITTED))
    yield [f"case {SESSIONS} sessions ask for the numbers of {ADMITTED} VPNs, and then admit more",
           f"words serve t j 7000 {SESSIONS} 1", *written("=", PAIR), "> ready",
           "1< hello acme", "1> welcome at 0", f"1<{ADMITTED} admit a:1 b:1",
           f"1>{ADMITTED} admitted {{1}} cost 1 at {{1}} links 0:1", "1< bye", "1> bye",
           *(line for session in range(2, SESSIONS) for line in (
               f"{session}< hello acme", f"{session}> welcome at {ADMITTED}",
               f"{session}< vpns", f"{session}> vpns {numbers} at {ADMITTED}",
               f"{session}< bye", f"{session}> bye")),
           f"{SESSIONS}< hello acme", f"{SESSIONS}> welcome at {ADMITTED}",
           f"{SESSIONS}< admit-after {ADMITTED} a:1 b:1",
           f"{SESSIONS}> admitted {ADMITTED + 1} cost 1 at {ADMITTED + 1} links 0:1",
           f"{SESSIONS}< admit-after {ADMITTED} a:1 b:1",
           f"{SESSIONS}> newest {ADMITTED + 1} at {ADMITTED + 1}",
           f"{SESSIONS}< bye", f"{SESSIONS}> bye", f"> epoch {ADMITTED + 1}",
           f"> link 0 {{..}} load {ADMITTED + 1}",
           f">{ADMITTED + 1} vpn {{1}} acme cost 1 ends a:1 b:1 links 0:1",
           f"> live {ADMITTED + 1} cost {ADMITTED + 1}", "status 0"]


def main():
    stars, most = [star_of(ends) for ends in (2, 9, 64)], largest()
    print("# Written by bench/cases/memory_cases.py: "
          "calls that may want memory, where there is plenty.")
    for kind, orders in ((moved, [*stars, most]), (cut, stars), (shipped, [*stars, most]),
                         (followed, [*stars, most]), (audited, [*stars, most]),
                         (judged, stars[-1:]), (in_a_run, stars), (in_a_session, stars)):
        for order in orders:
            for lines in kind(order):
                print("\n" + "\n".join(lines))
    for lines in sessions():
        print("\n" + "\n".join(lines))


if __name__ == "__main__":
    tell_usage(__doc__)
    main()
