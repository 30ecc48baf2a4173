#!/usr/bin/env python3
"""Writes crates/cases_program/data/prove.cases and prove_networks.cases: what `hosed prove` writes.

The certificates on the star, on networks of one link and on two parts were worked out by hand, and
tools/check_certificate.py has to judge each to be valid before it is written. Those of the backbone
in demo/ are by the planner of planner.py and the distances of certificate_lines.py, which share
no code with the crates.

usage: bench/cases/prove_cases.py star | diff - crates/cases_program/data/prove.cases
       and so with `networks` and prove_networks.cases
"""
import os
import sys

sys.path.insert(0, os.path.join(os.path.dirname(os.path.abspath(__file__)), "..", "parts"))
from usage import tell_usage

import check_certificate
from certificate_cases import BY_HOPS, BY_LONG, LINES, STAR, apart, backbone, given, put
from certificate_cases import star_in_json, topology_of, written

ENDS = "a:3 b:4 c:5"
# Two nodes that a link joins, and one that none does.
APART = ["node a", "node b", "node c", "link a c 10 1", "end"]
# Two parts: a and b, and c and d. A hose on the first costs 2 * 7 = 14, and so is each number of a
# node that a root does not reach.
PARTS = ["node a", "node b", "node c", "node d", "link a b 10 7", "link c d 10 5", "end"]
BY_PARTS = ["cost 14", "hose a:2 b:3", "use 0 2", "pot 0 0 0 7 14 14", "pot 1 0 7 0 14 14",
            "pot 2 0 14 14 0 5", "pot 3 0 14 14 5 0", "end"]
# Without a link nothing is joined.
ALONE = ["node a", "node b", "end"]
# Two links side by side, of which the second costs less; the first would do as well at 2 * 3.
SIDE = ["node a", "node b", "link a b 10 3", "link a b 10 2", "link b a 10 2", "end"]


def proved(name, words, lines, *settings, network=None, tariff=None):
    """A case in which a certificate is written, on the star where no network is given."""
    topology = topology_of(network or STAR, tariff)
    cost = given(lines).split("\n", 1)[0].replace("cost", "yes")
    assert check_certificate.judged(topology, given(lines)) == cost, name
    yield [f"case {name}", f"words {words}", *settings, *written("=", network or []),
           *written(">", lines), "status 0", "taken 0"]


def ended(name, words, told, status, *settings):
    """A case in which none is."""
    yield [f"case {name}", f"words {words}", *settings, *([f"> {told}"] if told else []),
           f"status {status}", "taken 0"]


def hoses():
    yield from proved("three endpoints", f"prove t {ENDS}", LINES)
    yield from proved("endpoints in another order", "prove t c:5 a:3 b:4", LINES)
    # Of a:9 b:1 c:1 the middle carries min(9, 2), 1 and 1: 2 * 1 + 1 * 2 + 1 * 3 = 7.
    yield from proved("an endpoint with most of the rates", "prove t a:9 b:1 c:1",
                      ["cost 7", "hose a:9 b:1 c:1", "use 0 2", "use 1 1", "use 2 1", *LINES[5:]])
    # More than the links can carry: capacities do not matter.
    yield from proved("rates above the capacities", "prove t a:1000000 b:1000000",
                      ["cost 3000000", "hose a:1000000 b:1000000", "use 0 1000000",
                       "use 1 1000000", *LINES[5:]])
    yield from proved("an endpoint in the middle", "prove t h:2 c:1",
                      ["cost 3", "hose c:1 h:2", "use 2 1", *LINES[5:]])


def parts():
    yield from proved("two parts", "prove t a:2 b:3", BY_PARTS, network=PARTS)
    yield from proved("links side by side", "prove t a:2 b:2",
                      ["cost 4", "hose a:2 b:2", "use 1 2", "pot 0 0 0 2", "pot 1 0 2 0", "end"],
                      network=SIDE)
    yield from ended("no way between the endpoints", "prove t a:1 b:1", "none", 0,
                     *written("=", APART))
    yield from ended("endpoints in two parts", "prove t a:1 c:1", "none", 0, *written("=", PARTS))
    yield from ended("one of three endpoints in another part", "prove t a:1 b:1 c:1", "none", 0,
                     *written("=", PARTS))
    yield from ended("no link at all", "prove t a:1 b:1", "none", 0, *written("=", ALONE))
    yield from ended("the output fails where there is no plan", "prove t a:1 b:1", "", 4,
                     "write-fails 1", *written("=", APART))
    yield ["case the output fails in the line that tells that there is no plan",
           "words prove t a:1 b:1", "write 3", "write-fails 2", *written("=", APART), ">. non",
           "status 4", "taken 0"]


def tariffs():
    yield from proved("lengths are the costs", f"prove --tariff flat t {ENDS}", LINES)
    yield from proved("each link costs 1", f"prove --tariff hops t {ENDS}", BY_HOPS, tariff="hops")
    yield from proved("each link costs 5 and twice its length", f"prove --tariff long t {ENDS}",
                      BY_LONG, tariff="long")


def topologies():
    yield from proved("a network in JSON", f"prove t.json {ENDS}", LINES, star_in_json())
    yield from proved("a network in JSON by a tariff", f"prove --tariff hops t.json {ENDS}",
                      BY_HOPS, star_in_json(), tariff="hops")


def rows_of(nodes):
    """The lines of each root in the network of one link of cost 1: 1 where it reaches no node."""
    parts = [min(64, nodes - first) for first in range(0, nodes, 64)]

    def lines(root, places):
        for part, count in enumerate(parts):
            numbers = ["1"] * count
            for place in places:
                if part == place // 64:
                    numbers[place % 64] = "0"
            yield f"pot {root} {64 * part} {' '.join(numbers)}"

    for root in range(nodes):
        yield from lines(root, [root])


def sizes():
    start = ["cost 1", "hose n0:1 n1:1", "use 0 1"]
    for nodes in (2, 63, 64, 65, 128, 129):
        yield from proved(f"{nodes} nodes", "prove t n0:1 n1:1", [*start, *rows_of(nodes), "end"],
                          network=apart(nodes))
    text, lines = backbone()
    words = lines[1].replace("hose", "prove t")
    yield from proved("a hose on the backbone", words, lines, network=text)
    assert lines[0] == "cost 38200"
    # As many endpoints as there may be, in a row: each carries its rate of 1 to the middle.
    row = [("64", "node n{0}"), ("63", "link n{0} n{1} 9 1"), "end"]
    ends = [f"n{node}:1" for node in range(64)]
    pairs = [f"use {link} {min(link + 1, 63 - link)}" for link in range(63)]
    cost = sum(min(link + 1, 63 - link) for link in range(63))
    far = [f"pot {root} 0 " + " ".join(str(abs(root - node)) for node in range(64))
           for root in range(64)]
    yield from proved("64 endpoints", "prove t " + " ".join(ends),
                      [f"cost {cost}", "hose " + " ".join(ends), *pairs, *far, "end"], network=row)


def words():
    most = [f"n{node}:1" for node in range(65)]
    for name, given_words, place in (
        ("prove alone", "prove", 2),
        ("no endpoint", "prove t", 3),
        ("one endpoint", "prove t a:3", 4),
        ("one endpoint that is no node's", "prove t x:3", 4),
        ("65 endpoints", "prove t " + " ".join(most), 67),
        ("65 endpoints, of which the first has no rate", "prove t n0 " + " ".join(most[1:]), 3),
        ("a name twice", "prove t a:3 a:4", 4),
        ("a name and a rate twice", "prove t a:3 b:4 a:3", 5),
        ("a name twice that is no node's", "prove t x:3 x:4", 4),
        ("a rate of 0", "prove t a:0 b:4", 3),
        ("a rate past its limit", "prove t a:3 b:1000001", 4),
        ("a rate that 64 bits do not hold", "prove t a:3 b:18446744073709551617", 4),
        ("a rate with a zero before it", "prove t a:03 b:4", 3),
        ("a rate with a sign", "prove t a:+3 b:4", 3),
        ("no rate", "prove t a: b:4", 3),
        ("no colon", "prove t a b:4", 3),
        ("no name", "prove t :3 b:4", 3),
        ("two colons", "prove t a:3:4 b:4", 3),
        ("a name with a large letter", "prove t A:3 b:4", 3),
        ("a name of 17 bytes", "prove t a:3 abcdefghijklmnopq:4", 4),
        ("a word after the endpoints", "prove t a:3 b:4 c", 5),
        ("endpoints before the topology", "prove a:3 b:4 t", 4),
        ("a topology that begins as an option", "prove -t a:3 b:4", 2),
        ("a topology of 256 bytes", "prove " + "t" * 256 + " a:3 b:4", 2),
        ("another option", "prove --other hops t a:3 b:4", 2),
        ("an option without a name", "prove --tariff", 3),
        ("a tariff that is not there", "prove --tariff nope t a:3 b:4", 3),
        ("a tariff and no topology", "prove --tariff hops", 4),
        ("a tariff and one endpoint", "prove --tariff hops t a:3", 6),
        ("a tariff and a name twice", "prove --tariff hops t a:3 a:4", 6),
        ("an option after the topology", "prove t --tariff hops a:3 b:4", 3),
    ):
        yield from ended(f"wrong words: {name}", given_words, f"words {place}", 1)
    # The form of the words is judged before a topology is looked for, and their names after that.
    for name, given_words, place in (
        ("the first name is no node's", "prove t x:3 b:4", 3),
        ("the second name is no node's", "prove t a:3 x:4", 4),
        ("two names are no node's", "prove t a:3 x:4 y:5", 4),
        ("a name of 16 bytes is no node's", "prove t a:3 abcdefghijklmnop:4", 4),
        ("the name of a node and more", "prove t a:3 b-:4", 4),
        ("after a tariff a name is no node's", "prove --tariff hops t a:3 x:4", 6),
    ):
        yield from ended(name, given_words, f"words {place}", 1)


def faults():
    yield from ended("in JSON a name is no node's", "prove t.json a:3 x:4", "words 4", 1,
                     star_in_json())
    yield from ended("65 nodes, and a name that is no node's", "prove t n0:1 n65:1", "words 4", 1,
                     *written("=", apart(65)))
    wrong = ["= node a", "= node a", "= end"]
    for name, told, status, settings in (
        ("a topology that has a node twice", "topology 2 2", 2, wrong),
        ("a topology without its end", "topology 2 1", 2, ["= node a"]),
        ("a topology with a link to nowhere", "topology 2 3", 2,
         ["= node a", "= link a b 1 1", "= end"]),
        ("a topology of which nothing is told", "cabinet", 6, []),
        ("the cabinet fails", "cabinet", 6, ["cabinet-fails 1", *written("=", STAR)]),
    ):
        yield from ended(name, f"prove t {ENDS}", told, status, *settings)
        yield from ended(f"{name}, and a name is no node's", "prove t a:3 x:4", told, status,
                         *settings)
        yield from ended(f"{name}, and a name comes twice", "prove t a:3 a:4", "words 4", 1,
                         *settings)
    yield from ended("the line that tells a wrong topology is not written", f"prove t {ENDS}", "",
                     2, "write-fails 1", *wrong)
    yield from ended("JSON that is none", f"prove t.json {ENDS}", "topology json", 2, "=. []")
    yield from ended("JSON without a link's nodes", f"prove t.json {ENDS}", "topology links 0", 2,
                     '=. {o}"nodes":["a"],"links":[{o}{c}]{c}')


def calls():
    text = given(LINES)
    yield from proved("a byte a call", f"prove t {ENDS}", LINES, "write 1")
    # The text goes out in one piece of 117 bytes: where calls take 7, the third one fails.
    yield [f"case the output fails in the certificate", f"words prove t {ENDS}", "write 7",
           "write-fails 3", *(f">. {line}" for line in part_of(text[:14])), "status 4", "taken 0"]
    yield from ended("the output fails at once", f"prove t {ENDS}", "", 4, "write-fails 1")
    yield from ended("the line that tells wrong words is not written", "prove t a:3", "", 1,
                     "write-fails 1")
    yield from ended("the line that tells a name that is no node's is not written",
                     "prove t a:3 x:4", "", 1, "write-fails 1")
    yield from ended("a text that is not in the cabinet", f"prove u {ENDS}", "cabinet", 6)
    yield from ended("a text of 255 bytes that is not in the cabinet",
                     "prove " + "t" * 255 + f" {ENDS}", "cabinet", 6)
    yield ["case the input is not touched", f"words prove t {ENDS}", "< cost 1", "read-fails 1",
           *written(">", LINES), "status 0", "taken 0"]


def part_of(text):
    """The lines of a text, of which the last has no line feed."""
    *lines, last = text.split("\n")
    return [*(f"{line}{{b10}}" for line in lines), last]


def main():
    if sys.argv[1:] == ["star"]:
        head = ["# Written by bench/cases/prove_cases.py star: "
                "certificates that are written on a star,",
                "# and the words that are refused.", *written("=", STAR)]
        put(head, hoses(), tariffs(), words(), calls())
    elif sys.argv[1:] == ["networks"]:
        head = ["# Written by bench/cases/prove_cases.py networks: "
                "certificates on networks in parts, in",
                "# JSON and with more nodes than a line has numbers, and wrong topologies."]
        put(head, parts(), topologies(), sizes(), faults())
    else:
        sys.exit(__doc__)


if __name__ == "__main__":
    tell_usage(__doc__)
    main()
