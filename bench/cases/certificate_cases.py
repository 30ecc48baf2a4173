#!/usr/bin/env python3
"""Writes crates/cases_program/data/check.cases and check_networks.cases.

Each rule of a certificate is broken alone and by one, and each line of one comes otherwise. The
answers were worked out by hand, and stand here beside the texts; tools/check_certificate.py has to
give the same before they are written. The certificate of the backbone in demo/ is by the planner
of planner.py and the distances of certificate_lines.py.

usage: bench/cases/certificate_cases.py star | diff - crates/cases_program/data/check.cases
       and so with `networks` and check_networks.cases
"""
import dataclasses
import os
import re
import sys

sys.path.insert(0, os.path.join(os.path.dirname(os.path.abspath(__file__)), "..", "parts"))
from usage import tell_usage

import check_certificate
import networks
from certificate_lines import TARIFFS, certificate
from planner import Link, Network, canonical_plan

STAR = ["node a", "node b", "node c", "node h", "link a h 10 1", "link b h 10 2", "link c h 10 3",
        "end"]
# Each endpoint reserves its rate, which is at most half of 12: 3 * 1 + 4 * 2 + 5 * 3 = 26. The
# numbers are the distances; they weigh 32 from a, 34 from b, 32 from c and 26 from h.
LINES = ["cost 26", "hose a:3 b:4 c:5", "use 0 3", "use 1 4", "use 2 5", "pot 0 0 0 3 4 1",
         "pot 1 0 3 0 5 2", "pot 2 0 4 5 0 3", "pot 3 0 1 2 3 0", "end"]
TOLD = "yes 26"
WRAPPED = 2**64

# ---- what the lines of a case stand for


def spelled(text, nth):
    """A text without its marks, as it stands at its nth time."""
    marks = {"s": " ", "t": "\t", "r": "\r", "o": "{", "c": "}"}

    def mark(found):
        word = found[1]
        if word in marks:
            return marks[word]
        return chr(int(word[1:])) if word[0] == "b" else str(int(word) + nth)

    return re.sub(r"\{(.*?)\}", mark, text)


def given(lines):
    """The bytes of lines, of which each is a text, or how often it comes (and `.`) and a text."""
    parts = []
    for line in lines:
        rule, text = line if isinstance(line, tuple) else ("", line)
        times, feed = rule.rstrip("."), "" if rule.endswith(".") else "\n"
        parts += [spelled(text, nth) + feed for nth in range(int(times or 1))]
    return "".join(parts)


def written(mark, lines):
    for line in lines:
        rule, text = line if isinstance(line, tuple) else ("", line)
        yield f"{mark}{rule} {text}"


def topology_of(lines, tariff=None):
    topology = networks.read_topology(given(lines))
    if tariff is None:
        return topology
    links = [dataclasses.replace(link, cost=TARIFFS[tariff](link.length))
             for link in topology.links]
    return networks.Topology(topology.nodes, links)


class Cases:
    """Cases on one network, whose text stands in each unless it stands in the file's head."""

    def __init__(self, network, words="check t", tariff=None, in_head=False):
        self.topology, self.words = topology_of(network, tariff), words
        self.head = [] if in_head else list(written("=", network))

    def case(self, name, lines, answer, *settings):
        """A certificate, and what is answered; words that are not those of all are a setting."""
        text = given(lines)
        assert check_certificate.judged(self.topology, text) == answer, (name, answer)
        settings = [f"words {self.words}", *settings]  # of two lines the later one counts
        words = [line for line in settings if line.startswith("words ")][-1:]
        others = [line for line in settings if not line.startswith("words ")]
        yield [f"case {name}", *words, *others, *self.head, *written("<", lines), f"> {answer}",
               f"status {0 if answer.startswith('yes') else 10}", f"taken {len(text)}"]

    def changes(self, base, changes):
        """Certificates in which one line or several at a place are others."""
        for name, at, others, answer in changes:
            others = [others] if isinstance(others, (str, tuple)) else others
            yield from self.case(name, [*base[:at], *others, *base[at + 1:]], answer)


def ended(name, lines, words, told, status, *settings):
    """A case in which no certificate is judged."""
    yield [f"case {name}", f"words {words}", *settings, *lines,
           *([f"> {told}"] if told else []), f"status {status}"]


# ---- on the star


def answers(star):
    yield from star.case("the certificate of a star", LINES, TOLD)
    yield from star.changes(LINES, [
        ("a cost that is not that of the pairs", 0, "cost 25", "no 3"),
        ("an amount that is not the lesser side's", 2, "use 0 4", "no 2"),
        ("two nodes further from each other than their link costs", 8, "pot 3 0 2 2 3 0", "no 5"),
        ("a root that is no endpoint and weighs too little", 8, "pot 3 0 0 2 3 0", "no 6"),
        ("a root that is not at 0", 8, "pot 3 0 1 2 3 1", "no 4"),
    ])
    yield from star.case("without its last line", LINES[:-1], "no 1")


def edges(star):
    """Each rule broken alone and by one."""
    yield from star.changes(LINES, [
        ("rule 2: one less on the first link", 2, "use 0 2", "no 2"),
        ("rule 2: one more on the last link", 4, "use 2 6", "no 2"),
        ("rule 2: one less on the last link", 4, "use 2 4", "no 2"),
        ("an endpoint more, which is in the middle", 1, "hose a:3 b:4 c:5 h:1", TOLD),
        ("rule 2: one less at the last endpoint alone", 1, "hose a:3 b:4 c:4", "no 2"),
        ("rule 3: a cost of one more", 0, "cost 27", "no 3"),
        ("rule 4: at the first root", 5, "pot 0 0 1 3 4 1", "no 4"),
        ("rule 4: at a root between", 6, "pot 1 0 3 1 5 2", "no 4"),
        ("rule 5: the far end of the first link, at the first root", 5, "pot 0 0 0 3 4 2", "no 5"),
        ("rule 5: the near end of the first link, at the last root", 8, "pot 3 0 2 2 3 0", "no 5"),
        ("rule 5: the near end of the last link, at the first root", 5, "pot 0 0 0 3 5 1", "no 5"),
        ("rule 5: the far end of the last link, at the third root", 7, "pot 2 0 4 5 0 4", "no 5"),
        ("rule 5: the near end of the last link, at the last root", 8, "pot 3 0 1 2 4 0", "no 5"),
        ("rule 5: the last node, at the second root", 6, "pot 1 0 3 0 5 1", "no 5"),
        ("numbers below the distances that weigh enough", 6, "pot 1 0 2 0 4 2", TOLD),
        ("numbers that differ by all that links cost", 5, "pot 0 0 0 3 3 1", TOLD),
    ])
    # From a as from h it weighs 5 * 1 + 4 * 2 + 1 * 3 = 16, and from c 5 * 1 + 4 * 5 more than 16.
    first = ["cost 16", "hose a:5 b:4 c:1", "use 0 5", "use 1 4", "use 2 1", *LINES[5:]]
    yield from star.case("a hose that costs no more from its first node", first, "yes 16")
    yield from star.changes(first, [
        ("rule 6: at the first root", 5, "pot 0 0 0 3 3 1", "no 6"),
        ("rule 6: at the last root", 8, "pot 3 0 1 2 2 0", "no 6"),
    ])
    # From c it weighs 1 * 4 + 4 * 5 = 24, as from h.
    third = ["cost 24", "hose a:1 b:4 c:5", "use 0 1", "use 1 4", "use 2 5", *LINES[5:]]
    yield from star.case("a hose that costs no more from its last node", third, "yes 24")
    yield from star.changes(third, [
        ("rule 6: at the last endpoint", 7, "pot 2 0 3 5 0 3", "no 6"),
        ("rule 6: at the last root, the first node", 8, "pot 3 0 0 2 3 0", "no 6"),
    ])


def several(star):
    """The lowest rule is told, wherever it stands in the text."""
    low, text = "pot 3 0 1 2 3 1", LINES
    yield from star.case("rules 2 and 3 fail", ["cost 25", text[1], "use 0 4", *text[3:]], "no 2")
    yield from star.case("rules 3 and 4 fail", ["cost 25", *text[1:8], low, "end"], "no 3")
    yield from star.case("rules 4, 5 and 6 fail", [*text[:8], "pot 3 0 0 0 0 9", "end"], "no 4")
    yield from star.case("rules 5 and 6 fail", [*text[:5], "pot 0 0 0 0 0 9", *text[6:]], "no 5")
    yield from star.case("rule 6 fails at the first root and rule 5 at the last",
                         [*text[:5], "pot 0 0 0 0 0 0", *text[6:8], "pot 3 0 2 2 3 0", "end"],
                         "no 5")
    yield from star.case("rule 5 fails at the first root and rule 4 at the last",
                         [*text[:5], "pot 0 0 0 3 4 2", *text[6:8], low, "end"], "no 4")
    yield from star.case("rules 2 to 6 fail, and the last line is not there",
                         ["cost 25", text[1], "use 0 4", *text[3:8], "pot 3 0 0 0 0 9"], "no 1")


def lines_otherwise(star):
    """Each line missing, doubled, in another place, and with a space."""
    used = ("2", "3", "4")
    for at, line in enumerate(LINES):
        fails = "no 2" if str(at) in used else "no 1"
        yield from star.case(f"line {at + 1} missing", [*LINES[:at], *LINES[at + 1:]], fails)
    for at, line in enumerate(LINES):
        yield from star.case(f"line {at + 1} doubled", [*LINES[:at], line, *LINES[at:]], "no 1")
    for at, line in enumerate(LINES[:-1]):
        turned = [*LINES[:at], LINES[at + 1], line, *LINES[at + 2:]]
        yield from star.case(f"lines {at + 1} and {at + 2} exchanged", turned, "no 1")
    for name, form in (("a space after", "{}{{s}}"), ("a space before", "{{s}}{}"),
                       ("a carriage return after", "{}{{r}}"),
                       ("an empty line after", "{}{{b10}}")):
        for at, line in enumerate(LINES):
            other = form.format(line)
            text = [*LINES[:at], other, *LINES[at + 1:]]
            yield from star.case(f"{name} line {at + 1}", text, "no 1")
    for at, line in enumerate(LINES[:-1]):
        text = [*LINES[:at], line.replace(" ", "  ", 1), *LINES[at + 1:]]
        yield from star.case(f"two spaces in line {at + 1}", text, "no 1")
    yield from star.changes(LINES, [
        ("a tab for a space", 0, "cost{t}26", "no 1"),
        ("a line of more than 4,096 bytes", 0, [("4100.", "{s}"), "cost 26"], "no 1"),
        ("a remark", 0, ["# by hand", "cost 26"], "no 1"),
        ("another first word", 0, "costs 26", "no 1"),
        ("a capital letter", 9, "End", "no 1"),
        ("a word after the last", 9, "end 0", "no 1"),
        ("a byte 0 after the last line", 9, ["end", (".", "{b0}")], "no 1"),
        ("a byte 255 after the last word", 9, "end{b255}", "no 1"),
    ])
    yield from star.case("no text", [], "no 1")
    yield from star.case("a line feed alone", [""], "no 1")
    yield from star.case("the last line ends with the input", [*LINES[:-1], (".", "end")], TOLD)
    yield from star.case("the text breaks off before the last letter", [*LINES[:-1], (".", "en")],
                         "no 1")
    yield from star.case("the same text twice", LINES * 2, "no 1")


def numbers(star):
    """Numbers at their limits, and past them."""
    yield from star.changes(LINES, [
        ("the greatest cost", 0, "cost 40000000000000000", "no 3"),
        ("a cost past the greatest", 0, "cost 40000000000000001", "no 1"),
        ("a cost of 18 digits", 0, "cost 100000000000000000", "no 1"),
        ("the least cost", 0, "cost 0", "no 3"),
        ("a cost with a leading zero", 0, "cost 026", "no 1"),
        ("a cost with a sign", 0, "cost +26", "no 1"),
        ("a cost that 64 bits do not hold", 0, f"cost {WRAPPED + 26}", "no 1"),
        ("no cost", 0, "cost", "no 1"),
        ("two costs", 0, "cost 26 26", "no 1"),
        ("a rate of 0", 1, "hose a:3 b:0 c:5", "no 1"),
        ("the greatest rate", 1, "hose a:3 b:1000000 c:5", "no 2"),
        ("a rate past the greatest", 1, "hose a:3 b:1000001 c:5", "no 1"),
        ("a rate with a leading zero", 1, "hose a:3 b:04 c:5", "no 1"),
        ("a rate that 64 bits do not hold", 1, f"hose a:{WRAPPED + 3} b:4 c:5", "no 1"),
        ("an endpoint without a rate", 1, "hose a:3 b: c:5", "no 1"),
        ("an endpoint without a colon", 1, "hose a:3 b c:5", "no 1"),
        ("an endpoint with two colons", 1, "hose a:3 b:4:4 c:5", "no 1"),
        ("an endpoint that is no node", 1, "hose a:3 b:4 d:5", "no 1"),
        ("an endpoint twice", 1, "hose a:3 b:4 a:5", "no 1"),
        ("one endpoint", 1, "hose a:3", "no 1"),
        ("no endpoint", 1, "hose", "no 1"),
        ("endpoints in another order", 1, "hose c:5 a:3 b:4", TOLD),
        ("an amount of 0", 2, "use 0 0", "no 1"),
        ("the greatest amount", 2, "use 0 32000000", "no 2"),
        ("an amount past the greatest", 2, "use 0 32000001", "no 1"),
        ("an amount that 64 bits do not hold", 2, f"use 0 {WRAPPED + 3}", "no 1"),
        ("a link with a leading zero", 2, "use 00 3", "no 1"),
        ("a link that 64 bits do not hold", 2, f"use {WRAPPED} 3", "no 1"),
        ("a link without an amount", 2, "use 0", "no 1"),
        ("a link with two amounts", 2, "use 0 3 3", "no 1"),
        ("a link past the last", 4, "use 3 5", "no 1"),
        ("a link left out that is used", 4, ["use 2 5", "without 2"], "no 1"),
        ("a link left out past the last", 4, ["use 2 5", "without 3"], "no 1"),
        ("a root with a leading zero", 5, "pot 00 0 0 3 4 1", "no 1"),
        ("a root that 64 bits do not hold", 5, f"pot {WRAPPED} 0 0 3 4 1", "no 1"),
        ("a first node that is not 0", 5, "pot 0 1 0 3 4 1", "no 1"),
        ("a first node that 64 bits do not hold", 5, f"pot 0 {WRAPPED} 0 3 4 1", "no 1"),
        ("a number with a leading zero", 5, "pot 0 0 0 03 4 1", "no 1"),
        ("a number with a sign", 5, "pot 0 0 0 -3 4 1", "no 1"),
        ("a number that 64 bits do not hold", 5, f"pot 0 0 0 {WRAPPED + 3} 4 1", "no 1"),
        ("a number too few", 5, "pot 0 0 0 3 4", "no 1"),
        ("a number too many", 5, "pot 0 0 0 3 4 1 1", "no 1"),
        ("no number", 5, "pot 0 0", "no 1"),
        ("the greatest number", 5, "pot 0 0 0 40000000000000000 4 1", "no 5"),
        ("a number past the greatest", 5, "pot 0 0 0 40000000000000001 4 1", "no 1"),
        ("a number of 18 digits", 5, "pot 0 0 0 100000000000000000 4 1", "no 1"),
        ("a root past the last", 8, ["pot 3 0 1 2 3 0", "pot 4 0 1 2 3 0"], "no 1"),
        ("a part past the last", 5, ["pot 0 0 0 3 4 1", "pot 0 64"], "no 1"),
    ])


def calls(star):
    """Streams that give and take less, and those that fail."""
    size, lines = len(given(LINES)), list(written("<", LINES))
    yield from star.case("a byte at a time", LINES, TOLD, "read 1")
    yield from star.case("the answer goes out by a byte", LINES, TOLD, "write 1")
    last = -(-size // 16) + 1
    for nth in (1, 2, last - 1, last):
        taken = min(16 * (nth - 1), size)
        yield [f"case call {nth} of the input fails", "words check t", "read 16",
               f"read-fails {nth}", *lines, "> read", "status 3", f"taken {taken}"]
    yield ["case the input fails after a line that is not as it should be", "words check t",
           "read 16", "read-fails 3", "< costs 26", *lines[1:], "> read", "status 3", "taken 32"]
    yield ["case the input fails, and the line that tells it is not written", "words check t",
           "read-fails 1", "write-fails 1", *lines, "status 3"]
    yield ["case a yes is not written", "words check t", "write-fails 1", *lines, "status 4"]
    yield ["case a no is not written", "words check t", "write-fails 1", "< costs 26", *lines[1:],
           "status 10"]
    yield ["case the cabinet fails", "words check t", "cabinet-fails 1", *lines, "> cabinet",
           "status 6", "taken 0"]
    yield ["case a text that is not in the cabinet", "words check u", *lines, "> cabinet",
           "status 6", "taken 0"]
    most = 2**30
    yield ["case 1 GiB", "words check t", "read 65536", *lines, f"more {most - size}",
           "> no 1", "status 10", f"taken {most}"]
    yield ["case a byte more than 1 GiB", "words check t", "read 65536", *lines,
           f"more {most - size + 1}", "> too long", "status 8", f"taken {most + 1}"]


def words(star):
    lines = list(written("<", LINES))
    for name, given_words, place in (
        ("check alone", "check", 2),
        ("a word after the topology", "check t x", 3),
        ("an endpoint after the topology", "check t a:3 b:4", 3),
        ("a topology that begins as an option", "check -t", 2),
        ("another option", "check --other hops t", 2),
        ("an option without a name", "check --tariff", 3),
        ("a tariff that is not there", "check --tariff nope t", 3),
        ("a tariff and no topology", "check --tariff hops", 4),
        ("two options", "check --tariff hops --tariff hops t", 4),
        ("a word after a tariff and a topology", "check --tariff hops t x", 5),
        ("an option after the topology", "check t --tariff hops", 3),
        ("a topology of 256 bytes", "check " + "t" * 256, 2),
    ):
        yield from ended(f"wrong words: {name}", lines, given_words, f"words {place}", 1, "taken 0")
    yield from ended("a topology of 255 bytes that is not in the cabinet", lines,
                     "check " + "t" * 255, "cabinet", 6, "taken 0")
    yield from ended("the line that tells wrong words is not written", lines, "check", "", 1,
                     "write-fails 1", "taken 0")


# Each link costs 1: 3 + 4 + 5 = 12.
BY_HOPS = ["cost 12", *LINES[1:5], "pot 0 0 0 2 2 1", "pot 1 0 2 0 2 1", "pot 2 0 2 2 0 1",
           "pot 3 0 1 1 1 0", "end"]
# They cost 7, 9 and 11: 3 * 7 + 4 * 9 + 5 * 11 = 112.
BY_LONG = ["cost 112", *LINES[1:5], "pot 0 0 0 16 18 7", "pot 1 0 16 0 20 9", "pot 2 0 18 20 0 11",
           "pot 3 0 7 9 11 0", "end"]


def tariffs(star):
    hops = Cases(STAR, "check --tariff hops t", "hops", in_head=True)
    flat = Cases(STAR, "check --tariff flat t", "flat", in_head=True)
    long = Cases(STAR, "check --tariff long t", "long", in_head=True)
    yield from flat.case("lengths are the costs", LINES, TOLD)
    yield from hops.case("each link costs 1", BY_HOPS, "yes 12")
    yield from hops.case("each link costs 1, and the certificate is of other costs", LINES, "no 3")
    yield from star.case("a certificate of another tariff", BY_HOPS, "no 3")
    yield from long.case("each link costs 5 and twice its length", BY_LONG, "yes 112")
    yield from long.changes(BY_LONG, [
        ("each link costs 5 and twice its length, and one node is too far", 8, "pot 3 0 8 9 11 0",
         "no 5")])


# ---- on other networks

# Two links side by side between p and q, of costs 7 and 5; no link is at s.
PAIR = ["node p", "node q", "node s", "link p q 9 7", "link q p 9 9 5", "end"]
# Over link 0 alone the lesser side of 2 and 3 costs 2 * 7 = 14, over both links 2 * 5 = 10.
OVER_FIRST = ["cost 14", "hose p:2 q:3", "use 0 2", "without 1", "pot 0 0 0 7 0", "pot 1 0 7 0 0",
              "pot 2 0 14 14 0", "end"]
OVER_BOTH = ["cost 10", "hose p:2 q:3", "use 1 2", "pot 0 0 0 5 0", "pot 1 0 5 0 0",
             "pot 2 0 10 10 0", "end"]


def left_out():
    pair = Cases(PAIR)
    yield from pair.case("a link that is left out", OVER_FIRST, "yes 14")
    yield from pair.case("no link left out", OVER_BOTH, "yes 10")
    yield from pair.changes(OVER_FIRST, [
        ("a link that is not left out and costs less", 3, [], "no 5"),
        ("the first link is left out, which is used", 3, "without 0", "no 1"),
        ("the last link is left out twice", 3, ["without 1", "without 1"], "no 1"),
        ("a link left out with a leading zero", 3, "without 01", "no 1"),
        ("no link after without", 3, "without", "no 1"),
        ("two links after without", 3, "without 1 1", "no 1"),
        ("a link left out that 64 bits do not hold", 3, f"without {WRAPPED + 1}", "no 1"),
        ("a link left out before the pairs", 2, ["without 1", "use 0 2"], "no 1"),
    ])
    yield from pair.changes(OVER_BOTH, [
        ("a link left out that nothing needs", 2, ["use 1 2", "without 0"], "yes 10"),
        ("the dearer of two links", 2, "use 0 2", "no 3"),
        ("a circle of two links", 2, ["use 0 2", "use 1 2"], "no 2"),
        ("an endpoint that no link joins", 1, "hose p:2 s:3", "no 2"),
        ("numbers of a root that reaches no endpoint: just enough", 5, "pot 2 0 2 2 0", "yes 10"),
        ("numbers of a root that reaches no endpoint: too little", 5, "pot 2 0 2 1 0", "no 6"),
        ("numbers of a root that reaches no endpoint: as far as a link costs", 5, "pot 2 0 7 2 0",
         "yes 10"),
        ("numbers of a root that reaches no endpoint: further", 5, "pot 2 0 8 2 0", "no 5"),
        ("numbers of a root that reaches no endpoint: the greatest", 5,
         "pot 2 0 40000000000000000 40000000000000000 0", "yes 10"),
        ("numbers of a root that reaches no endpoint: past the greatest", 5,
         "pot 2 0 40000000000000001 40000000000000001 0", "no 1"),
        ("a node that no root reaches, at any number", 3, "pot 0 0 0 5 40000000000000000", "yes 10"),
    ])
    # 2^64 is 18446744073709551616: the sum is 448384 above it, and 10 * 10^6 are wanted.
    half = 9223372036855 * 10**6
    assert 0 < 2 * half - WRAPPED < 5 * 10**6
    most = ["cost 5000000", "hose p:1000000 q:1000000", "use 1 1000000", *OVER_BOTH[3:5],
            f"pot 2 0 {half // 10**6} {half // 10**6} 0", "end"]
    yield from pair.case("a weight that 64 bits do not hold", most, "yes 5000000")


def rings():
    # Four links of cost 1 in a circle.
    ring = Cases(["node p", "node q", "node r", "node s", "link p q 9 1", "link q r 9 1",
                  "link r s 9 1", "link s p 9 1", "end"])
    half = ["cost 2", "hose p:1 r:1", "use 0 1", "use 1 1", "pot 0 0 0 1 2 1", "pot 1 0 1 0 1 2",
            "pot 2 0 2 1 0 1", "pot 3 0 1 2 1 0", "end"]
    yield from ring.case("half of a circle", half, "yes 2")
    yield from ring.case("the other half, which costs no more",
                         [*half[:2], "use 2 1", "use 3 1", *half[4:]], "yes 2")
    yield from ring.case("a circle", [*half[:2], ("4", "use {0} 1"), *half[4:]], "no 2")
    yield from ring.changes(half, [
        ("two links that do not meet", 3, "use 2 1", "no 2"),
        ("a link that leads to no endpoint", 3, ["use 1 1", "use 2 1"], "no 2"),
        ("links that do not ascend", 2, ["use 1 1", "use 0 1"], "no 1"),
        ("half of a circle: rule 6 at the second root", 5, "pot 1 0 0 0 1 1", "no 6"),
    ])
    # Between p and q along the three other links: 3 in place of 1.
    long_way = ["cost 3", "hose p:1 q:1", ("3", "use {1} 1"), *half[4:]]
    yield from ring.case("a tree that costs more than another", long_way, "no 6")
    yield from ring.case("the same over its own links alone",
                         [*long_way[:3], "without 0", "pot 0 0 0 3 2 1", "pot 1 0 3 0 1 2",
                          "pot 2 0 2 1 0 1", "pot 3 0 1 2 1 0", "end"], "yes 3")


def zeros(count):
    return " 0" * count


def apart(nodes):
    """A network with one link of cost 1, between its first two nodes."""
    return [(str(nodes), "node n{0}"), "link n0 n1 9 1", "end"]


def rows_of(nodes):
    """The lines of each root in the network of one link."""
    parts = [min(64, nodes - first) for first in range(0, nodes, 64)]
    rest = [f" {64 * place}{zeros(count)}" for place, count in enumerate(parts) if place]
    joined = "".join(f"{{b10}}pot {{2}}{part}" for part in rest)
    for root, numbers in ((0, "0 1"), (1, "1 0")):
        yield f"pot {root} 0 {numbers}{zeros(parts[0] - 2)}"
        yield from (f"pot {root}{part}" for part in rest)
    if nodes > 2:
        yield str(nodes - 2), f"pot {{2}} 0 1 1{zeros(parts[0] - 2)}{joined}"


def parts():
    start = ["cost 1", "hose n0:1 n1:1", "use 0 1"]
    for nodes in (2, 64, 65, 66, 128, 129, 512):
        yield from Cases(apart(nodes)).case(
            f"{nodes} nodes", [*start, *rows_of(nodes), "end"], "yes 1")
    base = [*start, *rows_of(65), "end"]
    first, second = base[3:5]
    yield from Cases(apart(65)).changes(base, [
        ("65 nodes, and 63 numbers in the first line", 3, first[:-2], "no 1"),
        ("65 nodes, and 65 numbers in the first line", 3, f"{first} 0", "no 1"),
        ("65 nodes, and 2 numbers in the second line", 4, f"{second} 0", "no 1"),
        ("65 nodes, and no number in the second line", 4, second[:-2], "no 1"),
        ("65 nodes, and the second line at 63", 4, "pot 0 63 0", "no 1"),
        ("65 nodes, and the second line at 65", 4, "pot 0 65 0", "no 1"),
        ("65 nodes, and the second line at 0", 4, "pot 0 0 0", "no 1"),
        ("65 nodes, and a third line", 4, [second, "pot 0 128 0"], "no 1"),
        ("65 nodes, and no second line", 4, [], "no 1"),
        ("65 nodes, and no first line", 3, [], "no 1"),
        ("65 nodes, and the second line first", 3, [second, first], "no 1"),
        ("65 nodes, and no line of the last root", 7, ("62", base[7][1]), "no 1"),
        ("65 nodes, and the second root is not at 0", 5, f"pot 1 0 1 1{zeros(62)}", "no 4"),
        ("65 nodes, and 65 endpoints", 1, [(".", "hose"), ("65.", "{s}n{0}:1"), ""], "no 1"),
        ("65 nodes, and 64 endpoints", 1, [(".", "hose"), ("64.", "{s}n{0}:1"), ""], "no 2"),
    ])
    last, other = base[7][1].replace("{2}", "64"), [*base[:7], ("62", base[7][1])]
    for name, line, answer in (
        ("the last root is at 0", last, "yes 1"),
        ("the last root is not at 0", last[:-1] + "1", "no 4"),
        ("the last root weighs too little", last.replace("pot 64 0 1 1", "pot 64 0 0 0"), "no 6"),
        ("the last root weighs just enough", last.replace("64 0 1 1", "64 0 1 0"), "yes 1"),
        ("two nodes of the last root are too far", last.replace("64 0 1 1", "64 0 2 0"), "no 5"),
    ):
        yield from Cases(apart(65)).case(f"65 nodes, and {name}", [*other, line, "end"], answer)
    base = [*start, *rows_of(64), "end"]
    yield from Cases(apart(64)).changes(base, [
        ("64 nodes, and 65 numbers", 3, f"{base[3]} 0", "no 1"),
        ("64 nodes, and 63 numbers", 3, base[3][:-2], "no 1"),
        ("64 nodes, and a second line without numbers", 3, [base[3], "pot 0 64"], "no 1"),
    ])


def pairs():
    """How many links may be used."""
    side = Cases(["node p", "node q", ("512", "link p q 9 1"), "end"])
    rest = ["pot 0 0 0 1", "pot 1 0 1 0", "end"]
    start = ["cost 1", "hose p:1 q:1"]
    yield from side.case("the last of 512 links side by side", [*start, "use 511 1", *rest],
                         "yes 1")
    yield from side.case("511 links side by side", [*start, ("511", "use {0} 1"), *rest], "no 2")
    yield from side.case("512 links side by side", [*start, ("512", "use {0} 1"), *rest], "no 1")
    yield from side.case("all links but one left out",
                         [*start, "use 0 1", ("511", "without {1}"), *rest], "yes 1")
    yield from side.case("no link used", [*start, *rest], "no 1")
    dear = Cases(["node p", "node q", "link p q 1000000000 1000000", "end"])
    yield from dear.case("the greatest cost and rates on one link",
                         ["cost 1000000000000", "hose p:1000000 q:1000000", "use 0 1000000",
                          "pot 0 0 0 1000000", "pot 1 0 1000000 0", "end"], "yes 1000000000000")


def star_in_json():
    nodes = ",".join(f'"{line[5:]}"' for line in STAR[:4])
    links = ",".join(f'{{o}}"a":"{line[5]}","b":"h","capacity":10,"length":{line[-1]}{{c}}'
                     for line in STAR[4:7])
    return f'=. {{o}}"nodes":[{nodes}],"links":[{links}]{{c}}'


def backbone():
    """The text of the network in demo/, and a certificate of a hose on it."""
    with open("demo/backbone.txt", encoding="ascii") as file:
        text = [line for line in file.read().splitlines() if line and line[0] != "#"]
    read = networks.read_topology("".join(f"{line}\n" for line in text))
    links = [Link(read.nodes.index(link.a), read.nodes.index(link.b), link.capacity, link.length,
                  link.cost) for link in read.links]
    network, every = Network(read.nodes, links), set(range(len(links)))
    rates = {"sea": 400, "lax": 600, "chi": 500, "nyc": 1000}
    hose = sorted((read.nodes.index(name), rate) for name, rate in rates.items())
    plan = canonical_plan(network, every, hose)
    return text[:text.index("end") + 1], certificate(network, every, hose, plan)


def backbones():
    text, lines = backbone()
    yield from Cases(text).case("a hose on the backbone", lines, "yes 38200")
    yield from Cases(text).changes(lines, [
        ("a hose on the backbone, and a cost of one less", 0, "cost 38199", "no 3")])


def topologies():
    lines, text = list(written("<", LINES)), star_in_json()
    star = Cases(STAR, "check t.json", in_head=True)
    yield from star.case("a network in JSON", LINES, TOLD, text)
    yield from star.case("a network in JSON, and a cost that is not that of the pairs",
                         ["cost 27", *LINES[1:]], "no 3", text)
    yield from Cases(STAR, tariff="hops", in_head=True).case(
        "a network in JSON by a tariff", BY_HOPS, "yes 12", "words check --tariff hops t.json",
        text)
    yield from ended("JSON that is none", lines, "check t.json", "topology json", 2, "=. []",
                     "taken 0")
    yield from ended("JSON without links", lines, "check t.json", "topology links", 2,
                     '=. {o}"nodes":["a"]{c}', "taken 0")
    yield from ended("JSON without a link's nodes", lines, "check t.json", "topology links 0", 2,
                     '=. {o}"nodes":["a"],"links":[{o}{c}]{c}', "taken 0")
    yield from ended("a topology that has a node twice", lines, "check t", "topology 2 2", 2,
                     "= node a", "= node a", "= end", "taken 0")
    yield from ended("a topology without its end", lines, "check t", "topology 2 1", 2, "= node a",
                     "taken 0")
    yield from ended("a topology with a link to nowhere", lines, "check t", "topology 2 3", 2,
                     "= node a", "= link a b 1 1", "= end", "taken 0")
    yield from ended("a topology of which nothing is told", lines, "check t", "cabinet", 6,
                     "taken 0")
    cost = [*STAR[:4], "link a h 10 1 7", *STAR[5:]]
    dearer = ["cost 44", *LINES[1:5], "pot 0 0 0 9 10 7", "pot 1 0 9 0 5 2", "pot 2 0 10 5 0 3",
              "pot 3 0 7 2 3 0", "end"]
    # 3 * 7 + 4 * 2 + 5 * 3 = 44.
    yield from Cases(cost).case("a cost that is not the length", dearer, "yes 44")
    yield from Cases(cost, "check --tariff flat t", "flat").case(
        "a cost that is not the length, by a tariff", LINES, TOLD)
    yield from Cases([*STAR, "what stands after the end"]).case(
        "what stands after the end of a topology is not looked at", LINES, TOLD)


def put(head, *kinds):
    print("\n".join(head))
    for kind in kinds:
        for lines in kind:
            print("\n" + "\n".join(lines))


def main():
    if sys.argv[1:] == ["star"]:
        star = Cases(STAR, in_head=True)
        head = ["# Written by bench/cases/certificate_cases.py star: "
                "what is answered to certificates on",
                "# a star, of which each rule is broken and each line comes otherwise.",
                *written("=", STAR)]
        put(head, answers(star), edges(star), several(star), lines_otherwise(star), numbers(star),
            tariffs(star), calls(star), words(star))
    elif sys.argv[1:] == ["networks"]:
        head = ["# Written by bench/cases/certificate_cases.py networks: "
                "certificates on networks with",
                "# circles, links that are left out, and more nodes than a line has numbers."]
        put(head, left_out(), rings(), parts(), pairs(), backbones(), topologies())
    else:
        sys.exit(__doc__)


if __name__ == "__main__":
    tell_usage(__doc__)
    main()
