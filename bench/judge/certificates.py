#!/usr/bin/env python3
"""Compares `hosed prove` and `hosed check` with certificates that are made here, and judged here.

Networks, hoses and certificates are made by a seed: the plan is that of the planner of
planner.py, over all links or a part of them, and the numbers are the distances of a plain
Dijkstra. Each comes 40 times with something changed: numbers by one or past their limits, lines
that are missing, doubled or exchanged, spaces and line feeds, rows that are cut elsewhere, links
that are left out or not, the pairs of another tree, single bytes. Of each `check` has to say what
the checker of tools/check_certificate.py says, which shares no code with the crates. Some networks
are in JSON, and some are priced by a tariff. Of each network and hose `prove` has to write the
certificate that is made here over all links, to which the checker and `check` have to say yes, or
`none` where no tree joins the hose.

Prints each certificate that was answered otherwise or not written, how often each answer was
wanted, and how many were compared; ends with status 1 where one differs or an answer was never
wanted.

usage: bench/judge/certificates.py [-n COUNT] [-s SEED] [-j JOBS] [PROGRAM]
    COUNT (10000)       about how many certificates that are changed
    SEED (1), JOBS (2)  the first network's seed, and how many networks at once
    PROGRAM (./hosed)   as seen from the top of the repository
"""
import collections
import json
import multiprocessing
import os
import random
import subprocess
import sys
import tempfile

sys.path.insert(0, os.path.join(os.path.dirname(os.path.abspath(__file__)), "..", "parts"))
from usage import TOP, search_of, tell_usage

import check_certificate
import networks
from certificate_lines import TARIFFS, certificate
from planner import COMPARED, Link, Network, canonical_plan, plan_cost, random_hose
from planner import random_network, topology_lines

os.chdir(TOP)

EACH = 40  # changed certificates of a network
SECONDS = 60  # after which the program hangs
ANSWERS = ("yes", "no 1", "no 2", "no 3", "no 4", "no 5", "no 6", "written", "none")

# ---- networks, each with what it is told by


def large_network(chance):
    """More nodes than there are numbers in a line, near each other by their numbers."""
    nodes = chance.choice((63, 64, 65, 66, 127, 128, 129))
    links = []
    for node in range(1, nodes):
        other = max(0, node - chance.randint(1, 4))
        length = chance.randint(1, 9)
        links.append(Link(node, other, 10, length, length))
    for _ in range(nodes // 4):
        a, b = chance.sample(range(nodes), 2)
        links.append(Link(a, b, 10, 1, chance.randint(1, 1_000_000)))
    return Network([f"n{node}" for node in range(nodes)], links)


def priced(network, tariff):
    if tariff is None:
        return network
    price = TARIFFS[tariff]
    links = [link._replace(cost=price(link.length)) for link in network.links]
    return network._replace(links=links)


def text_of(network, is_json):
    if not is_json:
        return "".join(f"{line}\n" for line in topology_lines(network))
    links = [{"a": network.nodes[link.a], "b": network.nodes[link.b], "capacity": link.capacity,
              "length": link.length, "cost": link.cost} for link in network.links]
    return json.dumps({"nodes": network.nodes, "links": links})


def topology_of(network):
    """The same as the checker reads it."""
    links = [networks.Link(number, network.nodes[link.a], network.nodes[link.b], *link[2:])
             for number, link in enumerate(network.links)]
    return networks.Topology(network.nodes, links)


# ---- certificates


def a_part_of(chance, network):
    """All links, or some of them."""
    links = range(len(network.links))
    if chance.random() < 0.5:
        return set(links)
    kept = chance.choice((0.6, 0.8, 0.95))
    return {number for number in links if chance.random() < kept}


# ---- changes

NUMBERS = (0, 1, 2, 63, 64, 65, 511, 512, 2047, 2048, 10**6, 10**6 + 1, 32 * 10**6, 32 * 10**6 + 1,
           4 * 10**13, 4 * 10**16, 4 * 10**16 + 1, 10**17, 2**63, 2**64 - 1, 2**64,
           2**128, 10**40)
WORDS = ("", "-1", "+1", "1.0", "01", "00", "x", "1e3", "a", "a:1", "0x1", "use", "end", "pot")
BYTES = (b"\0", b"\t", b"\r", b"\n", b" ", b":", b"-", b"\x80", b"\xff", b"9", b"0", b"A", b"\x0b",
         b"\xc3\xa9", b"\xd9\xa1", b"\xc2\xa0", b"\xe2\x80\xa8")


def word_at(chance, lines, firsts=None):
    """The places of a line of these kinds, and of a word after its first; none where none is."""
    places = [at for at, line in enumerate(lines)
              if " " in line and (firsts is None or line.split(" ")[0] in firsts)]
    if not places:
        return None
    at = chance.choice(places)
    return at, chance.randrange(1, len(lines[at].split(" ")))


def replaced(lines, at, word, change):
    """The lines, where one word of one line is changed."""
    words = lines[at].split(" ")
    words[word] = change(words[word])
    return [*lines[:at], " ".join(words), *lines[at + 1:]]


def number_changed(change):
    """What changes the last number of a word, which may be that of an endpoint."""
    def changes(word):
        before, mark, number = word.rpartition(":")
        return before + mark + str(change(int(number))) if number.isdigit() else word
    return changes


def by_one(chance, lines, made):
    found = word_at(chance, lines, chance.choice((None, {"pot"}, {"cost"}, {"use"}, {"hose"})))
    step = chance.choice((1, 1, -1, -1, 2, -3))
    return found and replaced(lines, *found, number_changed(lambda n: max(0, n + step)))


def past_a_limit(chance, lines, made):
    found = word_at(chance, lines, chance.choice((None, {"use"}, {"without"}, {"cost"}, {"hose"})))
    number = chance.choice(NUMBERS)
    return found and replaced(lines, *found, number_changed(lambda n: number))


def no_number(chance, lines, made):
    found, word = word_at(chance, lines), chance.choice(WORDS)
    form = chance.choice(("{1}", "0{0}", "{0}{1}"))
    return found and replaced(lines, *found, lambda old: form.format(old, word))


def missing(chance, lines, made):
    at = chance.randrange(len(lines))
    return lines[:at] + lines[at + 1:]


def doubled(chance, lines, made):
    at, to = chance.randrange(len(lines)), chance.randrange(len(lines) + 1)
    to = chance.choice((at, to))
    return [*lines[:to], lines[at], *lines[to:]]


def exchanged(chance, lines, made):
    at, other = chance.randrange(len(lines)), chance.randrange(len(lines))
    other = chance.choice((max(0, at - 1), other))
    lines = list(lines)
    lines[at], lines[other] = lines[other], lines[at]
    return lines


def spaced(chance, lines, made):
    at = chance.randrange(len(lines))
    line = lines[at]
    line = chance.choice((line + " ", " " + line, line.replace(" ", "  ", 1), line + "\r",
                          line + "\t", line.replace(" ", "\t", 1), line + "\n", line[:-1],
                          line.upper(), line + " 0", line + " end", line + " " * 4096))
    return [*lines[:at], line, *lines[at + 1:]]


def cut_elsewhere(chance, lines, made):
    """A row's lines that are joined, or a line that is cut into two; a number more, or less."""
    places = [at for at, line in enumerate(lines) if line.startswith("pot ")]
    if not places:
        return None
    at = chance.choice(places)
    words = lines[at].split(" ")
    kind = chance.randrange(4)
    if kind == 0:
        return [*lines[:at], " ".join(words[:-1]), *lines[at + 1:]]
    if kind == 1:
        return [*lines[:at], f"{lines[at]} {words[-1]}", *lines[at + 1:]]
    if kind == 2 and at + 1 < len(lines):
        following = lines[at + 1].split(" ")[3:]
        return [*lines[:at], " ".join([*words, *following]), *lines[at + 2:]]
    place = chance.randint(3, len(words))
    second = f"pot {words[1]} {place - 3} {' '.join(words[place:])}"
    return [*lines[:at], " ".join(words[:place]), second, *lines[at + 1:]]


def another_row(chance, lines, made):
    """The numbers of a line are those of another, or all are one more, one less, or none."""
    places = [at for at, line in enumerate(lines) if line.startswith("pot ")]
    if not places:
        return None
    at, other = chance.choice(places), chance.choice(places)
    head, row = lines[at].split(" ")[:3], lines[at].split(" ")[3:]
    least = chance.choice((0, 1, 2, 5))
    row = chance.choice((lines[other].split(" ")[3:], ["0"] * len(row),
                         [str(int(word) + 1) if word.isdigit() else word for word in row],
                         [str(max(0, int(word) - least)) if word.isdigit() else word
                          for word in row]))
    return [*lines[:at], " ".join(head + row), *lines[at + 1:]]


def number_of(line):
    """The number after the first word of a line, which may have been changed into none."""
    word = line.split(" ")[1]
    return int(word) if word.isascii() and word.isdigit() else 0


def left_out(chance, lines, made):
    """A link is left out, or is not any more."""
    outs = [at for at, line in enumerate(lines) if line.startswith("without ")]
    if outs and chance.random() < 0.5:
        at = chance.choice(outs)
        return lines[:at] + lines[at + 1:]
    uses = [at for at, line in enumerate(lines) if line.startswith("use ")]
    last = max([*outs, *uses, 1])
    line = f"without {chance.randrange(len(made.network.links) + 2)}"
    before, after = lines[:last + 1], lines[last + 1:]
    if chance.random() < 0.7 and outs:  # as it should stand
        lines = sorted([line, *(lines[at] for at in outs)], key=number_of)
        return before[:outs[0]] + lines + after
    return [*before, line, *after]


def other_pairs(chance, lines, made):
    """The pairs of a tree over other links, or of another hose, mostly with what these cost."""
    hose = made.hose if chance.random() < 0.7 else random_hose(chance, made.network, COMPARED)
    plan = canonical_plan(made.network, a_part_of(chance, made.network), sorted(hose))
    if not plan:
        return None
    pairs = [f"use {number} {amount}" for number, amount in plan]
    rest = [line for line in lines[1:] if not line.startswith("use ")]
    cost = f"cost {plan_cost(made.network, plan)}" if chance.random() < 0.8 else lines[0]
    return [cost, *rest[:1], *pairs, *rest[1:]]


def lower(chance, lines, made):
    """Some numbers of one root are less by as much, as where a part of the network is far away."""
    places = [at for at, line in enumerate(lines) if line.startswith("pot ")]
    if not places:
        return None
    at, less = chance.choice(places), chance.choice((1, 1, 2, 3))
    words = lines[at].split(" ")
    words[3:] = [str(max(0, int(word) - less)) if word.isdigit() and chance.random() < 0.8 else word
                 for word in words[3:]]
    return [*lines[:at], " ".join(words), *lines[at + 1:]]


# Some come more often than others.
CHANGES = (by_one, by_one, by_one, past_a_limit, past_a_limit, no_number, missing, doubled,
           exchanged, spaced, cut_elsewhere, another_row, another_row, left_out, left_out,
           other_pairs, other_pairs, lower, lower)


def changed(chance, made):
    """The bytes of a certificate in which something is otherwise."""
    lines = made.lines
    for _ in range(chance.choice((1, 1, 1, 1, 2, 3))):
        lines = chance.choice(CHANGES)(chance, lines, made) or lines
    text = "".join(f"{line}\n" for line in lines).encode()
    last = chance.random()
    if last < 0.04:
        return text[:-1]
    if last < 0.06:
        return text + chance.choice((b"\n", b" ", b"end\n", b"\0", text))
    if last < 0.08:
        return text[:chance.randrange(len(text) + 1)]
    if last < 0.12:
        place = chance.randrange(len(text) + 1)
        return text[:place] + chance.choice(BYTES) + text[place + chance.randint(0, 1):]
    return text


# ---- the program


class Made:
    """A network, a hose, and a certificate over some of the links, where there is one."""

    def __init__(self, seed):
        self.seed = seed
        chance = self.chance = random.Random(seed)
        large = chance.random() < 0.04
        told = large_network(chance) if large else random_network(chance, COMPARED)
        tariff = chance.choice((None, None, None, *TARIFFS))
        self.is_json = chance.random() < 0.2
        self.text = text_of(told, self.is_json)
        self.words = [] if tariff is None else ["--tariff", tariff]
        self.network = priced(told, tariff)
        self.hose = sorted(random_hose(chance, self.network, COMPARED))
        self.lines = self.lines_over(a_part_of(chance, self.network))

    def lines_over(self, over):
        """The certificate of the plan over these links; none where there is no plan."""
        plan = canonical_plan(self.network, over, self.hose)
        return certificate(self.network, over, self.hose, plan) if plan else None

    def ends(self):
        """The words of the endpoints, in any order."""
        ends = [f"{self.network.nodes[node]}:{rate}" for node, rate in self.hose]
        self.chance.shuffle(ends)
        return ends


def told_of(made, count):
    """Each certificate, with what the checker says of it: as it was made, and changed so often."""
    topology = topology_of(made.network)
    if made.lines is None:
        return
    for number in range(count + 1):
        text = changed(made.chance, made) if number else "".join(
            f"{line}\n" for line in made.lines).encode()
        answer = check_certificate.judged(topology, text.decode("latin-1"))
        assert number or answer.startswith("yes "), "the checker refuses what was not changed"
        yield text, answer


def differences(program, seeds, each):
    """How often each answer was wanted, and what came otherwise: the seed, wanted, what came."""
    wanted, found = collections.Counter(), []
    with tempfile.TemporaryDirectory() as folder:
        def asked(made, command, text, ends):
            name = "t.json" if made.is_json else "t"
            words = [program, command, *made.words, name, *ends]
            done = subprocess.run(words, input=text, capture_output=True, cwd=folder,
                                  timeout=SECONDS, check=False)
            return done.returncode, done.stdout.decode(errors="replace")

        def prove(made):
            lines = made.lines_over(set(range(len(made.network.links))))
            text = "".join(f"{line}\n" for line in lines or ["none"])
            wanted["written" if lines else "none"] += 1
            ends = made.ends()
            came = asked(made, "prove", b"", ends)
            if came != (0, text):
                found.append((made.seed, made.text, " ".join(ends), (0, text), came))
            elif lines:
                line = lines[0].replace("cost", "yes")
                assert check_certificate.judged(topology_of(made.network), text) == line
                came = asked(made, "check", text.encode(), [])
                if came != (0, f"{line}\n"):
                    found.append((made.seed, made.text, text, (0, f"{line}\n"), came))

        for seed in seeds:
            made = Made(seed)
            name = "t.json" if made.is_json else "t"
            with open(os.path.join(folder, name), "w", encoding="ascii") as file:
                file.write(made.text)
            prove(made)
            for text, answer in told_of(made, each):
                wanted["yes" if answer.startswith("yes") else answer] += 1
                line = (0 if answer.startswith("yes") else 10), f"{answer}\n"
                came = asked(made, "check", text, [])
                if came != line:
                    found.append((seed, made.text, text, line, came))
    return wanted, found


def main():
    options = search_of(__doc__, 10_000)
    # Of about a fifth there is no certificate: no tree joins the hose.
    made = options.count * 5 // (EACH * 4) + 1
    end = options.seed + made
    shares = [(options.program, range(options.seed + job, end, options.jobs), EACH)
              for job in range(options.jobs)]
    with multiprocessing.Pool(options.jobs) as pool:
        parts = pool.starmap(differences, shares)
    wanted = sum((part[0] for part in parts), collections.Counter())
    found = [difference for part in parts for difference in part[1]]
    for seed, topology, text, line, came in found[:10]:
        print(f"of seed {seed}:\n{topology}\n{text!r}\n  wanted: {line!r}\n  found:  {came!r}")
    for answer in ANSWERS:
        print(f"{wanted[answer]:8} {answer}")
    total = sum(wanted.values())
    print(f"{total - len(found)} of {total} as wanted, of {made} networks")
    sys.exit(1 if found or not all(wanted[answer] for answer in ANSWERS) else 0)


if __name__ == "__main__":
    tell_usage(__doc__)
    main()
