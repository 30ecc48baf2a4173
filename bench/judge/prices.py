#!/usr/bin/env python3
"""Compares `hosed price`, line by line, with a slow and plain planner on random networks.

The networks have up to 9 nodes. Each line is answered here as docs/GUIDE.md says, with the first
plan over all links that planner.py makes by the costs of each tariff; some lines are no
hose, and are answered by the first word that is wrong. On a third as many smaller networks each
price is that of a search by force: the least over all trees, with the least amounts that carry
each matrix within the rates. Prints how many networks and lines of each kind agreed; or the first
difference, with the topology, and ends with status 1.

Then the seconds of 100,000 lines by the three tariffs are told, on a network of 512 nodes and 2,048
links, beside three times what a run of as many quotes takes there.

usage: bench/judge/prices.py [PROGRAM [NETWORKS [SEED]]]
The PROGRAM (./hosed) is seen from the top of the repository.
"""
import os
import random
import re
import subprocess
import sys
import tempfile
import time
from collections import Counter
from itertools import zip_longest
from typing import Callable, NamedTuple

sys.path.insert(0, os.path.join(os.path.dirname(os.path.abspath(__file__)), "..", "parts"))
from usage import TOP, tell_usage

import generate
from planner import APART, CUSTOMERS, STAR, Link, Network, Size, canonical_plan, least_cost
from planner import plan_cost, random_hose, random_network, topology_lines

os.chdir(TOP)
LINES = 60  # of each network
COMPARED = Size(nodes=9, links=27, ends=5, rate=6)
FORCED = Size(nodes=6, links=9, ends=4, rate=3)
MOST = 1_000_000  # of a rate, a length and a cost
SECONDS = 600  # after which the program hangs
TIMED = generate.Sizes(7, 512, 2048, 100_000)
HELD = 16  # quotes that a customer may hold


class Tariff(NamedTuple):
    """No cost is below the base, and none above it and the rate for each unit of length."""

    name: str
    base: int
    per: int
    cost: Callable[[int], int]


FLAT = Tariff("flat", 0, 1, lambda length: length)
HOPS = Tariff("hops", 1, 0, lambda length: 1)
LONG = Tariff("long", 5, 2, lambda length: min(5 + 2 * length, MOST))
TARIFFS = (FLAT, HOPS, LONG)


# ---- What is answered.


def priced(network, tariff):
    links = [link._replace(cost=tariff.cost(link.length)) for link in network.links]
    return Network(network.nodes, links)


def first_plan(network, hose):
    return canonical_plan(network, set(range(len(network.links))), hose)


def prices(network, hose, by_force):
    """For each tariff the cost and its bounds; none where there is no plan."""
    by_hops, by_lengths = priced(network, HOPS), priced(network, FLAT)
    few, short = first_plan(by_hops, hose), first_plan(by_lengths, hose)
    if few is None:
        return None
    hops, lengths = plan_cost(by_hops, few), plan_cost(by_lengths, short)
    amounts = sum(amount for _, amount in short)
    found = []
    for tariff in TARIFFS:
        by_tariff = priced(network, tariff)
        cost = plan_cost(by_tariff, first_plan(by_tariff, hose))
        if by_force:
            cost = least_cost(by_tariff, set(range(len(network.links))), hose)
        low = hops * max(1, tariff.base)
        high = tariff.base * amounts + tariff.per * lengths
        assert low <= cost <= high, f"{cost} is not from {low} to {high} by {tariff.name}: {hose}"
        found.append((cost, low, high))
    return found


def endpoint(network, word, hose):
    """The node and the rate that a word names, unless it is wrong."""
    name, colon, rate = word.partition(":")
    if not colon or name not in network.nodes or not re.fullmatch("[1-9][0-9]*", rate):
        return None
    node = network.nodes.index(name)
    if int(rate) > MOST or any(node == other for other, _ in hose) or len(hose) == 64:
        return None
    return node, int(rate)


def answer(network, line, by_force=False):
    if len(line) > 4096:
        return "long"
    words = [word for word in line.split(" ") if word]
    if not words or not re.fullmatch("[a-z0-9-]{1,16}", words[0]):
        return "bad 1"
    hose = []
    for place, word in enumerate(words[1:], 2):
        end = endpoint(network, word, hose)
        if end is None:
            return f"bad {place}"
        hose.append(end)
    if len(hose) < 2:
        return f"bad {len(words) + 1}"
    found = prices(network, sorted(hose), by_force)
    if found is None:
        return f"price {words[0]} none"
    told = [f"{tariff.name} {cost} {low} {high}"
            for tariff, (cost, low, high) in zip(TARIFFS, found)]
    costs = [cost for cost, _, _ in found]
    best = TARIFFS[costs.index(min(costs))].name
    return f"price {words[0]} {' '.join(told)} best {best}"


# ---- Rows that were worked out by hand.

HAND = [
    (STAR, "acme a:3 b:4 c:5", "price acme flat 26 12 26 hops 12 12 12 long 112 60 112 best hops"),
    (APART, "acme a:1 b:1", "price acme none"),
    (APART, "acme a:1", "bad 3"),
    (STAR, "acme a:3 b:4 a:5", "bad 4"),
    (STAR, "acme a:3 b:0", "bad 3"),
    (STAR, "", "bad 1"),
    (Network(list("ab"), [Link(0, 1, 1, MOST, 1)]), f"acme a:{MOST} b:{MOST}",
     f"price acme flat {MOST**2} {MOST} {MOST**2} hops {MOST} {MOST} {MOST} "
     f"long {MOST**2} {5 * MOST} {5 * MOST + 2 * MOST**2} best hops"),
]


def check_by_hand():
    for network, line, wanted in HAND:
        came = answer(network, line)
        assert came == wanted, f"{line}: {came} in place of {wanted}"
    print(f"by hand: {len(HAND)} lines")


# ---- Random networks and lines.


def stretched(draw, network):
    """The network; in one of four its links are as long as may be, or any length up to that."""
    if draw.random() < 0.75:
        return network
    return Network(network.nodes, [link._replace(length=draw.choice((MOST, draw.randint(1, MOST))))
                                   for link in network.links])


def wrong(draw, words):
    """The words, with something wrong among them as a rule."""
    words = list(words)
    place = draw.randrange(len(words))
    kind = draw.randrange(6)
    if kind == 0:
        return words[:place]
    if kind == 1:
        return [*words, words[place]]
    words[place] = draw.choice((words[place].upper(), words[place] + "0000000", "nowhere:1",
                                words[place].replace(":", " "), words[place].split(":")[0] + ":0"))
    return words


def random_line(draw, network, size):
    hose = random_hose(draw, network, size)
    if draw.random() < 0.1:
        hose = [(node, draw.choice((MOST, draw.randint(1, MOST)))) for node, _ in hose]
    words = [draw.choice(CUSTOMERS)]
    words += [f"{network.nodes[node]}:{rate}" for node, rate in hose]
    return " ".join(wrong(draw, words) if draw.random() < 0.2 else words)


def random_forced(draw, network):
    """A line whose rates are small enough for a search by force."""
    ends = random_hose(draw, network, FORCED)
    return " ".join(["acme", *(f"{network.nodes[node]}:{rate}" for node, rate in ends)])


def kind_of(line):
    words = line.split(" ")
    if words[0] != "price":
        return words[0]
    return "none" if words[2] == "none" else f"best {words[-1]}"


# ---- The comparison.


def output_of(program, words, text):
    done = subprocess.run([program, *words], input=text, stdout=subprocess.PIPE,
                          universal_newlines=True, timeout=SECONDS)
    if done.returncode != 0:
        sys.exit(f"prices: {' '.join(words)} ended with {done.returncode}: {done.stdout}")
    return done.stdout


def write(path, lines):
    with open(path, "w", encoding="ascii") as file:
        file.writelines(f"{line}\n" for line in lines)


def compare(program, folder, network, asked, wanted):
    topology = topology_lines(network)
    write(f"{folder}/topology", topology)
    text = "".join(f"{line}\n" for line in asked)
    told = output_of(program, ["price", f"{folder}/topology"], text).splitlines()
    for line, want, came in zip_longest(asked, wanted, told):
        if want != came:
            print("\n".join(topology))
            sys.exit(f"prices: {line}\nwanted: {want}\ncame:   {came}")
    return Counter(map(kind_of, told))


def compare_network(program, folder, seed):
    draw = random.Random(seed)
    network = stretched(draw, random_network(draw, COMPARED))
    asked = [random_line(draw, network, COMPARED) for _ in range(LINES)]
    return compare(program, folder, network, asked, [answer(network, line) for line in asked])


def compare_by_force(program, folder, seed):
    draw = random.Random(seed)
    network = random_network(draw, FORCED)
    asked = [random_forced(draw, network) for _ in range(LINES // 6)]
    return compare(program, folder, network, asked, [answer(network, line, True) for line in asked])


# ---- The seconds.


def seconds(program, words, text, lines):
    begun = time.perf_counter()
    told = output_of(program, words, text)
    taken = time.perf_counter() - begun
    assert told.count("\n") == lines, f"{told.count(chr(10))} lines in place of {lines}"
    return taken, told


def timed(program, folder):
    topology = generate.topology(TIMED)
    write(f"{folder}/topology", topology)
    draws = generate.Draws(TIMED.seed)
    admits = [generate.admit_line(draws, TIMED.nodes) for _ in range(TIMED.hoses)]
    ends = [line.split(" ", 2)[2] for line in admits]
    sheet = "".join(f"c {end}\n" for end in ends)
    start = "".join(f"{line}\n" for line in topology)
    quotes = "".join(f"c{place // HELD} quote {end}\n" for place, end in enumerate(ends))
    words = ["price", f"{folder}/topology"]
    here, told = seconds(program, words, sheet, TIMED.hoses)
    before, _ = seconds(program, words, "", 0)
    quoting, quoted = seconds(program, ["run"], start + quotes, TIMED.hoses)
    began, _ = seconds(program, ["run"], start, 0)
    kinds = Counter(line.split(" ")[0] for line in quoted.splitlines())
    print(f"price: {TIMED.hoses} lines in {here:.2f} s, of which {before:.2f} s before the first")
    print(f"by kinds: {dict(Counter(map(kind_of, told.splitlines())))}")
    print(f"reference: a run of as many quotes in {quoting:.2f} s, of which {began:.2f} s before "
          f"the first; {dict(kinds)}")
    print(f"ratio to three times that: {here / (3 * quoting):.2f}, of the lines alone "
          f"{(here - before) / (3 * (quoting - began)):.2f}")


def main():
    program, networks, seed = (sys.argv[1:] + ["./hosed", "300", "1"][len(sys.argv) - 1:])[:3]
    program, networks = os.path.abspath(program), int(networks)
    check_by_hand()
    # The first run may build the program.
    subprocess.run([program, "--version"], stdout=subprocess.DEVNULL, check=True)
    kinds = Counter()
    with tempfile.TemporaryDirectory() as folder:
        for number in range(networks):
            kinds += compare_network(program, folder, f"{seed} {number}")
        for number in range(networks // 3):
            kinds += compare_by_force(program, folder, f"{seed} force {number}")
        lines = sum(kinds.values())
        print(f"compared: {networks} networks, {networks // 3} by force, {lines} lines")
        for kind, count in sorted(kinds.items()):
            print(f"{kind}: {count}")
        timed(program, folder)


if __name__ == "__main__":
    tell_usage(__doc__)
    main()
