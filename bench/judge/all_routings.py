#!/usr/bin/env python3
"""Compares the cost of plans with that of the best routing that may split traffic over paths.

That a plan costs least is proved over trees. Here it stands beside all routings: each pair of
endpoints sends its traffic over any paths, in shares that stay the same whatever the traffic is,
and each link reserves the most that a matrix within the rates puts on it. The least cost of that is
the optimum of a linear program, which GLPK solves: a unit of flow for each pair of endpoints, and,
by duality, for each link a number at each endpoint, so that the numbers at the two ends of a pair
add up to the pair's share of the link at least; the link reserves the sum over the endpoints of
rate times number. A tree is such a routing, so the optimum is never above the plan's cost.

Networks are drawn at random: some with costs of 1 alone, some that are rings, hypercubes or other
even networks, and some with costs of 1 to 20. Of each the plan's cost is that of `hosed prove`.
First it tries the linear program on networks whose optimum was worked out by hand. Prints each
network where splitting would save more than a millionth, with its hose and both costs, and how
often both cost the same; ends with status 1 where the optimum is above the plan's cost, or below
what one pair needs alone.

It takes `glpsol` of GLPK, which on Debian `apt-get install glpk-utils` gets.

usage: bench/judge/all_routings.py [-n COUNT] [-s SEED] [PROGRAM]
    COUNT (1000), SEED (1)   how many networks, and the first one's seed
    PROGRAM (./hosed)        as seen from the top of the repository
"""
import argparse
import os
import random
import shutil
import subprocess
import sys
import tempfile
from itertools import combinations
from typing import Dict, List, NamedTuple, Tuple

sys.path.insert(0, os.path.join(os.path.dirname(os.path.abspath(__file__)), "..", "parts"))
from usage import TOP, tell_usage

MOST_NODES, MOST_ENDS = 11, 5
CAPACITY = 1_000_000_000  # what links can carry does not matter here
SMALL = 1e-6  # of the cost: what two of the solver's numbers may differ by
SECONDS = 60


class Case(NamedTuple):
    """A network, by the two nodes and the cost of each link, and a hose: a rate for some nodes."""

    nodes: int
    links: List[Tuple[int, int, int]]
    rates: Dict[int, int]

    def topology(self) -> str:
        lines = [f"node n{node}" for node in range(self.nodes)]
        lines += [f"link n{a} n{b} {CAPACITY} {cost}" for a, b, cost in self.links]
        return "\n".join([*lines, "end", ""])

    def hose(self) -> List[str]:
        return [f"n{node}:{rate}" for node, rate in self.rates.items()]


class Differs(Exception):
    pass


# ---- The linear program.


def program_of(case: Case) -> str:
    """The linear program, as glpsol reads it: f is a pair's flow over a link in a direction, and y
    an endpoint's number at a link."""
    pairs = list(combinations(case.rates, 2))
    links = range(len(case.links))
    cost = [f"{case.links[link][2] * rate} y_{link}_{end}"
            for link in links for end, rate in case.rates.items()]
    lines = ["Minimize", *wrapped("cost:", cost), "Subject To"]
    for one, other in pairs:
        for node in range(case.nodes):
            out = [f"{sign} f_{one}_{other}_{link}_{way}"
                   for link in links for way, sign in directions(case.links[link], node)]
            wanted = (node == one) - (node == other)
            if out:
                lines += [*wrapped("", out), f" = {wanted}"]
            elif wanted:
                raise ValueError("an endpoint has no link")
        for link in links:
            lines.append(f" y_{link}_{one} + y_{link}_{other} - f_{one}_{other}_{link}_0"
                         f" - f_{one}_{other}_{link}_1 >= 0")
    return "\n".join([*lines, "End", ""])


def directions(link: Tuple[int, int, int], node: int):
    """The directions of a link at a node: + where it leads away from it, - where to it."""
    a, b, _ = link
    if node == a:
        return ((0, "+"), (1, "-"))
    return ((0, "-"), (1, "+")) if node == b else ()


def wrapped(head: str, terms: List[str]) -> List[str]:
    """A sum on lines of some terms each."""
    signed = [term if term[0] in "+-" else f"+ {term}" for term in terms]
    rows = [" ".join(signed[at:at + 8]) for at in range(0, len(signed), 8)]
    return [f" {head} {rows[0]}", *(f"  {row}" for row in rows[1:])]


def optimum(solver: str, folder: str, case: Case) -> float:
    """The least cost of a routing that may split, by the solver."""
    model, answer = os.path.join(folder, "model.lp"), os.path.join(folder, "answer")
    with open(model, "w", encoding="ascii") as file:
        file.write(program_of(case))
    done = subprocess.run([solver, "--lp", model, "--write", answer], stdout=subprocess.PIPE,
                          stderr=subprocess.STDOUT, universal_newlines=True, timeout=SECONDS)
    if done.returncode:
        raise Differs(f"{solver} ended with {done.returncode}: {done.stdout}")
    with open(answer, encoding="ascii") as file:
        told = next(line.split() for line in file if line.startswith("s bas "))
    if told[4:6] != ["f", "f"]:
        raise Differs(f"{solver} found no optimum of\n{program_of(case)}")
    return float(told[6])


# ---- Networks.


def ring(size: int):
    return [(node, (node + 1) % size) for node in range(size)]


def cube():
    return [(node, node | 1 << bit) for node in range(8) for bit in range(3) if not node >> bit & 1]


def between(left: int, right: int):
    """Each of some nodes joined to each of some others."""
    return [(a, left + b) for a in range(left) for b in range(right)]


def petersen():
    return [*ring(5), *((node, node + 5) for node in range(5)),
            *((5 + node, 5 + (node + 2) % 5) for node in range(5))]


def even_network(chance: random.Random):
    """The links of a network that looks alike from many nodes."""
    size = chance.randint(3, MOST_NODES)
    left = chance.randint(2, 4)
    return chance.choice([ring(size), cube(), petersen(), between(left, chance.randint(2, 5)),
                          list(combinations(range(min(size, 6)), 2))])


def random_network(chance: random.Random):
    """A tree at random with more links, some of them beside one another."""
    size = chance.randint(3, MOST_NODES)
    links = [(node, chance.randrange(node)) for node in range(1, size)]
    for _ in range(chance.randint(0, size + 3)):
        links.append(tuple(chance.sample(range(size), 2)))
    return links


def drawn(seed: int) -> Case:
    chance = random.Random(seed)
    pairs = even_network(chance) if chance.random() < 0.4 else random_network(chance)
    most_cost = chance.choice([1, 1, 3, 20])
    most_rate = chance.choice([1, 1, 4, 20])
    links = [(a, b, chance.randint(1, most_cost)) for a, b in pairs]
    size = 1 + max(max(pair) for pair in pairs)
    ends = chance.sample(range(size), chance.randint(2, min(MOST_ENDS, size)))
    return Case(size, links, {node: chance.randint(1, most_rate) for node in sorted(ends)})


# Of a tree there is one routing, and of two endpoints the shortest path is best: by hand.
KNOWN = [
    (Case(4, [(0, 3, 1), (1, 3, 2), (2, 3, 3)], {0: 3, 1: 4, 2: 5}), 26),  # demo/star.txt
    (Case(4, [(0, 1, 1), (1, 2, 1), (2, 3, 1), (3, 0, 1)], {0: 5, 2: 3}), 6),
    (Case(2, [(0, 1, 7), (1, 0, 5)], {0: 2, 1: 9}), 10),
    # A line of four: its links part 1 from 3, 2 from 2 and 3 from 1.
    (Case(4, [(0, 1, 1), (1, 2, 1), (2, 3, 1)], {0: 1, 1: 1, 2: 1, 3: 1}), 4),
]


# ---- The comparison.


def plan_cost(program: str, folder: str, case: Case) -> int:
    path = os.path.join(folder, "network.txt")
    with open(path, "w", encoding="ascii") as file:
        file.write(case.topology())
    done = subprocess.run([program, "prove", path, *case.hose()], stdin=subprocess.DEVNULL,
                          stdout=subprocess.PIPE, universal_newlines=True, timeout=SECONDS)
    first = done.stdout.split("\n", 1)[0].split(" ")
    if done.returncode or first[0] != "cost":
        raise Differs(f"{program} prove ended with {done.returncode}: {' '.join(first)}")
    return int(first[1])


def one_pair(case: Case) -> int:
    """What the dearest pair needs alone: the smaller rate over the shortest path."""
    far = {(a, b): 0 if a == b else None for a in range(case.nodes) for b in range(case.nodes)}
    for a, b, cost in case.links:
        for pair in ((a, b), (b, a)):
            far[pair] = cost if far[pair] is None else min(cost, far[pair])
    for middle in range(case.nodes):
        for a, b in far:
            over = far[a, middle], far[middle, b]
            if None not in over and (far[a, b] is None or sum(over) < far[a, b]):
                far[a, b] = sum(over)
    return max(min(case.rates[a], case.rates[b]) * far[a, b]
               for a, b in combinations(case.rates, 2))


def compared(solver: str, program: str, folder: str, case: Case) -> bool:
    """Whether splitting saves nothing."""
    cost, least = plan_cost(program, folder, case), optimum(solver, folder, case)
    small = SMALL * cost
    if least > cost + small or least < one_pair(case) - small:
        raise Differs(f"the plan costs {cost}, the best routing {least}, of {case}")
    if least < cost - small:
        print(f"splitting would save: the plan costs {cost}, the best routing {least:.6f}, of "
              f"{' '.join(case.hose())} on\n{case.topology()}", end="")
        return False
    return True


def check_known(solver: str, folder: str) -> None:
    for case, cost in KNOWN:
        least = optimum(solver, folder, case)
        if abs(least - cost) > SMALL * cost:
            raise Differs(f"the best routing of {case} costs {cost}, and {solver} says {least}")


def main() -> None:
    words = argparse.ArgumentParser(usage=__doc__.split("usage: ")[1])
    words.add_argument("-n", type=int, default=1000, dest="count")
    words.add_argument("-s", type=int, default=1, dest="seed")
    words.add_argument("program", nargs="?", default="./hosed")
    given = words.parse_args()
    os.chdir(TOP)
    solver = shutil.which("glpsol")
    if not solver:
        sys.exit("all_routings: there is no glpsol here; on Debian, apt-get install glpk-utils")
    program, same = os.path.abspath(given.program), 0
    with tempfile.TemporaryDirectory() as folder:
        try:
            check_known(solver, folder)
            for seed in range(given.seed, given.seed + given.count):
                same += compared(solver, program, folder, drawn(seed))
        except Differs as fault:
            sys.exit(f"all_routings: {fault}")
    print(f"routings: on {given.count} networks the plan costs what the best routing does on "
          f"{same}, and more on {given.count - same}")


if __name__ == "__main__":
    tell_usage(__doc__)
    main()
