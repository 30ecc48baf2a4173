#!/usr/bin/env python3
"""Compares the line of `hosed gen` with what comes of the same network and script otherwise.

Each script is made by tools/generate.py, which shares no code with the crates. It is run by `hosed
run`, and its replies are counted; the scripts on few nodes are answered by the slow planner of
planner.py too. Prints each line, once it is the same by all. Then the seconds of `hosed
gen` are told for 20,000 hoses on a larger and on the largest network, and those of the planner for
a small one. Ends with status 1 where a line differs.

usage: bench/judge/generated.py [PROGRAM]
The PROGRAM (./hosed) is seen from the top of the repository.
"""
import os
import subprocess
import sys
import time

sys.path.insert(0, os.path.join(os.path.dirname(os.path.abspath(__file__)), "..", "parts"))
from usage import TOP, tell_usage

import generate
import networks
from generate import Sizes
from planner import Link, Network, Server

os.chdir(TOP)
PLANNED = [Sizes(1, 6, 5, 0), Sizes(1, 6, 5, 5), Sizes(7, 6, 7, 12), Sizes(1, 6, 5, 500),
           Sizes(2, 8, 14, 900), Sizes(5, 6, 9, 900), Sizes(2**64 - 1, 12, 30, 100)]
COMPARED = [Sizes(1, 6, 2048, 2000), Sizes(2, 64, 63, 1000), Sizes(5, 100, 300, 3000),
            Sizes(7, 200, 600, 300), Sizes(9, 512, 511, 200), Sizes(7, 512, 2048, 200)]
TIMED = [Sizes(7, 200, 600, 20_000), Sizes(7, 512, 2048, 20_000)]
REFERENCE = Sizes(7, 9, 27, 500)
SECONDS = 600  # after which the program hangs


def network_of(sizes):
    topology = networks.read_topology("\n".join(generate.topology(sizes)) + "\n")
    places = {name: place for place, name in enumerate(topology.nodes)}
    links = [Link(places[link.a], places[link.b], link.capacity, link.length, link.cost)
             for link in topology.links]
    return Network(topology.nodes, links)


def hose_of(network, words):
    ends = (word.split(":") for word in words)
    return [(network.nodes.index(name), int(rate)) for name, rate in ends]


def planned(sizes):
    """The line by the slow planner."""
    network = network_of(sizes)
    server, replies = Server(network), []
    for line in generate.script(sizes):
        customer, command, *words = line.split(" ")
        if command == "admit":
            replies.append(server.admit(customer, hose_of(network, words)))
        else:
            replies.append(server.release(customer, int(words[0])))
    return generate.summary(sizes, "\n".join([*replies, ""]))


def output_of(*words, text=""):
    done = subprocess.run(words, input=text, stdout=subprocess.PIPE, universal_newlines=True,
                          timeout=SECONDS)
    if done.returncode != 0:
        sys.exit(f"generated: {' '.join(words)} ended with {done.returncode}: {done.stdout}")
    return done.stdout


def counted(program, sizes):
    """The line by the replies of a run."""
    text = "".join(f"{line}\n" for line in generate.lines(sizes))
    return generate.summary(sizes, output_of(program, "run", text=text))


def told(program, sizes):
    return output_of(program, "gen", *map(str, sizes))


def compare(program, sizes, is_planned):
    came, wanted = told(program, sizes), [counted(program, sizes)]
    if is_planned:
        wanted.append(planned(sizes))
    for line in wanted:
        if came != f"{line}\n":
            sys.exit(f"generated: {' '.join(map(str, sizes))}\nwanted: {line}\ncame:   {came}")
    print(came, end="")


def rate(sizes, seconds):
    numbers = " ".join(map(str, sizes))
    return f"gen {numbers}: {seconds:.2f} s, {sizes.hoses / seconds:.0f} hoses a second"


def timed(program, sizes):
    begun = time.perf_counter()
    line = told(program, sizes)
    seconds = time.perf_counter() - begun
    print(line, end="")
    return seconds


def main():
    program = os.path.abspath((sys.argv[1:] + ["./hosed"])[0])
    # The first run may build the program.
    subprocess.run([program, "--version"], stdout=subprocess.DEVNULL, check=True)
    for sizes in PLANNED:
        compare(program, sizes, True)
    for sizes in COMPARED:
        compare(program, sizes, False)
    print(f"generated: {len(PLANNED) + len(COMPARED)} scripts, {len(PLANNED)} by the planner too")
    for sizes in TIMED:
        print(rate(sizes, timed(program, sizes)))
    compare(program, REFERENCE, False)
    here = timed(program, REFERENCE)
    begun = time.perf_counter()
    line = planned(REFERENCE)
    planner = time.perf_counter() - begun
    print(line)
    print(f"{rate(REFERENCE, here)}, with the start of a process")
    print(f"reference: the planner in Python {planner:.2f} s, ratio {here / planner:.4f}")


if __name__ == "__main__":
    tell_usage(__doc__)
    main()
