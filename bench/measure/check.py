#!/usr/bin/env python3
"""Milliseconds that `hosed check` takes for a certificate on a network of 512 nodes and 2,048
links, beside those of `wc -w` of its text, and those that `hosed prove` takes to write it: the
least of 20 runs each, by turns. The plan is that of the planner of planner.py, which takes some
seconds, and the network that of tools/generate.py.

usage: bench/measure/check.py [PROGRAM]
The PROGRAM (./hosed) is seen from the top of the repository.
"""
import os
import subprocess
import sys
import tempfile
import time

sys.path.insert(0, os.path.join(os.path.dirname(os.path.abspath(__file__)), "..", "parts"))
from usage import TOP, tell_usage

import generate
import networks
from certificate_lines import certificate
from planner import Link, Network, canonical_plan

os.chdir(TOP)
SIZES = generate.Sizes(7, 512, 2048, 0)
HOSE = [(3, 5), (17, 3), (77, 8), (100, 7), (200, 9), (300, 4), (411, 20), (500, 11)]
RUNS = 20


def seconds(words, path):
    """The seconds of a run over a text, and what it writes."""
    with open(path, "rb") as text:
        start = time.perf_counter()
        done = subprocess.run(words, stdin=text, capture_output=True, check=False)
        return time.perf_counter() - start, done.stdout


def main():
    program = os.path.abspath((sys.argv[1:] + ["./hosed"])[0])
    text = "\n".join(generate.topology(SIZES)) + "\n"
    told = networks.read_topology(text)
    places = {name: place for place, name in enumerate(told.nodes)}
    network = Network(told.nodes, [
        Link(places[link.a], places[link.b], link.capacity, link.length, link.cost)
        for link in told.links])
    plan = canonical_plan(network, set(range(len(network.links))), HOSE)
    lines = certificate(network, range(len(network.links)), HOSE, plan)
    with tempfile.TemporaryDirectory() as folder:
        paths = os.path.join(folder, "topology"), os.path.join(folder, "certificate")
        for path, content in zip(paths, (text, "\n".join(lines))):
            with open(path, "w", encoding="ascii") as file:
                file.write(content)
        words = [program, "check", paths[0]]
        ends = [f"{told.nodes[node]}:{rate}" for node, rate in HOSE]
        of_check, of_words, of_prove = 9, 9, 99
        for _ in range(RUNS):
            took, output = seconds(words, paths[1])
            assert output == f"{lines[0].replace('cost', 'yes')}\n".encode(), output
            of_check = min(of_check, took)
            of_words = min(of_words, seconds(["wc", "-w"], paths[1])[0])
            took, output = seconds([program, "prove", paths[0], *ends], os.devnull)
            assert output.decode().splitlines() == lines
            of_prove = min(of_prove, took)
        print(f"check: {1000 * of_check:.1f} ms for {os.path.getsize(paths[1])} bytes, with "
              f"its start; reference: wc -w {1000 * of_words:.1f} ms, ratio "
              f"{of_check / of_words:.1f} (wanted: 4 at most)")
        print(f"prove: {1000 * of_prove:.0f} ms for the same, with its start (wanted: seconds)")


if __name__ == "__main__":
    tell_usage(__doc__)
    main()
