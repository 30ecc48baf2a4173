#!/usr/bin/env python3
"""Compares `hosed run`, reply by reply, with a slow and plain planner on random networks.

The networks have up to 9 nodes. The planner here shares no code with the crates and follows the
rules word by word; it is tried on rows worked out by hand first. On a third as many smaller
networks the cost of an admission is that of a search by force: the least over all trees of the
links allowed, with the least amounts that carry each matrix within the rates. Links are taken out
of service and put back meanwhile. In some scripts quotes are asked for and seldom taken, so that a
customer comes to hold as many as one may. Prints how many networks, commands and replies of each
kind agreed, and the seconds of both; or the first difference, with the input up to it, and ends
with status 1.

usage: bench/judge/compare_planner.py [PROGRAM [NETWORKS [SEED]]]
The PROGRAM (./hosed) is seen from the top of the repository.
"""

import os
import random
import subprocess
import sys
import time
from collections import Counter
from itertools import zip_longest

sys.path.insert(0, os.path.join(os.path.dirname(os.path.abspath(__file__)), "..", "parts"))
from usage import TOP, tell_usage

from planner import APART, COMPARED, FORCED, HUB, PARALLEL, RING, STAR, TRIANGLE, Server, decide
from planner import detour, in_service, plan_cost, random_command, random_network, random_weights
from planner import topology_lines

COMMANDS = 80  # of each network
SECONDS = 60  # that the program has for one network

# ---- Rows that were worked out by hand.

HAND = [
    (STAR, [0, 0, 0], [(0, 3), (1, 4), (2, 5)], "first", [(0, 3), (1, 4), (2, 5)], 26),
    (STAR, [3, 4, 5], [(0, 8), (1, 8)], "refused", [0], None),
    (detour(10), [0, 0, 0], [(0, 3), (1, 3)], "first", [(0, 3)], 3),
    (detour(10), [3, 0, 0], [(0, 3), (1, 3)], "second", [(1, 3), (2, 3)], 12),
    (detour(4), [4, 0, 0], [(0, 2), (1, 9)], "refused", [0], None),
    (detour(5), [4, 0, 0], [(0, 2), (1, 9)], "second", [(1, 2), (2, 2)], 8),
    (RING, [0, 0, 0, 0], [(1, 1), (3, 1)], "first", [(2, 1), (3, 1)], 2),
    (PARALLEL, [0, 0], [(0, 1), (1, 1)], "first", [(0, 1)], 1),
    (APART, [0], [(0, 1), (1, 1)], "refused", [0, 2], None),
    (TRIANGLE, [0, 0, 0], [(0, 1), (1, 1), (2, 4)], "first", [(1, 1), (2, 1)], 5),
    (HUB, [0] * 10, [(0, 1), (1, 1), (2, 1), (3, 1)], "first", [(6, 1), (7, 1), (8, 1), (9, 1)], 8),
]


AB, BC, FIVE, SIX = [(0, 1), (1, 1)], [(1, 2), (2, 2)], [(0, 5), (1, 5)], [(0, 6), (1, 6)]
ABOVE = [(0, 11), (1, 11)]
SCRIPTS = [
    (STAR, [
        ("acme", "quote", AB, "quoted 1 cost 3 at 0 links 0:1 1:1"),
        ("zeta", "admit", BC, "admitted 1 cost 10 at 1 links 1:2 2:2"),
        ("acme", "take", 1, "admitted 2 cost 3 at 2 links 0:1 1:1"),
    ]),
    (STAR, [
        ("acme", "quote", SIX, "quoted 1 cost 18 at 0 links 0:6 1:6"),
        ("zeta", "admit", FIVE, "admitted 1 cost 15 at 1 links 0:5 1:5"),
        ("acme", "take", 1, "stale 0 1"),
        ("acme", "take", 1, "no quote 1 at 1"),
        ("acme", "admit", SIX, "refused at 1 side a"),
    ]),
    (STAR, [
        ("acme", "quote", SIX, "quoted 1 cost 18 at 0 links 0:6 1:6"),
        ("zeta", "admit", FIVE, "admitted 1 cost 15 at 1 links 0:5 1:5"),
        ("zeta", "release", 1, "released 1 at 2"),
        ("acme", "take", 1, "admitted 3 cost 18 at 3 links 0:6 1:6"),
    ]),
    (detour(10), [
        ("acme", "admit", [(0, 3), (1, 3)], "admitted 1 cost 3 at 1 links 0:3"),
        ("acme", "quote", [(0, 3), (1, 3)], "quoted 1 cost 12 at 1 links 1:3 2:3"),
        ("zeta", "admit", [(0, 8), (2, 8)], "admitted 2 cost 16 at 2 links 1:8"),
        ("acme", "take", 1, "stale 1 2"),
    ]),
    (STAR, [
        *(("acme", "quote", AB, f"quoted {n} cost 3 at 0 links 0:1 1:1") for n in range(1, 17)),
        ("acme", "quote", AB, "too many quotes at 0"),
        ("zeta", "quote", ABOVE, "refused at 0 side a"),
        ("zeta", "quote", AB, "quoted 1 cost 3 at 0 links 0:1 1:1"),
    ]),
    (STAR, [
        ("operator", "down", 0, "down 0 at 1"),
        ("acme", "admit", AB, "refused at 1 side a"),
        ("acme", "down", 1, "denied at 1"),
        ("operator", "down", 0, "already 0 at 1"),
        ("operator", "down", 3, "bad 3"),
        ("operator", "up", 0, "up 0 at 2"),
        ("operator", "up", 0, "already 0 at 2"),
        ("acme", "admit", AB, "admitted 3 cost 3 at 3 links 0:1 1:1"),
    ]),
    (detour(10), [
        ("acme", "admit", [(0, 3), (1, 3)], "admitted 1 cost 3 at 1 links 0:3"),
        ("operator", "down", 0, "down 0 at 2"),
        ("acme", "admit", [(0, 3), (1, 3)], "admitted 3 cost 12 at 3 links 1:3 2:3"),
        ("acme", "show", 1, "vpn 1 cost 3 at 3 ends a:3 b:3 links 0:3"),
        ("zeta", "quote", AB, "quoted 1 cost 4 at 3 links 1:1 2:1"),
        ("operator", "up", 0, "up 0 at 4"),
        ("zeta", "take", 1, "stale 3 4"),
    ]),
    (STAR, [
        ("acme", "vpns", "vpns at 0"),
        ("acme", "admit_after", 1, AB, "newest 0 at 0"),
        ("acme", "admit_after", 0, AB, "admitted 1 cost 3 at 1 links 0:1 1:1"),
        ("acme", "admit_after", 0, AB, "newest 1 at 1"),
        ("zeta", "vpns", "vpns at 1"),
        ("zeta", "admit_after", 0, BC, "admitted 2 cost 10 at 2 links 1:2 2:2"),
        ("acme", "admit_after", 1, AB, "admitted 3 cost 3 at 3 links 0:1 1:1"),
        ("acme", "vpns", "vpns 1 3 at 3"),
        ("acme", "admit_after", 1, ABOVE, "newest 3 at 3"),
        ("acme", "admit_after", 3, ABOVE, "refused at 3 side a"),
        ("acme", "release", 3, "released 3 at 4"),
        ("acme", "admit_after", 3, AB, "newest 1 at 4"),
        ("acme", "vpns", "vpns 1 at 4"),
        ("acme", "admit_after", 1, AB, "admitted 5 cost 3 at 5 links 0:1 1:1"),
        ("acme", "release", 1, "released 1 at 6"),
        ("acme", "vpns", "vpns 5 at 6"),
    ]),
]


def check_by_hand():
    for network, loads, hose, kind, found, cost in HAND:
        decision = decide(network, in_service(network, ()), loads, hose)
        assert decision == (kind, found), f"{hose} on {network}: {decision}"
        assert kind == "refused" or plan_cost(network, found) == cost, f"the cost of {found}"
    for network, commands in SCRIPTS:
        server = Server(network)
        for customer, command, *asked, want in commands:
            reply = getattr(server, command)(customer, *asked)
            assert reply == want, f"{customer} {command} {asked}: {reply} in place of {want}"
    print(f"by hand: {len(HAND)} decisions, {len(SCRIPTS)} scripts")


# ---- The comparison.


def compare(program, topology, script, wanted):
    """Whether the program replies so to the script; else tells the first difference."""
    text = "\n".join(topology + script) + "\n"
    streams = {"input": text, "capture_output": True, "text": True}
    run = subprocess.run([program, "run"], timeout=SECONDS, **streams)
    replies = run.stdout.splitlines()
    for place, (want, reply) in enumerate(zip_longest(wanted, replies)):
        if want != reply:
            print("\n".join(topology + script[: place + 1]))
            print(f"\nthe reply to the last line differs\nwanted: {want}\nreply: {reply}")
            return False
    if run.returncode != 0:
        print(f"{text}\nthe status is {run.returncode}: {run.stderr}")
    return run.returncode == 0


class Seconds:
    planner = 0.0
    hosed = 0.0


def compare_network(program, seed, size, by_force, seconds, kinds):
    """Whether the program replies to a random script on a random network as the server here."""
    draw = random.Random(seed)
    start = time.perf_counter()
    server = Server(random_network(draw, size), by_force)
    weights = random_weights(draw)
    script, wanted = zip(*(random_command(draw, server, size, weights) for _ in range(COMMANDS)))
    planned = time.perf_counter()
    agrees = compare(program, topology_lines(server.network), list(script), wanted)
    seconds.planner += planned - start
    seconds.hosed += time.perf_counter() - planned
    kinds.update(server.kinds)
    return agrees


def main():
    program, networks, seed = (sys.argv[1:] + ["./hosed", "300", "1"][len(sys.argv) - 1 :])[:3]
    os.chdir(TOP)
    check_by_hand()
    # The first run may build the program.
    subprocess.run([program, "--version"], stdout=subprocess.DEVNULL, check=True)
    kinds, seconds, forced = Counter(), Seconds(), int(networks) // 3
    for number in range(int(networks)):
        if not compare_network(program, f"{seed} {number}", COMPARED, False, seconds, kinds):
            sys.exit(1)
    commands = sum(kinds.values())
    reference = Seconds()
    for number in range(forced):
        if not compare_network(program, f"{seed} force {number}", FORCED, True, reference, kinds):
            sys.exit(1)
    print(f"compared: {networks} networks, {commands} commands; {forced} networks by force")
    for kind, count in sorted(kinds.items()):
        print(f"{kind}: {count}")
    ratio = seconds.hosed / seconds.planner
    print(f"seconds: {seconds.hosed:.2f}, with the start of {networks} processes")
    print(f"reference: {seconds.planner:.2f} s for the planner here, ratio {ratio:.2f}")
    print(f"by force: {reference.planner:.2f} s")


if __name__ == "__main__":
    tell_usage(__doc__)
    main()
