#!/usr/bin/env python3
"""Kills a live `hosed serve`, or a host with --host, at random moments, while customers are served.

Each time an audit of the journal then has to show each order whose reply was read: an admission is
live, as it was told, unless its customer's release of it was sent; a release that was told is not.
There are no more entries than were told and one for each customer who waited for a reply. Prints
how many were killed and how many replies were read; or the first difference, and ends with status
1. A killed process leaves what the system has taken: this says nothing of a machine that stops.

usage: bench/judge/kill_serve.py [--host] [PROGRAM [KILLS [SEED]]]
The PROGRAM (./hosed) is seen from the top of the repository.
"""

import os
import random
import subprocess
import sys
import tempfile
import time

sys.path.insert(0, os.path.join(os.path.dirname(os.path.abspath(__file__)), "..", "parts"))
from usage import tell_usage

from histories import SESSIONS, Differs, Session, client, same, start, start_host, way_of
from histories import write_topology
from planner import COMPARED, random_network

LONGEST = 0.12  # seconds until a server is killed, from its first line


def told_by(sessions):
    """Admissions by their numbers, what was released, what may have been, and how many times links
    went out of service or back."""
    admitted, released, asked, changes, waiting = {}, set(), set(), 0, 0
    for session in sessions:
        for kind, value, reply in session.said:
            words = reply.split()
            if not words:
                waiting += 1
                if kind == "release":
                    asked.add(value)
            elif words[0] == "admitted":
                admitted[int(words[1])] = (session.customer, words[3], " ".join(words[6:]))
            elif words[0] == "released":
                released.add(int(words[1]))
            elif words[0] in ("down", "up"):
                changes += 1
    return admitted, released, asked, changes, waiting


def judge(sessions, audit):
    admitted, released, asked, changes, waiting = told_by(sessions)
    epoch = int(audit[0].split()[1])
    live = {int(line.split()[1]): line for line in audit if line.startswith("vpn ")}
    for number, (customer, cost, links) in admitted.items():
        if number in released or number not in live and number in asked:
            continue
        line = live.get(number, "")
        if not (line.startswith(f"vpn {number} {customer} cost {cost} ") and line.endswith(links)):
            raise Differs(f"admitted {number} of {customer}, and then: {line}")
    for number in released:
        same(number in live, False, f"released {number}, and live")
    told = len(admitted) + len(released) + changes
    if not told <= epoch <= told + waiting:
        raise Differs(f"{told} entries were told, {waiting} replies waited for, epoch {epoch}")
    return told


def kill(program, by_host, work, seed):
    draw = random.Random(seed)
    topology, journal = os.path.join(work, "topology"), os.path.join(work, "journal")
    if os.path.exists(journal):
        os.remove(journal)
    network = random_network(draw, COMPARED)
    write_topology(network, topology)
    if by_host:
        server, port = start_host(program, topology, journal)
    else:
        server, port = start(program, topology, journal, 10_000)
    sessions = [Session(port, network, f"{seed} {number}") for number in range(SESSIONS)]
    for session in sessions:
        session.start()
    time.sleep(draw.random() * LONGEST)
    server.kill()
    server.wait()
    for session in sessions:
        session.join()
        if not isinstance(session.fault, (client.ConnectionLost, type(None))):
            raise Differs(f"a session failed: {session.fault}")
    found = subprocess.run([program, "audit", topology, journal], stdout=subprocess.PIPE, text=True)
    same(found.returncode, 0, "the status of the audit")
    return judge(sessions, found.stdout.splitlines())


def main():
    by_host, words = way_of(sys.argv[1:])
    program = os.path.abspath(words[0] if words else "./hosed")
    kills = int(words[1]) if len(words) > 1 else 100
    seed = words[2] if len(words) > 2 else "1"
    told = 0
    with tempfile.TemporaryDirectory() as work:
        for number in range(kills):
            try:
                told += kill(program, by_host, work, f"{seed}-{number}")
            except Differs as difference:
                sys.exit(f"kill {number} of seed {seed}: {difference}")
    if not told:
        sys.exit("no entry was told")
    print(f"{kills} were killed, {told} entries were told, 0 differed")


if __name__ == "__main__":
    tell_usage(__doc__)
    main()
