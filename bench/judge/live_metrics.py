#!/usr/bin/env python3
"""Compares the figures of tools/metrics.py with what the program says that writes the journal.

A run with a journal is given random orders of three customers and of `operator` on each of
demo/star.txt, demo/backbone.txt and the same as JSON, by its own costs and by each tariff. After
each ORDERS orders, while it runs on, the figures are read of its live journal and compared with its
replies to `link L` for each link: ends, capacity, cost, load, whether it is out, and the epoch. In
the end they are compared with an audit, too: live VPNs, by customer, the cost, and the page's list.
Prints how many were compared; ends with status 1 at the first that differs.

usage: bench/judge/live_metrics.py [PROGRAM [ORDERS [SEED]]]     ORDERS: 40
"""
import json
import os
import random
import subprocess
import sys
import tempfile
from collections import Counter

sys.path.insert(0, os.path.join(os.path.dirname(os.path.abspath(__file__)), "..", "parts"))
from usage import TOP, tell_usage

import metrics
import networks
import page

ROUNDS = 6
CUSTOMERS = "acme", "beta", "gamma"


def same(figure, reply, where):
    if figure != reply:
        sys.exit(f"live_metrics: {where}\nfigures: {figure}\nprogram: {reply}")


class Run:
    """A run with a journal, of which lines are asked one after another."""

    def __init__(self, program, topology, tariff, journal):
        words = ["--tariff", tariff] if tariff else []
        self.process = subprocess.Popen([program, "run", *words, journal], stdin=subprocess.PIPE,
                                        stdout=subprocess.PIPE, universal_newlines=True)
        self.process.stdin.write(networks.text_of(topology))
        self.held = []

    def ask(self, line):
        self.process.stdin.write(line + "\n")
        self.process.stdin.flush()
        return self.process.stdout.readline().rstrip("\n")

    def order(self, draw, topology):
        chance = draw.random()
        if chance < 0.15:
            link = draw.randrange(len(topology.links))
            self.ask(f"operator {draw.choice(('down', 'up'))} {link}")
        elif chance < 0.4 and self.held:
            self.ask("{} release {}".format(*self.held.pop(draw.randrange(len(self.held)))))
        else:
            ends = draw.sample(topology.nodes, draw.randint(2, min(4, len(topology.nodes))))
            customer = draw.choice(CUSTOMERS)
            reply = self.ask(f"{customer} admit " + " ".join(
                f"{end}:{draw.randint(1, 3)}" for end in ends)).split()
            if reply[0] == "admitted":
                self.held.append((customer, int(reply[1])))

    def end(self):
        self.process.stdin.close()
        same(self.process.wait(), 0, "the status of the run")
        self.process.stdout.close()


def compare_links(run, watched):
    watched.update()
    told = json.loads(metrics.as_json(watched))
    for link in told["links"]:
        out = " out" if link["out"] else ""
        figure = (f"link {link['link']} {link['a']} {link['b']} capacity {link['capacity']} cost "
                  f"{link['cost']} load {link['load']}{out} at {told['epoch']}")
        same(figure, run.ask(f"x link {link['link']}"), "a link")
    return len(told["links"])


def compare_audit(program, path, tariff, journal, watched):
    words = ["--tariff", tariff] if tariff else []
    text = subprocess.run([program, "audit", *words, path, journal], stdout=subprocess.PIPE,
                          universal_newlines=True, check=True).stdout
    audit = networks.read_audit(text)
    watched.update()
    told = json.loads(metrics.as_json(watched))
    same((told["epoch"], told["live_vpns"], told["cost"]), (audit.epoch, audit.live, audit.cost),
         "the epoch, the live VPNs and the cost")
    same(told["customers"], dict(Counter(vpn.customer for vpn in audit.vpns)), "the customers")
    same([page.vpn_line(vpn) for vpn in watched.book.audit().vpns],
         [page.vpn_line(vpn) for vpn in audit.vpns], "the VPNs")


def trial(program, path, tariff, orders, draw):
    topology = networks.load_topology(path, tariff)
    with tempfile.TemporaryDirectory() as place:
        journal = os.path.join(place, "journal")
        run = Run(program, topology, tariff, journal)
        run.ask("x link 0")  # the journal is there then
        watched, compared = metrics.Watched(journal, topology), 0
        for _ in range(ROUNDS):
            for _ in range(orders):
                run.order(draw, topology)
            compared += compare_links(run, watched)
        run.end()
        compare_audit(program, path, tariff, journal, watched)
        watched.close()
    return compared


def in_json(path, place):
    """The same topology as JSON, in a file there."""
    topology = networks.load_topology(path)
    links = [{"a": link.a, "b": link.b, "capacity": link.capacity, "length": link.length,
              "cost": link.cost} for link in topology.links]
    made = os.path.join(place, os.path.basename(path).replace(".txt", ".json"))
    with open(made, "w", encoding="ascii") as file:
        json.dump({"nodes": topology.nodes, "links": links}, file)
    return made


def main():
    program, orders, seed = sys.argv[1:] + [os.path.join(TOP, "hosed"), "40", "1"][
        len(sys.argv) - 1:]
    program, draw = os.path.abspath(program), random.Random(seed)
    compared = audits = 0
    with tempfile.TemporaryDirectory() as place:
        for name in "star.txt", "backbone.txt":
            path = os.path.join(TOP, "demo", name)
            for topology in path, in_json(path, place):
                for tariff in (None, *networks.TARIFFS):
                    compared += trial(program, topology, tariff, int(orders), draw)
                    audits += 1
    print(f"live_metrics: {compared} links and {audits} audits agree")


if __name__ == "__main__":
    tell_usage(__doc__)
    main()
