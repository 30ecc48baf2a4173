#!/usr/bin/env python3
"""Judges a certificate by the six rules of docs/GUIDE.md alone: `yes C`, or `no K` with the lowest
that fails. The status is 0, or 10 at no, or 2 where a file is wrong."""
import argparse
import re
import sys

import networks

N, P = "(?:0|[1-9][0-9]{0,16})", "[1-9][0-9]{0,7}"
TEXT = re.compile(f"cost {N}\nhose(?: [a-z0-9-]{{1,16}}:{P}){{2,64}}\n(?:use {N} {P}\n){{1,511}}"
                  f"(?:without {N}\n)*(?:pot {N} {N}(?: {N}){{1,64}}\n)+end\n?")


def read(topology, text):
    """The cost, rates by names, pairs, links left out and rows; none where a limit is passed."""
    lines, size = [line.split(" ") for line in text.splitlines()], len(topology.nodes)
    used, without, pots = ([[int(word) for word in words] for first, *words in lines
                            if first == kind] for kind in ("use", "without", "pot"))
    cost, ends = int(lines[0][1]), [end.split(":") for end in lines[1][1:]]
    rates, without = {name: int(rate) for name, rate in ends}, [link for link, in without]
    links, parts = [link for link, _ in used], range(0, size, 64)
    if not (cost <= 4 * 10**16 and len(rates) == len(ends) and set(rates) <= set(topology.nodes)
            and max(rates.values()) <= 10**6 and all(amount <= 32 * 10**6 for _, amount in used)
            and links == sorted(set(links)) and without == sorted(set(without) - set(links))
            and set(links + without) <= set(range(len(topology.links)))
            and [(root, part, len(row)) for root, part, *row in pots]
            == [(root, part, min(64, size - part)) for root in range(size) for part in parts]
            and all(number <= 4 * 10**16 for _, _, *row in pots for number in row)):
        return None
    rows = [sum((row for at, _, *row in pots if at == root), []) for root in range(size)]
    return cost, rates, used, set(without), [dict(zip(topology.nodes, row)) for row in rows]


def reached(links, start):
    found, more = set(), {start}
    while not more <= found:
        found |= more
        more = {node for link in links if {link.a, link.b} & found for node in (link.a, link.b)}
    return found


def on_a_tree(topology, rates, used):
    """Whether the pairs are a tree that joins the hose, with the lesser of the sides' rate sums."""
    tree, total = [topology.links[link] for link, _ in used], sum(rates.values())
    nodes = reached(tree, tree[0].a)  # one more than there are links: no cycle, no other part
    sides = [reached([link for link in tree if link is not cut], cut.a) for cut in tree]
    sums = [sum(rates.get(node, 0) for node in side) for side in sides]
    return (len(nodes) == len(tree) + 1 and set(rates) <= nodes
            and all(amount == min(here, total - here) for (_, amount), here in zip(used, sums)))


def judged(topology, text):
    found = TEXT.fullmatch(text) and read(topology, text)
    if not found:
        return "no 1"
    cost, rates, used, without, rows = found
    over = [link for link in topology.links if link.number not in without]
    rules = (
        lambda: on_a_tree(topology, rates, used),
        lambda: cost == sum(topology.links[link].cost * amount for link, amount in used),
        lambda: all(row[root] == 0 for root, row in zip(topology.nodes, rows)),
        lambda: all(abs(row[link.a] - row[link.b]) <= link.cost for row in rows for link in over),
        lambda: all(cost <= sum(rate * row[end] for end, rate in rates.items()) for row in rows))
    return next((f"no {rule}" for rule, holds in enumerate(rules, 2) if not holds()), f"yes {cost}")


def main():
    words = argparse.ArgumentParser(description=__doc__)
    words.add_argument("topology", metavar="TOPOLOGY")
    words.add_argument("certificate", metavar="CERTIFICATE", nargs="?", default="-")
    given = networks.add_tariff(words).parse_args()
    answer = judged(networks.load_topology(given.topology, given.tariff),
                    networks.read_any(given.certificate))
    print(answer, flush=True)
    sys.exit(10 if answer.startswith("no") else 0)


if __name__ == "__main__":
    sys.exit(networks.status_of(main))
