"""A network at random with many VPNs, of which each is on a tree of shortest ways to one node, as
the texts of a topology and its audit. It is for trying tools at a given size, and is made in the
same way each time; no server has admitted these VPNs.
"""
import random

from places import steps_from
from tests.runs import link_line

SEED = 1
CUSTOMERS = 200
MOST_ENDS = 8


def made(nodes, links, vpns):
    """The texts of a topology and of its audit."""
    chance = random.Random(SEED)
    pairs = joined(chance, nodes, links)
    ways = Ways(nodes, pairs)
    loads = [0] * links
    vpn_lines, total = [], 0
    for number in range(1, vpns + 1):
        ends = sorted(chance.sample(range(nodes), chance.randint(2, min(MOST_ENDS, nodes))))
        rates = {end: chance.randint(1, 50) for end in ends}
        amounts = ways.reserved(chance.randrange(nodes), rates)
        for link, amount in amounts:
            loads[link] += amount
        cost = sum(amount for _, amount in amounts)
        total += cost
        said_ends = " ".join(f"n{end}:{rate}" for end, rate in rates.items())
        said_links = " ".join(f"{link}:{amount}" for link, amount in amounts)
        vpn_lines.append(f"vpn {number} c{chance.randrange(CUSTOMERS)} cost {cost} "
                         f"ends {said_ends} links {said_links}")
    capacities = [max(1, load * chance.choice((100, 110, 150, 300, 900)) // 100) for load in loads]
    topology = [f"node n{node}" for node in range(nodes)]
    audit = [f"epoch {vpns}"]
    for link, (a, b) in enumerate(pairs):
        topology.append(f"link n{a} n{b} {capacities[link]} 1")
        audit.append(link_line(link, f"n{a}", f"n{b}", capacities[link], 1, loads[link]))
    audit += [*vpn_lines, f"live {vpns} cost {total}"]
    return "\n".join([*topology, "end", ""]), "\n".join([*audit, ""])


def joined(chance, nodes, links):
    """Pairs of nodes that join all of them, of which most are near each other by their numbers."""
    pairs = [(node, max(0, node - chance.randint(1, 12))) for node in range(1, nodes)]
    while len(pairs) < links:
        a = chance.randrange(nodes)
        pairs.append((a, (a + chance.randint(1, min(24, nodes - 1))) % nodes))
    return pairs


class Ways:
    """Shortest ways of a network, each kept once it was asked for."""

    def __init__(self, nodes, pairs):
        self.beside = [{} for _ in range(nodes)]
        for link, (a, b) in enumerate(pairs):
            self.beside[a].setdefault(b, link)
            self.beside[b].setdefault(a, link)
        self.kept = {}

    def towards(self, root):
        """From each node the next one and the link on a shortest way to a root."""
        if root not in self.kept:
            steps = steps_from(root, self.beside)
            self.kept[root] = [
                min((steps[other], other, link) for other, link in beside.items())[1:]
                for beside in self.beside]
        return self.kept[root]

    def reserved(self, root, rates):
        """By ascending links, the rate sum of the smaller side of each."""
        away, total = {}, sum(rates.values())
        for node, rate in rates.items():
            while node != root:
                node, link = self.towards(root)[node]
                away[link] = away.get(link, 0) + rate
        return [(link, min(sum_away, total - sum_away)) for link, sum_away in sorted(away.items())
                if sum_away < total]
