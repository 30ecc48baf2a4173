"""The certificate that a plan costs least, as the scripts that judge and measure certificates, and
those that write cases of them, make it: with the distances of a plain Dijkstra."""
import collections
import heapq

from planner import plan_cost

PART = 64  # numbers in a line
TARIFFS = {
    "flat": lambda length: length,
    "hops": lambda length: 1,
    "long": lambda length: min(5 + 2 * length, 1_000_000),
}


def distances(network, over, root):
    """The least cost of a walk over these links to each node; none where there is no walk."""
    beside = collections.defaultdict(list)
    for number in over:
        link = network.links[number]
        beside[link.a].append((link.b, link.cost))
        beside[link.b].append((link.a, link.cost))
    found, waiting = [None] * len(network.nodes), [(0, root)]
    while waiting:
        far, node = heapq.heappop(waiting)
        if found[node] is None:
            found[node] = far
            for other, cost in beside[node]:
                heapq.heappush(waiting, (far + cost, other))
    return found


def certificate(network, over, hose, plan):
    """The lines of the certificate that a plan over these links costs least."""
    cost, without = plan_cost(network, plan), set(range(len(network.links))) - set(over)
    ends = " ".join(f"{network.nodes[node]}:{rate}" for node, rate in sorted(hose))
    lines = [f"cost {cost}", f"hose {ends}"]
    lines += [f"use {number} {amount}" for number, amount in plan]
    lines += [f"without {number}" for number in sorted(without)]
    for root in range(len(network.nodes)):
        row = [cost if far is None else far for far in distances(network, over, root)]
        for first in range(0, len(row), PART):
            numbers = " ".join(map(str, row[first:first + PART]))
            lines.append(f"pot {root} {first} {numbers}")
    return lines + ["end"]
