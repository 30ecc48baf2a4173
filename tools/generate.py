#!/usr/bin/env python3
"""Writes what `hosed gen` makes of four numbers: a network and a script, as the input of `hosed
run`; and then tells of the replies what `hosed gen` tells.

With the four numbers alone the topology is written, and after it a line of the script for each
command. With REPLIES too, which is what `hosed run` wrote to this input, the summary is written:

  gen SEED hoses H admitted A refused R released L epoch N cost C

A, R and L are how many replies were of these kinds, N is the last epoch, and C what all the
admitted cost together.

example:
  ./hosed gen 7 20 40 100
  python3 tools/generate.py 7 20 40 100 | ./hosed run |
    python3 tools/generate.py 7 20 40 100 --summary -

Each draw is made of the one before it, x being SEED before the first: x becomes
x * 6364136223846793005 + 1442695040888963407, of which the lowest 64 bits are kept, and a draw
below k is the remainder of x / 2^33, rounded down, by k. `lines` says what is drawn, in which order.

status:
  0 all is written; 2 these words are not allowed, or REPLIES is not what came of this input
"""
import argparse
import sys
from typing import Iterator, List, NamedTuple

import client
import networks
from lines import COMMANDS

CUSTOMERS = 8


class Range(NamedTuple):
    """The numbers from one to another."""

    least: int
    most: int

    def __contains__(self, number: int) -> bool:
        return self.least <= number <= self.most


SEEDS = Range(0, 2**64 - 1)
NODES = Range(6, 512)
MOST_LINKS = 2048
HOSES = Range(0, 20_000)
WANTS = ("Spent", "Full", "Disk", "Memory")  # of what a generated script has enough


class Sizes(NamedTuple):
    """The four numbers, each within its range."""

    seed: int
    nodes: int
    links: int
    hoses: int


class Draws:
    """Numbers that follow from a seed."""

    def __init__(self, seed: int):
        self.state = seed

    def below(self, bound: int) -> int:
        self.state = (self.state * 6364136223846793005 + 1442695040888963407) % 2**64
        return self.state // 2**33 % bound


def link_line(draws: Draws, number: int, nodes: int) -> str:
    """A link of the tree that joins all nodes, which comes first, or one between any two."""
    if number < nodes - 1:
        a, b = number + 1, draws.below(number + 1)
    else:
        a, b = draws.below(nodes), draws.below(nodes - 1)
        if b >= a:
            b += 1
    capacity = 1000 + draws.below(9001)
    length = 1 + draws.below(100)
    return f"link n{a} n{b} {capacity} {length}"


def ends_text(draws: Draws, nodes: int, count: int) -> str:
    """So many endpoints, none of which is at the node of another."""
    ends = {}
    for _ in range(count):
        node = draws.below(nodes)
        while node in ends:
            node = (node + 1) % nodes
        ends[node] = 1 + draws.below(20)
    return " ".join(f"n{node}:{rate}" for node, rate in ends.items())


def admit_line(draws: Draws, nodes: int) -> str:
    customer = draws.below(CUSTOMERS)
    count = 2 + draws.below(4)
    return f"c{customer} admit {ends_text(draws, nodes, count)}"


def release_line(draws: Draws, hose: int) -> str:
    customer = draws.below(CUSTOMERS)
    return f"c{customer} release {1 + draws.below(hose + 1)}"


def lines(sizes: Sizes) -> Iterator[str]:
    """The lines of the topology, and then those of the script."""
    draws = Draws(sizes.seed)
    for node in range(sizes.nodes):
        yield f"node n{node}"
    for number in range(sizes.links):
        yield link_line(draws, number, sizes.nodes)
    yield "end"
    for hose in range(sizes.hoses):
        yield admit_line(draws, sizes.nodes)
        if hose % 5 == 4:
            yield release_line(draws, hose)


def topology(sizes: Sizes) -> List[str]:
    return list(lines(sizes._replace(hoses=0)))


def network(draws: Draws, nodes: int, links: int) -> List[str]:
    """The lines of a topology that are drawn next."""
    drawn = [link_line(draws, number, nodes) for number in range(links)]
    return [*(f"node n{node}" for node in range(nodes)), *drawn, "end"]


def script(sizes: Sizes) -> List[str]:
    return list(lines(sizes))[sizes.nodes + sizes.links + 1:]


def answers(command: str) -> List[str]:
    """The names of the replies that a command of the script may have."""
    return [reply for reply in COMMANDS[command].replies if reply not in WANTS]


def summary(sizes: Sizes, output: str) -> str:
    """What is told of the replies to the script."""
    asked, told = script(sizes), networks.lines_of(output)
    admitted, counts, epoch = [], {client.Refused: 0, client.Released: 0, client.NoVpn: 0}, 0
    for at, (line, reply_line) in enumerate(zip(asked, told), 1):
        reply = client.read_reply(reply_line)
        if reply is None or reply.line not in answers(line.split(" ")[1]):
            what = f"{networks.shown(reply_line)} is no reply to {networks.shown(line)}"
            raise networks.WrongText(at, what)
        epoch = reply.epoch
        if isinstance(reply, client.Admitted):
            admitted.append(reply.cost)
        else:
            counts[type(reply)] += 1
    if len(told) != len(asked):
        what = f"there are {len(told)} replies to {networks.counted(len(asked), 'command')}"
        raise networks.WrongText(min(len(told), len(asked)) + 1, what)
    return (f"gen {sizes.seed} hoses {sizes.hoses} admitted {len(admitted)} "
            f"refused {counts[client.Refused]} released {counts[client.Released]} "
            f"epoch {epoch} cost {sum(admitted)}")


def checked(seed: int, nodes: int, links: int, hoses: int) -> Sizes:
    """The numbers, where each is within its range."""
    ranges = {"SEED": SEEDS, "NODES": NODES, "LINKS": Range(nodes - 1, MOST_LINKS), "HOSES": HOSES}
    for (name, allowed), number in zip(ranges.items(), (seed, nodes, links, hoses)):
        if number not in allowed:
            raise networks.WrongInput(f"{name} is not {allowed.least} to {allowed.most}")
    return Sizes(seed, nodes, links, hoses)


def main() -> None:
    words = argparse.ArgumentParser(
        description=__doc__, formatter_class=argparse.RawDescriptionHelpFormatter
    )
    words.add_argument("seed", metavar="SEED", type=int, help="0 to 18,446,744,073,709,551,615")
    words.add_argument("nodes", metavar="NODES", type=int, help="6 to 512")
    words.add_argument("links", metavar="LINKS", type=int, help="NODES less 1 to 2,048")
    words.add_argument("hoses", metavar="HOSES", type=int, help="0 to 20,000")
    words.add_argument("--summary", metavar="REPLIES",
                       help="a file with what `hosed run` wrote, `-` for standard input")
    given = words.parse_args()
    sizes = checked(given.seed, given.nodes, given.links, given.hoses)
    if given.summary is None:
        for line in lines(sizes):
            print(line)
        return
    print(networks.load(lambda text: summary(sizes, text), given.summary))


if __name__ == "__main__":
    sys.exit(networks.status_of(main))
