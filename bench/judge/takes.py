#!/usr/bin/env python3
"""Compares what `hosed run` answers to takes with a plain model that looks at every link, where the
book keeps the links of recent entries alone: up to 65,536 changes, after which it forgets those
before.

The networks have a side that hoses are led round where a short way has no room, so that a quote
rests on which links are safe, and a spare link that no tree uses, of which only the service
changes. The rows are: 65,530 entries, a quote, ten more entries and its take, where the entries
are hoses and where they take a link out of service and put it back; 512 nodes in a line, whose 511
links one admission touches, at 65,024 to 65,027 changes, with quotes from before and after that,
some made while the spare link was out; and random orders of as many links on such a line, with
quotes from long before to just now, while links go out of service and back. The model plans by
rules of these networks alone, and keeps no changes. Prints how many replies of each kind agreed;
or the first difference, and ends with status 1.

usage: bench/judge/takes.py [PROGRAM [RUNS [SEED]]]
The PROGRAM (./hosed) is seen from the top of the repository; RUNS (10) are those of random orders.
"""

import os
import random
import subprocess
import sys
from collections import Counter

sys.path.insert(0, os.path.join(os.path.dirname(os.path.abspath(__file__)), "..", "parts"))
from usage import TOP, tell_usage

from lines import told

NODES = 512
MOST = 65_536  # changes that a book keeps


class Line:
    """Nodes in a line, where each link costs 1, a dear link past the first two, and a spare link
    that is too dear and too narrow for any tree."""

    def __init__(self, capacities, beside):
        self.capacities = [*capacities, beside, 1]
        self.beside, self.spare = len(capacities), len(capacities) + 1
        self.loads = [0] * len(self.capacities)
        self.live, self.quotes, self.epoch, self.out = {}, {}, 0, set()
        self.lines, self.replies = [], []

    def topology(self):
        nodes = [f"node p{number}" for number in range(self.beside + 1)]
        links = [f"link p{number} p{number + 1} {capacity} 1"
                 for number, capacity in enumerate(self.capacities[:-2])]
        beside = f"link p0 p2 {self.capacities[self.beside]} 5"
        return nodes + links + [beside, "link p0 p1 1 1000", "end"]

    def free(self, link):
        return self.capacities[link] - self.loads[link]

    def safe(self, rate):
        links = range(len(self.loads))
        return [link for link in links if link not in self.out and self.free(link) >= rate]

    def first(self, a, b):
        return list(range(a, b))

    def grounds(self, a, b, rate):
        """The links out of service, whether the first plan fits, and else each link in service that
        has half of the rates free."""
        fits = all(self.free(link) >= rate for link in self.first(a, b))
        return sorted(self.out), fits, None if fits else self.safe(rate)

    def has_plan(self, a, b, rate):
        """Whether the dear link can serve where the short ones cannot."""
        return self.grounds(a, b, rate)[1] or self.beside in self.safe(rate)

    def plan(self, a, b, rate):
        """The links of a hose of two nodes, and their cost: past p1 where a short one is full."""
        assert not self.out.intersection(self.first(a, b)), (a, b, self.out)
        if self.grounds(a, b, rate)[1]:
            return self.first(a, b), b - a
        assert (a, b) == (0, 2) and self.has_plan(a, b, rate), (a, b, rate)
        return [self.beside], 5

    def say(self, line, reply):
        self.lines.append(line)
        self.replies.append(reply)

    def enter(self, customer, plan, cost, rate):
        self.epoch += 1
        for link in plan:
            self.loads[link] += rate
        self.live[self.epoch] = (customer, plan, rate)
        amounts = [(link, rate) for link in plan]
        return told("Admitted", self.epoch, cost * rate, self.epoch, amounts)

    def admit(self, customer, a, b, rate):
        plan, cost = self.plan(a, b, rate)
        reply = self.enter(customer, plan, cost, rate)
        self.say(f"{customer} admit p{a}:{rate} p{b}:{rate}", reply)
        return self.epoch

    def release(self, number):
        customer, plan, rate = self.live.pop(number)
        self.epoch += 1
        for link in plan:
            self.loads[link] -= rate
        self.say(f"{customer} release {number}", told("Released", number, self.epoch))

    def change(self, link):
        """The operator takes a link out of service, or puts it back where it is out."""
        command = "up" if link in self.out else "down"
        self.out ^= {link}
        self.epoch += 1
        self.say(f"operator {command} {link}", told(command.capitalize(), link, self.epoch))

    def quote(self, customer, a, b, rate):
        plan, cost = self.plan(a, b, rate)
        held = (a, b, rate, plan, cost, self.epoch, self.grounds(a, b, rate))
        self.quotes[customer] = held
        amounts = [(link, rate) for link in plan]
        self.say(f"{customer} quote p{a}:{rate} p{b}:{rate}",
                 told("Quoted", 1, cost * rate, self.epoch, amounts))

    def take(self, customer):
        a, b, rate, plan, cost, seen, grounds = self.quotes.pop(customer)
        if self.grounds(a, b, rate) != grounds:
            reply = told("Stale", seen, self.epoch)
        else:
            reply = self.enter(customer, plan, cost, rate)
        self.say(f"{customer} take 1", reply)
        return reply.startswith("admitted")


def ten_after(pair, answers, links):
    """65,530 entries in turn, two for each of these pairs of lines, a quote, ten more entries, and
    the take: what is wanted of it stands here as it was worked out by hand."""
    numbers = range(1, 65_541, 2)
    pairs = [pair.format(number) for number in numbers]
    text = f"node a\nnode b\n{links}end\n" + "".join(pairs[:32_765])
    text += "acme quote a:1 b:1\n" + "".join(pairs[32_765:]) + "acme take 1\n"
    replies = [answer.format(number, number + 1) for number in numbers for answer in answers]
    replies.insert(65_530, "quoted 1 cost 1 at 65530 links 0:1")
    return text, [*replies, "admitted 65541 cost 1 at 65541 links 0:1"]


def ten_more():
    """By entries on one link."""
    return ten_after("beta admit a:1 b:1\nbeta release {}\n",
                     ["admitted {0} cost 1 at {0} links 0:1", "released {0} at {1}"],
                     "link a b 10 1\n")


def ten_changes_more():
    """By entries that take the dearer of two links out of service and put it back."""
    return ten_after("operator down 1\noperator up 1\n", ["down 1 at {0}", "up 1 at {1}"],
                     "link a b 10 1\nlink a b 10 9\n")


def whole_line(before, turns, out):
    """At so many changes one entry touches 511 links. Quotes are from before and after it and its
    neighbours, in the end a short link becomes safe, or not, and the last quote is from while the
    spare link was out, or not."""
    line = Line([1200, 1200] + [10_000] * (NODES - 3), 10_000)
    first = line.admit("beta", 0, 1, 400)
    line.admit("beta", 1, 2, 400)
    line.quote("early", 0, 2, 900)
    changes = 2
    while changes + NODES - 1 <= before:
        line.admit("beta", 0, NODES - 1, 1)
        changes += NODES - 1
    while changes < before:
        line.admit("beta", NODES - 2, NODES - 1, 1)
        changes += 1
    line.quote("last", 0, 2, 900)
    line.admit("beta", 0, NODES - 1, 1)
    if out:
        line.change(line.spare)
    line.quote("after", 0, 2, 900)
    if out:
        line.change(line.spare)
    line.admit("beta", 3, 4, 1)
    if turns:
        line.release(first)
    for customer in ("early", "last", "after"):
        line.take(customer)
    return "\n".join(line.topology() + line.lines) + "\n", line.replies


def random_orders(seed):
    """Orders of 1 to 400 links, at which customers hold a quote each from some time before. The
    spare link is out now and then, and more seldom the dear one."""
    draw = random.Random(seed)
    line = Line([1200, 1200] + [10_000] * (NODES - 3), 1_000_000)
    changes, own = 0, []
    while changes < 2 * MOST:
        step = draw.random()
        if step < 0.05:
            customer = f"c{draw.randrange(12)}"
            if customer in line.quotes:
                if line.take(customer):
                    own.append(line.epoch)
            elif line.has_plan(0, 2, 900):
                line.quote(customer, 0, 2, 900)
        elif step < 0.08:
            line.change(line.spare if draw.random() < 0.9 else line.beside)
            changes += 1
        elif step < 0.18:
            side = draw.randrange(2)
            if own and draw.random() < 0.5:
                line.release(own.pop(draw.randrange(len(own))))
            elif line.free(side) >= 400:
                own.append(line.admit("near", side, side + 1, draw.randrange(100, 400)))
            changes += 1
        else:
            a = draw.randrange(2, 100)
            b = draw.randrange(a + 1, NODES)
            if draw.random() < 0.4 and len(line.live) > len(own):
                far = [number for number, vpn in line.live.items() if vpn[0] == "far"]
                if far:
                    line.release(draw.choice(far))
                    continue
            line.admit("far", a, b, 1)
            changes += b - a
    return "\n".join(line.topology() + line.lines) + "\n", line.replies


def main():
    os.chdir(TOP)
    program = sys.argv[1] if len(sys.argv) > 1 else "./hosed"
    runs = int(sys.argv[2]) if len(sys.argv) > 2 else 10
    seed = int(sys.argv[3]) if len(sys.argv) > 3 else 1
    scripts = [("ten more entries", ten_more()), ("ten more changes", ten_changes_more())]
    for before in range(65_024, 65_028):
        for turns in (False, True):
            for out in (False, True):
                name = f"{before} changes, {turns}, {out}"
                scripts.append((name, whole_line(before, turns, out)))
    scripts += [(f"random orders {number}", random_orders(number))
                for number in range(seed, seed + runs)]
    counts = Counter()
    for name, (text, wanted) in scripts:
        done = subprocess.run([program, "run"], input=text.encode(), stdout=subprocess.PIPE,
                              stderr=subprocess.DEVNULL, check=False)
        replies = done.stdout.decode().splitlines()
        for place, (reply, want) in enumerate(zip(replies, wanted)):
            if reply != want:
                print(f"takes: {name}, reply {place + 1}: {reply[:90]}, and {want[:90]} is wanted")
                sys.exit(1)
        if len(replies) != len(wanted) or done.returncode != 0:
            print(f"takes: {name}: {len(replies)} replies of {len(wanted)}, status {done.returncode}")
            sys.exit(1)
        counts.update(reply.split()[0] for reply in replies)
    kinds = ", ".join(f"{count} {kind}" for kind, count in sorted(counts.items()))
    print(f"takes: {len(scripts)} scripts, 0 differ; {kinds}")


if __name__ == "__main__":
    tell_usage(__doc__)
    main()
