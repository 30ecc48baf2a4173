"""The book that the entries of a journal make, as plain values: live VPNs, loads, links out.

    book = Book(topology)
    for record in journal.read():
        book.enter(record)
    audit = book.audit()    # what `hosed audit` would tell

It takes each entry as sound, but for what it cannot enter: whether a link is oversold, or a tree is
one, is told by `hosed audit`.
"""
from collections import Counter
from typing import Dict, Set

import networks
from journals import Admission, Down, Record, Release

KINDS = {"Admission": "admit", "Release": "release", "Down": "down", "Up": "up"}


class Unsound(networks.WrongInput):
    """An entry that no book of these entries takes."""

    status = 5


class Book:
    def __init__(self, topology: networks.Topology):
        self.topology = topology
        self.epoch = 0
        self.live: Dict[int, Admission] = {}
        self.loads = [0] * len(topology.links)
        self.out: Set[int] = set()
        self.orders = Counter({kind: 0 for kind in KINDS.values()})

    def enter(self, record: Record) -> None:
        entry = record.entry
        try:
            if isinstance(entry, Admission):
                self._admit(record.epoch, entry)
            elif isinstance(entry, Release):
                self._release(entry)
            else:
                self._change(entry)
        except (KeyError, IndexError):
            raise Unsound(f"the entry {record.epoch} of the journal is not sound; `hosed audit` "
                          f"tells it as damaged at {record.gate}") from None
        self.epoch = record.epoch
        self.orders[KINDS[type(entry).__name__]] += 1

    def _admit(self, epoch: int, entry: Admission) -> None:
        if entry.ends[-1][0] >= len(self.topology.nodes):
            raise IndexError
        for link, amount in entry.links:
            self.loads[link] += amount
        self.live[epoch] = entry

    def _release(self, entry: Release) -> None:
        if self.live[entry.id].customer != entry.customer:
            raise KeyError
        for link, amount in self.live.pop(entry.id).links:
            self.loads[link] -= amount

    def _change(self, entry) -> None:
        self.topology.links[entry.link]  # raises IndexError where there is none
        if isinstance(entry, Down):
            self.out.add(entry.link)
        else:
            self.out.remove(entry.link)

    def customers(self) -> Dict[str, int]:
        """How many live VPNs each customer has who has one, by name."""
        return dict(sorted(Counter(vpn.customer for vpn in self.live.values()).items()))

    def cost(self) -> int:
        return sum(link.cost * load for link, load in zip(self.topology.links, self.loads))

    def links(self):
        return [networks.LinkState(link.number, link.a, link.b, link.capacity, link.cost, load,
                                   link.number in self.out)
                for link, load in zip(self.topology.links, self.loads)]

    def audit(self) -> networks.Audit:
        vpns = [self._vpn(epoch, vpn) for epoch, vpn in self.live.items()]
        return networks.Audit(self.epoch, self.links(), vpns, len(vpns), self.cost())

    def _vpn(self, epoch: int, vpn: Admission) -> networks.Vpn:
        nodes, links = self.topology.nodes, self.topology.links
        cost = sum(links[link].cost * amount for link, amount in vpn.links)
        ends = [(nodes[node], rate) for node, rate in vpn.ends]
        return networks.Vpn(epoch, vpn.customer, cost, ends, list(vpn.links))
