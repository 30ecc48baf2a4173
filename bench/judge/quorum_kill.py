#!/usr/bin/env python3
"""Kills, stops and cuts off members of etcd and machines of tools/quorum.py, while customers order.

Three members and three machines on loopback, of which one leads; customers give `admit-after`,
repeated at the three hosts in turn until it is answered, and `release`; others ask at every host.
Each round has one fault, which is mended after a while: then orders have to be answered again, and
all journals have to be the same. Each order that was told stands there once, at its epoch; nothing
stands there that nobody gave; and while two members are dead no order is accepted. A reply is stale
that tells of fewer entries than one did that was read before its line was sent: these are counted,
and a customer who is told less than before asks another host.

Of 12 rounds one stops an old leader with an order on its way to etcd, which comes there once
another one has led and the customer has had the same order there. Two ask an old host once another
one has told of an order: what watches over it is stopped, and in one of them it is, too, and goes
on first.

Prints the rounds, orders, lost and stale replies, and the longest times without an accepted order
by fault; or the first difference. Ends with status 1 where there is one, or a stale reply. Where
KEEP in the environment names a folder, logs and journals of a difference are copied to it.

usage: bench/judge/quorum_kill.py [--host WORDS] [--seconds N] [--only FAULT] [--silent N]
           [PROGRAM [ROUNDS [SEED]]]
The PROGRAM (./hosed) is seen from the top of the repository. WORDS run in its place as a host. With
--seconds no round begins later; with --only each one has this fault; --silent is what hosts have as
--standby-seconds (6). It wants etcd-server and etcd-client, as Debian has them.
"""
import argparse
import bisect
import os
import random
import shutil
import signal
import statistics
import sys
import tempfile
import threading
import time

sys.path.insert(0, os.path.join(os.path.dirname(os.path.abspath(__file__)), "..", "parts"))
from usage import TOP, tell_usage

import client
import journals
import networks
from live_journal import LiveJournal, OtherHistory
from quorum_machines import Cluster, send

CUSTOMERS = 6
ANSWER, MOST_ANSWER = 3.0, 24.0  # seconds for a reply, after which another host is asked; and after
# one that came too late for that, twice as long
LEASE = 5.0
NAME = os.path.join(TOP, "demo", "backbone.txt")
GOES_ON, SAME = 120.0, 90.0  # seconds until an order is answered again, and until all journals are
# the same; a machine that is loaded takes its time
LATE = 20  # customers who ask an old host
EACH = 12  # rounds of one cluster
DIRECTED = {3: "host_asked", 7: "stopped_host_asked", 11: "ordered_twice"}  # of these the rounds


class Differs(Exception):
    pass


# ---- Customers.


class Told:
    """What was told to all: when the line was sent, when its reply was read, and its epoch."""

    def __init__(self):
        self.all, self.orders, self.lost, self.again = [], [], 0, 0
        self.free = threading.Event()  # whether customers go on to their next order
        self.free.set()

    def add(self, sent, read, reply, is_order):
        self.all.append((read, sent, epoch_of(reply), reply))
        if is_order:
            self.orders.append((sent, read))

    def stale(self):
        """The replies that tell of less than one that was read before their line was sent."""
        ended, found = sorted(self.all), []
        times, most = [one[0] for one in ended], []
        for one in ended:
            most.append(max(one[2], most[-1] if most else 0))
        for read, sent, epoch, reply in ended:
            before = bisect.bisect_left(times, sent)
            if before and most[before - 1] > epoch and " at " in reply:
                found.append(f"{reply!r}, {read - sent:.3f} s after its line, which was sent "
                             f"{sent - times[before - 1]:.3f} s after the epoch "
                             f"{most[before - 1]} had been told")
        return found


def epoch_of(reply):
    words = reply.split()
    return int(words[words.index("at") + 1]) if "at" in words else 0


class Asker(threading.Thread):
    """Who asks one line after another, and has a connection for a while."""

    def __init__(self, ports, name, told, seed):
        super().__init__(daemon=True)
        self.ports, self.told, self.draw = list(ports), told, random.Random(f"{seed} {name}")
        self.customer, self.link, self.fault, self.seen = name, None, None, 0
        self.patience = ANSWER
        self.ends = threading.Event()

    def ask(self, line, is_order=False):
        """The reply at the host that it is connected to; none where that is lost."""
        try:
            if self.link is None:
                self.link = client.Lines(client.HOST, self.ports[0], self.patience)
                self.told_at(f"hello {self.customer}", False)
            reply = self.told_at(line, is_order)
            self.patience = ANSWER
            return reply
        except client.ConnectionLost as fault:
            if isinstance(fault, client.NoAnswer):
                self.patience = min(2 * self.patience, MOST_ANSWER)
            self.told.lost += fault.unanswered is not None
            self.go_on()
            return ""

    def go_on(self):
        """To another host."""
        if self.link:
            self.link.close()
        self.link = None
        self.ports.append(self.ports.pop(0))
        time.sleep(0.02)

    def go_to_others(self, machine):
        """Says nothing more to a machine."""
        self.ports.remove(machine.port)
        self.link = None

    def told_at(self, line, is_order):
        sent = time.monotonic()
        reply = self.link.ask(line)
        self.told.add(sent, time.monotonic(), reply, is_order)
        if " at " in reply and epoch_of(reply) < self.seen:
            raise client.ConnectionLost("a leader that is none any more")
        self.seen = max(self.seen, epoch_of(reply))
        return reply

    def run(self):
        try:
            while not self.ends.is_set():
                self.step()
        except Exception as fault:
            self.fault = fault


class Customer(Asker):
    def __init__(self, ports, name, told, seed, nodes):
        super().__init__(ports, name, told, seed)
        self.nodes, self.live, self.admitted, self.released, self.known = nodes, [], {}, {}, 0

    def step(self):
        self.told.free.wait()
        if len(self.live) > 2:
            self.release(self.live[0])
        self.admit()

    def admit(self):
        ends = {name: self.draw.randint(1, 3) for name in self.draw.sample(self.nodes, 2)}
        line, tries = f"admit-after {self.known} {client.hose(ends)}", 0
        while True:
            reply, tries = self.ask(line, True).split(), tries + 1
            if reply[:1] == ["admitted"]:
                number = int(reply[1])
                break
            if reply[:1] == ["newest"] and int(reply[1]) > self.known and tries > 1:
                number, self.told.again = int(reply[1]), self.told.again + 1
                break  # a reply was lost, and it was done
            if reply and reply[0] not in ("disk", "memory"):
                raise Differs(f"{line} of {self.customer} is answered {' '.join(reply)}")
        self.admitted[number], self.known = ends, number
        self.live.append(number)

    def release(self, number):
        tries = 0
        while True:
            reply, tries = self.ask(f"release {number}", True).split(), tries + 1
            if reply[:1] == ["released"]:
                self.released[number] = int(reply[3])
                break
            if reply[:1] == ["no"] and tries > 1:
                self.released[number], self.told.again = None, self.told.again + 1
                break
            if reply and reply[0] not in ("disk", "memory"):
                raise Differs(f"release {number} of {self.customer} is answered {reply}")
        self.live.remove(number)


class Probe(Asker):
    """Asks at one host alone, whoever leads."""

    def step(self):
        self.ask("vpns")
        self.ends.wait(0.01)


# ---- Judging.


class Book:
    """The entries of all rounds, by the machines' journals."""

    def __init__(self, machines, digest):
        self.machines, self.digest, self.journals = machines, digest, {}
        self.epoch, self.value = 0, digest
        self.entries = {}

    def read(self, machine, keep):
        """The journal's epoch and chain value, from the end of the last round on."""
        journal = self.journals.pop(machine.name, None)
        try:
            if journal is None:
                journal = LiveJournal(machine.journal, self.digest)
                if not journal.skip(self.epoch) or (journal.value or self.digest) != self.value:
                    raise Differs(f"{machine.name} has not what it had in the last round")
            found = []
            while True:
                records = journal.read()
                found += records
                if not records:
                    break
        except OtherHistory:
            journal.close()
            return self.read(machine, keep)  # what nobody was told of was cut off
        self.journals[machine.name] = journal
        if keep:
            self.entries.update((one.epoch, one.entry) for one in found)
        return journal.epoch, journal.value or self.digest

    def settle(self):
        """Once all journals are the same, what came in this round, by its epoch."""
        last = time.monotonic() + SAME
        self.entries, before = {}, self.epoch
        while True:
            found = [self.read(machine, machine is self.machines[0]) for machine in self.machines]
            if len(set(found)) == 1:
                break
            if time.monotonic() > last:
                raise Differs(f"the journals are not the same: {found}")
            time.sleep(0.1)
        self.epoch, self.value = found[0]
        return {epoch: entry for epoch, entry in self.entries.items()
                if before < epoch <= self.epoch}


def judge(entries, customers, numbers):
    """Each order stands once, at the epoch that was told, and no other one."""
    given = {}
    for customer in customers:
        for number, ends in customer.admitted.items():
            given[number] = (customer.customer, sorted((numbers[name], rate)
                                                       for name, rate in ends.items()))
    released = {(one.customer, number): epoch for one in customers
                for number, epoch in one.released.items()}
    for epoch, entry in entries.items():
        if isinstance(entry, journals.Admission):
            stands = (entry.customer, sorted(entry.ends))
            if given.pop(epoch, None) != stands:
                raise Differs(f"the entry {epoch} is {stands}, which was not ordered so")
        else:
            place = released.pop((entry.customer, entry.id), -1)
            if place not in (None, epoch):
                raise Differs(f"the release of {entry.id} stands at {epoch}, and was told {place}")
    if given or released:
        raise Differs(f"orders that were told, and are not there: {given} {released}")


# ---- Faults.


def stop_for(pids, seconds):
    send(pids, signal.SIGSTOP)
    time.sleep(seconds)
    send(pids, signal.SIGCONT)


class Faults:
    """Each is done to a cluster, and takes its time; what it has killed is begun again after it."""

    def __init__(self, cluster, draw):
        self.cluster, self.draw = cluster, draw
        self.quiet = None  # from when until when no order may be accepted

    def leading(self):
        self.cluster.until(lambda: self.cluster.leader())
        return self.cluster.leader()

    def other(self):
        leader = self.leading()
        return self.draw.choice([one for one in self.cluster.machines if one is not leader])

    def long(self):
        return LEASE + self.draw.uniform(0.5, 5)

    def hold(self, names, seconds):
        self.cluster.forwarders.hold(names)
        time.sleep(seconds)
        self.cluster.forwarders.hold(names, False)

    def nothing(self):
        time.sleep(1)

    def etcd_killed(self):
        self.draw.choice(self.cluster.members).kill()
        time.sleep(self.draw.uniform(0, 3))

    def first_etcd_killed(self):
        self.cluster.first_member().kill()
        time.sleep(self.draw.uniform(0, 3))

    def first_etcd_stopped(self):
        stop_for(self.cluster.first_member().pids(), self.long())

    def etcd_stopped(self):
        stop_for(self.draw.choice(self.cluster.members).pids(), self.long())

    def two_etcd_killed(self):
        two = self.draw.sample(self.cluster.members, 2)
        for one in two:
            one.kill()
        start = time.monotonic()
        time.sleep(self.draw.uniform(1, 10))
        self.quiet = start, time.monotonic()

    def all_etcd_killed(self):
        for one in self.cluster.members:
            one.kill()
        time.sleep(self.draw.uniform(0, 5))

    def host_killed(self):
        send(self.leading().part("--standby-or-stop"), signal.SIGKILL)

    def host_stopped(self):
        stop_for(self.leading().part("--standby-or-stop"), self.long())

    def put_killed(self):
        send(self.leading().part("put"), signal.SIGKILL)

    def put_stopped(self):
        stop_for(self.leading().part("put"), self.long())

    def lead_killed(self, number=signal.SIGKILL):
        process = self.leading().process
        send([process.pid], number)
        process.wait(SAME)
        time.sleep(self.draw.uniform(0, 2))

    def lead_stopped(self):
        stop_for([self.leading().process.pid], self.long())

    def lead_ended(self):
        self.lead_killed(signal.SIGTERM)

    def machine_killed(self):
        self.leading().kill()
        time.sleep(self.draw.uniform(0, LEASE + 3))

    def machine_and_etcd_killed(self):
        machine = self.leading()
        self.cluster.members["abc".index(machine.name)].kill()
        machine.kill()
        time.sleep(self.draw.uniform(0, LEASE + 3))

    def machine_stopped(self):
        stop_for(self.leading().pids(), self.long())

    def machine_and_etcd_stopped(self):
        machine = self.leading()
        stop_for(machine.pids() + self.cluster.members["abc".index(machine.name)].pids(),
                 self.long())

    def other_killed(self):
        self.other().kill()
        time.sleep(self.draw.uniform(0, 3))

    def all_machines_killed(self):
        for machine in self.cluster.machines:
            machine.kill()
        time.sleep(self.draw.uniform(0, 2))

    def links_cut(self):
        self.hold(self.cluster.links[self.leading().name], self.long())

    def link_cut(self):
        self.hold([self.draw.choice(self.cluster.links[self.leading().name])], self.long())

    def links_slow(self):
        """Each call to etcd takes 1.2 seconds at least."""
        links = sum(self.cluster.links.values(), [])
        self.cluster.forwarders.slow(links, 0.6)
        time.sleep(self.long())
        self.cluster.forwarders.slow(links, 0)

    def peers_cut(self):
        self.hold([f"peer{self.draw.randrange(3)}"], self.long())

    def machine_cut_off(self):
        machine = self.leading()
        self.hold(self.cluster.links[machine.name] + [f"peer{'abc'.index(machine.name)}"],
                  self.long())


FAULTS = [name for name in vars(Faults) if not name.startswith("_")
          and name not in ("leading", "other", "long", "hold")]


def ordered_twice(cluster, told, customer):
    """An old leader is stopped with an order on its way, which the customer has at the new one, as
    the first of all: then both go on, and what was on its way comes to etcd."""
    faults = Faults(cluster, random.Random(customer.customer))
    told.free.clear()
    time.sleep(1)  # for the others' orders
    old = faults.leading()
    customer.ports.sort(key=lambda port: port != old.port)
    customer.admit()
    ends = dict(zip(customer.nodes, (1, 2)))
    line = f"admit-after {customer.known} {client.hose(ends)}"
    send([old.process.pid], signal.SIGSTOP)
    cluster.forwarders.hold(cluster.links[old.name])
    replies = []
    early = threading.Thread(target=lambda: replies.append(first_try(old.port, customer, line)))
    early.start()
    time.sleep(0.5)  # it is on its way
    stopped = old.part("put") + old.part("--standby-or-stop")
    send(stopped, signal.SIGSTOP)
    customer.go_to_others(old)
    number = None
    while number is None:
        words = customer.ask(line, True).split()
        if words[:1] in (["admitted"], ["newest"]):
            number = int(words[1])
    customer.admitted[number], customer.known = ends, number
    cluster.forwarders.hold(cluster.links[old.name], False)
    send(stopped, signal.SIGCONT)
    early.join(LEASE)  # who leads there is stopped still, and ends nothing
    send([old.process.pid], signal.SIGCONT)
    early.join()
    told.free.set()
    if replies != [""]:
        raise Differs(f"two were told of one order: {number} and {replies}")


class Late(threading.Thread):
    """Who asks an old host, again and again until it has ended, once another one has told of an
    order."""

    def __init__(self, port, name, told, is_told):
        super().__init__(daemon=True)
        self.link, self.told, self.is_told = client.Lines(client.HOST, port, SAME), told, is_told
        self.ask(f"hello {name}")

    def ask(self, line):
        sent = time.monotonic()
        reply = self.link.ask(line)
        self.told.add(sent, time.monotonic(), reply, False)

    def run(self):
        self.is_told.wait()
        try:
            while True:
                self.ask("vpns")
        except client.ConnectionLost:
            self.told.lost += 1


def host_asked(cluster, told, customer, is_stopped=False):
    """Of the machine that leads all but the host is stopped, and the host, too, where `is_stopped`.
    Once another one has told of an order the old host is asked, and goes on first."""
    is_told, name = threading.Event(), customer.customer
    told.free.clear()
    time.sleep(1)  # for the others' orders
    late = []
    while not late:
        customer.admit()
        old = Faults(cluster, random.Random(name)).leading()
        try:
            late = [Late(old.port, f"{name}-{one}", told, is_told) for one in range(LATE)]
        except client.ConnectionLost:
            pass  # another one leads by now
    for one in late:
        one.start()
    host = old.part("--standby-or-stop")
    rest = [pid for pid in old.pids() if pid not in host]
    send(rest + (host if is_stopped else []), signal.SIGSTOP)
    customer.go_to_others(old)
    customer.admit()
    is_told.set()
    time.sleep(0.2)  # questions are on their way
    send(host, signal.SIGCONT)
    time.sleep(1)
    send(rest, signal.SIGCONT)
    for one in late:
        one.join(SAME)
    told.free.set()


def stopped_host_asked(cluster, told, customer):
    host_asked(cluster, told, customer, True)


def first_try(port, customer, line):
    """What the old leader answers, if it does."""
    try:
        link = client.Lines(client.HOST, port, LEASE * 4)
        link.ask(f"hello {customer.customer}")
        return link.ask(line)
    except client.ConnectionLost:
        return ""


# ---- Rounds.


def round_of(cluster, book, topology, number, seed, fault):
    draw, told = random.Random(f"{seed} {number}"), Told()
    ports = [machine.port for machine in cluster.machines]
    numbers = {name: place for place, name in enumerate(topology.nodes)}
    customers = [Customer(draw.sample(ports, 3), f"c{number}-{one}", told, seed, topology.nodes)
                 for one in range(CUSTOMERS)]
    askers = customers + [Probe([port], f"p{number}-{port}", told, seed) for port in ports]
    for one in askers:
        one.start()
    faults, start = Faults(cluster, draw), time.monotonic()
    extra = []
    time.sleep(draw.uniform(0.5, 1.5))
    begun = time.monotonic()
    if fault in DIRECTED.values():
        extra = [Customer(ports, f"c{number}-old", told, seed, topology.nodes)]
        globals()[fault](cluster, told, extra[0])
    else:
        getattr(faults, fault)()
    cluster.mend()
    mended = time.monotonic()
    try:
        cluster.until(lambda: any(sent > mended for sent, _ in list(told.orders))
                      or any(one.fault for one in askers), GOES_ON)
    except TimeoutError:
        raise Differs("no order is answered any more")
    time.sleep(0.3)
    for one in askers:
        one.ends.set()
    for one in askers:
        one.join(SAME)
        if one.fault or one.is_alive():
            raise Differs(f"{one.customer}: {one.fault or 'it still waits'}")
        if one.link:
            one.link.close()
    entries = book.settle()
    judge(entries, customers + extra, numbers)
    if faults.quiet:
        for sent, read in told.orders:
            if faults.quiet[0] < sent and read < faults.quiet[1]:
                raise Differs("an order was accepted without a quorum")
    ends = sorted([begun] + [read for _, read in told.orders if read > begun])
    gap = max(after - before for before, after in zip(ends, ends[1:]))
    return len(entries), told, gap, time.monotonic() - start


def words():
    reader = argparse.ArgumentParser(usage=__doc__.split("usage: ")[1])
    reader.add_argument("--host")
    reader.add_argument("--seconds", type=float, default=1e9)
    reader.add_argument("--only")
    reader.add_argument("--silent", type=int, default=6)
    reader.add_argument("program", nargs="?", default="./hosed")
    reader.add_argument("rounds", nargs="?", type=int, default=300)
    reader.add_argument("seed", nargs="?", default="1")
    return reader.parse_args()


def main():
    given = words()
    program, topology = os.path.abspath(given.program), networks.load_topology(NAME, None)
    host = [program] + (given.host.split() if given.host else [])
    counts = Counts()
    last, done = time.monotonic() + given.seconds, 0
    while done < given.rounds and time.monotonic() < last:
        with tempfile.TemporaryDirectory() as work:
            cluster = Cluster(program, host, work, NAME, silent=given.silent)
            try:
                book = Book(cluster.machines, journals.digest_of(topology))
                for number in range(done, min(given.rounds, done + EACH)):
                    if time.monotonic() < last:
                        fault = given.only or fault_of(given.seed, number)
                        counts.add(fault, round_of(cluster, book, topology, number, given.seed,
                                                   fault))
                        done += 1
            except (Differs, TimeoutError) as difference:
                keep(work)
                sys.exit(f"round {done} of seed {given.seed}, {fault}: {difference}")
            finally:
                cluster.end()
    counts.tell()


def fault_of(seed, number):
    return DIRECTED.get(number % EACH) or random.Random(f"{seed} {number}").choice(FAULTS)


class Counts:
    """Of all rounds."""

    def __init__(self):
        self.gaps, self.entries, self.replies, self.lost, self.again = {}, 0, 0, 0, 0
        self.stale = []

    def add(self, fault, found):
        entries, told, gap, took = found
        self.gaps.setdefault(fault, []).append(gap)
        self.entries, self.replies = self.entries + entries, self.replies + len(told.all)
        self.lost, self.again = self.lost + told.lost, self.again + told.again
        stale = told.stale()
        self.stale += [f"{fault}: {one}" for one in stale]
        print(f"{sum(map(len, self.gaps.values()))} {fault}: {entries} entries, {told.lost} lost "
              f"replies, {len(stale)} stale, {gap:.1f} s without an order, {took:.0f} s",
              file=sys.stderr, flush=True)

    def tell(self):
        rounds = sum(map(len, self.gaps.values()))
        print(f"{rounds} rounds: {self.entries:,} orders were told, each stands once; "
              f"{self.replies:,} replies, {len(self.stale)} stale; {self.lost:,} were lost, and "
              f"{self.again:,} of these orders had been done")
        for fault, seconds in sorted(self.gaps.items()):
            print(f"  {fault}: {len(seconds)} rounds, without an accepted order {max(seconds):.1f} "
                  f"s at most, {statistics.median(seconds):.1f} in the median")
        if self.stale:
            sys.exit("stale replies:\n  " + "\n  ".join(self.stale[:20]))


def keep(work):
    """Copies what is there, to look at, where KEEP names a place."""
    if os.environ.get("KEEP"):
        shutil.copytree(work, os.environ["KEEP"], dirs_exist_ok=True,
                        ignore=shutil.ignore_patterns("*.put"))


if __name__ == "__main__":
    tell_usage(__doc__)
    main()
