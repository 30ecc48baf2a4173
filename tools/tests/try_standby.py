#!/usr/bin/env python3
"""Tries a standby: a leader under load is killed, and its follower is served in its place.

A leader is served, and customers order of it. Every so often its journal is copied, and what the
follower has not is shipped as packets over a link that loses, repeats and reorders them; a follower
takes what arrives, and is sent anew from where its answers say. Then the leader is killed in the
midst of an order, and the follower's journal is served in its place. In the end it is looked at

- that the follower answered each packet by `have` or `want`, and never by `differs` or `unsound`;
- that its entries are those of the leader's journal, as many as it has, byte for byte;
- that both audits, of the leader's journal up to the follower's epoch and of the follower's, are
  the same, and that the server in the leader's place tells that book.

Printed are how many packets were sent and lost, and how far the follower was behind. It takes
about as many seconds as it is told, and is run by hand.

example:
  python3 tools/tests/try_standby.py --seconds 10

status:
  0 all was as it should be; 1 it was not, and what; 2 these words are not allowed
"""
import argparse
import os
import random
import shutil
import signal
import socket
import subprocess
import sys
import tempfile
import threading
import time

TOP = os.path.join(os.path.dirname(os.path.abspath(__file__)), "..", "..")
sys.path.insert(0, os.path.join(TOP, "tools"))
import client
import read_journal

CUSTOMERS, WORKERS, CONNECTIONS = 3, 4, 1_000
FRONT = 38  # bytes of a packet before its body
ROUNDS, WINDOW = 8, 64  # how often packets are sent in a turn at most, and how many at once


class Wrong(Exception):
    """Something is not as it should be."""


def free_port():
    with socket.socket() as found:
        found.bind((client.HOST, 0))
        return found.getsockname()[1]


def served(program, topology, journal):
    """A server, and the port at which it serves."""
    port = free_port()
    words = [program, "serve", topology, journal, str(port), str(CONNECTIONS), str(WORKERS)]
    server = subprocess.Popen(words, stdin=subprocess.DEVNULL, stdout=subprocess.PIPE)
    if server.stdout.readline() != b"ready\n":
        raise Wrong("a server is not ready")
    return server, port


def run(program, *words, given=b""):
    """The status and the output of a command that waits for nobody."""
    done = subprocess.run([program, *map(str, words)], input=given, stdout=subprocess.PIPE)
    return done.returncode, done.stdout


def audit(program, topology, journal):
    status, told = run(program, "audit", topology, journal)
    if status:
        raise Wrong(f"an audit of {os.path.basename(journal)} ends with {status}: {told!r}")
    return told


# ---- Load.


class Customer(threading.Thread):
    """Admits and releases until the server is gone."""

    def __init__(self, port, number, nodes):
        super().__init__(daemon=True)
        self.port, self.name, self.draw = port, f"standby-{number}", random.Random(number)
        self.nodes, self.told, self.held = nodes, 0, []

    def run(self):
        try:
            with client.Session(client.HOST, self.port, self.name) as session:
                while True:
                    self.order(session)
        except client.ConnectionLost:
            pass

    def order(self, session):
        try:
            if len(self.held) > 5:
                session.release(self.held.pop(0))
            else:
                ends = self.draw.sample(self.nodes, 2)
                self.held.append(session.admit({end: 1 for end in ends}).id)
            self.told += 1
        except client.Refusal:
            pass


# ---- The link.


def cut(packets):
    """The packets that stand one after another in these bytes."""
    at, whole = 0, []
    while at < len(packets):
        end = at + FRONT + int.from_bytes(packets[at:at + 2], "big")
        whole.append(packets[at:end])
        at = end
    return whole


class Link:
    """Loses, repeats and reorders packets, and keeps some back for later."""

    def __init__(self, seed, loss):
        self.draw, self.loss = random.Random(seed), loss
        self.sent = self.lost = 0
        self.late = []

    def arrived(self, packets):
        given, self.late = self.late, []
        for packet in packets:
            self.sent += 1
            chance = self.draw.random()
            if chance < self.loss:
                self.lost += 1
            elif chance < 1.5 * self.loss:
                self.late.append(packet)
            else:
                given += [packet] * self.draw.choice((1, 1, 1, 2))
        for at in range(1, len(given)):
            if self.draw.random() < self.loss:
                given[at - 1], given[at] = given[at], given[at - 1]
        return given


# ---- The trial.


class Standby:
    """A leader's journal, its follower's, and how far that is."""

    def __init__(self, program, topology, work, link):
        self.program, self.topology, self.link = program, topology, link
        self.leader = os.path.join(work, "leader.journal")
        self.follower = os.path.join(work, "follower.journal")
        self.copy = os.path.join(work, "copy.journal")
        self.epoch, self.behind = 0, []

    def ship(self, start):
        """The packets of a copy of the leader's journal, from an epoch on. A copy that is told to
        be damaged was made while an entry in doubt was written over: the next one is right."""
        shutil.copyfile(self.leader, self.copy)
        status, told = run(self.program, "ship", self.topology, self.copy, start)
        if status:
            raise Wrong(f"ship ends with {status}: {told[-100:]!r}")
        return cut(told)

    def follow(self, packets):
        given = b"".join(packets)
        status, told = run(self.program, "follow", self.topology, self.follower, given=given)
        answers = told.decode().splitlines()
        if status or len(answers) != len(packets):
            raise Wrong(f"follow ends with {status} and {len(answers)} of {len(packets)} lines")
        for answer in answers:
            kind, epoch = answer.split()[:2]
            if kind not in ("have", "want"):
                raise Wrong(f"the follower answers {answer}")
            self.epoch = int(epoch) if kind == "have" else int(epoch) - 1

    def turn(self):
        """Ships from where the follower is, again and again, but not for long."""
        packets = self.ship(self.epoch + 1)
        self.behind.append(len(packets))
        for _ in range(ROUNDS):
            # What is far ahead of the follower is not worth sending yet.
            self.follow(self.link.arrived(packets[:WINDOW]))
            packets = self.ship(self.epoch + 1)
            if not packets:
                break


def entries(journal):
    """The lines of a journal's entries, without their places, and the rest of its lines."""
    with open(journal, "rb") as file:
        lines = list(read_journal.lines(file.read()))
    return [line.split(" ", 2)[2] for line in lines[1:-1]]


def judge(standby):
    """Compares both journals, after the leader was killed."""
    leader, follower = entries(standby.leader), entries(standby.follower)
    if len(follower) != standby.epoch or leader[:len(follower)] != follower:
        raise Wrong("the follower's entries are not the first ones of the leader's journal")
    # The leader's journal up to the follower's epoch: as much of it as the follower's has.
    with open(standby.leader, "rb") as file:
        whole = file.read()
    with open(standby.follower, "rb") as file:
        front = file.read()
    if whole[:len(front) - 1] != front[:-1]:
        raise Wrong("the follower's journal is not the front of the leader's")
    with open(standby.copy, "wb") as file:
        file.write(whole[:len(front) - 1] + b"\0")
    book = audit(standby.program, standby.topology, standby.copy)
    if book != audit(standby.program, standby.topology, standby.follower):
        raise Wrong("the audits differ")
    return len(leader), book


def promoted(standby, book):
    """Serves the follower's journal, and asks it for what the audit of it told."""
    server, port = served(standby.program, standby.topology, standby.follower)
    try:
        with client.Session(client.HOST, port, "standby-1") as session:
            told = f"{session.link(0)}".rsplit(" at ", 1)
    finally:
        server.kill()
        server.communicate()
    lines = book.decode().splitlines()
    if told[0] not in lines or lines[0] != f"epoch {told[1]}":
        raise Wrong(f"the follower serves {' at '.join(told)}")


def trial(options, work):
    program = os.path.abspath(options.program)
    with open(options.topology, encoding="ascii") as file:
        nodes = [line.split()[1] for line in file if line.startswith("node ")]
    standby = Standby(program, options.topology, work, Link(options.seed, options.loss))
    server, port = served(program, options.topology, standby.leader)
    customers = [Customer(port, number, nodes) for number in range(1, CUSTOMERS + 1)]
    for customer in customers:
        customer.start()
    last = time.monotonic() + options.seconds
    try:
        while time.monotonic() < last:
            time.sleep(options.every)
            standby.turn()
    finally:
        server.send_signal(signal.SIGKILL)
        server.communicate()
    for customer in customers:
        customer.join()
    has, book = judge(standby)
    promoted(standby, book)
    told = sum(customer.told for customer in customers)
    if not told or not standby.epoch:
        raise Wrong("no order was followed")
    print(f"{told} orders told, {has} in the leader's journal, {standby.epoch} in the follower's")
    print(f"{standby.link.sent} packets sent, {standby.link.lost} of them lost; "
          f"{max(standby.behind)} new at most in a turn")


def main():
    parser = argparse.ArgumentParser(
        description=__doc__, formatter_class=argparse.RawDescriptionHelpFormatter)
    parser.add_argument("--program", default=os.path.join(TOP, "hosed"))
    parser.add_argument("--topology", default=os.path.join(TOP, "demo", "backbone.txt"))
    parser.add_argument("--seconds", type=float, default=10, help="how long the leader serves")
    parser.add_argument("--every", type=float, default=1, help="seconds from turn to turn")
    parser.add_argument("--loss", type=float, default=0.05, help="what part of the packets is lost")
    parser.add_argument("--seed", default="1", help="what the link does is drawn by it")
    options = parser.parse_args()
    with tempfile.TemporaryDirectory() as work:
        try:
            trial(options, work)
        except Wrong as wrong:
            sys.exit(f"try_standby: {wrong}")


if __name__ == "__main__":
    main()
