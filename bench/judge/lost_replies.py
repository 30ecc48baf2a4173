#!/usr/bin/env python3
"""Breaks the connections of customers at random moments, and judges by the program's audit that
each order stands exactly once.

Between the customers and `hosed serve`, or a host with --host, stands a proxy of this script. At a
random line it breaks a connection off: before it has sent the line on, within it, behind it, or
within the reply. Or it holds the line back, breaks off, and sends the line on after some lines of
the customer's next connections, or at the end. Customers order by
`order_once` of tools/client.py; with --shell by lines that are typed into its shell, which tries no
connection more than three times and then is told the line again. Each hose is ordered once, and no
two are alike. In the audit each has to stand once, under the number that its customer was told.
Then customers who repeat a plain `admit` wherever its reply is lost order in the same way, a tenth
as long: of these the audit has to tell that some stand twice. Prints how many connections were
broken off in which way, and what came of the lines that were held back; or what differs, and ends
with status 1.

usage: bench/judge/lost_replies.py [--host] [--shell] [PROGRAM [CONNECTIONS [SEED]]]
The PROGRAM (./hosed) is seen from the top of the repository; CONNECTIONS (1,000) are broken off.
"""

import os
import random
import socket
import struct
import subprocess
import sys
import tempfile
import threading
from collections import Counter

sys.path.insert(0, os.path.join(os.path.dirname(os.path.abspath(__file__)), "..", "parts"))
from usage import TOP, tell_usage

import client
import client_shell
import networks
from histories import HANGS, Differs, start_host, way_of
from hostile import free_port

CUSTOMERS = ("acme", "beta", "zeta", "operator")
WORKERS, MOST_CONNECTIONS = 16, 10_000
MOST_HELD = 2  # lines of a customer that are held back at once
BREAKS, BREAKS_OF_ORDERS = 0.15, 0.6  # of the lines
WAYS = {"before the line": 2, "within the line": 1, "behind the line": 3, "within the reply": 2,
        "holds the line back": 4}
NODES = "abcdefgh"
TOPOLOGY = "".join([*(f"node {name}\n" for name in NODES), "node hub\n",
                    *(f"link {name} hub 1000000000 1\n" for name in NODES), "end\n"])


# ---- The proxy.


class Line:
    """A line that is held back, on a connection of its own to the server."""

    def __init__(self, server, text, after):
        self.server, self.text, self.after = server, text, after

    def send_on(self):
        """Sends it on at last, and ends its connection in order."""
        self.server.sendall(self.text)
        self.server.shutdown(socket.SHUT_WR)

    def reply(self):
        with self.server, self.server.makefile("rb") as lines:
            return lines.readline().decode("ascii")


class Broken(Exception):
    """The connection was broken off."""


class Proxy(threading.Thread):
    """What stands between one customer and the server: a connection at a time."""

    def __init__(self, place, draw):
        super().__init__(daemon=True)
        self.place, self.draw, self.fault = place, draw, None
        self.listener = socket.create_server((client.HOST, 0))
        self.port = self.listener.getsockname()[1]
        self.held, self.sent, self.ways, self.replies = [], [], Counter(), Counter()

    def run(self):
        try:
            while True:
                try:
                    customer, _ = self.listener.accept()
                except OSError:
                    return
                self.connection(customer)
        except Exception as fault:  # told by the customer's thread
            self.fault = fault

    def connection(self, customer):
        server = socket.create_connection((client.HOST, self.place), HANGS)
        try:
            with customer, customer.makefile("rb") as lines, server.makefile("rb") as replies:
                for line in lines:
                    self.send_on_what_is_due()
                    self.line(customer, server, replies, line)
                server.close()
        except Broken:
            pass

    def line(self, customer, server, replies, line):
        """Hands a line and its reply on; or breaks the connection off somewhere meanwhile."""
        draw, way = self.draw, None
        if draw.random() < (BREAKS_OF_ORDERS if line.startswith(b"admit") else BREAKS):
            way = draw.choices(list(WAYS), list(WAYS.values()))[0]
        if way == "holds the line back" and len(self.held) >= MOST_HELD:
            way = "before the line"
        if way == "before the line":
            self.break_off(customer, server, way)
        if way == "within the line":
            server.sendall(line[:draw.randint(1, len(line) - 1)])
            self.break_off(customer, server, way)
        if way == "holds the line back":
            self.held.append(Line(server, line, draw.randint(0, 8)))
            self.break_off(customer, None, way)
        server.sendall(line)
        if way == "behind the line":
            self.break_off(customer, server, way, draw.random() < 0.5)
        reply = replies.readline()
        if way == "within the reply":
            customer.sendall(reply[:draw.randint(0, len(reply) - 1)])
            self.break_off(customer, server, way, draw.random() < 0.5)
        customer.sendall(reply)

    def break_off(self, customer, server, way, in_order=False):
        self.ways[way] += 1
        abort(customer)
        if server and in_order:
            server.close()
        elif server:
            abort(server)
        raise Broken

    # -- Lines that are held back.

    def send_on_what_is_due(self):
        for line in self.held:
            line.after -= 1
        for line in [line for line in self.held if line.after < 0]:
            self.held.remove(line)
            self.send_on(line)

    def send_on(self, line):
        """Sends it on, and waits for its reply first, or not."""
        line.send_on()
        self.sent.append(line)
        if self.draw.random() < 0.5:
            self.take_replies()

    def take_replies(self):
        for line in self.sent:
            verb, reply = line.text.split()[0].decode(), line.reply()
            self.replies[f"{verb} {(reply.split() or ['nothing'])[0]}"] += 1
        self.sent = []

    def end(self):
        """Ends it, and sends on what is held back still."""
        self.listener.shutdown(socket.SHUT_RDWR)
        self.join(HANGS)
        self.listener.close()
        for line in self.held:
            self.send_on(line)
        self.take_replies()


def abort(peer):
    """Resets a connection, so that a line that was cut off in it is none."""
    peer.setsockopt(socket.SOL_SOCKET, socket.SO_LINGER, struct.pack("ii", 1, 0))
    peer.close()


# ---- Customers.


def order_once(port, name, ends):
    """The number that the customer is told."""
    return client.Customer(client.HOST, port, name, HANGS, 1_000, 0).order_once(ends).id


SHELLS = {}  # by their ports: each customer's own


def order_by_shell(port, name, ends):
    """The number that the shell shows for an `admit`, which is typed until it shows one."""
    if port not in SHELLS:
        SHELLS[port] = client_shell.Shell(
            name, lambda: client.Session(client.HOST, port, name, HANGS), pause=0)
        SHELLS[port].tries = 3
    said = []
    SHELLS[port].say = said.append
    while True:
        SHELLS[port].do(f"admit {client.hose(ends)}")
        shown = said[-1].split()
        if shown[0] == "admitted":
            return int(shown[1])
        if SHELLS[port].in_doubt:
            SHELLS[port].do("again")
            shown = said[-1].split()
            if shown[0] == "admitted":
                return int(shown[1])


def order_again(port, name, ends):
    """The same by a plain `admit`, which is repeated wherever its reply is lost."""
    while True:
        try:
            with client.Session(client.HOST, port, name, HANGS) as session:
                return session.admit(ends).id
        except client.ConnectionLost:
            pass


class Orders(threading.Thread):
    """One customer's orders through a proxy, until that broke so many connections off."""

    def __init__(self, place, name, order, broken, seed):
        super().__init__(daemon=True)
        self.name_of, self.order, self.broken = name, order, broken
        self.draw = random.Random(f"{seed} {name}")
        self.proxy = Proxy(place, random.Random(f"{seed} {name} proxy"))
        self.told, self.fault = {}, None  # the number of each order, by its ends

    def hose(self):
        """The endpoints of the next order, whose rates no other one has."""
        nodes = self.draw.sample(NODES, self.draw.randint(2, 5))
        return {node: len(self.told) + 1 for node in sorted(nodes)}

    def run(self):
        self.proxy.start()
        try:
            while sum(self.proxy.ways.values()) < self.broken:
                ends = self.hose()
                self.told[tuple(ends.items())] = self.order(self.proxy.port, self.name_of, ends)
            self.proxy.end()
        except Exception as fault:  # told by whoever joins
            self.fault = fault


# ---- Runs.


def start(program, topology, journal):
    """A server of as many workers as lines may be held back and customers be served beside."""
    for _ in range(10):
        port = free_port()
        words = [topology, journal, str(port), str(MOST_CONNECTIONS), str(WORKERS)]
        server = subprocess.Popen([program, "serve", *words], stdout=subprocess.PIPE, text=True)
        if server.stdout.readline() == "ready\n":
            return server, port
        server.wait(HANGS)
    raise Differs("no port could be opened")


def audited(program, by_host, order, broken, seed):
    """What customers were told who order so, and the audit of what came of it."""
    with tempfile.TemporaryDirectory() as work:
        topology, journal = (os.path.join(work, name) for name in ("topology", "journal"))
        with open(topology, "w", encoding="ascii") as file:
            file.write(TOPOLOGY)
        begin = start_host if by_host else start
        server, port = begin(program, topology, journal)
        try:
            customers = [Orders(port, name, order, broken // len(CUSTOMERS), seed)
                         for name in CUSTOMERS]
            for customer in customers:
                customer.start()
            for customer in customers:
                customer.join()
                for fault in (customer.proxy.fault, customer.fault):
                    if fault:
                        raise Differs(f"{customer.name_of}: {type(fault).__name__}: {fault}")
        finally:
            server.terminate()
            server.wait(HANGS)
            server.stdout.close()
        words = [program, "audit", topology, journal]
        text = subprocess.run(words, stdout=subprocess.PIPE, text=True, check=True).stdout
    return customers, networks.read_audit(text)


def standing(customers, audit):
    """How often each order stands, by its customer and ends; and each that is under no number that
    its customer was told."""
    counts = Counter((vpn.customer, tuple(vpn.ends)) for vpn in audit.vpns)
    numbers = {(vpn.id, vpn.customer, tuple(vpn.ends)) for vpn in audit.vpns}
    ordered = [(one.name_of, ends) for one in customers for ends in one.told]
    strangers = [(number, one.name_of, ends) for one in customers
                 for ends, number in one.told.items() if (number, one.name_of, ends) not in numbers]
    if set(counts) - set(ordered):
        raise Differs(f"nobody ordered {min(set(counts) - set(ordered))}")
    return {order: counts[order] for order in ordered}, strangers


def sum_of(counters):
    return sum(counters, Counter())


def judge(program, by_host, order, broken, seed):
    customers, audit = audited(program, by_host, order, broken, seed)
    counts, strangers = standing(customers, audit)
    wrong = {order: count for order, count in counts.items() if count != 1}
    if wrong or strangers:
        raise Differs(f"orders that do not stand once: {wrong}; not under their numbers: "
                      f"{strangers}")
    ways = sum_of(one.proxy.ways for one in customers)
    for how, count in sorted(ways.items()):
        print(f"lost_replies: {count} connections broken off {how}"
              .replace("off holds the line back", "off, whose line is held back"))
    for reply, count in sorted(sum_of(one.proxy.replies for one in customers).items()):
        print(f"lost_replies: {count} lines held back and answered at last: {reply}")
    print(f"lost_replies: {len(counts)} orders stand once each, {sum(ways.values())} connections "
          "broken off")
    customers, audit = audited(program, by_host, order_again, max(40, broken // 10), seed)
    counts, strangers = standing(customers, audit)
    twice = sum(count > 1 for count in counts.values())
    if strangers or min(counts.values()) < 1:
        raise Differs(f"a plain admit that was told is not there: {strangers}")
    if not twice:
        raise Differs("no plain admit that was repeated stands twice, so nothing is told here")
    print(f"lost_replies: of {len(counts)} orders that were repeated plainly {twice} stand more "
          "than once")


def main():
    by_shell = "--shell" in sys.argv
    by_host, words = way_of([word for word in sys.argv[1:] if word != "--shell"])
    program = os.path.abspath(words[0] if words else "./hosed")
    broken, seed = (words[1:] + ["1000", "1"][len(words[1:]):])[:2]
    subprocess.run([program, "--version"], stdout=subprocess.DEVNULL, check=True)
    try:
        order = order_by_shell if by_shell else order_once
        judge(program, by_host, order, int(broken), seed)
    except Differs as difference:
        sys.exit(f"lost_replies: {difference}")


if __name__ == "__main__":
    tell_usage(__doc__)
    os.chdir(TOP)
    main()
