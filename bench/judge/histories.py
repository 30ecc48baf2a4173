#!/usr/bin/env python3
"""Judges concurrent random sessions of `hosed serve` or a host from outside.

Each run serves some customers at once over a random network of up to 9 nodes. Its history is read
off the replies: each epoch is that of one admission, release or change of a link's service, which
the slow planner of planner.py then makes again. The book of each epoch has to explain each
reply that tells that epoch, the places of a session may not go back, and the audit has to be that
of the last book. Prints how many runs, sessions and replies of each kind there were; or the first
difference, and ends with status 1.

With --host the sessions are those of a host, and what it counted, which its operator is told, has
to be what the sessions were told.

usage: bench/judge/histories.py [--host] [PROGRAM [RUNS [SEED]]]
The PROGRAM (./hosed) is seen from the top of the repository.
"""

import os
import random
import socket
import subprocess
import sys
import tempfile
import threading
from collections import Counter
from typing import NamedTuple

sys.path.insert(0, os.path.join(os.path.dirname(os.path.abspath(__file__)), "..", "parts"))
from usage import tell_usage

import client
from lines import COMMANDS, ENDS, ENTERED, ORDERS, told
from planner import COMPARED, OPERATOR, QUOTES, Vpn, audit_lines, decide, ends_of, ends_text
from planner import grounds, in_service, link_told, loads_of, plan_cost, random_hose
from planner import random_network, refusal_told, topology_lines

SESSIONS, WORKERS, LINES = 12, 6, 40
NAMES = ("acme", "beta", "zeta", OPERATOR)  # some sessions have one customer
KINDS = {
    "admit": 12, "admit-after": 8, "quote": 16, "take": 14, "release": 12, "show": 4, "vpns": 6,
    "link": 4, "down": 2, "up": 6,
}
TRIES = 10  # at ports that another program may take meanwhile
HANGS = 60  # seconds


class Differs(Exception):
    pass


def same(got, want, where):
    if got != want:
        raise Differs(f"{where}\ntold:     {got}\nexpected: {want}")


# ---- Sessions.


class Session(threading.Thread):
    """One customer's lines and replies, one after the other."""

    def __init__(self, port, network, seed):
        super().__init__()
        self.port, self.network, self.draw = port, network, random.Random(seed)
        self.customer = self.draw.choice(NAMES)
        self.said, self.fault = [], None  # pairs of a command and its reply
        self.out = set()  # the links that it took out of service and has not put back
        self.known = 0  # the customer's newest VPN, as far as this session was told

    def line(self, own):
        draw = self.draw
        kind = draw.choices(list(KINDS), list(KINDS.values()))[0]
        fields = COMMANDS[kind].fields
        if fields == (ENDS,):
            hose = random_hose(draw, self.network, COMPARED)
            return kind, hose, self.ends(hose)
        if ENDS in fields:
            known = self.known if draw.random() < 0.8 else draw.choice([0, *own])
            hose = random_hose(draw, self.network, COMPARED)
            return kind, (known, hose), f"{known} {self.ends(hose)}"
        if not fields:
            return kind, None, ""
        if kind == "up" and self.out and draw.random() < 0.8:
            number = draw.choice(sorted(self.out))
        elif fields == ("L",):
            number = draw.randrange(len(self.network.links))
        elif fields == ("Q",):
            number = draw.randint(1, 4)
        else:
            number = draw.choice(own) if own and draw.random() < 0.8 else draw.randint(0, 60)
        return kind, number, str(number)

    def ends(self, hose):
        return ends_text(self.network, hose)

    def run(self):
        try:
            self.said.append(("hello", None, ""))
            with client.Session("127.0.0.1", self.port, self.customer, HANGS) as session:
                self.said[-1] = ("hello", None, str(session.welcome))
                own = []
                for _ in range(LINES):
                    reply = self.ask(session, *self.line(own))
                    if isinstance(reply, client.Admitted):
                        own.append(reply.id)
                self.ask(session, "bye", None, "")
        except client.FAULTS as fault:
            self.fault = fault

    def ask(self, session, kind, value, text):
        """The reply to a line; what was said has none where the server is gone before it."""
        self.said.append((kind, value, ""))
        reply = session.reply_to(f"{kind} {text}")
        self.said[-1] = (kind, value, str(reply))
        if isinstance(reply, client.Down):
            self.out.add(value)
        elif isinstance(reply, client.Up):
            self.out.discard(value)
        elif isinstance(reply, (client.Admitted, client.Newest)):
            self.known = reply.id
        elif isinstance(reply, client.Vpns):
            self.known = reply.newest()
        return reply


# ---- Books.


def place_of(reply):
    """The epoch that a reply tells, if it tells one."""
    words = reply.split()
    if words[0] == "stale":
        return int(words[2])
    return int(words[words.index("at") + 1]) if "at" in words else None


class Book(NamedTuple):
    live: dict  # of VPNs by their numbers
    out: frozenset  # of links


class History:
    """The book of each epoch."""

    def __init__(self, network):
        self.network, self.books = network, [Book({}, frozenset())]

    def loads(self, epoch):
        return loads_of(self.network, self.books[epoch].live.values())

    def decided(self, epoch, hose):
        service = in_service(self.network, self.books[epoch].out)
        return decide(self.network, service, self.loads(epoch), sorted(hose))

    def vpns_of(self, epoch, customer):
        """The numbers of a customer's live VPNs, in the order of admission."""
        live = self.books[epoch].live
        return [number for number, vpn in live.items() if vpn.customer == customer]

    def grounds(self, epoch, hose):
        service = in_service(self.network, self.books[epoch].out)
        return grounds(self.network, service, self.loads(epoch), hose)

    def admit(self, customer, hose, plan):
        live = dict(self.books[-1].live)
        number, cost = len(self.books), plan_cost(self.network, plan)
        live[number] = Vpn(customer, hose, plan, cost)
        self.books.append(self.books[-1]._replace(live=live))
        return told("Admitted", number, cost, number, plan)

    def release(self, customer, number):
        live = dict(self.books[-1].live)
        vpn = live.pop(number, None)
        if vpn is None or vpn.customer != customer:
            raise Differs(f"{customer} released {number}, which is not theirs")
        self.books.append(self.books[-1]._replace(live=live))
        return told("Released", number, len(self.books) - 1)

    def change(self, customer, command, number):
        out = self.books[-1].out
        if customer != OPERATOR or (number in out) == (command == "down"):
            raise Differs(f"{customer} had link {number} {command}, where {sorted(out)} were out")
        self.books.append(self.books[-1]._replace(out=out ^ {number}))
        return told(COMMANDS[command].entered, number, len(self.books) - 1)

    def audit(self):
        live = dict(sorted(self.books[-1].live.items()))
        return audit_lines(self.network, len(self.books) - 1, live)


class Judge:
    """One session against the books."""

    def __init__(self, history, session):
        self.history, self.session, self.last = history, session, 0
        self.held = {}  # its quotes

    def refused(self, epoch, hose):
        kind, side = self.history.decided(epoch, hose)
        return refusal_told(self.history.network, side, epoch) if kind == "refused" else None

    def expected(self, kind, value, reply, epoch):
        network, (live, out) = self.history.network, self.history.books[epoch]
        customer = self.session.customer
        if kind == "hello":
            return told("Welcome", epoch)
        if kind == "vpns":
            return told("Vpns", self.history.vpns_of(epoch, customer), epoch)
        if kind == "admit-after":
            known, hose = value
            newest = (self.history.vpns_of(epoch, customer) or [0])[-1]
            return told("Newest", newest, epoch) if newest != known else self.refused(epoch, hose)
        if kind == "admit":
            return self.refused(epoch, value)
        if kind == "quote":
            free = [number for number in range(1, QUOTES + 1) if number not in self.held]
            if not free:
                return told("TooMany", epoch)
            if self.refused(epoch, value):
                return self.refused(epoch, value)
            plan = self.history.decided(epoch, value)[1]
            self.held[free[0]] = (sorted(value), epoch)
            return told("Quoted", free[0], plan_cost(network, plan), epoch, plan)
        if kind == "take":
            if value not in self.held:
                return told("NoQuote", value, epoch)
            hose, seen = self.held.pop(value)
            if self.history.grounds(seen, hose) == self.history.grounds(epoch, hose):
                return None
            return told("Stale", seen, epoch)
        if kind in ("down", "up"):
            if customer != OPERATOR:
                return told("Denied", epoch)
            is_so = (value in out) == (kind == "down")
            return told("Already", value, epoch) if is_so else None
        if kind == "link":
            return link_told(network, value, self.history.loads(epoch)[value], value in out, epoch)
        vpn = live.get(value)
        if vpn is None or vpn.customer != customer:
            return told("NoVpn", value, epoch)
        if kind == "release":
            return None
        return told("Shown", value, vpn.cost, epoch, ends_of(network, vpn.hose), vpn.plan)

    def judge(self, kind, value, reply, kinds):
        """The next line of the session."""
        where = f"{self.session.customer}, {kind} {value}, after {self.last}"
        if kind == "bye":
            same(reply, told("Bye"), where)
            return
        place, before = place_of(reply), before_of(reply)
        if before < self.last:
            raise Differs(f"{where}\nwent back: {reply}")
        if reply.split()[0] not in ENTERED:
            same(reply, self.expected(kind, value, reply, place), where)
        elif kind in ("take", "admit-after"):
            # What was quoted is admitted only on equal grounds, and what is bound to a VPN only
            # while that is the newest.
            same(self.expected(kind, value, reply, before), None, where)
        self.last = place
        kinds[" ".join(word for word in reply.split()[:2] if word.isalpha())] += 1


def before_of(reply):
    """The epoch before what a reply tells."""
    return place_of(reply) - (reply.split()[0] in ENTERED)


def hose_of(kind, value, quoted):
    """The hose of an admission, or the number of another order."""
    if kind == "take":
        return quoted[value]
    return value[1] if kind == "admit-after" else value


def entries(sessions):
    """The entries of all lines by their epochs."""
    found = {}
    for session in sessions:
        quoted = {}
        for kind, value, reply in session.said:
            words = reply.split()
            if words[0] == "quoted":
                quoted[int(words[1])] = value
            if words[0] in ENTERED:
                hose = hose_of(kind, value, quoted)
                if place_of(reply) in found:
                    raise Differs(f"two entries at one epoch: {reply}")
                found[place_of(reply)] = (session, words[0], hose, reply)
    return found


def judge(network, sessions, audit, kinds):
    history, found = History(network), entries(sessions)
    same(sorted(found), list(range(1, len(found) + 1)), "the epochs of all entries")
    for epoch in sorted(found):
        session, what, value, reply = found[epoch]
        if what == "released":
            same(reply, history.release(session.customer, value), f"epoch {epoch}")
            continue
        if what in ("down", "up"):
            same(reply, history.change(session.customer, what, value), f"epoch {epoch}")
            continue
        hose = sorted(value)
        kind, plan = history.decided(epoch - 1, hose)
        if kind == "refused":
            raise Differs(f"epoch {epoch}: {reply}\nwhere the planner refuses")
        same(reply, history.admit(session.customer, hose, plan), f"epoch {epoch}")
    for session in sessions:
        judged = Judge(history, session)
        for line in session.said:
            judged.judge(*line, kinds)
    same(audit, history.audit(), "the audit")


# ---- Runs.


def write_topology(network, name):
    with open(name, "w", encoding="ascii") as text:
        text.write("".join(line + "\n" for line in topology_lines(network)))


def start(program, topology, journal, connections):
    """A server that is ready, and its port."""
    for _ in range(TRIES):
        with socket.socket() as probe:
            probe.bind(("127.0.0.1", 0))
            port = probe.getsockname()[1]
        words = [topology, journal, str(port), str(connections), str(WORKERS)]
        server = subprocess.Popen([program, "serve", *words], stdout=subprocess.PIPE, text=True)
        first = server.stdout.readline()
        if first != "door\n":
            same(first, "ready\n", "the first line")
            return server, port
        server.wait(HANGS)
    raise Differs("no port could be opened")


def start_host(program, topology, journal, doors=(), options=(), files=None, environment=None):
    """A host that is ready, and its port. A door of its operator's own is beside the journal."""
    doors = [f"{journal}.operator=operator", *doors]
    for _ in range(TRIES):
        with socket.socket() as probe:
            probe.bind(("127.0.0.1", 0))
            port = probe.getsockname()[1]
        words = [program, "host", "--quiet", *options, topology, journal, str(port), *doors]
        host = subprocess.Popen(words, stdout=subprocess.PIPE, text=True, preexec_fn=files,
                                env=environment)
        first = host.stdout.readline()
        if not first.startswith("door"):
            same(first, "ready\n", "the first line")
            return host, port
        host.wait(HANGS)
    raise Differs("no port could be opened")


def figures_of_host(journal):
    """What a host counted, as its operator is told in a session of his own."""
    with client.Session("127.0.0.1", f"{journal}.operator", OPERATOR, HANGS) as session:
        return session.figures()


def judge_figures(figures, sessions):
    """What a host counted is what its sessions said and were told, and its operator's greeting."""
    lines = [line for session in sessions for line in session.said]
    replies = Counter(reply.partition(" ")[0] for _, _, reply in lines)
    timed = sum(kind == "quote" or kind in ORDERS for kind, _, _ in lines)
    same((figures.ever, figures.lines, figures.timed, figures.lost),
         (len(sessions) + 1, len(lines) + 1, timed, 0), "connections, lines, timed and lost lines")
    for word in ("admitted", "refused", "released", "down", "up", "disk", "memory"):
        same((word, getattr(figures, word)), (word, replies[word]), "how many replies are counted")
    over = [figures.timed, figures.over_100us, figures.over_1ms, figures.over_10ms,
            figures.over_100ms, figures.over_1s, figures.over_10s]
    same(sorted(over, reverse=True), over, "how many took longer than so long")
    if figures.took < 100_000 * figures.over_100us:
        raise Differs(f"{over} took {figures.took} ns in all")


def told_of_host(host, journal):
    """Ends a host by its operator, and gives its status and the audit that it wrote."""
    with socket.socket(socket.AF_UNIX) as operator:
        operator.settimeout(HANGS)
        operator.connect(f"{journal}.operator")
        operator.sendall(b"hello operator\nend\n")
        while operator.recv(4096):
            pass
    audit = host.stdout.read()
    status = host.wait(HANGS)
    host.stdout.close()
    same(os.path.exists(f"{journal}.operator"), False, "whether the operator's door is left")
    return status, audit


def way_of(words):
    """Whether customers are served by a host, and the other words."""
    return "--host" in words, [word for word in words if word != "--host"]


def serve(program, work, seed, kinds, by_host):
    draw = random.Random(seed)
    network = random_network(draw, COMPARED)
    topology, journal = os.path.join(work, f"{seed}.txt"), os.path.join(work, f"{seed}.journal")
    write_topology(network, topology)
    if by_host:
        server, port = start_host(program, topology, journal)
    else:
        server, port = start(program, topology, journal, SESSIONS)
    sessions = [Session(port, network, f"{seed} {number}") for number in range(SESSIONS)]
    try:
        for session in sessions:
            session.start()
        for session in sessions:
            session.join()
            if session.fault:
                raise Differs(f"a session failed: {session.fault}")
        if by_host:
            judge_figures(figures_of_host(journal), sessions)
            status, audit = told_of_host(server, journal)
        else:
            audit, status = server.stdout.read(), server.wait(HANGS)
    finally:
        server.kill()
    same(status, 0, "the status")
    judge(network, sessions, audit.splitlines(), kinds)


def main():
    by_host, words = way_of(sys.argv[1:])
    program = os.path.abspath(words[0] if words else "./hosed")
    runs = int(words[1]) if len(words) > 1 else 100
    seed = words[2] if len(words) > 2 else "1"
    kinds = Counter()
    with tempfile.TemporaryDirectory() as work:
        for number in range(runs):
            try:
                serve(program, work, f"{seed}-{number}", kinds, by_host)
            except Differs as difference:
                sys.exit(f"run {number} of seed {seed}: {difference}")
    by = "a host" if by_host else f"{WORKERS} workers"
    print(f"{runs} runs of {SESSIONS} sessions with {by} agree")
    for kind, count in sorted(kinds.items()):
        print(f"{count:8} {kind}")


if __name__ == "__main__":
    tell_usage(__doc__)
    main()
