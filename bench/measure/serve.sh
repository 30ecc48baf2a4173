#!/usr/bin/env bash
# How fast customers at a port are served, with a journal on a real file in FOLDER, by 1, 4 and 16
# workers with as many customers at once, each of whom waits for a reply before the next line:
# replies a second to questions after a link, beside a bare echo server with a process for each
# connection; orders a second, admissions and releases by turns, beside a loop of the same writes
# and syncs; and sessions a second that say `hello` and `bye`, beside the echo of these two lines.
# Then 1,000 customers connect at once to 16 workers: the seconds until the last one has its
# replies, beside the same of 16 processes that echo; and the most memory that the server had,
# beside that of one which served a single customer. Of so many, most connect again and again until
# the system lets them in, which takes whole seconds. Last, the times to a reply of each command
# under a load of all commands, by tools/load.py.
# The customers are processes in Python on the same machine, so these are figures of both together:
# the greatest of the runs, which are made by turns, and the least and greatest ratio. Ends with
# status 1 where a reply is not as wanted.
# usage: bench/measure/serve.sh [FOLDER [PROGRAM]]
# FOLDER: on a real disk; else the current one
[ "${1-}" != --help ] || exec sed -n '2,/^[^#]/s/^# \{0,1\}//p' "$0"
set -e
. "$(dirname "$0")/../parts/place.sh"

PYTHONPATH=tools python3 - "$program" "$place" <<'END'
import multiprocessing
import os
import selectors
import socket
import subprocess
import sys
import time

import client
import load
import networks

PROGRAM, PLACE = sys.argv[1:]
TOPOLOGY, JOURNAL, LOOP = (os.path.join(PLACE, name) for name in ("topology", "journal", "loop"))
HOST, RUNS = "127.0.0.1", 5
QUESTIONS, ORDERS, SESSIONS = 2000, 400, 200  # of each customer
MOST, ASKED = 1000, 20  # connections at once, and questions of each
WAITING = 128  # connections that wait to be accepted, as with the program's listener
SECONDS = 120  # after which a program hangs
LOADED = 10  # seconds of all commands

QUESTION, ANSWER = "link 0", "link 0 a b capacity 1000 cost 1 load 0 at "


def want(reply, start):
    if not reply.startswith(start):
        sys.exit(f"{reply!r} begins otherwise than {start!r}")


# ---- Servers: the program, and processes that give back what they are sent.


class Server:
    """The program with a new journal, listening."""

    def __init__(self, connections, workers):
        if os.path.exists(JOURNAL):
            os.remove(JOURNAL)
        with socket.socket() as probe:
            probe.bind((HOST, 0))
            self.port = probe.getsockname()[1]
        words = [PROGRAM, "serve", TOPOLOGY, JOURNAL, str(self.port), str(connections)]
        self.process = subprocess.Popen(words + [str(workers)], stdout=subprocess.PIPE, text=True)
        want(self.process.stdout.readline(), "ready\n")

    def peak(self):
        """The most KiB that it had in memory so far."""
        with open(f"/proc/{self.process.pid}/status") as status:
            return int(next(line for line in status if line.startswith("VmHWM")).split()[1])

    def end(self):
        text = self.process.communicate(timeout=SECONDS)[0]
        if self.process.returncode != 0 or not text.endswith("live 0 cost 0\n"):
            sys.exit(f"the server ended with {self.process.returncode}: {text!r}")


def echo(listener, count):
    """Gives back what so many connections send, one after the other."""
    for _ in range(count):
        connection, _ = listener.accept()
        with connection:
            connection.setsockopt(socket.IPPROTO_TCP, socket.TCP_NODELAY, 1)
            while piece := connection.recv(4096):
                connection.sendall(piece)


class Echo:
    """So many processes that echo connections."""

    def __init__(self, connections, workers):
        self.listener = socket.create_server((HOST, 0), backlog=WAITING)
        self.port = self.listener.getsockname()[1]
        shares = [len(range(worker, connections, workers)) for worker in range(workers)]
        self.workers = [
            multiprocessing.Process(target=echo, args=(self.listener, share)) for share in shares
        ]
        for worker in self.workers:
            worker.start()

    def end(self):
        for worker in self.workers:
            worker.join(SECONDS)
        self.listener.close()


# ---- Customers, each in a process of its own. What they say is said to a server and to an echo.


class Peer(client.Lines):
    """One end of a connection, which asks and reads whole lines."""

    def __init__(self, port):
        super().__init__(HOST, port, SECONDS)

    def say(self, line, reply):
        want(self.ask(line), reply)


def ask_links(peer):
    for _ in range(QUESTIONS):
        peer.say(QUESTION, ANSWER)
    return QUESTIONS


def give_orders(peer):
    for _ in range(ORDERS // 2):
        reply = peer.ask("admit a:1 b:1")
        want(reply, "admitted ")
        number = reply.split()[1]
        peer.say(f"release {number}", f"released {number} at ")
    return ORDERS


def ask_echo(peer):
    for _ in range(QUESTIONS):
        peer.say(QUESTION, QUESTION)
    return QUESTIONS


def be_customer(number, gate, port, work, greets):
    peer = Peer(port)
    if greets:
        peer.say("hello acme", "welcome at ")
    gate.wait()
    start = time.perf_counter()
    count = work(peer)
    stop = time.perf_counter()
    if greets:
        peer.say("bye", "bye")
    peer.close()
    return count, start, stop


def come_and_go(number, gate, port, welcome):
    gate.wait()
    start = time.perf_counter()
    for _ in range(SESSIONS):
        peer = Peer(port)
        peer.say("hello acme", welcome)
        peer.say("bye", "bye")
        peer.close()
    return SESSIONS, start, time.perf_counter()


def rate_at(server, customers, customer, *words):
    """How much a second so many customers get done together."""
    ends = load.together(customers, customer, server.port, *words)
    server.end()
    counts, starts, stops = zip(*ends)
    return sum(counts) / (max(stops) - min(starts))


# ---- The journal's limit.


def loop_rate(orders):
    """Orders a second of a loop that writes and syncs as the journal does for each."""
    with open(LOOP, "wb") as file:
        number, gate = file.fileno(), 38
        start = time.perf_counter()
        for order in range(orders):
            # The lengths are those of an admission and of a release of acme.
            record = bytes(32 if order % 2 == 0 else 15)
            os.pwrite(number, record, gate + 1)
            os.fdatasync(number)
            os.pwrite(number, b"\1", gate)
            os.fdatasync(number)
            gate += len(record)
        return orders / (time.perf_counter() - start)


# ---- Many connections at once.


def ask_at_once(port, count, first, last):
    """Connects all at once, and has each one say its lines; the seconds until all have their
    replies, and how many the system had not let in, and reset: they connect again."""
    lines = [f"{line}\n".encode() for line in ("hello acme", *[QUESTION] * ASKED, "bye")]
    waiting, replies, resets = selectors.DefaultSelector(), {}, 0

    def come():
        peer = socket.socket()
        peer.setblocking(False)
        peer.connect_ex((HOST, port))
        waiting.register(peer, selectors.EVENT_WRITE)
        replies[peer] = b""

    def leave(peer):
        waiting.unregister(peer)
        peer.close()

    def go_on(peer, events):
        if events & selectors.EVENT_WRITE:
            peer.send(lines[0])
            waiting.modify(peer, selectors.EVENT_READ)
        elif piece := peer.recv(4096):
            replies[peer] += piece
            told = replies[peer].count(b"\n")
            if told == len(lines):
                peer.shutdown(socket.SHUT_WR)
            elif piece.endswith(b"\n"):
                peer.send(lines[told])
        else:
            leave(peer)

    start = time.perf_counter()
    for _ in range(count):
        come()
    while waiting.get_map():
        ready = waiting.select(SECONDS)
        if not ready:
            sys.exit("the connections hang")
        for key, events in ready:
            try:
                go_on(key.fileobj, events)
            except ConnectionError:
                if replies.pop(key.fileobj):
                    sys.exit("a connection was reset after its first reply")
                leave(key.fileobj)
                resets += 1
                come()
    seconds = time.perf_counter() - start
    for text in replies.values():
        told = text.decode().splitlines()
        if len(told) != len(lines):
            sys.exit(f"{len(told)} replies of {len(lines)}")
        want(told[0], first)
        want(told[-2], last)
    return seconds, resets


def serve_at_once(count, workers):
    """The seconds for so many connections, how many were reset, and the most memory, before one
    connection more ends it."""
    server = Server(count + 1, workers)
    seconds, resets = ask_at_once(server.port, count, "welcome at 0", ANSWER)
    peak, last = server.peak(), Peer(server.port)
    last.say("hello acme", "welcome at 0")
    last.say("bye", "bye")
    last.close()
    server.end()
    return seconds, resets, peak


def echo_at_once(count, workers):
    server = Echo(count, workers)
    seconds, resets = ask_at_once(server.port, count, "hello acme", QUESTION)
    server.end()
    return seconds, resets


# ---- Figures.


def tell(name, rates, beside, references):
    ratios = [one / other for one, other in zip(rates, references)]
    print(
        f"    {name}: {max(rates):,.0f} a second; {beside} {max(references):,.0f}, "
        f"ratio {min(ratios):.2f} to {max(ratios):.2f}"
    )


def tell_workers(workers):
    links, echoes, orders, loops, sessions, echoed = ([] for _ in range(6))
    for _ in range(RUNS):
        echoes.append(rate_at(Echo(workers, workers), workers, be_customer, ask_echo, False))
        links.append(rate_at(Server(workers, workers), workers, be_customer, ask_links, True))
        loops.append(loop_rate(workers * ORDERS))
        orders.append(rate_at(Server(workers, workers), workers, be_customer, give_orders, True))
        count = workers * SESSIONS
        echoed.append(rate_at(Echo(count, workers), workers, come_and_go, "hello acme"))
        sessions.append(rate_at(Server(count, workers), workers, come_and_go, "welcome at 0"))
    print(f"{workers} workers and customers")
    tell("questions", links, "echo", echoes)
    tell("orders", orders, "loop", loops)
    tell("sessions", sessions, "echo", echoed)


def tell_at_once():
    *_, alone = serve_at_once(1, 16)
    runs = [(*echo_at_once(MOST, 16), *serve_at_once(MOST, 16)) for _ in range(RUNS)]
    echoes, echo_resets, seconds, resets, peaks = zip(*runs)
    print(f"{MOST:,} customers at once, 16 workers, {MOST * (ASKED + 2):,} replies")
    print(f"    {min(seconds):.3f} to {max(seconds):.3f} s, {max(resets)} connected again at most")
    print(f"    echo {min(echoes):.3f} to {max(echoes):.3f} s, {max(echo_resets)} again at most")
    print(f"    {max(peaks):,} KiB of memory; {alone:,} KiB for one customer")


def tell_load(workers):
    server = Server(workers + 1, workers)
    words = load.Load(server.port, workers, LOADED, load.mix_of(load.MIX))
    found = load.measure(words)
    server.end()
    if found.fault:
        sys.exit(found.fault)
    print(f"load: {workers} workers and customers, all commands")
    print("\n".join(f"load: {line}" for line in load.table(found).splitlines()))


def main():
    with open(TOPOLOGY, "w") as file:
        file.write("node a\nnode b\nlink a b 1000 1\nend\n")
    for workers in (1, 4, 16):
        tell_workers(workers)
    tell_at_once()
    tell_load(4)


try:
    main()
except (networks.WrongInput, *client.FAULTS) as fault:
    sys.exit(str(fault))
END
