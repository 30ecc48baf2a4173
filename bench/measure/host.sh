#!/usr/bin/env bash
# How fast `hosed host` is, with a journal on a real file in FOLDER, by one thread, beside an echo
# in C of one thread over epoll: replies a second to questions after a link by 1, 16, 1,000 and
# 5,000 connections, of which each waits for a reply before the next line, or has 64 lines sent
# ahead; of those sent ahead by 1 and 16 connections also how many times those of `hosed serve`.
# Orders a second, admissions and releases by turns, by 1, 4 and 16 customers, beside a loop of the
# same writes and syncs. The memory that 5,000 connections take that said hello and are idle. Then
# VISITS connections (20,000) come one after the other, of which each says hello, gives an order and
# says bye: the seconds, and by how much the memory and the descriptors grew after the first tenth
# of them.
# Customers are a program in C on the same machine, so these are figures of both together: the
# greatest of the runs, which are made by turns, and the least and greatest ratio. Ends with status
# 1 where a reply is not as wanted, or a descriptor is left.
# usage: bench/measure/host.sh [FOLDER [PROGRAM [VISITS]]]
# FOLDER: on a real disk; else the current one
[ "${1-}" != --help ] || exec sed -n '2,/^[^#]/s/^# \{0,1\}//p' "$0"
visits=${3-20000}
set -e
. "$(dirname "$0")/../parts/place.sh"
ulimit -n 12000 || exit 1
gcc -O2 bench/measure/host.c -o "$place/peers" || exit 1
gcc -O2 bench/measure/port_orders.c -o "$place/customers" -lpthread -ldl || exit 1

PYTHONPATH=tools:bench/parts python3 - "$program" "$place" "$visits" <<'END'
import os
import socket
import subprocess
import sys

from disk_loop import CLOSED, Loop

PROGRAM, PLACE, VISITS = sys.argv[1], sys.argv[2], int(sys.argv[3])
TOPOLOGY, JOURNAL, LOOP, DOOR, OPERATOR = (
    os.path.join(PLACE, name) for name in ("topology", "journal", "loop", "door", "operator"))
PEERS, CUSTOMERS = os.path.join(PLACE, "peers"), os.path.join(PLACE, "customers")
RUNS, SECONDS, AHEAD, LOOPED = 3, "1", "64", 1_000
ADMISSION, RELEASE = 64, 47  # bytes of a record of acme's with the gate after it
HANGS = 1_200
QUESTION, ANSWER = "link 0", "link 0 a b capacity 1000 cost 1 load 0 at "
NETWORK = "node a\nnode b\nlink a b 1000 1\nend\n"


def free_port():
    with socket.socket() as probe:
        probe.bind(("127.0.0.1", 0))
        return str(probe.getsockname()[1])


# ---- Who is asked.


class Asked:
    """A program that is ready at an address."""

    def __init__(self, words, address):
        self.address = address
        self.process = subprocess.Popen(words, stdout=subprocess.PIPE, text=True,
                                        stderr=subprocess.DEVNULL)
        ready = self.process.stdout.readline()
        if ready != "ready\n":
            sys.exit(f"{words} is not ready: {ready!r}")

    def peers(self, *words):
        return subprocess.run([PEERS, words[0], self.address, *words[1:]], check=True, text=True,
                              stdout=subprocess.PIPE, timeout=HANGS).stdout

    def memory(self):
        """The KiB that it has in memory."""
        with open(f"/proc/{self.process.pid}/status", encoding="ascii") as status:
            return int(next(line for line in status if line.startswith("VmRSS")).split()[1])

    def descriptors(self):
        return len(os.listdir(f"/proc/{self.process.pid}/fd"))

    def ends(self):
        self.process.communicate(timeout=HANGS)
        if self.process.returncode != 0:
            sys.exit(f"it ended with {self.process.returncode}")


class Echo(Asked):
    def __init__(self):
        port = free_port()
        super().__init__([PEERS, "echo", port], port)

    def ask(self, count, ahead):
        return float(self.peers("ask", str(count), ahead, SECONDS, "", QUESTION, QUESTION))

    def end(self):
        self.process.kill()
        self.process.wait()


class Book(Asked):
    def ask(self, count, ahead):
        words = ("hello acme", QUESTION, ANSWER)
        return float(self.peers("ask", str(count), ahead, SECONDS, *words))

    def orders(self, count):
        """Orders a second of so many customers."""
        words = [CUSTOMERS, self.address, str(count), SECONDS]
        return float(subprocess.run(words, check=True, stdout=subprocess.PIPE, text=True,
                                    timeout=HANGS).stdout)


class Host(Book):
    def __init__(self):
        remove(JOURNAL)
        port = free_port()
        words = [PROGRAM, "host", "--operator", OPERATOR, "--quiet", TOPOLOGY, JOURNAL, port, DOOR]
        super().__init__(words, port)

    def end(self):
        with socket.socket(socket.AF_UNIX) as operator:
            operator.connect(OPERATOR)
            operator.sendall(b"hello operator\nend\n")
            operator.settimeout(HANGS)
            while operator.recv(4096):
                pass
        self.ends()


class Serve(Book):
    """`hosed serve` for so many connections at once, with as many workers."""

    def __init__(self, count):
        remove(JOURNAL)
        port = free_port()
        words = [PROGRAM, "serve", TOPOLOGY, JOURNAL, port, str(count), str(count)]
        super().__init__(words, port)
        self.end = self.ends


def remove(path):
    if os.path.exists(path):
        os.remove(path)


def run(asked, work):
    try:
        return work(asked)
    finally:
        asked.end()


# ---- Figures.


def beside(name, rates, others, references):
    ratios = [one / other for one, other in zip(rates, references)]
    print(f"    {name}: {max(rates):,.0f} a second; {others} {max(references):,.0f}, "
          f"ratio {min(ratios):.2f} to {max(ratios):.2f}", flush=True)


def tell_questions(count, ahead, beside_serve):
    hosts, echoes, serves = [], [], []
    for _ in range(RUNS):
        echoes.append(run(Echo(), lambda asked: asked.ask(count, ahead)))
        hosts.append(run(Host(), lambda asked: asked.ask(count, ahead)))
        if beside_serve:
            serves.append(run(Serve(count), lambda asked: asked.ask(count, ahead)))
    name = f"{count:,} connections, {'one at a time' if ahead == '1' else f'{ahead} sent ahead'}"
    beside(name, hosts, "echo", echoes)
    if serves:
        beside(name, hosts, "serve", serves)


def loop_rate():
    remove(LOOP)
    loop = Loop(LOOP, bytes(ADMISSION))
    records = [bytes(ADMISSION - 1) + CLOSED, bytes(RELEASE - 1) + CLOSED] * (LOOPED // 2)
    return LOOPED / loop.turn(records)


def tell_orders(count):
    orders, loops = [], []
    for _ in range(RUNS):
        loops.append(loop_rate())
        orders.append(run(Host(), lambda asked: asked.orders(count)))
    beside(f"{count} customers", orders, "loop", loops)


def idle_memory(host, count):
    before = host.memory()
    words = [PEERS, "idle", host.address, str(count), "hello acme"]
    with subprocess.Popen(words, stdin=subprocess.PIPE, stdout=subprocess.PIPE, text=True) as peers:
        if peers.stdout.readline() != "idle\n":
            sys.exit("the connections are not all served")
        after = host.memory()
        peers.stdin.close()
    return before, after


def visits(host):
    host.address, first = DOOR, VISITS // 10
    descriptors = host.descriptors()
    host.peers("visit", str(first))
    before = host.memory()
    seconds = float(host.peers("visit", str(VISITS - first)))
    return seconds, host.memory() - before, host.descriptors() - descriptors


def main():
    with open(TOPOLOGY, "w", encoding="ascii") as file:
        file.write(NETWORK)
    print("questions")
    for ahead in ("1", AHEAD):
        for count in (1, 16, 1_000, 5_000):
            tell_questions(count, ahead, ahead == AHEAD and count <= 16)
    print("orders")
    for count in (1, 4, 16):
        tell_orders(count)
    before, after = run(Host(), lambda host: idle_memory(host, 5_000))
    print(f"5,000 idle connections: {after:,} KiB of memory; {before:,} KiB before they came")
    seconds, grew, left = run(Host(), visits)
    first = VISITS // 10
    print(f"{VISITS - first:,} visits in {seconds} s; {grew:,} KiB more of memory than after "
          f"{first:,}, {left} descriptors more")
    if left:
        sys.exit("descriptors are left")


main()
END
