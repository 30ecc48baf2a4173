#!/usr/bin/env python3
"""How much of what a disk leaves is used by orders at a port, and what passes between two orders.

With a journal on a real file in FOLDER, by 1, 2, 4 and 16 workers with as many customers, who are
threads of a program in C that gcc makes: orders a second, admissions and releases by turns, beside
a loop of the same writes and syncs on a file there. Both go by short turns, since a sync may take
many times as long at one moment as at another; each turn is beside the loop before and after it.
Then more turns with a library that times the journal's calls: what a sync takes and a write, and
the gap between an order's last sync and the first write of the next one. All are medians, with the
least and the greatest.

usage: bench/measure/port_orders.py [--first] [-n TURNS] [FOLDER [PROGRAM]]
FOLDER is the current one, else on a real disk; PROGRAM (./hosed) is seen from the top of the
repository; TURNS is 9. With --first, as root, all that is measured runs before other work.
"""
import argparse
import os
import socket
import statistics
import struct
import subprocess
import sys
import tempfile

sys.path.insert(0, os.path.join(os.path.dirname(os.path.abspath(__file__)), "..", "parts"))
from usage import TOP, tell_usage

from disk_loop import CLOSED, Loop

CUSTOMERS, SECONDS = (1, 2, 4, 16), "0.4"
LOOPED = 1_000  # orders of the loop in a turn
HOST, WAITS = "127.0.0.1", 120
NETWORK = "node a\nnode b\nlink a b 1000 1\nend\n"
ADMISSION, RELEASE = 64, 47  # bytes of a record of acme's with the gate after it


def go_first():
    """Before all that runs by the usual rules."""
    os.sched_setscheduler(0, os.SCHED_RR, os.sched_param(5))


class Place:
    """Where the files lie, and what is measured."""

    def __init__(self, folder, options):
        self.folder, self.program = folder, options.program
        self.before = go_first if options.first else None
        with open(self.name("network"), "w", encoding="ascii") as file:
            file.write(NETWORK)
        for words, made in ((["-O2"], "customers"),
                            (["-O2", "-shared", "-fPIC", "-DLIBRARY"], "library.so")):
            source = os.path.join(TOP, "bench", "measure", "port_orders.c")
            subprocess.run(["gcc", *words, source, "-o", self.name(made), "-lpthread", "-ldl"],
                           check=True)

    def name(self, name):
        return os.path.join(self.folder, name)

    def start(self, words, **how):
        return subprocess.Popen(words, stdout=subprocess.PIPE, text=True, preexec_fn=self.before,
                                **how)

    def new(self, name):
        """A path at which nothing is."""
        if os.path.exists(self.name(name)):
            os.remove(self.name(name))
        return self.name(name)


def free_port():
    with socket.socket() as probe:
        probe.bind((HOST, 0))
        return str(probe.getsockname()[1])


def serve(place, customers, **how):
    """Orders a second of so many customers."""
    port, number = free_port(), str(customers)
    words = [place.program, "serve", place.name("network"), place.new("journal"), port]
    server = place.start([*words, number, number], **how)
    if server.stdout.readline() != "ready\n":
        sys.exit("the server did not begin")
    asking = place.start([place.name("customers"), port, number, SECONDS])
    rate = asking.communicate(timeout=WAITS)[0]
    text = server.communicate(timeout=WAITS)[0]
    if asking.returncode != 0 or server.returncode != 0 or not text.endswith("live 0 cost 0\n"):
        sys.exit(f"{asking.returncode}, and the server {server.returncode}: {text!r}")
    return float(rate)


def loop(place):
    """Orders a second of the same writes and syncs, by a process of its own."""
    words = [sys.executable, os.path.abspath(__file__), "--loop", place.new("loop")]
    return float(place.start(words).communicate(timeout=WAITS)[0])


def run_loop(path):
    records = [bytes(size - 1) + CLOSED for size in (ADMISSION, RELEASE)]
    seconds = Loop(path, records[0]).turn(records * (LOOPED // 2))
    print(LOOPED / seconds)


def notes_of(place, customers):
    """Microseconds of a sync, of a write and of a gap."""
    path = place.new("notes")
    serve(place, customers,
          env={**os.environ, "LD_PRELOAD": place.name("library.so"), "PORT_NOTES": path})
    with open(path, "rb") as file:
        found = struct.unpack("=6Q", file.read())
    return [time / count / 1_000 for count, time in zip(found[::2], found[1::2])]


def spread(figures, digits):
    least, middle, most = min(figures), statistics.median(figures), max(figures)
    return f"{middle:,.{digits}f} ({least:,.{digits}f} to {most:,.{digits}f})"


def tell(place, customers, turns):
    rates, ratios, loops, notes = [], [], [loop(place)], []
    for _ in range(turns):
        rates.append(serve(place, customers))
        loops.append(loop(place))
        ratios.append(rates[-1] * 2 / sum(loops[-2:]))
    for _ in range(turns):
        notes.append(notes_of(place, customers))
    syncs, writes, gaps = zip(*notes)
    print(f"{customers} workers and customers: orders {spread(rates, 0)} a second; loop "
          f"{spread(loops, 0)}, ratio {spread(ratios, 2)}")
    print(f"    a sync {spread(syncs, 0)} us, a write {spread(writes, 1)} us, "
          f"from order to order {spread(gaps, 0)} us")


def main():
    tell_usage(__doc__)
    if sys.argv[1:2] == ["--loop"]:
        run_loop(sys.argv[2])
        return
    reader = argparse.ArgumentParser(usage=__doc__.split("usage: ")[1])
    reader.add_argument("--first", action="store_true")
    reader.add_argument("-n", dest="turns", type=int, default=9)
    reader.add_argument("folder", nargs="?", default=".")
    reader.add_argument("program", nargs="?", default="./hosed")
    options = reader.parse_args()
    options.folder = os.path.abspath(options.folder)
    os.chdir(TOP)
    options.program = os.path.abspath(options.program)
    subprocess.run([options.program, "--version"], stdout=subprocess.DEVNULL, check=True)
    load = os.getloadavg()[0]
    with tempfile.TemporaryDirectory(dir=options.folder) as folder:
        place = Place(folder, options)
        for customers in CUSTOMERS:
            tell(place, customers, options.turns)
    print(f"load {load:.1f} before, {os.getloadavg()[0]:.1f} after")


if __name__ == "__main__":
    main()
