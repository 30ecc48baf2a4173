#!/usr/bin/env python3
"""How many orders a host answers alone, with one standby, and with a quorum of etcd, and how soon.

Customers of a host, 1 and then 16, give an admission and its release, one after another, for some
seconds each: at a host alone; at one whose standby is a `hosed follow` on the same disk; at one
of three machines of tools/quorum.py, of which two follow, with three members of etcd on this disk.
Prints orders a second and the median time to a reply, each beside those of the host alone.

usage: bench/measure/quorum.py FOLDER [PROGRAM [SECONDS]]
FOLDER is on a real disk. The PROGRAM (./hosed) is seen from the top of the repository. It wants
etcd-server and etcd-client, as Debian has them.
"""
import os
import socket
import statistics
import subprocess
import sys
import tempfile
import threading
import time

sys.path.insert(0, os.path.join(os.path.dirname(os.path.abspath(__file__)), "..", "parts"))
from usage import TOP, tell_usage

import client
from quorum_machines import Cluster, free_ports

NETWORK = os.path.join(TOP, "demo", "backbone.txt")
CUSTOMERS = 1, 16


def orders_of(port, number, end, times):
    with client.Session(client.HOST, port, f"c{number}") as session:
        while time.monotonic() < end:
            start = time.monotonic()
            vpn = session.admit({"sea": 1, "nyc": 1})
            middle = time.monotonic()
            session.release(vpn.id)
            times += [middle - start, time.monotonic() - middle]


def measured(port, seconds):
    """Orders a second, and the median time, by so many customers."""
    for count in CUSTOMERS:
        times, start = [], time.monotonic()
        threads = [threading.Thread(target=orders_of, args=(port, f"{count}-{one}", start + seconds,
                                                            times)) for one in range(count)]
        for thread in threads:
            thread.start()
        for thread in threads:
            thread.join()
        yield count, len(times) / (time.monotonic() - start), statistics.median(times) * 1000


def follow(door, words):
    """A `hosed follow` behind a socket, for who comes there, until it is closed."""
    while True:
        try:
            end, _ = door.accept()
        except OSError:
            return
        with end:
            subprocess.run(words, stdin=end, stdout=end)


def host(program, work, name, *options):
    """A host that answers, and its port."""
    port = free_ports(1)[0]
    words = [program, "host", "--quiet", *options, NETWORK, os.path.join(work, name), str(port)]
    process = subprocess.Popen(words, stdout=subprocess.PIPE, text=True)
    if process.stdout.readline() != "ready\n":
        sys.exit(f"a host ends with {process.wait()}")
    return process, port


def alone(program, work, seconds):
    process, port = host(program, work, "alone.journal")
    yield from measured(port, seconds)
    process.kill()


def with_standby(program, work, seconds):
    path = os.path.join(work, "standby")
    with socket.socket(socket.AF_UNIX) as door:
        door.bind(path)
        door.listen()
        words = [program, "follow", NETWORK, os.path.join(work, "standby.journal")]
        threading.Thread(target=follow, args=(door, words), daemon=True).start()
        process, port = host(program, work, "leader.journal", "--standby", path,
                             "--standby-or-stop")
        yield from measured(port, seconds)
        process.kill()
        process.wait()


def with_quorum(program, work, seconds):
    cluster = Cluster(program, [program], work, NETWORK, is_direct=True)
    try:
        cluster.until(cluster.leader)
        port = cluster.leader().port
        cluster.until(lambda: is_answered(port))
        yield from measured(port, seconds)
    finally:
        cluster.end()


def is_answered(port):
    try:
        with client.Session(client.HOST, port, "acme") as session:
            return session.vpns().epoch >= 0
    except client.ConnectionLost:
        return False


def main():
    folder = sys.argv[1]
    program = os.path.abspath((sys.argv[2:] + ["./hosed"])[0])
    seconds = float((sys.argv[3:] + ["10"])[0])
    first = {}
    with tempfile.TemporaryDirectory(dir=folder) as work:
        for way in alone, with_standby, with_quorum:
            for count, rate, middle in way(program, work, seconds):
                first.setdefault(count, (rate, middle))
                print(f"{way.__name__}: {count} customers: {rate:.0f} orders a second "
                      f"({rate / first[count][0]:.2f}), {middle:.2f} ms in the median "
                      f"({middle / first[count][1]:.1f})", flush=True)


if __name__ == "__main__":
    tell_usage(__doc__)
    if len(sys.argv) < 2:
        sys.exit(__doc__)
    main()
