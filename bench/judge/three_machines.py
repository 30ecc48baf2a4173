#!/usr/bin/env python3
"""Goes through docs/OPERATING.md, "Three machines", with three real members of etcd on loopback.

The blocks after <!-- three: NAME --> are run as they stand, by a shell for each machine. What is
not as there: /etc, /var and /run are folders of the machine's own, the port 7000 is one that is
free, files have no other owner, and `systemctl` is this script, which starts etcd by its settings,
and the host by the ExecStart of tools/systemd/hosed-quorum.conf. Orders are given throughout: they
have to be answered where the page says so, and only there; at the end all journals are the same.

Prints the steps, and how long each took until an order was answered; or what is not as it should
be, and ends with status 1.

usage: bench/judge/three_machines.py [--host WORD] [PROGRAM]
The PROGRAM (./hosed) is seen from the top of the repository; WORD runs in its place as a host. It
wants etcd-server and etcd-client, as Debian has them.
"""
import argparse
import os
import re
import shlex
import shutil
import signal
import subprocess
import sys
import tempfile
import time

sys.path.insert(0, os.path.join(os.path.dirname(os.path.abspath(__file__)), "..", "parts"))
from usage import TOP, tell_usage

import client
import journals
import networks
from live_journal import LiveJournal
from quorum_machines import free_ports, send, under

NAMES, SECONDS = "abcd", 60
NETWORK = os.path.join(TOP, "demo", "backbone.txt")
QUOTA = "8388608"
HOST = os.path.join(TOP, "tools", "systemd", "hosed-host.service")


class Wrong(Exception):
    pass


def blocks():
    with open(os.path.join(TOP, "docs", "OPERATING.md"), encoding="utf-8") as file:
        return dict(re.findall(r"(?m)^<!-- three: (.*) -->\n```\n((?:.*\n)*?)```$", file.read()))


class Machine:
    def __init__(self, work, name, given, client_port, peer_port, door):
        self.name, self.root, self.given, self.door = name, os.path.join(work, name), given, door
        self.client, self.peer = (f"http://127.0.0.1:{port}" for port in (client_port, peer_port))
        for folder in ("etc/hosed", "etc/default", "var/lib/hosed", "run/hosed", "bin"):
            os.makedirs(os.path.join(self.root, folder))
        shutil.copy(NETWORK, self.path("/etc/hosed/network.txt"))
        self.journal = self.path("/var/lib/hosed/orders.journal")
        for name, words in (("systemctl", f"{os.path.abspath(__file__)} --systemctl {self.root} "
                             f"{door} {given.program} {given.host or given.program}"),
                            ("hosed", given.program)):
            with open(os.path.join(self.root, "bin", name), "w", encoding="ascii") as file:
                file.write(f'#!/bin/sh\nexec {words} "$@"\n')
            os.chmod(file.name, 0o755)

    def path(self, path):
        return self.root + path

    def run(self, text, **more):
        """What a shell of this machine tells."""
        text = here(text, self.root).replace("-o hosed -g hosed ", "")
        names = {"MACHINE": self.name, "CLIENT": self.client, "PEER": self.peer, **more,
                 "PATH": f"{self.root}/bin:{os.environ['PATH']}"}
        done = subprocess.run(["bash", "-ec", text], env={**os.environ, **names}, cwd=self.root,
                              stdout=subprocess.PIPE, stderr=subprocess.STDOUT, text=True,
                              timeout=SECONDS, stdin=subprocess.DEVNULL)
        if done.returncode:
            raise Wrong(f"{text} ends with {done.returncode}: {done.stdout}")
        return done.stdout

    def pids(self, what):
        try:
            with open(self.path(f"/run/{what}"), encoding="ascii") as file:
                return under(int(file.read()))
        except FileNotFoundError:
            return []

    def kill(self, what):
        send(self.pids(what), signal.SIGKILL)


def here(text, root):
    """A text with the folders of a machine."""
    return re.sub(r"(?<![\w.])/(etc|var|run)/", rf"{root}/\1/",
                  text.replace("/usr/local/lib/hosed/current", TOP))


# ---- systemctl.


def settings(path):
    with open(path, encoding="ascii") as file:
        text = file.read().replace("\\\n", " ")
    return re.findall(r"(?m)^([A-Z][A-Za-z]+)=(.*)$", text)


def systemctl(root, door, program, host, verb, *units):
    if verb == "daemon-reload":
        return
    (unit,), names = units, dict(os.environ)
    place = f"{root}/run/{unit}"
    if os.path.exists(place):
        with open(place, encoding="ascii") as file:
            pids = under(int(file.read()))
        send(pids[:1], signal.SIGTERM)
        while any(os.path.exists(f"/proc/{pid}") for pid in pids):
            time.sleep(0.05)
        os.unlink(place)
    if verb == "stop":
        return
    if unit == "etcd":
        with open(f"{root}/etc/default/etcd", encoding="ascii") as file:
            names.update(line.rstrip("\n").split("=", 1) for line in file)
        names.update(ETCD_DATA_DIR=f"{root}/var/lib/etcd", ETCD_QUOTA_BACKEND_BYTES=QUOTA)
        words = ["etcd", "--logger", "zap", "--log-outputs", f"{root}/etcd.log"]
    else:
        folder = f"{root}/etc/systemd/system/hosed-host.service.d"
        found = settings(HOST) + [one for name in ("quorum.conf", "this-machine.conf")
                                  for one in settings(os.path.join(folder, name))]
        for value in (value for key, value in found if key == "Environment"):
            names.update(word.split("=", 1) for word in shlex.split(value))
        names["HOST_DOORS"] = names["HOST_DOORS"].replace("7000", door)
        line = [value for key, value in found if key == "ExecStart"][-1]
        line = here(re.sub(r"\$\{(\w+)\}", lambda name: names[name[1]], line), root)
        line = line.replace("/usr/local/bin/hosed host", f"{host} host")
        line = line.replace("quorum.py lead", f"quorum.py lead --program {program}")
        words = shlex.split(line)
    with open(f"{root}/{unit}.told", "ab") as told:
        process = subprocess.Popen(words, env=names, stdout=told, stderr=told,
                                   stdin=subprocess.DEVNULL, start_new_session=True)
    with open(place, "w", encoding="ascii") as file:
        file.write(str(process.pid))


# ---- The steps.


class Day:
    def __init__(self, work, given):
        ports = free_ports(3 * len(NAMES))
        self.blocks, self.left, self.orders = blocks(), set(blocks()), 0
        self.machines = {name: Machine(work, name, given, *ports[3 * at:3 * at + 3])
                         for at, name in enumerate(NAMES)}
        self.at = list("abc")
        self.program = given.program

    def words(self):
        """What the page's names stand for."""
        return {"MEMBERS": ",".join(f"{name}={self.machines[name].peer}" for name in self.at),
                "ETCD": ",".join(self.machines[name].client for name in self.at)}

    def block(self, name, block, **more):
        self.left.discard(block)
        return self.machines[name].run(self.blocks[block], **{**self.words(), **more})

    def order(self, seconds=SECONDS):
        """Gives orders to one after another until it is answered, and tells who did and when."""
        start = time.monotonic()
        while time.monotonic() < start + seconds:
            for name in self.at:
                try:
                    with client.Session(client.HOST, self.machines[name].door, "acme", 3) as one:
                        one.admit({"sea": 1, "nyc": 1})
                    self.orders += 1
                    return name, time.monotonic() - start
                except (client.ConnectionLost, client.MalformedReply):
                    pass
            time.sleep(0.1)
        return None

    def served(self, what):
        found = self.order()
        if not found:
            raise Wrong(f"{what}: no order is answered")
        print(f"{what}: {found[0]} answers after {found[1]:.1f} s", flush=True)
        return found[0]

    def not_served(self, what):
        if self.order(8):
            raise Wrong(f"{what}: an order is answered")
        print(f"{what}: no order is answered", flush=True)

    def until(self, holds, what):
        last = time.monotonic() + SECONDS
        while not holds():
            if time.monotonic() > last:
                raise Wrong(f"not within {SECONDS} s: {what}")
            time.sleep(0.2)

    def same(self, what):
        """All journals are, and have as many entries as orders were answered, at least."""
        digest = journals.digest_of(networks.load_topology(NETWORK, None))

        def are():
            found = set()
            for name in self.at:
                with LiveJournal(self.machines[name].journal, digest) as journal:
                    while journal.read():
                        pass
                    found.add((journal.epoch, journal.value))
            return len(found) == 1 and found.pop()[0] >= self.orders
        self.until(are, f"{what}: the journals are the same")

    def first(self):
        for name in self.at:
            self.block(name, "etcd")
        with open(NETWORK, encoding="ascii") as file:
            text = file.read() + "acme admit sea:1 nyc:1\n"
        for name in self.at:
            words = [self.program, "run", self.machines[name].journal]
            subprocess.run(words, input=text, text=True, check=True, stdout=subprocess.DEVNULL)
            text = text.partition("acme")[0]
        self.until(lambda: self.begins("a", "begin"), "begin")
        for name in self.at:
            self.block(name, "lead")
        leader = self.served("begun")
        told = self.block(leader, "who leads").split()
        if told[3] != leader:
            raise Wrong(f"{leader} answers, and {told} is told")
        self.same("begun")
        return leader

    def begins(self, name, block, **more):
        try:
            return self.block(name, block, **more).startswith("head ")
        except Wrong as fault:
            if "status" in str(fault) or "27" in str(fault):
                raise
            return False

    def go(self):
        leader = self.first()
        self.machines[leader].run("systemctl stop hosed-host")
        second = self.served(f"{leader} is stopped")
        self.block(leader, "lead")
        self.machines[second].kill("hosed-host")
        self.served(f"{second} is killed")
        self.block(second, "lead")
        self.same("both are back")
        for name in "ab":
            self.machines[name].kill("etcd")
        self.not_served("without a quorum")
        for name in "ab":
            self.machines[name].run("systemctl restart etcd")
        self.served("with one again")
        self.room()
        self.new_machine()
        self.anew()
        if self.left:
            raise Wrong(f"blocks that were not run: {', '.join(sorted(self.left))}")

    def room(self):
        big = "head -c 1000000 /dev/zero | tr '\\0' x | ETCDCTL_API=3 etcdctl --endpoints $ETCD put"
        for number in range(20):
            try:
                self.machines["a"].run(f"{big} big{number % 4}", **self.words())
            except Wrong:
                break
        self.not_served("the quota is full")
        self.machines["a"].run("ETCDCTL_API=3 etcdctl --endpoints $ETCD del --prefix big",
                               **self.words())
        self.block("a", "room")
        self.served("with room again")

    def new_machine(self):
        self.machines["c"].kill("hosed-host")
        self.machines["c"].kill("etcd")
        self.at = list("ab")
        self.served("c is gone")
        self.block("a", "gone", GONE="c", MACHINE="d", PEER=self.machines["d"].peer)
        shutil.copy(self.machines["b"].journal, self.machines["d"].path("/copy.journal"))
        self.at = list("abd")
        self.block("d", "new machine")
        self.block("d", "lead")
        self.served("d is there")
        self.same("d is there")
        self.machines["a"].kill("etcd")
        self.served("a's member is killed")
        self.machines["a"].run("systemctl restart etcd")

    def anew(self):
        for name in self.at:
            self.machines[name].run("systemctl stop hosed-host")
        for name in self.at:
            self.machines[name].kill("etcd")
        for name in self.at:
            self.machines[name].run("rm -rf /var/lib/etcd")
            self.block(name, "etcd")
        sizes = {os.path.getsize(self.machines[name].journal): name for name in self.at}
        self.until(lambda: self.begins(sizes[max(sizes)], "anew", NAME="second"), "begun anew")
        for name in self.at:
            self.block(name, "lead anew", NAME="second")
        self.served("anew")
        self.same("anew")

    def end(self):
        for machine in self.machines.values():
            machine.kill("hosed-host")
            machine.kill("etcd")


def main():
    reader = argparse.ArgumentParser(usage=__doc__.split("usage: ")[1])
    reader.add_argument("--host")
    reader.add_argument("program", nargs="?", default="./hosed")
    given = reader.parse_args()
    given.program = os.path.abspath(given.program)
    with tempfile.TemporaryDirectory() as work:
        day = Day(work, given)
        try:
            day.go()
        except (Wrong, subprocess.TimeoutExpired, client.Refusal) as fault:
            if os.environ.get("KEEP"):
                shutil.copytree(work, os.environ["KEEP"], dirs_exist_ok=True,
                                ignore=shutil.ignore_patterns("quorum", "operator"))
            sys.exit(f"three_machines.py: {fault}")
        finally:
            day.end()
    print(f"all blocks were run; {day.orders} orders were answered, and all journals are the same")


if __name__ == "__main__":
    tell_usage(__doc__)
    if sys.argv[1:2] == ["--systemctl"]:
        systemctl(*sys.argv[2:])
    else:
        main()
