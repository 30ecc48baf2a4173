#!/usr/bin/env python3
"""Makes each alert of tools/monitoring/hosed.rules.yml fire once, by its fault.

A real Prometheus reads the figures of tools/metrics.py beside a host and a standby, all on loopback,
with the rules as they are, but for times: what has to hold for minutes has to for seconds. First no
alert fires of a host that is well. Then each fault is made to happen: hoses that are refused, links
and books that are full, a disk that is full, a host without memory, one that is stopped, a log that
nobody reads, a follower that is stopped and one that is gone, a host that begins again and again,
one that is killed, a customer's question that has no answer, a journal that is moved away. Prints
each alert with the seconds until it fired; ends with status 1 where one does not fire in time or
fires of a host that is well, and with 2, and a sentence, where there is no Prometheus, or no root,
whom a disk that is full wants.

usage: bench/judge/alerts.py [PROGRAM]
The PROGRAM (./hosed) is seen from the top of the repository.
"""
import contextlib
import json
import os
import re
import resource
import shutil
import signal
import socket
import subprocess
import sys
import tempfile
import time
import urllib.error
import urllib.request

sys.path.insert(0, os.path.join(os.path.dirname(os.path.abspath(__file__)), "..", "parts"))
from usage import TOP, tell_usage

TOOLS = os.path.join(TOP, "tools")
sys.path.insert(0, TOOLS)
import journals
import networks

TOPOLOGY = ("node a\nnode b\nnode c\nnode h\n"
            "link a h 1000000 1\nlink b h 1000000 1\nlink c h 10 1\nend\n")
ROOM = 256 << 20  # bytes of the journal's disk, above what the rule of room wants
SCRAPE = 6  # seconds, more than a question may take
WINDOW = 60  # seconds, in place of the minutes of a rule
PATIENCE = 240  # seconds for an alert
WELL = 4 * SCRAPE  # seconds in which nothing fires
MANY = 19_001  # VPNs
BEHIND = 1_200  # orders, more than the rule allows a standby to lack
STOPPED = 4  # seconds, less than a question has, and no part of the time between two
LONG = 3_900  # spaces in a line that fills a log


def ends(status, sentence):
    print(f"alerts: {sentence}", file=sys.stderr)
    sys.exit(status)


def shortened(rules):
    """The rules with windows and waits of seconds."""
    rules = re.sub(r"\bfor: [0-9]+[sm]", "for: 2s", rules)
    return re.sub(r"(\[|offset )[0-9]+m", rf"\g<1>{WINDOW}s", rules)


def free_port():
    with socket.create_server(("127.0.0.1", 0)) as probe:
        return probe.getsockname()[1]


def child_of(process, word):
    """The number of a program's child that has a word among its own."""
    for _ in range(200):
        for name in os.listdir("/proc"):
            with contextlib.suppress(OSError, ValueError, IndexError):
                with open(f"/proc/{int(name)}/stat", encoding="latin-1") as file:
                    parent = int(file.read().rpartition(")")[2].split()[1])
                with open(f"/proc/{name}/cmdline", encoding="latin-1") as file:
                    words = file.read().split("\0")
                if parent == process.pid and word in words:
                    return int(name)
        time.sleep(0.1)
    ends(1, f"no child of {process.args[1]} with the word {word}")


def many_vpns(path, topology):
    """A journal of version 1 with many VPNs of one customer, which its next opening seals."""
    body = bytes([1, 4]) + b"acme" + bytes([2]) + b"".join(
        node.to_bytes(2, "big") + (1).to_bytes(4, "big") for node in (0, 1))
    body += (2).to_bytes(2, "big") + b"".join(
        link.to_bytes(2, "big") + (1).to_bytes(4, "big") for link in (0, 1))
    head = b"\1HOSE\1" + journals.digest_of(topology)
    with open(path, "wb") as file:
        file.write(head + (b"\1" + len(body).to_bytes(4, "big") + body) * MANY + b"\0")


class Watch:
    """Prometheus, and the alerts that it says fire."""

    def __init__(self, folder, target):
        self.port, self.fired = free_port(), {}
        with open(os.path.join(TOOLS, "monitoring", "hosed.rules.yml"), encoding="ascii") as file:
            rules = file.read()
        self.alerts = re.findall(r"- alert: (\w+)", rules)
        self.write(folder, "rules.yml", shortened(rules))
        self.write(folder, "prometheus.yml", json.dumps({
            "global": {"scrape_interval": f"{SCRAPE}s", "scrape_timeout": f"{SCRAPE}s",
                       "evaluation_interval": "1s"},
            "rule_files": ["rules.yml"],
            "scrape_configs": [{"job_name": "hosed", "static_configs": [
                {"targets": [f"127.0.0.1:{target}"]}]}]}))
        self.process = subprocess.Popen(
            ["prometheus", f"--config.file={folder}/prometheus.yml", "--log.level=error",
             f"--storage.tsdb.path={folder}/store",
             f"--web.listen-address=127.0.0.1:{self.port}"], stdin=subprocess.DEVNULL)

    @staticmethod
    def write(folder, name, text):
        with open(os.path.join(folder, name), "w", encoding="ascii") as file:
            file.write(text)

    def asked(self, path):
        with contextlib.suppress(OSError, ValueError):
            with urllib.request.urlopen(f"http://127.0.0.1:{self.port}{path}", timeout=9) as answer:
                return json.load(answer)["data"]
        return {}

    def firing(self):
        return {alert["labels"]["alertname"] for alert in self.asked("/api/v1/alerts").get(
            "alerts", []) if alert["state"] == "firing"}

    def value(self, query):
        """The number that a query gives, if it gives one."""
        found = self.asked(f"/api/v1/query?query={query}").get("result")
        return float(found[0]["value"][1]) if found else None

    def wait_for(self, query, value):
        last = time.monotonic() + PATIENCE
        while self.value(query) != value:
            if time.monotonic() > last:
                ends(1, f"{query} is {self.value(query)}, and not {value}")
            time.sleep(0.5)

    def wait(self, *names, fault=None):
        """Waits until alerts fire, while a fault is made to happen again and again."""
        since, left = time.monotonic(), set(names)
        while left:
            for name in left & self.firing():
                left.discard(name)
                self.fired[name] = time.monotonic() - since
                print(f"alerts: {name} after {self.fired[name]:.0f} s", flush=True)
            if time.monotonic() - since > PATIENCE:
                ends(1, f"{', '.join(sorted(left))}: did not fire in {PATIENCE} s; fires: "
                        f"{', '.join(sorted(self.firing())) or 'none'}")
            if fault:
                fault()
            time.sleep(0.5)


class Server:
    """A host on a disk of its own, a standby, and their figures."""

    def __init__(self, program, folder, disk):
        self.program, self.folder, self.disk = program, folder, disk
        self.port, self.told = free_port(), free_port()
        self.network = os.path.join(folder, "network.txt")
        Watch.write(folder, "network.txt", TOPOLOGY)
        self.journal = os.path.join(disk, "orders.journal")
        self.running = []

    def at(self, name):
        return os.path.join(self.folder, name)

    def tool(self, name, *words, **how):
        process = subprocess.Popen([sys.executable, os.path.join(TOOLS, name), *map(str, words)],
                                   stdin=subprocess.DEVNULL, **how)
        self.running.append(process)
        return process

    def host(self):
        """Starts a host, and waits until customers may come. Nobody reads its log."""
        process = subprocess.Popen(
            [self.program, "host", "--operator", self.at("operator"), self.network, self.journal,
             str(self.port)],
            stdin=subprocess.DEVNULL, stdout=subprocess.PIPE, stderr=subprocess.PIPE)
        self.running.append(process)
        if process.stdout.readline() != b"ready\n":
            ends(1, "the host does not begin")
        return process

    def standby(self):
        """A standby whose follower never answers again once the file `silent` is there."""
        follows = (f"test -e {self.at('silent')} && exec sleep 1000; "
                   f"exec {self.program} follow {self.network} {self.at('follower.journal')}")
        return self.tool("standby.py", "--figures", self.at("standby.prom"), self.network,
                         self.journal, "sh", "-c", follows, stdout=subprocess.DEVNULL,
                         stderr=subprocess.DEVNULL)

    def metrics(self, *asked):
        return self.tool("metrics.py", "--http", self.told, *asked, "--figures",
                         self.at("standby.prom"), self.network, self.journal)

    def replies(self, *lines):
        """What a customer is answered, in one session whose lines are sent at once."""
        with socket.create_connection(("127.0.0.1", self.port), 120) as opened:
            with opened.makefile("r", encoding="ascii") as told:
                opened.sendall("".join(f"{line}\n" for line in ("hello acme", *lines)).encode())
                return [told.readline() for _ in range(len(lines) + 1)][1:]

    def until(self, word, line):
        """Gives a line until it is answered by a word."""
        for _ in range(100):
            replies = self.replies(*[line] * 100)
            if any(reply.startswith(word) for reply in replies):
                return
        ends(1, f"{line} is never answered {word}, but {replies[-1]!r}")

    def end(self, process, number=signal.SIGTERM):
        process.send_signal(number)
        process.wait()
        self.running.remove(process)

    def close(self):
        for process in self.running:
            process.kill()
            process.wait()


def faults_of_customers(server, watch):
    watch.wait("HosedRefuses", fault=lambda: server.replies(*["admit a:20 c:20"] * 5))
    server.replies("admit b:10 c:10")
    watch.wait("HosedLinkFull")


def faults_of_disks(server, watch):
    """A log that nobody reads, and then a disk that is full, which has its room again."""
    long_line = "admit-after 4000000000 a:1 b:1" + " " * LONG
    watch.wait("HosedLogLost", fault=lambda: server.replies(*[long_line] * 100))
    ballast = os.path.join(server.disk, "ballast")
    with contextlib.suppress(OSError), open(ballast, "wb", buffering=0) as file:
        while True:
            file.write(bytes(1 << 16))
    server.until("disk", "admit a:1 b:1")
    watch.wait("HosedDiskFails", "HosedRoom")
    os.unlink(ballast)


def faults_of_programs(server, watch, host):
    """A host that gets no memory more, and then one that is stopped again and again."""
    resource.prlimit(host.pid, resource.RLIMIT_AS, (1 << 20, resource.RLIM_INFINITY))
    server.until("memory", "admit a:1 b:1")
    resource.prlimit(host.pid, resource.RLIMIT_AS, (resource.RLIM_INFINITY,) * 2)
    watch.wait("HosedMemory")

    def stop_for_a_while():
        os.kill(host.pid, signal.SIGSTOP)
        time.sleep(STOPPED)
        os.kill(host.pid, signal.SIGCONT)

    watch.wait("HosedSlow", fault=stop_for_a_while)


def faults_of_standbys(server, watch, standby):
    """A follower that is stopped while customers order and then does not answer, and a standby.py
    that is gone."""
    follower = child_of(standby, "follow")
    Watch.write(server.folder, "silent", "")  # no other one answers, however long it takes
    os.kill(follower, signal.SIGSTOP)
    server.replies(*["admit a:1 b:1"] * BEHIND)
    watch.wait("HosedStandbyBehind")
    with contextlib.suppress(ProcessLookupError):  # standby.py ends one that is silent for long
        os.kill(follower, signal.SIGKILL)
    watch.wait("HosedStandbyMissing")
    server.end(standby)
    watch.wait("HosedFiguresOld")


def faults_of_hosts(server, watch, host, metrics):
    """One that begins again and again, one whose book is full, one that is killed; then a server
    that does not answer a customer, and a journal that is gone."""
    def begin_again():
        nonlocal host
        server.end(host)
        host = server.host()
        server.replies("link 0")
        time.sleep(2 * SCRAPE)

    watch.wait("HosedRestarts", fault=begin_again)
    server.end(host)
    many_vpns(server.journal, networks.load_topology(server.network))
    host = server.host()
    watch.wait("HosedManyVpns")
    server.end(host, signal.SIGKILL)
    watch.wait("HosedDown")
    server.end(metrics)
    server.metrics("--ask", server.port)
    watch.wait("HosedDoesNotAnswer")
    os.rename(server.journal, f"{server.journal}.away")
    watch.wait("HosedFiguresMissing")


def status_of_figures(server):
    """The status that metrics.py answers with."""
    try:
        with urllib.request.urlopen(f"http://127.0.0.1:{server.told}/metrics", timeout=30) as told:
            return told.status
    except urllib.error.HTTPError as fault:
        return fault.code


def tried(server, folder):
    host = server.host()
    server.replies("admit a:1 b:1")
    standby = server.standby()
    metrics = server.metrics("--operator", server.at("operator"))
    watch = Watch(folder, server.told)
    server.running.append(watch.process)
    watch.wait_for("hosed_standby_epoch", 1)
    watch.wait_for("hosed_up", 1)
    time.sleep(WELL)
    if watch.firing():
        ends(1, f"of a server that is well fires: {', '.join(sorted(watch.firing()))}")
    print(f"alerts: none in {WELL} s of a server that is well", flush=True)
    faults_of_customers(server, watch)
    faults_of_disks(server, watch)
    faults_of_programs(server, watch, host)
    faults_of_standbys(server, watch, standby)
    faults_of_hosts(server, watch, host, metrics)
    if status_of_figures(server) != 503:
        ends(1, f"without the journal /metrics answers {status_of_figures(server)}")
    if set(watch.alerts) != set(watch.fired):
        ends(1, f"not tried: {', '.join(sorted(set(watch.alerts) - set(watch.fired)))}")
    print(f"alerts: {len(watch.fired)} of {len(watch.alerts)} fired")


@contextlib.contextmanager
def disk_of(folder):
    """A disk of its own, which may become full."""
    place = os.path.join(folder, "disk")
    os.mkdir(place)
    words = ["mount", "-t", "tmpfs", "-o", f"size={ROOM}", "none", place]
    if subprocess.run(words, stderr=subprocess.DEVNULL).returncode:
        ends(2, "did not run: no file system can be mounted here, which wants root")
    try:
        yield place
    finally:
        subprocess.run(["umount", "-l", place], check=False)


def main():
    program = os.path.abspath((sys.argv[1:] or [os.path.join(TOP, "hosed")])[0])
    if shutil.which("prometheus") is None:
        ends(2, "did not run: there is no prometheus here; on Debian, apt-get install prometheus")
    with tempfile.TemporaryDirectory() as folder, disk_of(folder) as disk:
        server = Server(program, folder, disk)
        try:
            tried(server, folder)
        finally:
            server.close()


if __name__ == "__main__":
    tell_usage(__doc__)
    main()
