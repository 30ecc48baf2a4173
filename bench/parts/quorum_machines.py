"""Three machines on loopback, each with a member of etcd, a journal and `tools/quorum.py lead`.

What a machine says to etcd, and what members say to each other, goes through forwarders that can be
held: what was sent while one is held comes out once it is not, also where the sender has gone. One
can be slow, too.
"""
import asyncio
import multiprocessing
import os
import signal
import socket
import subprocess
import sys
import time

from usage import TOP

QUORUM = os.path.join(TOP, "tools", "quorum.py")
COUNT = 3
PIECE = 65_536
ETCD = ("--initial-cluster-state", "new", "--auto-compaction-mode", "revision",
        "--auto-compaction-retention", "1000", "--logger", "zap", "--log-level", "info")


def free_ports(count):
    probes = [socket.socket() for _ in range(count)]
    for probe in probes:
        probe.bind(("127.0.0.1", 0))
    ports = [probe.getsockname()[1] for probe in probes]
    for probe in probes:
        probe.close()
    return ports


# ---- Links that can be held.


class Forwarders:
    """A process that forwards some ports to others, each pair under a name."""

    def __init__(self, pairs):
        self.pipe, other = multiprocessing.Pipe()
        self.process = multiprocessing.Process(target=forward, args=(pairs, other), daemon=True)
        self.process.start()
        self.pipe.recv()

    def hold(self, names, is_held=True):
        self._tell(names, "hold", is_held)

    def slow(self, names, seconds):
        """Has each piece take so long, in both directions."""
        self._tell(names, "slow", seconds)

    def _tell(self, *what):
        self.pipe.send(what)
        self.pipe.recv()

    def end(self):
        self.process.kill()


def forward(pairs, pipe):
    signal.signal(signal.SIGINT, signal.SIG_IGN)
    asyncio.run(Forwarding(pairs, pipe).run())


class Forwarding:
    def __init__(self, pairs, pipe):
        self.pairs, self.pipe, self.free, self.seconds = pairs, pipe, {}, dict.fromkeys(pairs, 0)

    async def run(self):
        for name, (port, there) in self.pairs.items():
            self.free[name] = asyncio.Event()
            self.free[name].set()
            await asyncio.start_server(self.serve(name, there), "127.0.0.1", port)
        loop = asyncio.get_running_loop()
        loop.add_reader(self.pipe.fileno(), self.take)
        self.pipe.send("ready")
        await asyncio.Event().wait()

    def take(self):
        names, what, how = self.pipe.recv()
        for name in names:
            if what == "slow":
                self.seconds[name] = how
            elif how:
                self.free[name].clear()
            else:
                self.free[name].set()
        self.pipe.send("done")

    def serve(self, name, there):
        async def one(reader, writer):
            await self.free[name].wait()
            try:
                far_reader, far_writer = await asyncio.open_connection("127.0.0.1", there)
            except OSError:
                return writer.close()
            await asyncio.gather(self.pump(name, reader, far_writer),
                                 self.pump(name, far_reader, writer))
        return one

    async def pump(self, name, reader, writer):
        try:
            while True:
                piece = await reader.read(PIECE)
                await asyncio.sleep(self.seconds[name])
                await self.free[name].wait()
                if not piece:
                    break
                writer.write(piece)
                await writer.drain()
        except OSError:
            pass
        writer.close()


# ---- Processes.


def under(pid):
    """A process and all that it began, by their numbers."""
    try:
        with open(f"/proc/{pid}/task/{pid}/children", encoding="ascii") as told:
            more = [int(number) for number in told.read().split()]
    except OSError:
        return []
    return [pid] + [number for one in more for number in under(one)]


def words_of(pid):
    try:
        with open(f"/proc/{pid}/cmdline", "rb") as told:
            return told.read().decode().split("\0")
    except OSError:
        return []


def send(pids, number):
    for pid in pids:
        try:
            os.kill(pid, number)
        except ProcessLookupError:
            pass


class Member:
    """A member of etcd."""

    def __init__(self, work, number, ports, peers):
        self.number, self.url, self.work = number, f"http://127.0.0.1:{ports[0]}", work
        listens = f"http://127.0.0.1:{ports[1]}"
        cluster = ",".join(f"m{one}=http://127.0.0.1:{port}" for one, port in enumerate(peers))
        self.words = [
            "etcd", "--name", f"m{number}", "--data-dir", os.path.join(work, f"etcd{number}"),
            "--listen-client-urls", self.url, "--advertise-client-urls", self.url,
            "--listen-peer-urls", listens, "--initial-cluster", cluster,
            "--initial-advertise-peer-urls", f"http://127.0.0.1:{peers[number]}", *ETCD,
            "--log-outputs", os.path.join(work, f"etcd{number}.log")]
        self.process = None

    def start(self):
        if self.process is None or self.process.poll() is not None:
            self.process = subprocess.Popen(self.words, stdout=subprocess.DEVNULL,
                                            stderr=subprocess.DEVNULL)

    def pids(self):
        return [self.process.pid]

    def kill(self):
        self.process.kill()
        self.process.wait()


class Machine:
    """A journal, and who leads it where it leads."""

    def __init__(self, work, number, urls, port, host, topology, silent):
        self.name, self.port, self.urls = "abc"[number], port, ",".join(urls)
        self.journal = os.path.join(work, f"{self.name}.journal")
        self.log = os.path.join(work, f"{self.name}.log")
        self.words = [
            sys.executable, QUORUM, "lead", "--etcd", self.urls, "--machine", self.name,
            "--program", host[0], topology, self.journal, *host[-1:], "host", "--standby",
            os.path.join(work, f"{self.name}.put"), "--standby-seconds", f"{silent}",
            "--standby-or-stop", topology, self.journal, str(port)]
        if len(host) == 1:
            self.words.insert(self.words.index("host") + 1, "--quiet")
        self.process = None

    def start(self):
        if self.process is None or self.process.poll() is not None:
            with open(self.log, "ab") as log:
                self.process = subprocess.Popen(self.words, stdout=log, stderr=log)

    def pids(self):
        return under(self.process.pid)

    def part(self, word):
        """What it began whose words have this one."""
        return [pid for pid in self.pids()[1:] if word in words_of(pid)]

    def kill(self):
        send(self.pids(), signal.SIGKILL)
        self.process.wait()


class Cluster:
    """All of them, and the links between them: `a0` from the machine `a` to the member 0, and
    `peer0` from other members to it."""

    def __init__(self, program, host, work, topology, is_direct=False, silent=6):
        self.work, self.topology, self.program = work, topology, program
        ports = free_ports(COUNT * (4 + COUNT))
        client, listens, peer, doors = (ports[at * COUNT:(at + 1) * COUNT] for at in range(4))
        links = ports[4 * COUNT:]
        pairs = {f"peer{at}": (peer[at], listens[at]) for at in range(COUNT)}
        pairs.update({f"{name}{at}": (links[number * COUNT + at], client[at])
                      for number, name in enumerate("abc") for at in range(COUNT)})
        self.forwarders = Forwarders(pairs)
        self.members = [Member(work, at, (client[at], listens[at]), peer) for at in range(COUNT)]
        self.urls = ",".join(member.url for member in self.members)
        for member in self.members:
            member.start()
        if is_direct:
            links = client * COUNT
        self.machines = [
            Machine(work, number, [f"http://127.0.0.1:{links[number * COUNT + at]}"
                                   for at in range(COUNT)], doors[number], host, topology, silent)
            for number in range(COUNT)]
        self.links = {machine.name: [f"{machine.name}{at}" for at in range(COUNT)]
                      for machine in self.machines}
        self.until(lambda: self.quorum("begin", topology, self.machines[0].journal,
                                       "--program", program).returncode == 0)
        for machine in self.machines:
            machine.start()

    def quorum(self, kind, *words):
        return subprocess.run([sys.executable, QUORUM, kind, "--etcd", self.urls, *words],
                              stdout=subprocess.PIPE, stderr=subprocess.PIPE, text=True)

    def etcdctl(self, *words):
        done = subprocess.run(["etcdctl", "--endpoints", self.urls, *words],
                              stdout=subprocess.PIPE, stderr=subprocess.PIPE, text=True,
                              env={**os.environ, "ETCDCTL_API": "3"})
        return done.stdout

    def until(self, holds, seconds=60.0):
        last = time.monotonic() + seconds
        while not holds():
            if time.monotonic() > last:
                raise TimeoutError(f"not within {seconds:g} s")
            time.sleep(0.05)

    def leader(self):
        """The machine whose host runs, if it is one."""
        for machine in self.machines:
            if machine.process.poll() is None and machine.part("put"):
                return machine
        return None

    def first_member(self):
        """The member that leads etcd, or some one."""
        for line in self.etcdctl("endpoint", "status", "--command-timeout", "2s").splitlines():
            told = [word.strip() for word in line.split(",")]
            if told[4] == "true":
                return next(one for one in self.members if one.url == told[0])
        return self.members[0]

    def mend(self):
        """All are there, and all links go."""
        self.forwarders.hold([name for names in self.links.values() for name in names]
                             + [f"peer{at}" for at in range(COUNT)], False)
        for one in self.members + self.machines:
            if one.process.poll() is None:
                send(one.pids(), signal.SIGCONT)
            one.start()

    def end(self):
        for one in self.machines + self.members:
            if one.process is not None and one.process.poll() is None:
                one.kill()
        self.forwarders.end()
