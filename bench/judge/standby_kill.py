#!/usr/bin/env python3
"""Kills the machine of a host at random moments under load, and promotes its follower.

Each time a host with --standby and --standby-or-stop serves random sessions over a random network,
with a `hosed follow` behind a Unix socket of this script. Then the host is killed, so that the
follower has what it has and nothing more comes. Its journal has to show each order whose reply was
read, once: an admission is live as it was told, unless its customer's release was sent; a release
that was told is not; and there are no more entries than were told and one for each customer who
waited. It is the beginning of the leader's, byte by byte, and is served in the leader's place, by a
host, whose first word tells that book's epoch. In each third round the link is broken off under
load before, again and again, and has to be taken up.

In each sixth round the leader's machine comes back, too, and its journal has lost its last entry:
its host ends with the status 17 and `ahead N`. Once the leader has entered another one in its
place, the host says `differs at N` in its log, and goes on alone; the follower's journal is as it
was.

After that as many rounds go without --standby: tools/tail.py ships to the follower, and is killed
with the host. Prints how many orders were told, and how many of them the follower lacked: 0 with
--standby, which is judged, and what it is without, which is told. Or the first difference, and ends
with status 1. On standard error it tells the counts every 25 rounds.

usage: bench/judge/standby_kill.py [PROGRAM [KILLS [SEED]]]
The PROGRAM (./hosed) is seen from the top of the repository.
"""
import os
import random
import select
import socket
import subprocess
import sys
import tempfile
import threading
import time

sys.path.insert(0, os.path.join(os.path.dirname(os.path.abspath(__file__)), "..", "parts"))
from usage import TOP, tell_usage

import journals
from histories import ENTERED, HANGS, SESSIONS, Differs, Session, client, place_of, same
from histories import start_host, told_of_host, write_topology
from kill_serve import judge
from planner import COMPARED, random_network, topology_lines

LONGEST = 1.0  # seconds until a machine is killed, from the first line of its host
BROKEN_EACH, LOST_EACH, TOLD_EACH = 3, 6, 25  # rounds in which a link breaks, an entry is lost, and
# after which counts are told
BROKEN = 0.15  # seconds from one end of a link to the next


class Far:
    """What lies behind the socket of a standby: a `follow` for each connection."""

    def __init__(self, path, words):
        self.path, self.words = path, words
        self.door = socket.socket(socket.AF_UNIX)
        self.door.bind(path)
        self.door.listen()
        self.process, self.begun = None, 0
        self.thread = threading.Thread(target=self.serve, daemon=True)
        self.thread.start()

    def serve(self):
        """One after another, since a journal is open once."""
        while True:
            try:
                end, _ = self.door.accept()
            except OSError:
                return
            with end:
                self.process = subprocess.Popen(self.words, stdin=end, stdout=end)
            self.begun += 1
            self.process.wait()

    def break_off(self):
        """Kills the follower."""
        if self.process and self.process.poll() is None:
            self.process.kill()

    def end(self):
        """Waits until a follower whose leader is gone has ended, and takes the socket away."""
        if self.process:
            self.process.wait(HANGS)
        self.door.shutdown(socket.SHUT_RDWR)
        self.thread.join(HANGS)
        self.door.close()
        os.remove(self.path)


class Machine:
    """A leader's files, and its follower's."""

    def __init__(self, program, work, network):
        self.program, self.work, self.network = program, work, network
        names = ("topology", "leader", "follower", "standby")
        self.topology, self.leader, self.follower, self.path = map(self.name, names)
        for path in (self.leader, self.follower):
            if os.path.exists(path):
                os.remove(path)
        write_topology(network, self.topology)
        self.follow = [program, "follow", self.topology, self.follower]

    def name(self, name):
        return os.path.join(self.work, name)

    def audit(self):
        """That of the follower, which does not follow any more."""
        words = [self.program, "audit", self.topology, self.follower]
        done = subprocess.run(words, stdout=subprocess.PIPE, text=True)
        same(done.returncode, 0, "the status of the audit")
        return done.stdout.splitlines()


def loaded(machine, draw, host, port, far=None, others=()):
    """The sessions of a host that was killed while they went on; with a link that breaks off."""
    seed = draw.random()
    sessions = [Session(port, machine.network, f"{seed} {number}") for number in range(SESSIONS)]
    for session in sessions:
        session.start()
    last = time.monotonic() + (6 * LONGEST if far else draw.random() * LONGEST)
    while far and time.monotonic() < last:
        time.sleep(BROKEN * (1 + draw.random()))
        far.break_off()
    time.sleep(max(0.0, last - time.monotonic()))
    for process in (host, *others):
        process.kill()
    for process in (host, *others):
        process.wait()
    host.stdout.close()
    for session in sessions:
        session.join()
        if not isinstance(session.fault, (client.ConnectionLost, type(None))):
            raise Differs(f"a session failed: {session.fault}")
    return sessions


def told_places(sessions):
    """The epochs of the orders whose replies were read."""
    return [place_of(reply) for session in sessions for _, _, reply in session.said
            if reply and reply.split()[0] in ENTERED]


def read(path):
    with open(path, "rb") as file:
        return file.read()


# ---- A round with a standby.


def promoted(machine, epoch):
    """The follower's journal is served in the leader's place."""
    host, port = start_host(machine.program, machine.topology, machine.follower)
    with client.Session(client.HOST, port, "acme", HANGS) as session:
        same(session.welcome.epoch, epoch, "the epoch of the follower in the leader's place")
    same(told_of_host(host, machine.follower)[0], 0, "the end of a host")


def gates(held):
    """The gate of the last entry of a journal, or none, and the one behind that entry, where what a
    kill left of another one may stand; and how many entries there are."""
    place, last = journals.first_place(journals.head_of(held)), None
    while held[place.gate] == 1:
        last, (_, place) = place.gate, journals.record_at(held, place.gate, place)
    return last, place.gate, place.epoch


def is_beginning(held, whole):
    """Whether the entries of a journal are the first of another one."""
    return whole.startswith(held[:gates(held)[1]])


def begun_again(machine, *options):
    """A host of the leader's journal, with its log, whose standby is this follower."""
    words = [machine.program, "host", "--standby", machine.path, *options, machine.topology,
             machine.leader, machine.name("door")]
    return subprocess.Popen(words, stdin=subprocess.DEVNULL, stdout=subprocess.PIPE,
                            stderr=subprocess.PIPE, text=True)


def is_behind(machine, epoch):
    """A leader that has fewer entries than this follower ends."""
    host = begun_again(machine, "--standby-or-stop")
    told, said = host.communicate(timeout=HANGS)
    same((host.returncode, told.splitlines()[-1]), (17, f"ahead {epoch}"), f"a leader behind {said}")


def is_another(machine, epoch):
    """A leader that has another entry goes on alone, and says why."""
    host, said = begun_again(machine, "--standby-seconds", "1"), ""
    wanted = f'standby "" differs at {epoch}\n', 'standby "" alone\n'
    last = time.monotonic() + HANGS
    while not all(line in said for line in wanted):
        if time.monotonic() > last or host.poll() is not None:
            raise Differs(f"a leader of another history says {said!r}, and not {wanted}")
        if select.select([host.stderr], [], [], 1)[0]:
            said += os.read(host.stderr.fileno(), 65_536).decode()
    host.kill()
    host.communicate()


def lost_entry(machine, epoch):
    """The leader's last entry is lost, and then another one is in its place. Gives how often the
    follower had it, and so was found out."""
    held = bytearray(read(machine.leader))
    gate, _, has = gates(bytes(held))
    if gate is None or has != epoch:
        return 0  # it lost what the follower does not have
    held[gate] = 0
    with open(machine.leader, "wb") as file:
        file.write(held)
    before, far = read(machine.follower), Far(machine.path, machine.follow)
    is_behind(machine, epoch)
    text = "\n".join(topology_lines(machine.network)) + "\n"
    for link in range(len(machine.network.links)):
        text += f"operator down {link}\noperator up {link}\n"
    words = [machine.program, "run", machine.leader]
    subprocess.run(words, input=text, stdout=subprocess.DEVNULL, text=True, check=True)
    is_other = not is_beginning(before, read(machine.leader))
    if is_other:  # there is a link, and not the same order was entered again
        is_another(machine, epoch)
    far.end()
    same(read(machine.follower), before, "the follower's journal")
    return int(is_other)


def with_standby(program, work, seed, breaks, loses):
    """The orders that were told, how often a link began anew, and whether a lost entry was found
    out."""
    draw = random.Random(seed)
    machine = Machine(program, work, random_network(draw, COMPARED))
    far = Far(machine.path, machine.follow)
    options = ["--standby", machine.path, "--standby-or-stop"]
    host, port = start_host(program, machine.topology, machine.leader, options=options)
    sessions = loaded(machine, draw, host, port, far if breaks else None)
    far.end()
    audit = machine.audit()
    told, epoch = judge(sessions, audit), int(audit[0].split()[1])
    lost = [place for place in told_places(sessions) if place > epoch]
    same(lost, [], "orders that were told, and that the follower lacks")
    if not is_beginning(read(machine.follower), read(machine.leader)):
        raise Differs("the follower's journal is not the beginning of the leader's")
    found = lost_entry(machine, epoch) if loses else 0
    promoted(machine, epoch)
    return told, far.begun - 1, found


# ---- A round without.


def without(program, work, seed):
    """The orders that were told, and how many of them the follower lacks."""
    draw = random.Random(seed)
    machine = Machine(program, work, random_network(draw, COMPARED))
    host, port = start_host(program, machine.topology, machine.leader)
    words = [sys.executable, os.path.join(TOP, "tools", "tail.py"), machine.topology,
             machine.leader, "1"]
    tail = subprocess.Popen(words, stdout=subprocess.PIPE)
    follower = subprocess.Popen(machine.follow, stdin=tail.stdout, stdout=subprocess.PIPE)
    tail.stdout.close()
    with client.Session(client.HOST, port, "operator", HANGS) as session:
        session.reply_to("down 0")
    if machine.network.links:
        same(follower.stdout.readline(), b"have 1\n", "the first answer of the follower")
    threading.Thread(target=follower.stdout.read, daemon=True).start()
    sessions = loaded(machine, draw, host, port, others=[tail])
    follower.wait(HANGS)
    epoch = int(machine.audit()[0].split()[1])
    places = told_places(sessions)
    return len(places), sum(place > epoch for place in places)


def main():
    program = os.path.abspath(sys.argv[1] if len(sys.argv) > 1 else "./hosed")
    kills = int(sys.argv[2]) if len(sys.argv) > 2 else 300
    seed = sys.argv[3] if len(sys.argv) > 3 else "1"
    told = again = found = lacked = asked = rounds = 0
    with tempfile.TemporaryDirectory() as work:
        for number in range(kills):
            try:
                entered, links, was_found = with_standby(
                    program, work, f"{seed}-{number}", number % BROKEN_EACH == 0,
                    number % LOST_EACH == 0)
                told, again, found = told + entered, again + links, found + was_found
                entered, lost = without(program, work, f"{seed}-{number}")
                asked, lacked, rounds = asked + entered, lacked + lost, rounds + (lost > 0)
            except Differs as difference:
                sys.exit(f"kill {number} of seed {seed}: {difference}")
            counts = (told, again, found, asked, lacked, rounds)
            if number % TOLD_EACH == TOLD_EACH - 1:
                tell(number + 1, counts, sys.stderr)
    if not told:
        sys.exit("no order was told")
    tell(kills, counts, sys.stdout)


def tell(kills, counts, file):
    told, again, found, asked, lacked, rounds = counts
    lines = [
        f"{kills} machines were killed: {told:,} orders were told, 0 lost with --standby; "
        f"{again} links were broken off before",
        f"{found} of {len(range(0, kills, LOST_EACH))} leaders that lost their last entry had a "
        "follower with it, which was found out twice each",
        f"without it {asked:,} orders were told, and {lacked:,} lost, in {rounds} of {kills}",
    ]
    print("\n".join(lines), file=file, flush=True)


if __name__ == "__main__":
    tell_usage(__doc__)
    main()
