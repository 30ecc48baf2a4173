#!/usr/bin/env python3
"""Orders of a journal on a quorum of etcd, and which of several machines takes them.

  quorum.py begin --etcd URLS TOPOLOGY JOURNAL
  quorum.py lead --etcd URLS TOPOLOGY JOURNAL hosed host --standby PATH --standby-or-stop ..

`begin` puts the longest journal's entries, once, into an etcd without that book. `lead` stands for
being the leader, as etcd's elections have it, and follows until it is; then it brings JOURNAL up to
the head, claims that, and runs the host until its lease is nearly over, and beside it `put`, which
has its orders put by the quorum before they are told. `follow` never leads: it gives each entry to
`hosed follow`, which judges it. `trim` deletes entries that every machine has, but for the last
KEEP. docs/OPERATING.md, "Three machines".

status: 0 it ended by SIGTERM; 2 the words; 24 `put`: it does not lead any more; 25 the journal has
entries that came from etcd and are not there; 26 etcd has deleted entries that the journal lacks:
begin with a copy of another one; 27 etcd has no such book, or has one; 28 a program of hosed
refuses the topology, the journal or an entry; 29 etcd does not answer, or refuses
"""
import argparse
import ctypes
import os
import re
import shutil
import signal
import socket
import ssl
import subprocess
import sys
import threading
import time
from typing import List, Optional

import following
import networks
from etcd import Etcd, Lease, Refused, Unsure, created_at, delete, get, now, put
from follower_link import Ended, FollowerLink
from following import Packet
from quorum_book import MOST, Book, Fence, Fenced, Head, Put, Stop, head_of, told

LOOK, PAUSE = 0.1, 0.5  # seconds between two looks at who leads, and before all is begun again
TELL = 5.0  # seconds between two times at which a machine tells what it has
PATIENCE = 120.0  # seconds for a follower to answer, which may have a long journal to read
LIBC = ctypes.CDLL(None)
RECORD, CLOSED = 1 + 4 + 32, b"\0"  # bytes of a record before its body, and the gate at the end
TLS = "cacert", "cert", "key"


class Journal:
    """A machine's journal. Beside one that a leader writes to lies JOURNAL.led: the head's epoch
    when it began to lead, up to which all came from etcd, and its term."""

    def __init__(self, given: argparse.Namespace, book: Book):
        self.given, self.book, self.path = given, book, given.journal
        self.link: Optional[FollowerLink] = None
        self.have, self.told_at = 0, 0.0
        self.beyond: Optional[Head] = None
        """The head behind which it has `surplus`, as long as it is closed."""
        self.surplus: List[Packet] = []

    def words(self, verb: str, *more) -> List[str]:
        tariff = ["--tariff", self.given.tariff] if self.given.tariff else []
        return [self.given.program, verb, *tariff, self.given.topology, self.path, *map(str, more)]

    def bring(self, head: Head) -> bool:
        """Brings it towards a head. Whether it has all of it, and no more but what it was given
        since its machine was the last one to lead."""
        if head == self.beyond:
            return True
        try:
            if self.link is None and not self._begin(head):
                return self.beyond == head
            self._feed(head)
        except (Ended, TimeoutError, following.WrongAnswer) as fault:
            self.end()
            if getattr(fault, "status", 0) in (1, 2, 5):
                raise Stop(28, f"the follower: {fault}") from None
            told(f"the follower: {fault}")
            time.sleep(PAUSE)
            return False
        if now() - self.told_at > TELL:
            self.tell(self.have)
        return self.have == head.epoch

    def tell(self, epoch: int) -> None:
        """Tells etcd how many entries this machine has, which `trim` leaves to it."""
        key = f"{self.book.root}have/{self.given.machine}"
        self.book.etcd.transact([], [put(key, b"%d" % epoch)])
        self.told_at = now()

    def end(self) -> None:
        """Ends the follower, by which the journal is closed."""
        if self.link:
            self.link.__exit__()
        self.link = None

    def place(self) -> bytes:
        """Begins the follower, and tells the chain value of the entries that it has."""
        self.link, self.beyond, self.surplus = FollowerLink(self.words("follow")), None, []
        self.have = following.asked_epoch(self.link.answers([following.ASK_EPOCH], PATIENCE)[0])
        question = following.ask_value(self.have)
        return following.asked_value(self.link.answers([question], PATIENCE)[0], self.have)

    def _begin(self, head: Head) -> bool:
        """Whether it is a beginning of etcd's. What it has beside that is kept, as `surplus`, where
        no other one has led since, and else cut off."""
        value = self.place()
        epoch, term = self.mark()
        if self.have <= head.epoch and value == self.book.value_at(self.have, head):
            if term not in (None, head.term):
                os.unlink(self.path + ".led")
            return True
        self.end()
        first = max(epoch, self.book.first(head))
        packets = [] if term is None else self.shipped(first + 1)
        mine = [one.before for one in packets] + [value]  # behind `first` entries, and one, ..
        low, above = 0, min(len(mine), head.epoch - first + 1)
        while above - low > 1:  # up to one place they are etcd's
            middle = (low + above) // 2
            is_same = mine[middle] == self.book.value_at(first + middle, head)
            low, above = (middle, above) if is_same else (low, middle)
        if term is None or above < 1 or mine[0] != self.book.value_at(first, head):
            raise Stop(25, f"{self.path} has entries that came from etcd and are not there: it is "
                           "another one, or was set back")
        self.surplus = packets[low:]
        if first + low == head.epoch and (term, self.given.machine) == head[2:]:
            self.beyond = head
        else:
            self._cut(first + low)
        return False

    def _run(self, verb: str, *more) -> bytes:
        """What a program of hosed writes that succeeds."""
        done = subprocess.run(self.words(verb, *more), stdout=subprocess.PIPE)
        if done.returncode:
            raise Stop(28, f"hosed {verb} ended with {done.returncode}")
        return done.stdout

    def shipped(self, start: int) -> List[Packet]:
        """The packets of its entries from one on."""
        pieces = iter((self._run("ship", start), b""))
        return [packet for some in following.packets_of(pieces.__next__) for packet in some]

    def _cut(self, epoch: int) -> None:
        """Sets it aside, and puts its first entries in its place. They are copied, which takes no
        sync for each, and `hosed cut` judges the copy, or makes one where it is another."""
        new, aside = self.path + ".new", f"{self.path}.aside-{epoch}-{int(time.time())}"
        shutil.copy(self.path, new)
        with open(new, "r+b") as file:
            size = sum(RECORD + len(packet.body) for packet in self.surplus)
            file.truncate(max(0, os.path.getsize(new) - size - 1))
            file.seek(0, os.SEEK_END)
            file.write(CLOSED)
        try:
            self._run("cut", epoch, new)
        except Stop:
            os.unlink(new)
            self._run("cut", epoch, new)
        os.link(self.path, aside)
        os.replace(new, self.path)
        told(f"{self.path} had entries behind {epoch} that etcd has not: it is {aside} now")

    def _feed(self, head: Head) -> None:
        if self.have > head.epoch:
            raise Stop(25, f"{self.path} has entries of etcd's that are not there any more")
        while self.have < head.epoch:
            packets = self.book.entries(self.have + 1)
            lines = self.link.answers([following.packet(*one) for one in packets], PATIENCE)
            for packet, line in zip(packets, lines):
                if line.startswith("unsound"):
                    raise Stop(28, f"the follower answers {line}")
                if line != f"have {packet.epoch}":
                    raise following.WrongAnswer(line)  # its disk, or memory
                self.have = packet.epoch
            if self.link.sent > following.MOST_INPUT - (1 << 24):
                return self.end()

    def mark(self):
        """The epoch and the term of JOURNAL.led; no term where that is not there."""
        try:
            with open(self.path + ".led") as file:
                return tuple(map(int, file.read().split()))
        except FileNotFoundError:
            return 0, None

    def leads(self, head: Head) -> None:
        """Notes that from here on it may have entries that etcd has not."""
        self.beyond = None
        with open(self.path + ".led.new", "w") as file:
            file.write(f"{head.epoch} {head.term}\n")
            file.flush()
            os.fsync(file.fileno())
        os.replace(file.name, self.path + ".led")
        folder = os.open(os.path.dirname(os.path.abspath(self.path)), os.O_RDONLY)
        os.fsync(folder)
        os.close(folder)


class Machine:
    def __init__(self, given: argparse.Namespace, book: Book):
        self.given, self.book, self.journal = given, book, Journal(given, book)
        self.stop = threading.Event()
        signal.signal(signal.SIGTERM, lambda *_: self.stop.set())

    def run(self) -> None:
        while not self.stop.is_set():
            try:
                if self.given.kind == "lead":
                    self.lead()
                else:
                    self.journal.bring(self.book.head())
            except (Unsure, Refused, Fenced, OSError) as fault:
                told(str(fault))
            self.stop.wait(PAUSE)
        self.journal.end()

    def lead(self) -> None:
        """Stands where its journal is brought on, which may take long: nobody waits for that."""
        if not self.journal.bring(self.book.head()):
            return
        with Lease(self.book.etcd, self.given.ttl, self.given.margin) as lease:
            self.campaign(lease, self.book.stand(lease.id, self.given.machine))

    def campaign(self, lease: Lease, fence: Fence) -> None:
        have, since = -1, now()
        while lease.is_held() and not self.stop.is_set():
            head, first = self.book.look()
            if self.journal.beyond not in (None, head):
                return  # another one leads: what it has beyond is to be cut off
            if self.journal.bring(head) and first == fence:
                return self.command(lease, fence, self.claim(fence, head))
            if first != fence or self.journal.have != have:
                have, since = self.journal.have, now()
            elif now() - since > 2 * self.given.ttl:
                return told("leads, and cannot bring its journal on: another one may")
            self.stop.wait(LOOK)

    def claim(self, fence: Fence, head: Head) -> Head:
        """The head of this leader, behind what its journal has beyond the one of before."""
        self.journal.end()
        more = self.journal.surplus
        for at in range(0, max(1, len(more)), MOST):
            part = more[at:at + MOST]
            new = head.behind(part)._replace(term=fence.revision, machine=self.given.machine)
            if not self.book.move(fence, head, new, part):
                raise Unsure(f"the head is not {head.text().decode()} any more")
            head = new
        self.journal.tell(head.epoch)
        self.journal.leads(head)
        return head

    def command(self, lease: Lease, fence: Fence, head: Head) -> None:
        """Runs the host, and `put` at its socket, until one of them ends or the lease is nearly
        over. Asks etcd nothing itself, so that nothing delays its end."""
        told(f"leads from {head.epoch} on, term {head.term}")
        members = [f"--{name}={vars(self.given)[name]}" for name in ("etcd", "name", *TLS)
                   if vars(self.given)[name]]
        with door_at(self.given.socket) as door:
            words = [sys.executable, __file__, "put", *members, *map(str, fence)]
            both = begun(words, stdin=door), begun(self.given.command)
        while None is both[0].poll() is both[1].poll() and lease.is_held():
            if self.stop.wait(LOOK / 5):
                break
        why = "as asked" if self.stop.is_set() else "by itself" if lease.is_held() else \
            "as the lease is over"
        for one in both:
            if one.poll() is None:
                os.killpg(one.pid, signal.SIGKILL)
        told(f"the host ended {why}: put {both[0].wait()}, host {both[1].wait()}")


def door_at(path: str) -> socket.socket:
    """A Unix socket at which this user alone may come."""
    if os.path.exists(path):
        os.unlink(path)
    door, mask = socket.socket(socket.AF_UNIX), os.umask(0o177)
    door.bind(path)
    os.umask(mask)
    door.listen()
    return door


def begun(words: List[str], **how) -> subprocess.Popen:
    """A program that is ended with this one, by PR_SET_PDEATHSIG."""
    return subprocess.Popen(words, start_new_session=True,
                            preexec_fn=lambda: LIBC.prctl(1, signal.SIGKILL), **how)


def begin(given: argparse.Namespace, book: Book) -> None:
    """Puts the entries from an epoch on, and the head last: nobody leads before that."""
    journal = Journal(given, book)
    value = journal.place()
    journal.end()
    packets = journal.shipped(given.start)
    parts = [put(book.entry(one.epoch), following.packet(*one)) for one in packets]
    pieces = [parts[at:at + MOST] for at in range(0, len(parts), MOST)]
    for some in pieces + [[put(book.head_key, Head(journal.have, value, 0, "nobody").text())]]:
        if not book.etcd.transact([created_at(book.head_key, 0)], some)[0]:
            raise Stop(27, "etcd has this book already")
    print(f"head {journal.have}")


def trim(given: argparse.Namespace, book: Book) -> None:
    """Deletes the entries that each machine has but for the last ones, and what etcd remembers. The
    leader has all."""
    _, (found, machines) = book.etcd.transact([], [get(book.head_key), book.all_of("have")])
    head = head_of(found)
    have = [int(one.value) for one in machines if not one.key.endswith("/" + head.machine)]
    last = max(0, min([head.epoch, *have]) - given.keep)
    book.etcd.transact([], [delete(book.entry(0), book.entry(last + 1))])
    book.etcd.compact(book.head_key)
    print(f"trimmed up to {last}")


def words() -> argparse.Namespace:
    parser = argparse.ArgumentParser(
        description=__doc__, formatter_class=argparse.RawDescriptionHelpFormatter)
    kinds = parser.add_subparsers(dest="kind", required=True)
    for kind in ("put", "follow", "lead", "begin", "trim"):
        add = networks.add_tariff(kinds.add_parser(kind)).add_argument
        add("--etcd", required=True, metavar="URLS", help="of all members, with commas")
        add("--name", default="orders", help="of the book in etcd (orders)")
        for word in TLS:
            add("--" + word, metavar="FILE", help="for https, as etcdctl has it")
        if kind == "put":
            add("leader", help="the leader's key")
            add("since", type=int, help="the revision since which it is there")
        if kind == "trim":
            add("keep", type=int, help="so many are kept beyond those that a machine lacks")
        if kind in ("follow", "lead", "begin"):
            add("topology")
            add("journal")
            add("--program", default="hosed")
            add("--machine", default=socket.gethostname(), help="this one's name")
        if kind == "begin":
            add("--start", type=int, default=1, help="the first entry that is put (1)")
        if kind == "lead":
            add("--ttl", type=int, default=5, help="seconds of the lease (5)")
            add("--margin", type=float, default=1.0, help="seconds before its end (1)")
            add("command", nargs=argparse.REMAINDER)
    given = parser.parse_args()
    if not re.fullmatch("[A-Za-z0-9._-]+", getattr(given, "machine", "-")):
        parser.error(f"{given.machine!r} is no name of a machine")
    if not shutil.which(getattr(given, "program", "sh")):
        parser.error(f"{given.program} is no program")
    if given.kind == "lead":
        if not {"--standby", "--standby-or-stop"} <= set(given.command):
            parser.error("without --standby PATH and --standby-or-stop a host would go on alone")
        given.socket = given.command[given.command.index("--standby") + 1]
    return given


def main() -> None:
    given = words()
    tls = ssl.create_default_context(cafile=given.cacert)
    if given.cert:
        tls.load_cert_chain(given.cert, given.key)
    book = Book(Etcd(given.etcd, tls), given.name)
    try:
        if given.kind == "put":
            Put(book, Fence(given.leader, given.since)).serve(socket.socket(fileno=os.dup(0)))
        elif given.kind in ("begin", "trim"):
            {"begin": begin, "trim": trim}[given.kind](given, book)
        else:
            Machine(given, book).run()
    except (Unsure, Refused) as fault:
        raise Stop(29, str(fault)) from None


if __name__ == "__main__":
    sys.exit(networks.status_of(main))
