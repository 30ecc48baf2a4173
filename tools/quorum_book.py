"""A book in etcd, and `put`, which is to a host what a follower is (tools/quorum.py).

Under /hosed/NAME/ etcd keeps `entries/%012d`, each as its packet; `head`, which tells how many
there are, their chain value, and who leads since which term; `leader/LEASE`, as etcd's own
elections have it; and `have/MACHINE`. Entries are put by one transaction that compares that the
leader's key is there since the revision at which this leader put it, the fence; that the head is
the one expected; and that nothing stands behind it. So a leader whose lease was over once puts
nothing any more.
"""
import os
import select
import signal
import socket
import sys
import time
from typing import List, NamedTuple, Optional, Tuple

import following
import networks
import service
from etcd import Etcd, Unsure, Value, created_at, get, none_in, put, value_is
from following import Packet, packet_at, packets_of

MOST = 100  # entries in a transaction, which has 128 parts at most
PIECE = 1 << 18
LOOK = 0.2  # seconds between two looks at the fence where nothing comes
REMINDER = 60  # seconds until the same is told once more
last = "", 0.0


class Stop(networks.WrongInput):
    def __init__(self, status: int, what: str):
        super().__init__(what)
        self.status = status


class Fenced(Stop):
    """The fence is gone."""


def told(what: str) -> None:
    """Tells it on standard error and to systemd, and once a minute where it stays so."""
    global last
    if what != last[0] or time.monotonic() - last[1] >= REMINDER:
        last = what, time.monotonic()
        print(f"quorum.py: {what}", file=sys.stderr, flush=True)
        service.notify(f"STATUS={what}")


class Head(NamedTuple):
    epoch: int
    value: bytes
    term: int
    """The revision at which its leader stood; 0 before the first one."""
    machine: str

    def text(self) -> bytes:
        return f"{self.epoch} {self.value.hex()} {self.term} {self.machine}".encode()

    def behind(self, packets: List[Packet]) -> "Head":
        """The head once these follow it."""
        last = packets[-1] if packets else None
        return self._replace(epoch=last.epoch, value=last.after()) if last else self


def head_of(found: List[Value]) -> Head:
    if not found:
        raise Stop(27, "etcd has no such book: begin it with a journal")
    epoch, value, term, machine = found[0].value.decode().split(" ")
    return Head(int(epoch), bytes.fromhex(value), int(term), machine)


class Fence(NamedTuple):
    """A candidate's key, and the revision at which it was put."""

    key: str
    revision: int


class Book:
    def __init__(self, members: Etcd, name: str):
        self.etcd, self.root = members, f"/hosed/{name}/"
        self.head_key, self.end = self.root + "head", self.root + "entries/~"

    def entry(self, epoch: int) -> str:
        return f"{self.root}entries/{epoch:012d}"

    def all_of(self, kind: str, **more):
        return get(f"{self.root}{kind}/", f"{self.root}{kind}/~", **more)

    def head(self, fence: Optional[Fence] = None) -> Head:
        """With a fence, where that is there at this moment."""
        is_done, found = self.etcd.transact([created_at(*fence)] if fence else [],
                                            [get(self.head_key)])
        if not is_done:
            raise Fenced(24, "it does not lead any more: another one may")
        return head_of(found[0])

    def look(self) -> Tuple[Head, Optional[Fence]]:
        """The head, and who leads at that moment: the candidate who has stood longest."""
        first = self.all_of("leader", limit=1, sort_order="ASCEND", sort_target="CREATE")
        _, (head, leader) = self.etcd.transact([], [get(self.head_key), first])
        return head_of(head), Fence(leader[0].key, leader[0].created) if leader else None

    def stand(self, lease: int, machine: str) -> Fence:
        key = f"{self.root}leader/{lease:x}"
        self.etcd.transact([created_at(key, 0)], [put(key, machine.encode(), lease)])
        _, (found,) = self.etcd.transact([], [get(key)])
        if not found:
            raise Unsure("the lease was over at once")
        return Fence(key, found[0].created)

    def entries(self, start: int, most: int = MOST) -> List[Packet]:
        """Some entries from one on, which has to be there."""
        _, (found,) = self.etcd.transact([], [get(self.entry(start), self.end, limit=most)])
        packets = [packet_at(one.value) for one in found]
        if [one.epoch for one in packets] != list(range(start, start + max(1, len(packets)))):
            raise Stop(26, f"etcd has not the entry {start} any more: begin with a copy of another "
                           "journal")
        return packets

    def first(self, head: Head) -> int:
        """The epoch before the first entry that etcd has."""
        _, (found,) = self.etcd.transact([], [self.all_of("entries", limit=1)])
        return packet_at(found[0].value).epoch - 1 if found else head.epoch

    def value_at(self, epoch: int, head: Head) -> bytes:
        """The chain value of the first entries in etcd."""
        return head.value if epoch == head.epoch else self.entries(epoch + 1, 1)[0].before

    def move(self, fence: Fence, head: Head, new: Head, packets: List[Packet]) -> bool:
        """Puts entries and a new head, where the fence is there and the head is the old one. Where
        an answer was lost the head may be the new one by now: nobody else has put it there as long
        as the fence is there, which is looked at in the same moment."""
        compare = [created_at(*fence), value_is(self.head_key, head.text()),
                   none_in(self.entry(head.epoch + 1), self.end)]
        parts = [put(self.entry(one.epoch), following.packet(*one)) for one in packets]
        is_done, _ = self.etcd.transact(compare, parts + [put(self.head_key, new.text())])
        return is_done or self.head(fence) == new


class Put:
    """Answers each packet as a follower does whose disk is etcd, and judges no body. Nothing is
    answered but what was put, or looked at, after the packet came and with the fence in place. So
    where a question's reply waits for a packet's answer, no other one had led before."""

    def __init__(self, book: Book, fence: Fence):
        self.book, self.fence, self.batch = book, fence, []

    def serve(self, door: socket.socket) -> None:
        """Serves those who connect, one after another. Once the fence is gone who is connected is
        ended: that is the host, which is not to answer questions any more."""
        while True:
            self.host, _ = door.accept()
            with self.host:
                try:
                    self.run()
                except (OSError, following.WrongAnswer) as fault:
                    told(f"the host's connection is over: {fault}")
                except Fenced:
                    peer = self.host.getsockopt(socket.SOL_SOCKET, socket.SO_PEERCRED, 4)
                    os.kill(int.from_bytes(peer, sys.byteorder), signal.SIGKILL)
                    raise

    def run(self) -> None:
        self.batch.clear()
        self.look()
        for packets in packets_of(self.read):
            self.looked = False  # whether the fence was there since this piece came
            for packet in packets:
                self.take(packet)
            self.flush()

    def take(self, packet: Packet) -> None:
        """Keeps a packet that goes on from those before it, or answers it."""
        head = self.head.behind(self.batch)
        is_next = packet[:2] == (head.epoch + 1, head.value)
        if len(self.batch) == MOST or not is_next:
            self.flush()
        if is_next:
            self.batch.append(packet)
        else:
            self.answer(packet)

    def flush(self) -> None:
        """Puts the packets that are kept."""
        if self.batch:
            old, self.head = self.head, self.head.behind(self.batch)
            if not self.again(lambda: self.book.move(self.fence, old, self.head, self.batch)):
                raise Stop(25, f"etcd has other entries behind {old.epoch}")
            self.looked = True
            self.say("\n".join(f"have {one.epoch}" for one in self.batch))
            self.batch.clear()

    def look(self) -> None:
        """Looks whether the fence is there."""
        self.head, self.looked = self.again(lambda: self.book.head(self.fence)), True

    def read(self) -> bytes:
        """What comes next; looks now and then where nothing does."""
        while not select.select([self.host], [], [], LOOK)[0]:
            self.look()
        return self.host.recv(PIECE)

    def answer(self, packet: Packet) -> None:
        if not self.looked:
            self.look()
        epoch, value = self.head[:2]
        if packet.epoch <= epoch:
            self.say(f"have {epoch}")
        elif packet.epoch > epoch + 1:
            self.say(f"want {epoch + 1}")
        else:
            self.say(f"differs at {epoch} {value.hex()} {packet.before.hex()}")

    def say(self, lines: str) -> None:
        self.host.sendall(lines.encode() + b"\n")

    def again(self, asked):
        """What etcd answers, as long as somebody waits for it."""
        gone = select.poll()
        gone.register(self.host, select.POLLRDHUP)
        while True:
            try:
                return asked()
            except Unsure as fault:
                told(str(fault))
                if gone.poll(100):
                    raise ConnectionError("it was closed") from None
