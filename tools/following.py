"""Packets for a follower, and what it answers (docs/GUIDE.md, "Packets").

`have N` tells how many entries a follower has, and not which: it says so of packets of any history
whose epoch is N or less. So where a follower is is asked by two packets that no follower takes:

    send(following.ASK_EPOCH)                      # is answered `want N+1`
    epoch = following.asked_epoch(receive())
    send(following.ask_value(epoch))               # is answered `differs at N OWN 00..`
    value = following.asked_value(receive(), epoch)

    following.compare(journal, epoch, value)       # a LiveJournal, which goes behind the entry N

The first has an epoch above each that a follower asks for, and the second a chain value that none
has, so both are answered before their bodies are looked at, and nothing is entered. With one chain
value after N entries both ends have the same ones, and what is sent from there on is of one
history.
"""
import re
from hashlib import sha256
from typing import Callable, Iterator, List, NamedTuple, Optional

from journals import MOST_BODY, VALUE, Record
from live_journal import LiveJournal, OtherHistory

FRONT = 2 + 4 + VALUE  # bytes of a packet before its body
MOST_INPUT = 1 << 30  # bytes that one run of `follow` reads
NO_VALUE = bytes(VALUE)
NO_BODY = b"\0"  # no entry is spelled so
ANSWER = re.compile("(have|want|unsound|disk at) ([0-9]{1,10})")
DIFFERS = re.compile("differs at ([0-9]{1,10}) ([0-9a-f]{64}) ([0-9a-f]{64})")


class WrongAnswer(Exception):
    """A line that no follower answers there, as one sentence."""


class Packet(NamedTuple):
    epoch: int
    before: bytes
    body: bytes

    def after(self) -> bytes:
        """The chain value behind its entry."""
        return sha256(self.before + self.body).digest()


class Answer(NamedTuple):
    kind: str
    """`have`, `want`, `unsound`, `disk at`, `differs` or `memory`."""
    epoch: Optional[int] = None
    own: Optional[bytes] = None
    given: Optional[bytes] = None


def packet(epoch: int, before: bytes, body: bytes) -> bytes:
    """The packet of an entry: the epoch after it, the chain value before it, and its body."""
    return len(body).to_bytes(2, "big") + epoch.to_bytes(4, "big") + before + body


def packet_of(record: Record) -> bytes:
    return packet(record.epoch, record.before, record.body)


def packet_at(held: bytes, at: int = 0) -> Optional[Packet]:
    """The packet that begins there, if it is there whole."""
    size, front = int.from_bytes(held[at:at + 2], "big"), at + FRONT
    if len(held) >= at + 2 and not 1 <= size <= MOST_BODY:
        raise WrongAnswer("what came is no packet")
    if len(held) < front + max(1, size):
        return None
    epoch = int.from_bytes(held[at + 2:at + 6], "big")
    return Packet(epoch, held[at + 6:front], held[front:front + size])


def packets_of(read: Callable[[], bytes]) -> Iterator[List[Packet]]:
    """The packets whose ends came with each piece of a stream."""
    held = b""
    for piece in iter(read, b""):
        held, at, found = held + piece, 0, []
        packet = packet_at(held)
        while packet:
            at += FRONT + len(packet.body)
            found.append(packet)
            packet = packet_at(held, at)
        held = held[at:]
        yield found


def read_answer(line: str) -> Answer:
    """The answer of a line, with or without its line feed."""
    line = line.rstrip("\n")
    found, differs = ANSWER.fullmatch(line), DIFFERS.fullmatch(line)
    if found:
        return Answer(found[1], int(found[2]))
    if differs:
        return Answer("differs", int(differs[1]), *map(bytes.fromhex, differs.group(2, 3)))
    if line == "memory":
        return Answer("memory")
    raise WrongAnswer(f"the follower answers {ascii(line[:80])}")


# ---- Asking where a follower is.

ASK_EPOCH = packet(0xFFFF_FFFF, NO_VALUE, NO_BODY)


def asked_epoch(line: str) -> int:
    """How many entries a follower has that answers `ASK_EPOCH` so."""
    answer = read_answer(line)
    if answer.kind != "want" or not answer.epoch:
        raise WrongAnswer(f"the follower answers {line.rstrip()} where it is asked for its epoch")
    return answer.epoch - 1


def ask_value(epoch: int) -> bytes:
    return packet(epoch + 1, NO_VALUE, NO_BODY)


def asked_value(line: str, epoch: int) -> bytes:
    """The chain value of a follower that answers `ask_value` of its epoch so."""
    answer = read_answer(line)
    if answer.kind != "differs" or (answer.epoch, answer.given) != (epoch, NO_VALUE):
        raise WrongAnswer(f"the follower answers {line.rstrip()} where it is asked for its chain "
                          "value")
    return answer.own


def compare(journal: LiveJournal, epoch: int, value: Optional[bytes]) -> None:
    """Goes behind the entries up to an epoch, of which nothing was read yet. Raises `OtherHistory`
    where the journal has fewer, or, where a chain value is told, other ones than a follower."""
    if not journal.skip(epoch):
        raise OtherHistory(f"{journal.path} has {counted(journal.epoch)}, and the follower has "
                           f"{epoch}")
    own = journal.value or journal.digest  # of a journal that was not begun
    if None not in (own, value) and own != value:
        raise OtherHistory(f"{journal.path} and the follower have {counted(epoch)} each, and not "
                           f"the same ones: their chain values are {own.hex()} and {value.hex()}")


def counted(entries: int) -> str:
    return f"{entries} {'entry' if entries == 1 else 'entries'}"
