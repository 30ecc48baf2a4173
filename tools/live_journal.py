"""Reads a journal while a program writes to it: without a lock, without a copy, entry by entry.

    journal = LiveJournal("orders.journal", digest)
    journal.skip(12)               # goes behind the entry 12; False where there are fewer
    for record in journal.read():  # those that came since; an empty list where none did
        ...

A program writes a record behind a gate that is closed, syncs, opens the gate and syncs again, and
then writes no earlier byte, but for one: where the last two steps failed, it closes that gate
again, and may write another record behind it. So

- what stands behind an open gate, whole and with its chain value, is given, and nothing else;
- bytes behind an open gate that are no record were read in the midst of a write, or are damage:
  they are read once more, and the same bytes are damage;
- each time the record that was given last is looked at, too. Where it is another one or its gate is
  closed, the journal has lost it: the writer took it back, or another file was put there.

Where the path leads to another file, or the journal lost what was given, it is read anew from its
beginning: reading goes on where the entries that were given are there, by their chain value, and
ends by `OtherHistory` where they are not. A path that leads nowhere any more changes nothing: the
file that was opened is read on.
"""
import os
import stat
from typing import List, Optional

import journals
from journals import Damaged, Head, NotBegun, Place, Record, Wrong
from networks import WrongInput

PIECE = 262_144
TRIES = 8


class JournalFault(WrongInput):
    """Why a journal is read no further."""


class Unreadable(JournalFault):
    """The file is not there, is none, or cannot be read."""

    status = 6


class DamagedJournal(JournalFault):
    status = 5


class OtherNetwork(JournalFault):
    status = 12


class OtherHistory(JournalFault):
    """The entries are not those that were given, or that a follower has."""

    status = 13


# ---- One file.


class Bytes:
    """Bytes as a file."""

    def __init__(self, held: bytes):
        self.held = held

    def read_at(self, at: int, size: int) -> bytes:
        return self.held[at:at + size]


class File:
    """A regular file that is open for reading."""

    def __init__(self, path: str):
        try:
            if not stat.S_ISREG(os.stat(path).st_mode):
                raise Unreadable(f"{path} is no regular file")
            self.file = os.open(path, os.O_RDONLY | os.O_CLOEXEC)
        except (OSError, ValueError) as fault:
            raise Unreadable(f"{path} cannot be read: {reason_of(fault)}") from None
        self.path = path

    def read_at(self, at: int, size: int) -> bytes:
        try:
            return os.pread(self.file, size, at)
        except OSError as fault:
            raise Unreadable(f"{self.path} cannot be read: {reason_of(fault)}") from None

    def is_there(self) -> bool:
        """Whether its path leads to it, or nowhere."""
        try:
            there = os.stat(self.path)
        except OSError:
            return True
        return os.path.samestat(there, self.status())

    def sync(self) -> None:
        try:
            os.fdatasync(self.file)
        except OSError as fault:
            raise Unreadable(f"{self.path} cannot be synced: {reason_of(fault)}") from None

    def status(self) -> os.stat_result:
        return os.fstat(self.file)

    def close(self) -> None:
        os.close(self.file)


def reason_of(fault: Exception) -> str:
    return getattr(fault, "strerror", None) or str(fault)


class Lost(Exception):
    """The record that was given last is not in the file any more."""


class Reader:
    """The records of a journal in a file (`Bytes`, `File`), one after another."""

    def __init__(self, file):
        self.file = file
        self.head: Optional[Head] = None
        """None as long as the journal was not begun."""
        self.place: Optional[Place] = None
        """The gate that is read next; none as long as the journal was not begun."""
        self._last = b""  # the record before that gate, or the head

    def records(self, until: Optional[int] = None) -> List[Record]:
        """The records that follow, seals among them, up to this epoch, as many as are read at once;
        an empty list where there is none yet. Raises `Damaged` and `Lost`."""
        if not self.is_begun():
            return []
        held = self._held()
        for _ in range(TRIES):
            if not held.startswith(self._last):
                raise Lost
            try:
                return self._records(held, until)
            except Wrong:
                held = self._once_more(held)
        return []

    def is_begun(self) -> bool:
        """Whether the journal was begun. Raises `Damaged` where the file is none."""
        if self.place is None:
            front = self.file.read_at(0, journals.EMPTY + 1)
            try:
                self.head = journals.head_of(front)
            except NotBegun:
                return False
            self.place, self._last = journals.first_place(self.head), front[:journals.HEAD]
        return True

    def _held(self) -> bytes:
        """The last record, and what follows it."""
        size = len(self._last)
        return self.file.read_at(self.place.gate - size, size + PIECE)

    def _records(self, held: bytes, until: Optional[int]) -> List[Record]:
        """The records in these bytes. Raises `Wrong` where the first one is none."""
        found: List[Record] = []
        at = len(self._last)
        while until is None or self.place.epoch < until:
            try:
                here = journals.record_at(held, at, self.place)
            except Wrong:
                if not found:
                    raise
                break  # the piece ends here, or the next call finds what is wrong
            if here is None:
                break
            record, self.place = here
            start, at = at, at + self.place.gate - record.gate
            self._last = held[start:at]
            found.append(record)
        return found

    def _once_more(self, held: bytes) -> bytes:
        """Reads again what began no record. The same bytes again are damage."""
        again, end = self._held(), len(self._last) + journals.MOST_RECORD + 1
        if again[:end] == held[:end]:
            raise Damaged(self.place.gate)
        return again


# ---- The file at a path.


class LiveJournal:
    """The journal at a path. With the digest of a network it has to be that network's; where it is
    `synced`, each entry is on the disk before it is given. After a `JournalFault` it is read no
    further: begin another one."""

    def __init__(self, path: str, digest: Optional[bytes] = None, synced: bool = False):
        self.path, self.digest, self.synced = path, digest, synced
        self._reader = Reader(File(path))
        try:
            self._check_network()
        except JournalFault:
            self.close()
            raise

    @property
    def epoch(self) -> int:
        """How many entries were read."""
        return self._reader.place.epoch if self._reader.place else 0

    @property
    def value(self) -> Optional[bytes]:
        """The chain value of the entries so far; none as long as the journal was not begun."""
        return self._reader.place.value if self._reader.place else None

    def size(self) -> int:
        """How many bytes the file has."""
        return self._reader.file.status().st_size

    def written(self) -> float:
        """When the file was written last, in seconds since 1970."""
        return self._reader.file.status().st_mtime

    def close(self) -> None:
        self._reader.file.close()

    def __enter__(self) -> "LiveJournal":
        return self

    def __exit__(self, *_) -> None:
        self.close()

    def read(self, until: Optional[int] = None) -> List[Record]:
        """The entries that follow, up to this epoch, as many as are read at once; an empty list
        where there is none yet."""
        try:
            if self._reader.file.is_there():
                return self._entries(until)
        except Lost:
            pass
        try:
            self._begin_anew()
            return self._entries(until)
        except Lost:
            raise OtherHistory(f"{self.path} is being written anew") from None

    def skip(self, epoch: int) -> bool:
        """Goes behind the entry of this epoch; False where the journal has fewer entries."""
        while self.epoch < epoch:
            if not self.read(epoch):
                return False
        return True

    def _entries(self, until: Optional[int]) -> List[Record]:
        """The entries that follow in the file."""
        entries: List[Record] = []
        self._check_network()
        try:
            while not entries:  # a seal may stand alone
                records = self._reader.records(until)
                if not records:
                    break
                entries = [record for record in records if record.entry is not None]
        except Damaged as damaged:
            raise DamagedJournal(f"{self.path} is {damaged}") from None
        if entries and self.synced:
            self._reader.file.sync()
        return entries

    def _check_network(self) -> None:
        """Raises a `JournalFault` where this is the journal of another network, or none."""
        try:
            is_begun = self._reader.is_begun()
        except Damaged as damaged:
            raise DamagedJournal(f"{self.path} is {damaged}") from None
        kept = self._reader.head.digest if is_begun else None
        if None not in (kept, self.digest) and kept != self.digest:
            raise OtherNetwork(f"{self.path} is the journal of another network: it keeps the "
                               f"digest {kept.hex()}, and that of the topology is "
                               f"{self.digest.hex()}")

    def _begin_anew(self) -> None:
        """Opens the path anew, and goes behind the entries that were given."""
        epoch, value, before = self.epoch, self.value, self._reader
        self._reader = Reader(File(self.path))
        before.file.close()
        while self.epoch < epoch and self._entries(epoch):
            pass
        if self.epoch < epoch:
            raise OtherHistory(f"{self.path} ends behind the entry {self.epoch} by now, and was "
                               f"read up to {epoch}")
        if epoch and self.value != value:
            raise OtherHistory(f"{self.path} has other entries by now than those that were read, "
                               f"up to {epoch}")
