"""The format of a journal (docs/GUIDE.md, "The journal"): its head, its records and its entries.

It is read from bytes, wherever they come from, one record after another:

    head = journals.head_of(held)
    place = journals.first_place(head)
    record, place = journals.record_at(held, place.gate, place)

It judges no book: whether a link is oversold is told by `hosed audit`. live_journal.py reads a file
that a program may be writing to.
"""
import struct
from hashlib import sha256
from typing import NamedTuple, Optional, Tuple, Union

import networks

VALUE = 32  # bytes of a chain value, and of a digest
OPEN, MARK, PLAIN, CHAINED = 1, b"HOSE", 1, 2
HEAD, EMPTY = 38, 39  # bytes before the first record's gate, and with it
MOST_BODY, SEAL = 3_471, b"\5"
MOST_RECORD = 1 + 4 + VALUE + MOST_BODY  # with the gate before it
NAME = frozenset(b"abcdefghijklmnopqrstuvwxyz0123456789-")
PAIR = struct.Struct(">HI")
MOST_NODE, MOST_LINK = 511, 2_047
MOST_RATE, MOST_AMOUNT, MOST_EPOCH = 1_000_000, 32_000_000, 4_000_000_000


class Wrong(Exception):
    """Bytes that no journal has at their place."""


class NotBegun(Exception):
    """A journal that was not begun."""


class Damaged(Exception):
    """A journal that is none from a place on."""

    def __init__(self, at: int):
        super().__init__(f"damaged at {at}")
        self.at = at


# ---- Entries.

Pairs = Tuple[Tuple[int, int], ...]


class Admission(NamedTuple):
    customer: str
    ends: Pairs
    """Each endpoint's node, by ascending numbers, and its rate."""
    links: Pairs
    """Each link of the tree, by ascending numbers, and what is reserved on it."""


class Release(NamedTuple):
    customer: str
    id: int


class Down(NamedTuple):
    link: int


class Up(NamedTuple):
    link: int


Entry = Union[Admission, Release, Down, Up]


class Fields:
    """Bytes from a place on, of which one field after another is taken."""

    def __init__(self, held: bytes, at: int = 0):
        self.held, self.at = held, at

    def take(self, size: int) -> bytes:
        self.at += size
        if self.at > len(self.held):
            raise Wrong
        return self.held[self.at - size:self.at]

    def number(self, size: int, least: int, most: int) -> int:
        number = int.from_bytes(self.take(size), "big")
        if not least <= number <= most:
            raise Wrong
        return number

    def name(self) -> str:
        name = self.take(self.number(1, 1, 16))
        if not NAME.issuperset(name):
            raise Wrong
        return name.decode()

    def pairs(self, count: int, most: int, most_value: int) -> Pairs:
        """Ascending numbers, each with a value."""
        pairs = tuple(PAIR.iter_unpack(self.take(PAIR.size * count)))
        least = 0
        for number, value in pairs:
            if not least <= number <= most or not 1 <= value <= most_value:
                raise Wrong
            least = number + 1
        return pairs


def entry_of(body: bytes) -> Entry:
    """The entry that a body spells."""
    fields = Fields(body)
    kind = fields.number(1, 1, 4)
    if kind == 1:
        customer = fields.name()
        ends = fields.pairs(fields.number(1, 2, 64), MOST_NODE, MOST_RATE)
        links = fields.pairs(fields.number(2, 1, MOST_NODE), MOST_LINK, MOST_AMOUNT)
        entry = Admission(customer, ends, links)
    elif kind == 2:
        entry = Release(fields.name(), fields.number(4, 0, MOST_EPOCH))
    else:
        entry = (Down if kind == 3 else Up)(fields.number(2, 0, MOST_LINK))
    if fields.at < len(body):
        raise Wrong
    return entry


def told_pairs(pairs: Pairs) -> str:
    return " ".join(f"{number}:{value}" for number, value in pairs)


def told_of(entry: Entry) -> str:
    """An entry as a line; nodes and links are told by their numbers."""
    if isinstance(entry, Admission):
        ends, links = told_pairs(entry.ends), told_pairs(entry.links)
        return f"{entry.customer} admit {ends} links {links}"
    if isinstance(entry, Release):
        return f"{entry.customer} release {entry.id}"
    return f"{'down' if isinstance(entry, Down) else 'up'} {entry.link}"


# ---- Records.


class Head(NamedTuple):
    version: int
    digest: bytes


class Place(NamedTuple):
    """A gate, and what is known of the entries before it."""

    gate: int
    chained: bool
    """Whether the record behind it has a chain value."""
    epoch: int
    value: bytes
    """The chain value of the entries."""


class Record(NamedTuple):
    """What stands behind an open gate: an entry, or a seal, which has none."""

    gate: int
    epoch: int
    """How many entries there are with this one."""
    before: bytes
    """The chain value of the entries before it."""
    body: bytes
    entry: Optional[Entry]


def head_of(held: bytes) -> Head:
    """The head with which a journal begins. Raises `NotBegun`, or `Damaged`."""
    if len(held) < EMPTY or len(held) == EMPTY and held[0] != OPEN:
        raise NotBegun
    if held[0] != OPEN:
        raise Damaged(0)
    if held[1:5] != MARK or held[5] not in (PLAIN, CHAINED):
        raise Damaged(1)
    return Head(held[5], held[6:HEAD])


def first_place(head: Head) -> Place:
    return Place(HEAD, head.version == CHAINED, 0, head.digest)


def record_at(held: bytes, at: int, place: Place) -> Optional[Tuple[Record, Place]]:
    """The record of a place whose gate is the byte `at` here, and the place behind it; none where
    the gate is closed. Raises `Wrong` where no whole record stands there."""
    fields = Fields(held, at)
    if fields.number(1, 0, 255) != OPEN:
        return None
    size = fields.number(4, 0, MOST_BODY)
    kept, body = fields.take(VALUE if place.chained else 0), fields.take(size)
    end = place.gate + fields.at - at
    fields.take(1)  # the next gate
    if not place.chained and body == SEAL + place.value:
        seal = Record(place.gate, place.epoch, place.value, body, None)
        return seal, place._replace(gate=end, chained=True)
    value = sha256(place.value + body).digest()
    if place.chained and kept != value:
        raise Wrong
    record = Record(place.gate, place.epoch + 1, place.value, body, entry_of(body))
    return record, Place(end, place.chained, record.epoch, value)


# ---- The digest of a network.


def digest_of(topology: networks.Topology) -> bytes:
    """That of the canonical text of a topology with its costs."""
    lines = [f"node {name}\n" for name in topology.nodes]
    lines += [f"link {link.a} {link.b} {link.capacity} {link.length} {link.cost}\n"
              for link in topology.links]
    return sha256(("".join(lines) + "end\n").encode()).digest()
