"""The replies of a server as values: each kind is a class with named fields, whose `str` is the
line, and `read_reply` gives the value that a line is. What the server refuses is an exception, too.
`client.py` has all of them.
"""
import re
from dataclasses import dataclass
from typing import Callable, ClassVar, Dict, Optional, Tuple

from lines import FIELD_KINDS, PARTS, fields_of, first_word, told

# ---- Kinds.


class Reply:
    """What the server answers to a line; `line` is its name in the table of lines.py."""

    line: ClassVar[str] = ""

    def __str__(self):
        return told(self.line, *(getattr(self, name) for name in fields_of(self.line)))


class Refusal(Reply, Exception):
    """A reply that tells why the server did not do what it was asked."""


@dataclass
class Welcome(Reply):
    line = "Welcome"
    epoch: int


@dataclass
class Admitted(Reply):
    line = "Admitted"
    id: int
    cost: int
    epoch: int
    links: Dict[int, int]
    """What is reserved on each link of the tree."""


@dataclass
class Quoted(Reply):
    line = "Quoted"
    quote: int
    cost: int
    epoch: int
    links: Dict[int, int]


@dataclass
class Released(Reply):
    line = "Released"
    id: int
    epoch: int


@dataclass
class Vpn(Reply):
    line = "Shown"
    id: int
    cost: int
    epoch: int
    ends: Dict[str, int]
    """Each endpoint's rate."""
    links: Dict[int, int]


@dataclass
class Vpns(Reply):
    line = "Vpns"
    ids: Tuple[int, ...]
    """The numbers of the customer's live VPNs, ascending."""
    epoch: int

    def newest(self) -> int:
        """The number of the newest live VPN; 0 where there is none."""
        return self.ids[-1] if self.ids else 0


@dataclass
class LinkState(Reply):
    line = "LinkState"
    link: int
    a: str
    b: str
    capacity: int
    cost: int
    load: int
    out: bool
    """Whether the link is out of service."""
    epoch: int


@dataclass
class Down(Reply):
    line = "Down"
    link: int
    epoch: int


@dataclass
class Up(Reply):
    line = "Up"
    link: int
    epoch: int


@dataclass
class Bye(Reply):
    line = "Bye"


@dataclass
class Ending(Reply):
    """No line of anyone is answered any more, and the host ends."""

    line = "Ending"
    epoch: int


@dataclass
class Figures(Reply):
    """What there was since a host's start."""

    line = "Figures"
    connections: int
    """Those that are there now."""
    ever: int
    lines: int
    admitted: int
    refused: int
    released: int
    down: int
    up: int
    disk: int
    memory: int
    lost: int
    """Lines of the log that could not be written."""
    timed: int
    """Orders and lines that asked for a quote."""
    took: int
    """Nanoseconds from taking such a line to its reply, of all of them together."""
    over_100us: int
    """How many of them took longer than this."""
    over_1ms: int
    over_10ms: int
    over_100ms: int
    over_1s: int
    over_10s: int
    synced: int
    """Milliseconds since an order was on the disk last, or the host began."""
    epoch: int


@dataclass
class FiguresWithStandby(Figures):
    """And how far the standby is for which replies wait."""

    line = "FiguresWithStandby"
    standby: int
    """Orders that it was heard to have."""
    alone: int
    """1 where the host goes on without it, else 0."""


@dataclass(eq=False)
class Refused(Refusal):
    line = "Refused"
    epoch: int
    side: Tuple[str, ...]
    """The nodes that the lowest-numbered endpoint reaches over links with enough room."""


@dataclass(eq=False)
class Stale(Refusal):
    line = "Stale"
    quoted_at: int
    epoch: int


@dataclass(eq=False)
class Newest(Refusal):
    """Another VPN is the customer's newest than was known when the order was given."""

    line = "Newest"
    id: int
    """The newest live VPN of the customer; 0 where there is none."""
    epoch: int


@dataclass(eq=False)
class NoVpn(Refusal):
    line = "NoVpn"
    id: int
    epoch: int


@dataclass(eq=False)
class NoQuote(Refusal):
    line = "NoQuote"
    quote: int
    epoch: int


@dataclass(eq=False)
class TooManyQuotes(Refusal):
    line = "TooMany"
    epoch: int


@dataclass(eq=False)
class Already(Refusal):
    """The link is out of service, or in service, as was asked for."""

    line = "Already"
    link: int
    epoch: int


@dataclass(eq=False)
class Denied(Refusal):
    """Only the customer `operator` may ask for this."""

    line = "Denied"
    epoch: int


@dataclass(eq=False)
class Full(Refusal):
    line = "Full"
    epoch: int


@dataclass(eq=False)
class Spent(Refusal):
    line = "Spent"
    epoch: int


@dataclass(eq=False)
class DiskFailed(Refusal):
    """Nothing was entered; until the next order a stop may leave the entry all the same."""

    line = "Disk"
    epoch: int


@dataclass(eq=False)
class OutOfMemory(Refusal):
    line = "Memory"


@dataclass(eq=False)
class Bad(Refusal):
    line = "Bad"
    word: int
    """The first word that is not allowed, counted from 1."""


@dataclass(eq=False)
class TooLong(Refusal):
    line = "Long"


# ---- Reading.

NUMBER = "(?:0|[1-9][0-9]{0,19})"
NAME = "[a-z0-9-]{1,16}"
# Of each kind of field a pattern with the space before it, as there may be no number and no flag.
TEXTS = {
    "number": f" ({NUMBER})",
    "name": f" ({NAME})",
    "flag out": "((?: out)?)",
    "names": f" ({NAME}(?: {NAME})*)",
    "numbers": f"((?: {NUMBER})*)",
    "ends": f" ({NAME}:{NUMBER}(?: {NAME}:{NUMBER})*)",
    "amounts": f" ({NUMBER}:{NUMBER}(?: {NUMBER}:{NUMBER})*)",
}


def table(text: str, key: Callable) -> Dict:
    """The pairs of a list; each key stands once."""
    pairs = [pair.split(":") for pair in text.split(" ")]
    found = {key(one): int(amount) for one, amount in pairs}
    if len(found) < len(pairs):
        raise ValueError(f"a pair repeats: {text}")
    return found


def ascending(text: str) -> Tuple[int, ...]:
    """Numbers, each above the one before it."""
    ids = tuple(map(int, text.split()))
    if any(after <= before for before, after in zip(ids, ids[1:])):
        raise ValueError("numbers do not ascend")
    return ids


VALUES = {
    "number": int,
    "name": str,
    "flag out": bool,
    "names": lambda text: tuple(text.split(" ")),
    "numbers": ascending,
    "ends": lambda text: table(text, str),
    "amounts": lambda text: table(text, int),
}


def reader_of(kind):
    """A kind of reply with the pattern of its lines, and how each field is read."""
    parts = [(FIELD_KINDS.get(word, "number") if is_field else None, word)
             for word, is_field in PARTS[kind.line]]
    pattern = "".join(TEXTS[what] if what else f" {word}" for what, word in parts)
    return kind, re.compile(pattern[1:]), [VALUES[what] for what, _ in parts if what]


KINDS = [
    Welcome, Admitted, Quoted, Released, Vpn, Vpns, LinkState, Down, Up, Bye, Ending, Figures,
    FiguresWithStandby,
    *Refusal.__subclasses__(),
]
READERS = {}  # by the first word
for _kind in KINDS:
    READERS.setdefault(first_word(_kind.line), []).append(reader_of(_kind))


def read_reply(line: str) -> Optional[Reply]:
    """The reply, a refusal as well, that a line without its line feed is; none where it is none."""
    for kind, pattern, values in READERS.get(line.partition(" ")[0], ()):
        found = pattern.fullmatch(line)
        try:
            if found:
                return kind(*(read(text) for read, text in zip(values, found.groups())))
        except ValueError:
            pass  # a pair repeats, or numbers do not ascend
    return None
