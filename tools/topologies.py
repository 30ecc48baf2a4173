"""Topologies made of networks in other formats: names, lengths, capacities, and what was changed.

A reader of a format adds nodes and links to a `Draft`, which gives a topology within the limits of
docs/GUIDE.md, and tells what it changed or dropped. `main` is the program round a reader.
"""
import argparse
import json
import math
import re
import sys
import unicodedata
from typing import Callable, Dict, List, Optional, Tuple

import networks

MOST_NODES, MOST_LINKS = 512, 2048
MOST_CAPACITY, MOST_LENGTH = 1_000_000_000, 1_000_000
MOST_NAME = 16
SHOWN = 5  # nodes that a sentence names
EARTH = 6371.0088  # km, the mean radius
LETTERS = str.maketrans({
    "\xdf": "ss", "\xe6": "ae", "\u0153": "oe", "\xf8": "o", "\u0142": "l", "\u0111": "d",
    "\xf0": "d", "\xfe": "th", "\u0131": "i", "\u0127": "h", "\u0167": "t", "\u2019": "'",
})
"""Small letters that are no letter with a mark, in those that a name may have."""

Place = Tuple[float, float]  # longitude and latitude, in degrees


def name_of(label: str) -> str:
    """A label in lower case and without marks, with one `-` for what a name may not have; it may be
    empty."""
    letters = unicodedata.normalize("NFKD", label.lower().translate(LETTERS))
    plain = "".join(letter for letter in letters if not unicodedata.combining(letter))
    return re.sub("[^a-z0-9]+", "-", plain).strip("-")[:MOST_NAME].rstrip("-")


def kilometres(one: Place, other: Place) -> float:
    """The great circle between two places, by the haversine."""
    (east, north), (far_east, far_north) = (map(math.radians, place) for place in (one, other))
    chord = math.sin((far_north - north) / 2) ** 2
    chord += math.cos(north) * math.cos(far_north) * math.sin((far_east - east) / 2) ** 2
    return 2 * EARTH * math.asin(math.sqrt(min(1.0, chord)))


def number(text: Optional[str]) -> Optional[float]:
    """The number that a text is, if it is a finite one."""
    try:
        value = float(text) if text is not None else math.nan
    except ValueError:
        return None
    return value if math.isfinite(value) else None


def place(east: Optional[str], north: Optional[str]) -> Optional[Place]:
    """A place on the globe, where two texts tell one."""
    found = number(east), number(north)
    if None in found or abs(found[0]) > 180 or abs(found[1]) > 90:
        return None
    return found


class Draft:
    """A topology that grows. Nodes are known by their keys in the file. Where the file tells no
    capacity or no places, the `capacity` and `length` given are taken, and wanted."""

    def __init__(self, capacity: Optional[int] = None, length: Optional[int] = None):
        self.capacity, self.length = capacity, length
        self.names: Dict[str, str] = {}
        self.places: Dict[str, Place] = {}
        self.links: List[networks.Link] = []
        self.changes: List[str] = []
        self.without = {"capacity": 0, "length": 0}
        """How many links the file tells none for."""

    def note(self, change: str) -> None:
        self.changes.append(change)

    def add_node(self, key: str, label: str, at: Optional[Place]) -> bool:
        """Whether the node is a new one, which is added."""
        if key in self.names:
            self.note(f"a second node {key!r} is dropped")
            return False
        if len(self.names) == MOST_NODES:
            raise networks.WrongInput(f"there are more than {MOST_NODES} nodes")
        name = self.fresh(name_of(label) or name_of(key) or "node")
        if name != label:
            self.note(f"node {label!r} is {name}")
        self.names[key] = name
        if at:
            self.places[name] = at
        return True

    def fresh(self, name: str) -> str:
        """The name, with a number where another node has it."""
        taken, found, count = set(self.names.values()), name, 2
        while found in taken:
            end = f"-{count}"
            found, count = name[: MOST_NAME - len(end)].rstrip("-") + end, count + 1
        return found

    def add_link(self, a: str, b: str, capacity: Optional[float]) -> None:
        """A link between the nodes of two keys; the capacity is in the topology's unit."""
        for key in (a, b):
            if key not in self.names:
                self.note(f"a link to {key!r}, which is no node, is dropped")
                return
        one, other = self.names[a], self.names[b]
        if one == other:
            self.note(f"a link from {one} to itself is dropped")
            return
        if len(self.links) == MOST_LINKS:
            raise networks.WrongInput(f"there are more than {MOST_LINKS} links")
        what = f"link {len(self.links)} from {one} to {other}"
        length = self.length_of(what, one, other)
        room = self.capacity_of(what, capacity)
        self.links.append(networks.Link(len(self.links), one, other, room, length, length))

    def given(self, what: str) -> int:
        self.without[what] += 1
        return getattr(self, what) or 1

    def length_of(self, what: str, one: str, other: str) -> int:
        if one not in self.places or other not in self.places:
            return self.given("length")
        length = round(kilometres(self.places[one], self.places[other]))
        if length < 1:
            self.note(f"{what} is shorter than a km, and has the length 1")
        return max(1, length)

    def capacity_of(self, what: str, capacity: Optional[float]) -> int:
        if capacity is None or capacity <= 0:
            return self.given("capacity")
        room = min(max(1, math.floor(capacity)), MOST_CAPACITY)
        if room != capacity:
            self.note(f"{what} has the capacity {room} in place of {capacity:.12g}")
        return room

    def topology(self) -> networks.Topology:
        """The whole; what was taken for all links without their own is told."""
        if not self.names:
            raise networks.WrongInput("there is no node")
        missing = []
        for what, count in self.without.items():
            told = f"{count} of {len(self.links)} links"
            if count and getattr(self, what) is None:
                missing.append(f"{told} have no {what}{self.because(what)}: give one by --{what}")
            elif count:
                self.note(f"{told} have the {what} {getattr(self, what)} by --{what}")
        if missing:
            raise networks.WrongInput("; ".join(missing))
        return networks.Topology(list(self.names.values()), self.links, self.places)

    def because(self, what: str) -> str:
        """Why links have no length: which nodes have no place."""
        nodes = [name for name in self.names.values() if name not in self.places]
        if what != "length" or not nodes:
            return ""
        more = len(nodes) - SHOWN
        some = ", ".join(nodes[:SHOWN]) + (f" and {more} more" if more > 0 else "")
        return f", as {some} {'has' if len(nodes) == 1 else 'have'} no place"


def json_of(topology: networks.Topology) -> str:
    """A topology in JSON, a line for each link, and one for each place of a node."""
    links = [
        json.dumps({"a": link.a, "b": link.b, "capacity": link.capacity, "length": link.length})
        for link in topology.links
    ]
    places = [
        f"{json.dumps(name)}: [{', '.join(map(networks.decimal, place))}]"
        for name, place in topology.places.items()
    ]
    members = [f'"nodes": {json.dumps(topology.nodes)}', f'"links": {listed("[]", links)}']
    members += [f'"places": {listed("{}", places)}'] if places else []
    return "{\n  " + ",\n  ".join(members) + "\n}\n"


def listed(brackets: str, rows: List[str]) -> str:
    """Rows between brackets, a line each."""
    inside = ",\n    ".join(rows)
    return f"{brackets[0]}\n    {inside}\n  {brackets[1]}" if rows else brackets


def read_bytes(path: str) -> bytes:
    try:
        with open(path, "rb") as file:
            return file.read()
    except (OSError, ValueError) as fault:
        reason = getattr(fault, "strerror", None) or fault
        raise networks.WrongInput(f"{path} cannot be read: {reason}") from None


def whole(most: int) -> Callable[[str], int]:
    def read(text: str) -> int:
        if not re.fullmatch("[1-9][0-9]{0,9}", text) or int(text) > most:
            raise argparse.ArgumentTypeError(f"{text!r} is not a whole number of 1 to {most:,}")
        return int(text)

    return read


def main(description: str, read: Callable[[bytes, Draft], None]) -> None:
    """A program that writes the topology of a network that `read` adds to a draft."""
    words = argparse.ArgumentParser(
        description=description, formatter_class=argparse.RawDescriptionHelpFormatter
    )
    words.add_argument("file", metavar="FILE")
    words.add_argument(
        "--capacity", type=whole(MOST_CAPACITY), metavar="N",
        help="of each link for which FILE tells none",
    )
    words.add_argument(
        "--length", type=whole(MOST_LENGTH), metavar="N",
        help="of each link between nodes of which one has no place",
    )
    words.add_argument("--json", action="store_true", help="writes JSON in place of text")
    given = words.parse_args()
    content, draft = read_bytes(given.file), Draft(given.capacity, given.length)
    try:
        read(content, draft)
        topology = draft.topology()
    except networks.WrongInput as wrong:
        raise networks.WrongInput(f"{given.file}: {wrong}") from None
    for change in draft.changes:
        print(f"{words.prog}: {change}", file=sys.stderr)
    print((json_of if given.json else networks.text_of)(topology), end="")
