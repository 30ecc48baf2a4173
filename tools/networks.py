"""What the server's texts say, as plain values: topologies, audits, and replies to `link`.

docs/GUIDE.md has the texts. A line is read by its form, and names have to be known; what the
server judges beyond that, as limits on numbers, is left to the server. A topology whose path ends
in `.json` is read as JSON, as the server does.

    topology = networks.load_topology("demo/backbone.txt")
    audit = networks.load(networks.read_audit, "demo/backbone_audit.txt")
    topology = networks.of_audit(topology, audit)

A program of this folder ends by `sys.exit(networks.status_of(main))`, which turns `WrongInput` into
one sentence on standard error and its status, which is 2 for most.
"""
import argparse
import json
import os
import re
import sys
from dataclasses import dataclass, field, replace
from typing import Callable, Dict, List, Optional, Tuple

USAGE_OR_INPUT = 2
NOBODY_READS = 128 + 13  # as a shell tells it of a program that SIGPIPE ended
INTERRUPTED = 128 + 2


class WrongInput(Exception):
    """What a tool cannot go on with, as one sentence, and the status with which it ends."""

    status = USAGE_OR_INPUT


class WrongText(WrongInput):
    """A text that is not of its kind: the line, counted from 1, and what is wrong with it."""

    def __init__(self, line: int, what: str):
        super().__init__(f"line {line}: {what}")
        self.line = line
        self.what = what


class WrongJson(WrongInput):
    """A text that is no topology in JSON: where, as in `links 2`, and what is wrong there."""


class OtherNetwork(WrongInput):
    """What one network has otherwise than another, as one sentence."""


@dataclass(frozen=True)
class Link:
    """A link of a topology."""

    number: int
    a: str
    b: str
    capacity: int
    length: int
    cost: int


@dataclass(frozen=True)
class Topology:
    nodes: List[str]
    links: List[Link]
    places: Dict[str, Tuple[float, float]] = field(default_factory=dict)
    """Of the nodes that a comment line `# at NAME X Y`, or a member `places` of JSON, gives one; Y
    grows upward."""


@dataclass(frozen=True)
class LinkState:
    """A link as an audit or a reply to `link` tells it; an audit does not tell what is out."""

    number: int
    a: str
    b: str
    capacity: int
    cost: int
    load: int
    out: bool = False


@dataclass(frozen=True)
class Vpn:
    id: int
    customer: str
    cost: int
    ends: List[Tuple[str, int]]
    """Each endpoint's node, and its rate."""
    amounts: List[Tuple[int, int]]
    """Each link of the tree, and what the VPN reserves on it."""


@dataclass(frozen=True)
class Audit:
    epoch: int
    links: List[LinkState]
    vpns: List[Vpn]
    live: int
    cost: int


def form(text: str) -> "re.Pattern":
    """The lines of a form: N stands for a number, W for a name, `..` for more of the last pair."""
    pair = re.compile(r"([NW]:N) \.\.")
    text = pair.sub(lambda found: f"({found[1]}(?: {found[1]})*)", text)
    text = re.sub(r"(?<![(:\w])([NW])(?![:\w])", r"(\1)", text)
    return re.compile(text.replace("N", "[0-9]{1,20}").replace("W", "[a-z0-9-]{1,16}"))


NAME = form("W")
NODE = form("node W")
LINK = form("link W W N N(?: N)?")
EPOCH = form("epoch N")
STATE = form("link N W W capacity N cost N load N")
REPLY = form("link N W W capacity N cost N load N( out)? at N")
VPN = form("vpn N W cost N ends W:N .. links N:N ..")
LIVE = form("live N cost N")
TARIFFS: Dict[str, Callable[[int], int]] = {
    "flat": lambda length: length,
    "hops": lambda length: 1,
    "long": lambda length: min(5 + 2 * length, 1_000_000),
}
"""What each tariff makes of a link's length."""
COORDINATE = r"(-?[0-9]{1,9}(?:\.[0-9]{1,20})?)"
PLACE = re.compile(f"# at ([a-z0-9-]{{1,16}}) {COORDINATE} {COORDINATE}")


def lines_of(text: str) -> List[str]:
    """The lines of a text, with one space between words."""
    lines = text.split("\n")
    if lines[-1] == "":
        lines.pop()
    return [" ".join(word for word in line.split(" ") if word) for line in lines]


def shown(line: str) -> str:
    """A line as a sentence may show it."""
    return ascii(line if len(line) <= 40 else line[:37] + "...")


def unlike(line: str, what: str) -> str:
    """That a line is not what should stand there; a carriage return is seen by few editors."""
    returns = ", and a carriage return stands in it" if "\r" in line else ""
    return f"{shown(line)} is {what}{returns}"


def read_topology(text: str) -> Topology:
    """The network of a topology's text. What stands after `end` is not looked at."""
    nodes: List[str] = []
    links: List[Link] = []
    places: Dict[str, Tuple[float, float]] = {}
    known = set()
    lines = lines_of(text)
    for at, line in enumerate(lines, 1):
        place = PLACE.fullmatch(line)
        if place:
            places[place[1]] = (float(place[2]), float(place[3]))
        if line == "" or line[0] == "#":
            continue
        if line == "end":
            if not nodes:
                raise WrongText(at, "the topology has no node")
            return Topology(nodes, links, {name: places[name] for name in nodes if name in places})
        node, link = NODE.fullmatch(line), LINK.fullmatch(line)
        if node:
            if node[1] in known:
                raise WrongText(at, f"there is a node {node[1]} already")
            known.add(node[1])
            nodes.append(node[1])
        elif link:
            links.append(topology_link(at, len(links), link, known))
        else:
            raise WrongText(at, unlike(line, "not a line of a topology (`node NAME`, "
                                       "`link A B CAPACITY LENGTH` with or without COST, `end`)"))
    raise WrongText(len(lines) + 1, "the topology ends without its line `end`")


def topology_link(at: int, number: int, link: "re.Match", known: set) -> Link:
    for name in (link[1], link[2]):
        if name not in known:
            raise WrongText(at, f"no node {name} was named before it")
    capacity, length = int(link[3]), int(link[4])
    if capacity == 0:
        raise WrongText(at, "the link has no capacity")
    return Link(number, link[1], link[2], capacity, length, int(link[5] or length))


def read_json(text: str) -> Topology:
    """The network of a topology in JSON."""
    try:
        told = json.loads(text, parse_constant=no_number)
    except (ValueError, RecursionError) as fault:
        raise WrongJson(f"it is no JSON: {fault}") from None
    if not isinstance(told, dict):
        raise WrongJson("the JSON is no object")
    nodes, links = told.get("nodes"), told.get("links")
    if not isinstance(nodes, list) or not nodes:
        raise WrongJson("nodes: there is no array of names")
    known: set = set()
    for place, name in enumerate(nodes):
        if not isinstance(name, str) or not NAME.fullmatch(name) or name in known:
            raise WrongJson(f"nodes {place}: {shown(json.dumps(name))} is no name, or one again")
        known.add(name)
    if not isinstance(links, list):
        raise WrongJson("links: there is no array of links")
    return Topology(nodes, [json_link(at, link, known) for at, link in enumerate(links)],
                    json_places(told.get("places"), nodes))


def json_places(told, nodes: List[str]) -> Dict[str, Tuple[float, float]]:
    """The places of nodes, as a member `places` has them, which the server passes over: an object
    with a pair of numbers for each node that has one. What is no such pair is passed over here."""
    found = told if isinstance(told, dict) else {}
    return {name: tuple(map(float, found[name])) for name in nodes if is_place(found.get(name))}


def is_place(told) -> bool:
    return (isinstance(told, list) and len(told) == 2
            and all(type(number) in (int, float) and abs(number) < 1e9 for number in told))


def no_number(word: str) -> None:
    raise ValueError(f"{word} stands in it")


def json_link(at: int, link, known: set) -> Link:
    found = link if isinstance(link, dict) else {}
    ends = [found.get(name) for name in "ab"]
    capacity, length = found.get("capacity"), found.get("length")
    cost = found.get("cost", length)
    if not (all(isinstance(end, str) and end in known for end in ends) and ends[0] != ends[1]
            and all(type(number) is int and number > 0 for number in (capacity, length, cost))):
        raise WrongJson(f"links {at}: it is no object with `a` and `b`, the names of two nodes, "
                        "and the numbers `capacity`, `length` and, where it has one, `cost`")
    return Link(at, *ends, capacity, length, cost)


def load_topology(path: str, tariff: Optional[str] = None) -> Topology:
    """The network of a file, with the costs of a tariff where one is named."""
    topology = load(read_json if path.endswith(".json") else read_topology, path)
    return priced(topology, tariff) if tariff else topology


def priced(topology: Topology, tariff: str) -> Topology:
    """The network with the costs of a tariff."""
    links = [replace(link, cost=TARIFFS[tariff](link.length)) for link in topology.links]
    return replace(topology, links=links)


def text_of(topology: Topology) -> str:
    """A topology as text, with the places as comment lines."""
    lines = []
    for name in topology.nodes:
        if name in topology.places:
            lines.append(f"# at {name} {' '.join(map(decimal, topology.places[name]))}")
        lines.append(f"node {name}")
    for link in topology.links:
        cost = "" if link.cost == link.length else f" {link.cost}"
        lines.append(f"link {link.a} {link.b} {link.capacity} {link.length}{cost}")
    return "\n".join([*lines, "end"]) + "\n"


def decimal(value: float) -> str:
    return f"{value:.6f}".rstrip("0").rstrip(".")


def add_tariff(words: argparse.ArgumentParser) -> argparse.ArgumentParser:
    """Adds `--tariff NAME` to the words of a program."""
    words.add_argument("--tariff", metavar="NAME", choices=list(TARIFFS),
                       help="the tariff of the book: " + ", ".join(TARIFFS))
    return words


def read_audit(text: str) -> Audit:
    """What an audit tells: `epoch`, its links, its VPNs, and `live`, in this order."""
    links: List[LinkState] = []
    vpns: List[Vpn] = []
    lines = lines_of(text)
    epoch = EPOCH.fullmatch(lines[0]) if lines else None
    if not epoch:
        raise WrongText(1, "it is not an audit, which begins with `epoch N`")
    for at, line in enumerate(lines[1:], 2):
        state, vpn, live = STATE.fullmatch(line), VPN.fullmatch(line), LIVE.fullmatch(line)
        if state and not vpns:
            links.append(link_state(at, state))
            if links[-1].number != len(links) - 1:
                raise WrongText(at, f"link {len(links) - 1} should stand here")
        elif vpn:
            vpns.append(audit_vpn(at, vpn, len(links)))
        elif live:
            if at < len(lines):
                raise WrongText(at + 1, "the audit ended with the line before")
            if int(live[1]) != len(vpns):
                raise WrongText(at, f"it tells {live[1]} VPNs, and {len(vpns)} stand before it")
            return Audit(int(epoch[1]), links, vpns, int(live[1]), int(live[2]))
        else:
            raise WrongText(at, unlike(line, "not the line of an audit that may stand here"))
    raise WrongText(len(lines) + 1, "the audit ends without its line `live K cost C`")


def link_state(at: int, words: "re.Match", out: bool = False) -> LinkState:
    state = LinkState(int(words[1]), words[2], words[3], *map(int, words.group(4, 5, 6)), out)
    if state.capacity == 0:
        raise WrongText(at, "the link has no capacity")
    return state


def audit_vpn(at: int, words: "re.Match", links: int) -> Vpn:
    ends = [(name, int(rate)) for name, _, rate in
            (pair.partition(":") for pair in words[4].split(" "))]
    amounts = [(int(link), int(amount)) for link, _, amount in
               (pair.partition(":") for pair in words[5].split(" "))]
    for link, _ in amounts:
        if link >= links:
            raise WrongText(at, f"the audit has no link {link}")
    return Vpn(int(words[1]), words[2], int(words[3]), ends, amounts)


def read_link_replies(text: str) -> List[LinkState]:
    """The replies to `link`, in their order; replies to other commands are passed over."""
    found = []
    for at, line in enumerate(lines_of(text), 1):
        if line.split(" ")[0] == "link":
            reply = REPLY.fullmatch(line)
            if not reply:
                raise WrongText(at, unlike(line, "not a reply to `link`"))
            found.append(link_state(at, reply, reply[7] is not None))
    if not found:
        raise WrongText(1, "there is no reply to `link`")
    return found


def latest(states: List[LinkState]) -> List[LinkState]:
    """The links that are told, by ascending numbers, each as it is told last."""
    return [state for _, state in sorted({state.number: state for state in states}.items())]


def of_audit(topology: Topology, audit: Audit, tariff: Optional[str] = None) -> Topology:
    """The network with the costs of an audit: those of the tariff that is named, else its own or
    those of any tariff. Raises `OtherNetwork` where the audit is not one of it."""
    may_be = [priced(topology, name) for name in ([tariff] if tariff else TARIFFS)]
    faults = []
    for network in may_be if tariff else [topology, *may_be]:
        try:
            check_audit(network, audit)
            return network
        except OtherNetwork as fault:
            faults.append(fault)
    raise faults[0]


def check_audit(topology: Topology, audit: Audit) -> None:
    """Raises `OtherNetwork` where an audit is not one of a network."""
    check_links(topology, audit.links)
    if len(audit.links) != len(topology.links):
        raise OtherNetwork(f"it has {counted(len(audit.links), 'link')}, and the network has "
                           f"{len(topology.links)}")
    nodes = set(topology.nodes)
    for vpn in audit.vpns:
        for name, _ in vpn.ends:
            if name not in nodes:
                raise OtherNetwork(f"VPN {vpn.id} has an endpoint at {name}, which is no node of "
                                   "the network")


def check_links(topology: Topology, links: List[LinkState]) -> None:
    """Raises `OtherNetwork` where links are not those of a network, by their numbers."""
    for state in links:
        if state.number >= len(topology.links):
            raise OtherNetwork(f"there is a link {state.number}, and the network has "
                               f"{counted(len(topology.links), 'link')}")
        link = topology.links[state.number]
        told = (state.a, state.b, state.capacity, state.cost)
        if told != (link.a, link.b, link.capacity, link.cost):
            raise OtherNetwork(
                f"link {state.number} is {words_of(*told)}, and that of the network is "
                f"{words_of(link.a, link.b, link.capacity, link.cost)}")


def counted(number: int, word: str) -> str:
    return f"{number} {word}{'' if number == 1 else 's'}"


def words_of(a: str, b: str, capacity: int, cost: int) -> str:
    return f"{a} {b} capacity {capacity} cost {cost}"


def read_any(path: str) -> str:
    """What is in a file, or in standard input where the path is `-`, whatever bytes these are."""
    name = named(path)
    if path == "-" and sys.stdin is None:
        raise WrongInput(f"{name} is closed")
    try:
        if path == "-":
            content = sys.stdin.buffer.read()
        else:
            with open(path, "rb") as file:
                content = file.read()
    except (OSError, ValueError) as fault:
        reason = getattr(fault, "strerror", None) or fault
        raise WrongInput(f"{name} cannot be read: {reason}") from None
    return content.decode("utf-8", "surrogateescape")  # a comment may have any bytes


def read_file(path: str) -> str:
    """The text in a file, or that of standard input where the path is `-`."""
    text = read_any(path)
    if text[1:5] == "HOSE":
        raise WrongInput(f"{named(path)} is a journal; `hosed audit TOPOLOGY JOURNAL` tells what "
                         "it holds")
    if "\0" in text:
        raise WrongInput(f"{named(path)} is not a text")
    return text


def named(path: str) -> str:
    return "standard input" if path == "-" else path


def load(reader: Callable, path: str):
    """What a reader of texts makes of a file; its sentences begin with the file."""
    try:
        return reader(read_file(path))
    except (WrongText, WrongJson) as wrong:
        raise WrongInput(f"{named(path)}, {wrong}") from None


def status_of(main: Callable[[], None]) -> int:
    """What a program ends with. All that `main` writes is out, or somebody is told."""
    if sys.stdout is None:
        return told("standard output is closed")
    try:
        main()
        sys.stdout.flush()
        return 0
    except WrongInput as wrong:
        return told(str(wrong), wrong.status)
    except KeyboardInterrupt:
        return INTERRUPTED
    except OSError as fault:
        # The interpreter writes what is left at its end: that has to go nowhere.
        os.dup2(os.open(os.devnull, os.O_WRONLY), sys.stdout.fileno())
        if isinstance(fault, BrokenPipeError):
            return NOBODY_READS
        return told(f"the output cannot be written: {fault.strerror}")


def told(sentence: str, status: int = USAGE_OR_INPUT) -> int:
    print(f"{os.path.basename(sys.argv[0])}: {sentence}", file=sys.stderr)
    return status
