#!/usr/bin/env python3
"""Customers who order, ask and give up at a running server for a given time, and how fast it is.
PORT is a number, or the path of a Unix socket.

Each customer is a process with one session, who waits for each reply before the next command.
Which commands come how often is told by `--mix`, with `admit-after` and `vpns` where it has them;
an `admit-after` names the newest VPN that the replies so far told of. Hoses are
random ones of the network, which is learned from the server by `link`, with a connection more. The
VPNs are real orders of the customers load-1, load-2 and so on: each holds 100 at most, and gives up
all at the end, or at an interrupt.
No customer asks for `down` or `up`, which take links of the real network out of service and back.

Printed are, for each kind of command and for all, the replies, how many came a second and how many
refused, and the median, the 99th percentile and the worst of the times to a reply, in microseconds.
The customers are programs in Python: on the server's own machine this is of both together.

example, with a server that was started by `./hosed serve demo/backbone.txt port.journal 7000 9 4`:
  python3 tools/load.py --plot load.svg 7000 4 10

status:
  0 all went well; 2 these words are not allowed, the server is not there, breaks off, or answers
  otherwise than hosed, or a customer was not greeted in this time, as the server has fewer workers
"""
import argparse
import html
import math
import multiprocessing
import queue
import random
import re
import signal
import sys
import time
from collections import Counter
from dataclasses import dataclass, field
from threading import BrokenBarrierError
from typing import Callable, Dict, List, NamedTuple, Optional

import client
import networks
from lines import COMMANDS, has_hose

MOST_CUSTOMERS = 256
MOST_HELD, MOST_QUOTES = 100, 16  # of each customer
MOST_ENDS, MOST_RATE = 4, 10  # of each hose
MIX = "admit:4,quote:3,take:3,release:4,show:3,link:3"
KINDS = tuple(word for word, command in COMMANDS.items() if command.who == "CUSTOMER")
FORK = multiprocessing.get_context("fork")


class Load(NamedTuple):
    """What customers do, where, and for how long."""

    port: client.Place
    customers: int
    seconds: float
    mix: Dict[str, int]
    host: str = client.HOST
    seed: str = "1"
    timeout: float = client.TIMEOUT


class Network(NamedTuple):
    nodes: List[str]
    links: int


@dataclass
class Tally:
    """The replies to one kind of command: how many came after how many microseconds."""

    times: Counter = field(default_factory=Counter)
    refused: int = 0

    def add(self, other: "Tally") -> None:
        self.times.update(other.times)
        self.refused += other.refused

    def replies(self) -> int:
        return sum(self.times.values())

    def within(self, part: float) -> int:
        """The least time within which this part of the replies came."""
        wanted, count = math.ceil(part * self.replies()), 0
        for micros in sorted(self.times):
            count += self.times[micros]
            if count >= wanted:
                return micros
        return 0


class Found(NamedTuple):
    """What came of a load, or of one customer of it."""

    tallies: Dict[str, Tally]
    start: float
    stop: float
    served: int
    fault: Optional[str] = None

    def seconds(self) -> float:
        return self.stop - self.start


# ---- Processes that begin at once.


def be_one(work: Callable, number: int, gate, told, words) -> None:
    """The work of one process. An interrupt is told to all by the process that began them."""
    signal.signal(signal.SIGINT, signal.SIG_IGN)
    try:
        told.put((None, work(number, gate, *words)))
    except BrokenBarrierError:
        pass  # another one failed, and tells why
    except client.FAULTS as fault:
        gate.abort()
        told.put((f"{type(fault).__name__}: {fault}", None))


def together(count: int, work: Callable, *words, watch: Callable = lambda: None) -> List:
    """What `work(number, gate, *words)` returns in each of so many processes, each of which calls
    `gate.wait()` to begin at once with the others. `watch` is called again and again meanwhile."""
    gate, told, results = FORK.Barrier(count), FORK.Queue(), []
    given = [(work, number, gate, told, words) for number in range(count)]
    ones = [FORK.Process(target=be_one, args=args) for args in given]
    for one in ones:
        one.start()
    try:
        while len(results) < count:
            watch()
            ended = any(one.exitcode for one in ones)
            try:
                fault, result = told.get(timeout=0.2)
            except queue.Empty:
                if ended:
                    raise networks.WrongInput("a customer's process was ended") from None
                continue
            if fault:
                raise networks.WrongInput(fault)
            results.append(result)
    finally:
        for one in ones:
            if len(results) < count:
                one.terminate()
            one.join()
    return results


# ---- Customers.


class Shared(NamedTuple):
    """What all processes see: each customer's replies so far, and whether to stop."""

    replies: object
    stop: object


class Customer:
    """A customer's choices, and what came of them."""

    def __init__(self, load: Load, number: int, network: Network):
        self.load, self.network = load, network
        self.draw = random.Random(f"{load.seed} {number}")
        self.kinds, self.weights = list(load.mix), list(load.mix.values())
        self.tallies = {kind: Tally() for kind in KINDS}
        self.held: List[int] = []
        self.known = 0  # the newest VPN of this customer, as far as the replies tell
        self.quotes: List[int] = []

    def kind(self) -> str:
        """The next command's kind; another one where there is nothing that it might name."""
        kind = self.draw.choices(self.kinds, self.weights)[0]
        if kind == "take" and not self.quotes:
            kind = "quote"
        if kind in ("release", "show") and not self.held:
            kind = "admit" if kind == "release" else "link"
        if kind == "quote" and len(self.quotes) == MOST_QUOTES:
            kind = "take"
        if COMMANDS[kind].entered == "Admitted" and len(self.held) == MOST_HELD:
            kind = "release"
        return kind

    def line(self, kind: str) -> str:
        draw, fields = self.draw, COMMANDS[kind].fields
        if has_hose(kind):
            most = min(MOST_ENDS, len(self.network.nodes))
            nodes = draw.sample(self.network.nodes, draw.randint(2, most))
            ends = client.hose({node: draw.randint(1, MOST_RATE) for node in nodes})
            return f"{kind} {self.known} {ends}" if "K" in fields else f"{kind} {ends}"
        if not fields:
            return kind
        if fields == ("L",):
            return f"{kind} {draw.randrange(self.network.links)}"
        numbers = self.quotes if fields == ("Q",) else self.held
        if not COMMANDS[kind].entered:
            return f"{kind} {draw.choice(numbers)}"
        return f"{kind} {numbers.pop(draw.randrange(len(numbers)))}"

    def step(self, session: client.Session) -> None:
        kind = self.kind()
        line, tally = self.line(kind), self.tallies[kind]
        start = time.perf_counter_ns()
        reply = session.reply_to(line)
        tally.times[(time.perf_counter_ns() - start) // 1000] += 1
        if isinstance(reply, client.Refusal):
            tally.refused += 1
        elif isinstance(reply, client.Admitted):
            self.held.append(reply.id)
            self.known = reply.id
        elif isinstance(reply, client.Quoted):
            self.quotes.append(reply.quote)
        elif isinstance(reply, client.Vpns):
            self.known = reply.newest()
        if isinstance(reply, client.Newest):
            self.known = reply.id

    def serve(self, session: client.Session, end: float, number: int, shared: Shared) -> int:
        """Gives commands until the time is up; 0 where it was before the first one, else 1."""
        session.timeout = self.load.timeout
        while time.perf_counter() < end and not shared.stop.value:
            self.step(session)
            shared.replies[number] += 1
        return min(1, shared.replies[number])

    def give_up(self, session: client.Session) -> None:
        while self.held:
            session.release(self.held.pop())


def be_customer(number: int, gate, load: Load, network: Network, shared: Shared) -> Found:
    customer, served, fault = Customer(load, number, network), 0, None
    gate.wait()
    start = stop = time.perf_counter()
    try:
        session = client.Session(load.host, load.port, f"load-{number + 1}", load.seconds)
        served = 1
        with session:
            served = customer.serve(session, start + load.seconds, number, shared)
            stop = time.perf_counter()
            customer.give_up(session)
    except client.FAULTS as lost:
        # Whom no worker greeted in this time has only waited in vain.
        if served or not isinstance(lost, client.NoAnswer):
            fault, stop, shared.stop.value = str(lost), time.perf_counter(), 1
    return Found(customer.tallies, start, stop, served, fault)


def look(load: Load) -> Network:
    """The network of the server, as its replies to `link` tell it."""
    nodes, links = {}, 0
    with client.Session(load.host, load.port, "load", load.timeout) as session:
        try:
            while True:
                link = session.link(links)
                nodes.update({link.a: None, link.b: None})
                links += 1
        except client.Bad:
            pass  # there is no link of this number
    if not links:
        raise networks.WrongInput("the server's network has no links, so nothing can be ordered")
    return Network(list(nodes), links)


def measure(load: Load, progress: Callable[[float, int], None] = lambda *_: None) -> Found:
    """What comes of a load. `progress` is told the seconds and the replies so far."""
    try:
        network = look(load)
    except client.FAULTS as fault:
        raise networks.WrongInput(str(fault)) from None
    shared = Shared(FORK.RawArray("Q", load.customers), FORK.RawValue("b", 0))
    begun = time.perf_counter()

    def watch():
        progress(time.perf_counter() - begun, sum(shared.replies))

    def stop(*_):
        shared.stop.value = 1

    before = signal.signal(signal.SIGINT, stop)
    try:
        found = together(load.customers, be_customer, load, network, shared, watch=watch)
    finally:
        signal.signal(signal.SIGINT, before)
    return sum_of(found)


def sum_of(found: List[Found]) -> Found:
    tallies = {kind: Tally() for kind in KINDS}
    for one in found:
        for kind, tally in one.tallies.items():
            tallies[kind].add(tally)
    return Found(
        {kind: tally for kind, tally in tallies.items() if tally.times},
        min(one.start for one in found), max(one.stop for one in found),
        sum(one.served for one in found), next((one.fault for one in found if one.fault), None),
    )


# ---- What is told.


class Row(NamedTuple):
    """The figures of one kind of command; times are in microseconds."""

    kind: str
    replies: int
    a_second: float
    refused: int
    median: int
    most: int
    worst: int


def row(kind: str, tally: Tally, seconds: float) -> Row:
    replies = tally.replies()
    times = tally.within(0.5), tally.within(0.99), tally.within(1)
    return Row(kind, replies, replies / seconds, tally.refused, *times)


def rows(found: Found) -> List[Row]:
    """A row for each kind that had a reply, and one for all."""
    everything = Tally()
    for tally in found.tallies.values():
        everything.add(tally)
    kinds = [*found.tallies.items(), ("all", everything)]
    return [row(kind, tally, found.seconds()) for kind, tally in kinds if tally.times]


HEAD = ("command", "replies", "a second", "refused", "median us", "99 % us", "worst us")


def table(found: Found) -> str:
    lines = [HEAD] + [(one.kind, *(f"{figure:,.0f}" for figure in one[1:])) for one in rows(found)]
    width = max(8, *(len(words[0]) for words in lines))
    return "\n".join(
        f"{words[0]:{width}}" + "".join(f"{word:>12}" for word in words[1:]) for words in lines
    )


WIDTH, LEFT, BAR, TOP, STEP = 800, 90, 170, 56, 40
SCALE = LEFT + BAR + 100  # where the axis of times begins


def time_text(micros: int) -> str:
    for unit, size in (("s", 1_000_000), ("ms", 1_000)):
        if micros >= size:
            return f"{micros // size} {unit}"
    return f"{micros} us"


class Axis:
    """Times by their logarithms, over whole powers of ten."""

    def __init__(self, least: int, worst: int):
        self.low = math.floor(math.log10(max(1, least)))
        self.high = max(self.low + 1, math.ceil(math.log10(max(1, worst))))

    def x(self, micros: int) -> float:
        part = (math.log10(max(1, micros)) - self.low) / (self.high - self.low)
        return SCALE + part * (WIDTH - 30 - SCALE)

    def lines(self, bottom: int) -> List[str]:
        drawn = []
        for power in range(self.low, self.high + 1):
            x = f"{self.x(10 ** power):.1f}"
            drawn.append(f'<line x1="{x}" x2="{x}" y1="{TOP - 10}" y2="{bottom}" stroke="#ccc"/>')
            text = time_text(10 ** power)
            drawn.append(f'<text x="{x}" y="{bottom + 18}" text-anchor="middle">{text}</text>')
        return drawn


def drawn(one: Row, y: int, axis: Axis, fastest: float) -> List[str]:
    """A row of the plot: how many a second as a bar, and the times as marks on the axis."""
    median, most, worst = (f"{axis.x(time):.1f}" for time in one[4:])
    length = BAR * one.a_second / fastest
    told = f"{one.kind}: {one.a_second:,.0f} a second, {one.refused:,} of {one.replies:,} refused; "
    told += f"median {one.median:,} us, 99 % {one.most:,} us, worst {one.worst:,} us"
    return [
        f"<g><title>{told}</title>",
        f'<text x="{LEFT - 10}" y="{y + 5}" text-anchor="end">{one.kind}</text>',
        f'<rect x="{LEFT}" y="{y - 9}" width="{length:.1f}" height="18" fill="#69c"/>',
        f'<text x="{LEFT + length + 6:.1f}" y="{y + 5}">{one.a_second:,.0f}</text>',
        f'<line x1="{median}" x2="{worst}" y1="{y}" y2="{y}" stroke="#333"/>',
        f'<circle class="median" cx="{median}" cy="{y}" r="5"/>',
        f'<line x1="{most}" x2="{most}" y1="{y - 9}" y2="{y + 9}" stroke="#000" stroke-width="3"/>',
        f'<circle cx="{worst}" cy="{y}" r="5" fill="#fff" stroke="#000"/>',
        "</g>",
    ]


def plot(found: Found, title: str) -> str:
    """A picture in SVG of what the table tells."""
    figures = rows(found)
    bottom = TOP + STEP * len(figures) - STEP // 2
    axis = Axis(min(one.median for one in figures), max(one.worst for one in figures))
    fastest = max(one.a_second for one in figures)
    legend = "left: replies a second; right: time to a reply, dot median, bar 99 %, ring worst"
    lines = [
        f'<svg xmlns="http://www.w3.org/2000/svg" viewBox="0 0 {WIDTH} {bottom + 50}" '
        f'width="{WIDTH}" height="{bottom + 50}" font-family="sans-serif" font-size="13">',
        f'<rect width="{WIDTH}" height="{bottom + 50}" fill="#fff"/>',
        f'<text x="{LEFT}" y="24" font-weight="bold">{html.escape(title)}</text>',
        *axis.lines(bottom),
        f'<text x="{LEFT}" y="{bottom + 40}">{legend}</text>',
    ]
    for place, one in enumerate(figures):
        lines += drawn(one, TOP + STEP * place, axis, fastest)
    return "\n".join([*lines, "</svg>"]) + "\n"


class Progress:
    """A line on standard error: once a second over the last one on a terminal, else every ten."""

    def __init__(self, seconds: float, stream=None):
        self.seconds, self.stream = seconds, stream or sys.stderr
        self.over = self.stream.isatty()
        self.told = 0.0

    def __call__(self, seconds: float, replies: int) -> None:
        if seconds - self.told < (1 if self.over else 10):
            return
        self.told = seconds
        text = f"load: {seconds:.0f} s of {self.seconds:g}, {replies:,} replies"
        print(text, end="\r" if self.over else "\n", file=self.stream, flush=True)

    def end(self) -> None:
        if self.over and self.told:
            print(file=self.stream)


# ---- The program.


def mix_of(text: str) -> Dict[str, int]:
    found = {}
    for part in text.split(","):
        kind, _, weight = part.partition(":")
        if kind not in KINDS or kind in found or not re.fullmatch("[0-9]{1,6}", weight):
            what = f"{part!r} in {text!r} is no command with its weight, as in {MIX}"
            raise argparse.ArgumentTypeError(what)
        found[kind] = int(weight)
    if not any(found.values()):
        raise argparse.ArgumentTypeError("all weights are 0")
    return found


def customers(text: str) -> int:
    if not re.fullmatch("[1-9][0-9]{0,2}", text) or int(text) > MOST_CUSTOMERS:
        raise argparse.ArgumentTypeError(f"{text!r} is not 1 to {MOST_CUSTOMERS} customers")
    return int(text)


def words() -> argparse.Namespace:
    parser = argparse.ArgumentParser(
        description=__doc__, formatter_class=argparse.RawDescriptionHelpFormatter
    )
    parser.add_argument("port", type=client.place, metavar="PORT")
    parser.add_argument("customers", type=customers, metavar="CUSTOMERS")
    parser.add_argument("seconds", type=client.seconds, metavar="SECONDS")
    parser.add_argument("--host", default=client.HOST, help=f"where it is ({client.HOST})")
    parser.add_argument("--mix", type=mix_of, default=MIX, help=f"how often each comes ({MIX})")
    parser.add_argument("--seed", default="1", help="of what the customers choose (1)")
    parser.add_argument("--plot", metavar="FILE", help="writes the table as a picture in SVG")
    return parser.parse_args()


def check_written(path: str) -> None:
    """Raises where the plot cannot be written: before a long load rather than after it."""
    try:
        open(path, "a", encoding="utf-8").close()
    except (OSError, ValueError) as fault:
        reason = getattr(fault, "strerror", None) or fault
        raise networks.WrongInput(f"{path} cannot be written: {reason}") from None


def tell(load: Load, found: Found, path: Optional[str]) -> None:
    """Prints the table, and writes the plot where one is wanted."""
    print(table(found), flush=True)
    if path:
        where = f"{load.host}:{load.port}, {found.seconds():.1f} s"
        with open(path, "w", encoding="utf-8") as picture:
            picture.write(plot(found, f"{found.served} customers at {where}"))


def main() -> None:
    given = words()
    if given.plot:
        check_written(given.plot)
    load = Load(given.port, given.customers, given.seconds, given.mix, given.host, given.seed)
    progress = Progress(load.seconds)
    try:
        found = measure(load, progress)
    finally:
        progress.end()
    if found.tallies:
        tell(load, found, given.plot)
    if found.fault:
        raise networks.WrongInput(found.fault)
    if found.served < load.customers:
        what = f"{found.served} of {load.customers} customers were greeted in {load.seconds:g} s"
        raise networks.WrongInput(f"{what}: the server has no worker for more")


if __name__ == "__main__":
    sys.exit(networks.status_of(main))
