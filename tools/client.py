#!/usr/bin/env python3
"""A customer's session with `hosed host` or `hosed serve`, as a module and as a program.

    with Session("127.0.0.1", 7000, "acme") as session:
        vpn = session.admit({"a": 3, "b": 4})
        print(vpn.id, vpn.cost, vpn.links)

Each command is a method, and each reply a value with named fields whose `str` is the line. What
the server refuses is raised as a `Refusal` with the reply's fields: `Refused`, `Stale`, `NoVpn`
and so on. `ConnectionLost` is raised where the server is not there or closes the connection, its
kind `NoAnswer` where it does not answer in time, and `MalformedReply` where what it says is no
reply to the command. After these the session is over, and nothing connects again; `unanswered` is
the line that was sent and has no reply, and an order in it may have been entered all the same.
`order_once` of a `Customer` gives an order that stands once for all that, by sessions of its own. A
session ends with its `with`, which says `bye`. In place of a port the path of a Unix socket may
stand.
"""
import argparse
import re
import socket
import sys
import time
from typing import Callable, Dict, Iterable, Mapping, Optional, Tuple, Union

import networks
import reply_tables
from lines import COMMANDS, ORDERS
from replies import (
    KINDS, NAME, NUMBER, Admitted, Already, Bad, Bye, Denied, DiskFailed, Down, Ending, Figures,
    Full, LinkState, Newest, NoQuote, NoVpn, OutOfMemory, Quoted, Refusal, Refused, Released,
    Reply, Spent, Stale, TooLong, TooManyQuotes, Up, Vpn, Vpns, Welcome, read_reply,
)

HOST = "127.0.0.1"
TIMEOUT = 60.0  # seconds for a connection and for each reply
LONGEST_REPLY = 1 << 18  # bytes; a list of 20,000 VPNs has 220,018, other replies below 10,000
TRIES = 10  # at an order that is to stand once, a connection each
PAUSE = 0.2  # seconds before the second of them, and twice as long before each one after it


# ---- Faults.


class ConnectionLost(ConnectionError):
    """The server is not there, or closed the connection."""

    def __init__(self, what: str, unanswered: Optional[str] = None):
        super().__init__(what)
        self.unanswered = unanswered


class NoAnswer(ConnectionLost):
    """The server did not answer in time."""


class MalformedReply(Exception):
    """What came is no reply to the command."""

    def __init__(self, what: str, unanswered: Optional[str] = None):
        super().__init__(what)
        self.unanswered = unanswered


FAULTS = (Refusal, ConnectionLost, MalformedReply)
"""All that a session raises of what the server does."""

# ---- Connections.


Place = Union[int, str]
"""A port, or the path of a Unix socket."""


def connected(host: str, place: Place, timeout: Optional[float]) -> socket.socket:
    """A connection to a port of a host, or to a Unix socket."""
    if isinstance(place, int):
        opened = socket.create_connection((host, place), timeout)
        opened.setsockopt(socket.IPPROTO_TCP, socket.TCP_NODELAY, 1)
        return opened
    opened = socket.socket(socket.AF_UNIX)
    opened.settimeout(timeout)
    try:
        opened.connect(place)
    except OSError:
        opened.close()
        raise
    return opened


class Lines:
    """A connection to whoever answers each line with one line."""

    def __init__(self, host: str, place: Place, timeout: Optional[float] = TIMEOUT):
        self.peer, self.timeout = f"{host}:{place}" if isinstance(place, int) else place, timeout
        self.unanswered: Optional[str] = None
        self._left = b""
        try:
            self._socket = connected(host, place, timeout)
        except OSError as fault:
            raise self.lost(fault) from None

    def ask(self, line: str) -> str:
        """The line that answers a line, both without line feed."""
        if "\n" in line:
            raise ValueError("a line feed within a line")
        if self.unanswered is not None:
            what = f"{self.peer} is not asked after a line without a reply"
            raise ConnectionLost(what, self.unanswered)
        if self._left:
            raise self.malformed(f"says more than it was asked: {self.shown()}")
        self.unanswered = line
        try:
            if self._socket.gettimeout() != self.timeout:
                self._socket.settimeout(self.timeout)
            self._socket.sendall(f"{line}\n".encode("utf-8", "surrogateescape"))
            reply = self._line()
        except OSError as fault:
            raise fault if isinstance(fault, ConnectionLost) else self.lost(fault) from None
        self.unanswered = None
        return reply

    def _line(self) -> str:
        end = None if self.timeout is None else time.monotonic() + self.timeout
        self._take()
        while b"\n" not in self._left:
            if len(self._left) > LONGEST_REPLY:
                raise self.malformed(f"answers without a line feed: {self.shown()}")
            if end is not None:
                self._socket.settimeout(max(end - time.monotonic(), 1e-6))
            self._take()
        line, _, self._left = self._left.partition(b"\n")
        try:
            return line.decode("ascii")
        except UnicodeDecodeError:
            raise self.malformed(f"answers what is no text: {ascii(line[:40])}") from None

    def _take(self) -> None:
        piece = self._socket.recv(1 << 16)
        if not piece:
            where = f" in mid-line, after {self.shown()}" if self._left else ""
            raise ConnectionLost(f"{self.peer} closed the connection{where}", self.unanswered)
        self._left += piece

    def shown(self) -> str:
        return ascii(self._left[:40].decode("latin-1"))

    def lost(self, fault: OSError) -> ConnectionLost:
        if isinstance(fault, socket.timeout):
            what = f"{self.peer} did not answer in {self.timeout:g} s"
            return NoAnswer(what, self.unanswered)
        return ConnectionLost(f"{self.peer}: {fault.strerror or fault}", self.unanswered)

    def malformed(self, what: str) -> MalformedReply:
        return MalformedReply(f"{self.peer} {what}", self.unanswered)

    def close(self) -> None:
        self._socket.close()


# ---- Sessions.



def done(command: str):
    """The kind of reply to a command where it is not refused."""
    (kind,) = (kind for kind in KINDS
               if kind.line in COMMANDS[command].replies and not issubclass(kind, Refusal))
    return kind


DONE = {
    "hello": Welcome, **{command: done(command) for command in COMMANDS}, "bye": Bye,
    "end": Ending, "figures": Figures,
}
# The field that repeats the number of a command.
REPEATS = {
    Released: "id", Vpn: "id", NoVpn: "id", NoQuote: "quote",
    LinkState: "link", Down: "link", Up: "link", Already: "link",
}


def answers(reply: Reply, line: str) -> bool:
    """Whether a reply may be that to a line."""
    command, number = (line.split() + ["", ""])[:2]
    repeated = REPEATS.get(type(reply))
    if repeated and str(getattr(reply, repeated)) != number:
        return False
    if isinstance(reply, Newest):
        return command == "admit-after" and str(reply.id) != number
    return isinstance(reply, (Refusal, DONE.get(command, ())))


def hose(ends: Mapping[str, int]) -> str:
    return " ".join(f"{name}:{rate}" for name, rate in ends.items())


class Session:
    """A session of one customer, who was greeted. `timeout` is in seconds; None waits forever."""

    def __init__(self, host: str, port: Place, customer: str, timeout: Optional[float] = TIMEOUT):
        self._lines = Lines(host, port, timeout)
        self._over = False
        try:
            self.welcome = self._do("hello", customer)
        except BaseException:
            self._end()
            raise

    @property
    def timeout(self) -> Optional[float]:
        return self._lines.timeout

    @timeout.setter
    def timeout(self, timeout: Optional[float]) -> None:
        self._lines.timeout = timeout

    def admit(self, ends: Mapping[str, int]) -> Admitted:
        """A VPN between nodes, each with a rate that bounds what it sends and is sent."""
        return self._do("admit", hose(ends))

    def admit_after(self, known: int, ends: Mapping[str, int]) -> Admitted:
        """The same where `known` is the customer's newest live VPN, or 0 and there is none; else
        `Newest` is raised, and nothing is done."""
        return self._do("admit-after", known, hose(ends))

    def quote(self, ends: Mapping[str, int]) -> Quoted:
        """What `admit` would give now; the server keeps it for `take`, and reserves nothing."""
        return self._do("quote", hose(ends))

    def take(self, quote: int) -> Admitted:
        return self._do("take", quote)

    def release(self, id: int) -> Released:
        return self._do("release", id)

    def show(self, id: int) -> Vpn:
        return self._do("show", id)

    def vpns(self) -> Vpns:
        """The customer's live VPNs."""
        return self._do("vpns")

    def link(self, link: int) -> LinkState:
        return self._do("link", link)

    def down(self, link: int) -> Down:
        """Takes a link out of service, so that no new tree uses it; for `operator` alone."""
        return self._do("down", link)

    def up(self, link: int) -> Up:
        """Puts a link back into service; for `operator` alone."""
        return self._do("up", link)

    def end(self) -> Ending:
        """Ends a host, in order; for `operator` alone."""
        return self._do("end")

    def figures(self) -> Figures:
        """What a host counted since its start; for `operator` alone."""
        return self._do("figures")

    def bye(self) -> None:
        """Ends the session; where it is over already, nothing."""
        if not self._over:
            self._do("bye")

    def reply_to(self, line: str) -> Reply:
        """The reply to any line of a session; a refusal is returned, and not raised."""
        if self._over:
            raise ConnectionLost("the session is over")
        try:
            told = self._lines.ask(line)
            reply = read_reply(told)
            if reply is None or not answers(reply, line):
                what = f"{networks.shown(line)} is answered {networks.shown(told)}"
                raise MalformedReply(f"{self._lines.peer}: {what}, which is no reply to it", line)
        except (ConnectionLost, MalformedReply):
            self._end()
            raise
        if isinstance(reply, (Bye, Ending)):
            self._end()
        return reply

    def _do(self, *words):
        """The reply to a command whose words stand in its line as they are."""
        line = " ".join(map(str, words))
        if not line.isprintable() or not line.isascii():
            raise ValueError(f"{line!r} is no line of a session")
        reply = self.reply_to(line)
        if isinstance(reply, Refusal):
            raise reply
        return reply

    def break_off(self) -> None:
        """Ends the session without a word."""
        self._end()

    def _end(self) -> None:
        self._over = True
        self._lines.close()

    def __enter__(self) -> "Session":
        return self

    def __exit__(self, kind, fault, trace) -> None:
        try:
            # After an interrupt while a reply was waited for, what comes is not that to `bye`.
            if self._lines.unanswered is None:
                self.bye()
        except FAULTS:
            if kind is None:
                raise
        finally:
            self._end()


# ---- Orders that stand once, whatever becomes of connections.


class InDoubt(Exception):
    """An order of which no answer says whether it stands, or will."""

    def __init__(self, known: int, fault: Exception):
        super().__init__(str(fault))
        self.known = known
        """The number by which a later call of `order_once` goes on from there."""


class Customer:
    """A customer whose connections may break off, at a server that may be gone for some time.

        customer = Customer("127.0.0.1", 7000, "acme")
        vpn = customer.order_once({"a": 3, "b": 4})

    A call opens a session, and another one wherever that is lost, until there were `tries` of them.
    """

    def __init__(self, host: str, port: Place, customer: str, timeout: Optional[float] = TIMEOUT,
                 tries: int = TRIES, pause: float = PAUSE):
        self._words = host, port, customer, timeout
        self._tries, self._pause = tries, pause

    def newest(self) -> int:
        """The number of the newest live VPN; 0 where there is none."""
        return self._again(lambda session: session.vpns().newest())

    def order_once(self, ends: Mapping[str, int], known: Optional[int] = None) -> Admitted:
        """Admits one VPN between these nodes, and no second one where a reply is lost.

        The order is bound to the newest VPN that is known. Where its reply is lost and that VPN is
        still the newest, the same line is given again: of both one at most is admitted, whichever
        comes first. Where another one is the newest, the first after that which was known is shown;
        with these ends it is the one that was ordered, and else another session's order came
        before, and this one is given anew.

        That holds where no VPN of the customer is released meanwhile, and no other session of the
        customer orders the same ends. Raises what an answer refuses; where it is not known whether
        the order stands `InDoubt`, after which a call with its `known` goes on; and else, where no
        session came about, `ConnectionLost` or `MalformedReply`."""
        order = Order(self.newest() if known is None else known, dict(ends), known is not None)
        try:
            return self._again(order.give)
        except FAULTS as fault:
            if order.is_in_doubt:
                raise InDoubt(order.known, fault) from fault
            raise

    def _again(self, step: Callable):
        """What a step in a session gives, in a new session wherever one is lost."""
        pause = self._pause
        for left in reversed(range(self._tries)):
            found = None
            try:
                with Session(*self._words) as session:
                    found = step(session)
            except (ConnectionLost, MalformedReply, DiskFailed):
                if found is None and not left:
                    raise
            if found is not None:
                return found
            time.sleep(pause)
            pause *= 2
        raise ValueError("no session is allowed")


class Order:
    """An order that is to stand once, and what is known of it."""

    def __init__(self, known: int, ends: Dict[str, int], is_in_doubt: bool):
        self.known, self.ends = known, ends
        self.is_in_doubt = is_in_doubt
        """Whether it was given, and no answer says whether it stands, or will."""
        self._done: Optional[Admitted] = None

    def give(self, session: Session) -> Admitted:
        """Gives the order in this session, where it does not stand by now."""
        while not self._done:
            if self.is_in_doubt:
                self.look(session)
            if not self._done:
                self._try(session)
        return self._done

    def _try(self, session: Session) -> None:
        was_in_doubt, self.is_in_doubt = self.is_in_doubt, True
        try:
            self._done = session.admit_after(self.known, self.ends)
        except Newest as newest:
            # Of an order in doubt it tells nothing: the first line may stand by now.
            self.is_in_doubt = was_in_doubt
            self.known = self.known if was_in_doubt else newest.id
        except DiskFailed:
            raise
        except Refusal:
            self.is_in_doubt = was_in_doubt
            raise

    def look(self, session: Session) -> Optional[Admitted]:
        """Looks whether the first VPN after the one that was known is the one that was ordered."""
        vpns = session.vpns()
        after = [id for id in vpns.ids if id > self.known][:1]
        vpn = session.show(after[0]) if after else None
        if vpn and vpn.ends == self.ends:
            self._done = Admitted(vpn.id, vpn.cost, vpn.id, vpn.links)
        elif vpns.newest() != self.known:
            self.known, self.is_in_doubt = vpns.newest(), False
        return self._done


# ---- The program.

DESCRIPTION = """\
Gives one command to `hosed host` or `hosed serve` as a customer, and prints the reply; without
a COMMAND, each line of standard input up to `bye`, all in one session, as a `take` needs after its
`quote`. PORT is a number, or the path of a Unix socket.

Without a COMMAND at a terminal it is a shell: the prompt tells the epoch, Tab completes commands,
nodes and your VPNs' numbers, `help` tells the commands, and lines are kept in ~/.hosed_history, or
the file HOSED_HISTORY. Where the connection is lost it is opened anew, and an `admit` stands once.
"""
EPILOG = """\
commands:
  admit NAME:RATE ..    admit-after K NAME:RATE ..    quote NAME:RATE ..    take Q    release ID
  show ID    vpns    link L    down L    up L    (the last two as the customer operator)
  end    figures    (both as operator, to a host: it ends in order; what it counted)

with --once COMMAND is an `admit`, and one VPN comes of it, whatever becomes of connections: it is
given as `admit-after K`, and looked for where a reply is lost (docs/OPERATING.md, "Stop").

examples, with a server that was started by `./hosed serve demo/star.txt port.journal 7000 9 2`:
  python3 tools/client.py 7000 acme admit a:3 b:4
  printf 'quote a:2 b:2\\ntake 1\\n' | python3 tools/client.py 7000 acme

status:
  0 each command was done; 1 the server refused one, and its reply says why; 2 these words are not
  allowed, or the server is not there, breaks off, or answers otherwise than hosed
the module, for programs:
  PYTHONPATH=tools python3 -m pydoc client
"""


def port_number(text: str) -> int:
    if not re.fullmatch("[1-9][0-9]{0,4}", text) or int(text) > 65535:
        raise argparse.ArgumentTypeError(f"{text!r} is no port: 1 to 65535")
    return int(text)


def place(text: str) -> Place:
    """A port, or the path of a Unix socket, which is no number."""
    return port_number(text) if re.fullmatch("[0-9]*", text) else text


def seconds(text: str) -> float:
    if not re.fullmatch(r"[0-9]{1,6}(\.[0-9]{1,6})?", text) or float(text) == 0:
        raise argparse.ArgumentTypeError(f"{text!r} is no time in seconds, as 2 or 0.5")
    return float(text)


def parser_of_words() -> argparse.ArgumentParser:
    parser = argparse.ArgumentParser(
        description=DESCRIPTION, epilog=EPILOG, formatter_class=argparse.RawTextHelpFormatter
    )
    parser.add_argument("--host", default=HOST, help=f"where the server is ({HOST})")
    parser.add_argument(
        "--timeout", type=seconds, default=TIMEOUT, metavar="SECONDS",
        help=f"for the connection and for each reply ({TIMEOUT:g})",
    )
    parser.add_argument("--table", action="store_true", help="print replies as tables")
    parser.add_argument("--once", action="store_true", help="see below")
    parser.add_argument(
        "--known", type=int, metavar="K", help="with --once, the K of a call that ended in doubt"
    )
    parser.add_argument("port", type=place, metavar="PORT")
    parser.add_argument("customer", metavar="CUSTOMER")
    command = parser.add_argument(
        "command", nargs=argparse.REMAINDER, metavar="COMMAND", help="see below"
    )
    command.required = False
    return parser


def commands(words) -> Iterable[str]:
    """The commands to give: that of the program's words, or the lines of the input up to `bye`."""
    if words:
        yield " ".join(words)
        return
    if sys.stdin is None:
        raise networks.WrongInput("standard input is closed")
    for line in sys.stdin.buffer:
        text = line.rstrip(b"\n").decode("utf-8", "surrogateescape")
        if text.split() == ["bye"]:
            return
        yield text


def greeted(given) -> Session:
    try:
        return Session(given.host, given.port, given.customer, given.timeout)
    except Refusal as refusal:
        what = f"the server takes no customer {ascii(given.customer)}: {refusal}"
        raise networks.WrongInput(what) from None


def told_as(reply: Reply, is_tabled: bool) -> str:
    return reply_tables.tabled(reply) if is_tabled else str(reply)


def talk(given) -> bool:
    """Whether each command was done."""
    done = True
    with greeted(given) as session:
        for command in commands(given.command):
            reply = session.reply_to(command)
            print(told_as(reply, given.table), flush=True)
            done = done and not isinstance(reply, Refusal)
    return done


def is_hose(words) -> bool:
    """Whether words are endpoints by their form: two or more, each of another node."""
    names = {word.partition(":")[0] for word in words}
    return (len(words) > 1 and len(names) == len(words)
            and all(re.fullmatch(f"{NAME}:{NUMBER}", word) for word in words))


def ends_of(words) -> Dict[str, int]:
    """The endpoints of an `admit` that is to stand once."""
    found = {}
    for word in words[1:]:
        name, _, rate = word.partition(":")
        if not re.fullmatch(f"{NAME}:{NUMBER}", word) or name in found:
            raise networks.WrongInput(f"{ascii(word)} is no further endpoint, as a:3")
        found[name] = int(rate)
    if words[:1] != ["admit"] or len(found) < 2:
        raise networks.WrongInput("with --once stands `admit NAME:RATE ..`, of two nodes or more")
    return found


def order_once(given) -> bool:
    """Whether a VPN came of an order that is to stand once."""
    customer = Customer(given.host, given.port, given.customer, given.timeout)
    try:
        admitted = customer.order_once(ends_of(given.command), given.known)
        print(told_as(admitted, given.table), flush=True)
    except InDoubt as fault:
        what = f"it may have been done; --known {fault.known} goes on from there"
        raise networks.WrongInput(f"{fault}; {what}") from None
    except Refusal as refusal:
        print(told_as(refusal, given.table), flush=True)
        return False
    return True


def doubt_of(line: Optional[str]) -> str:
    """What is to be said of a line without a reply."""
    is_order = (line or "").split(" ")[0] in ORDERS
    return f"; {networks.shown(line)} may have been done" if is_order else ""


def is_at_terminal() -> bool:
    return all(stream is not None and stream.isatty() for stream in (sys.stdin, sys.stdout))


def main() -> None:
    parser = parser_of_words()
    given = parser.parse_args()
    if any("\n" in word for word in given.command):
        parser.error("a command is one line")
    if not given.once and not given.command and is_at_terminal():
        import client_shell  # which imports this module
        client_shell.run(given)
        return
    try:
        done = order_once(given) if given.once else talk(given)
    except (ConnectionLost, MalformedReply) as fault:
        raise networks.WrongInput(f"{fault}{doubt_of(fault.unanswered)}") from None
    except ValueError as fault:
        raise networks.WrongInput(str(fault)) from None
    if not done:
        sys.exit(1)


if __name__ == "__main__":
    from client import main  # the module that the shell imports, too
    sys.exit(networks.status_of(main))
