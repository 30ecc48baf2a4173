"""A shell for a customer, as tools/client.py is at a terminal: a prompt with the epoch, history and
completion by readline, help, and a session that is opened anew where it is lost.

An `admit` is given as `admit-after K`, with K for the customer's newest VPN, so that one VPN comes
of it whatever becomes of connections, as with `client.Customer.order_once`. Questions, releases,
and links that go out of service or back are given again after a loss, which changes nothing where
the line that was lost was done. A `take` is not, since its quote may be gone, nor is an `end`.
"""
import os
import time
from typing import Callable, Dict, List, NamedTuple, Optional

import client
import networks
from lines import COMMANDS, ENDS, ORDERS, usage
from reply_tables import tabled

try:
    import readline
except ImportError:  # a Python without it: lines are read as they come
    readline = None

HISTORY, MOST_HISTORY = "~/.hosed_history", 1_000
LEARNING = 2.0  # seconds in which the nodes are asked for, link by link
PAUSE, MOST_PAUSE, TRIES = 0.2, 10.0, 12
LOST = client.ConnectionLost, client.MalformedReply


class Help(NamedTuple):
    usage: str
    what: str


HOSE = f"{ENDS}: 2 to 64 nodes, each with the rate that it sends and is sent together."
OPERATOR = "for the customer `operator` alone."
HELPS: Dict[str, Help] = {
    "admit": Help(usage("admit"), f"""{HOSE}
Admits a VPN: `admitted ID cost C at N links L:R ..`, or `refused at N side ..` where the links that
lead out of the side are too full. Here it is given as `admit-after`, so that one VPN comes of it
also where the connection is lost."""),
    "admit-after": Help(usage("admit-after"), f"""{HOSE}
Admits a VPN where K is your newest one, or 0 and you have none; else `newest M at N`, and nothing
is done."""),
    "quote": Help(usage("quote"), f"""{HOSE}
Plans as `admit` does, and reserves nothing: `quoted Q cost C at N links L:R ..`. 16 are held."""),
    "take": Help(usage("take"), """\
Admits what was quoted under the number Q, or says `stale S N` where what decides has changed."""),
    "release": Help(usage("release"), "Gives your VPN ID up, and frees what it reserved."),
    "show": Help(usage("show"), "Your VPN ID: what it costs, its endpoints, its links."),
    "vpns": Help(usage("vpns"), "The numbers of your live VPNs, in the order of their admission."),
    "link": Help(usage("link"), """\
The link L: its nodes, capacity, cost and load, and `out` where it is out of service."""),
    "down": Help(usage("down"), f"Takes the link L out of service; {OPERATOR}"),
    "up": Help(usage("up"), f"Puts the link L back into service; {OPERATOR}"),
    "end": Help("end", f"""\
Ends a host: `ending at N`. No line of anyone is answered after it; {OPERATOR}"""),
    "figures": Help("figures", f"""\
What a host counted since its start, as connections, lines, and orders by their replies, and how
long orders and quotes took; {OPERATOR}"""),
    "help": Help("help [COMMAND]", "The commands, or one of them."),
    "table": Help("table", "Replies as tables, or as lines again."),
    "again": Help("again", """\
Goes on with the last `admit` whose reply was lost: it is looked for, and given again where it does
not stand."""),
    "bye": Help("bye", "Ends the shell; so does the end of the input, by Ctrl-D."),
}


class Left(Exception):
    """The shell is left."""


# ---- What a session knows.


class Known:
    """What completion offers: nodes and links, asked link by link once, own VPNs, and quotes."""

    def __init__(self):
        self.nodes: List[str] = []
        self.links = 0
        self.vpns: List[int] = []
        self.quotes: List[int] = []

    def learn_network(self, session: client.Session) -> None:
        last = time.monotonic() + LEARNING
        while not self.nodes or time.monotonic() < last:
            link = session.reply_to(f"link {self.links}")
            if not isinstance(link, client.LinkState):
                return
            self.links += 1
            self.nodes += [name for name in (link.a, link.b) if name not in self.nodes]

    def take(self, reply: client.Reply) -> None:
        """Notes what a reply tells of."""
        if isinstance(reply, client.Vpns):
            self.vpns = list(reply.ids)
        elif isinstance(reply, client.Quoted):
            self.quotes = sorted({*self.quotes, reply.quote})

    def offered(self, words: List[str]) -> List[str]:
        """What may stand behind words of a line."""
        if not words:
            return [f"{name} " for name in HELPS]
        command, *said = words
        if command == "help":
            return [name for name in HELPS if not said]
        fields = COMMANDS[command].fields if command in COMMANDS else ()
        field = fields[min(len(said), len(fields) - 1)] if fields else None
        if field == ENDS:
            named = {word.partition(":")[0] for word in said}
            return [f"{name}:" for name in self.nodes if name not in named]
        if len(said) >= len(fields):
            return []
        if field == "K":
            return [f"{self.vpns[-1] if self.vpns else 0} "]
        numbers = {"ID": self.vpns, "Q": self.quotes, "L": range(self.links)}
        return [str(number) for number in numbers[field]]


# ---- The shell.


class Shell:
    """`connect` opens a session, `read` gives a line at a prompt and raises `EOFError` at the end,
    and `say` writes one."""

    def __init__(self, customer: str, connect: Callable[[], client.Session],
                 read: Callable[[str], str] = input, say: Callable[[str], None] = print,
                 is_tabled: bool = False, pause: float = PAUSE):
        self.customer, self.connect, self.read, self.say = customer, connect, read, say
        self.is_tabled, self.pause, self.tries = is_tabled, pause, TRIES
        self.known = Known()
        self.epoch: Optional[int] = None
        self.in_doubt: Optional[client.Order] = None
        """An `admit` of which no answer says whether it stands."""
        self._session: Optional[client.Session] = None

    def run(self) -> None:
        self.session()
        while True:
            try:
                self.do(self.read(self.prompt()))
            except KeyboardInterrupt:
                self.say("")
            except (EOFError, Left):
                break
        self.leave()

    def prompt(self) -> str:
        where = f"at {self.epoch}" if self._session else "(not connected)"
        return f"{self.customer} {where}> "

    def do(self, line: str) -> None:
        """Does what a line says."""
        words = line.split()
        if not words:
            return
        if words in (["bye"], ["quit"], ["exit"]):
            raise Left
        try:
            if words[0] == "help":
                self.help(words[1:])
            elif words == ["table"]:
                self.is_tabled = not self.is_tabled
            elif words == ["again"]:
                self.go_on()
            else:
                self.show(self.answer(line, words))
        except LOST as fault:
            self.drop()
            self.say(f"{fault}{self.doubt(words)}")
        except KeyboardInterrupt:
            self.drop()
            self.say(f"\nleft{self.doubt(words)}")

    def doubt(self, words: List[str]) -> str:
        """What is to be said of a line whose reply did not come."""
        if self.in_doubt:
            return "; it may have been done: `again` goes on with it"
        is_order = words[0] in ORDERS
        return f"; `{' '.join(words)}` may have been done" if is_order else ""

    def help(self, words: List[str]) -> None:
        if words and words[0] in HELPS:
            self.say(f"{HELPS[words[0]].usage}\n{HELPS[words[0]].what}")
            return
        if words:
            self.say(f"there is no command {words[0]}")
        for name in HELPS:
            self.say(f"  {HELPS[name].usage}")
        self.say("`help COMMAND` tells more; docs/GUIDE.md has every reply")

    def show(self, reply: client.Reply) -> None:
        self.note(reply)
        self.say(tabled(reply) if self.is_tabled else str(reply))
        if isinstance(reply, client.Ending):
            raise Left

    def note(self, reply: client.Reply) -> None:
        self.epoch = getattr(reply, "epoch", self.epoch)
        self.known.take(reply)

    # ---- Its session.

    def session(self) -> client.Session:
        if self._session is None:
            self._session = self.connect()
            self.note(self._session.welcome)
            self.known.quotes = []
        return self._session

    def drop(self) -> None:
        """Ends a session that is of no use any more."""
        if self._session:
            self._session.break_off()
        self._session = None

    def leave(self) -> None:
        try:
            if self._session:
                self._session.bye()
        except client.FAULTS:
            pass
        self.drop()

    def again(self, step: Callable):
        """What a step in a session gives, in a new one wherever that is lost."""
        pause, said = self.pause, ""
        for left in reversed(range(self.tries)):
            try:
                return step(self.session())
            except LOST as fault:
                self.drop()
                if not left:
                    raise
                if str(fault) != said:
                    self.say(f"{fault}; connecting again")
                said = str(fault)
            time.sleep(pause)
            pause = min(2 * pause, MOST_PAUSE)
        raise ValueError("no session is allowed")

    # ---- Lines.

    def answer(self, line: str, words: List[str]) -> client.Reply:
        """The reply to a line, also where its session is lost."""
        if words[0] == "admit" and client.is_hose(words[1:]):
            ends = client.ends_of(words)
            if self.in_doubt and self.in_doubt.ends == ends:
                return self.give(self.in_doubt)
            newest = self.again(lambda session: session.vpns().newest())
            return self.give(client.Order(newest, ends, False))
        if words[0] in ("take", "end"):  # a host that was begun anew is not ended by the same line
            return self.session().reply_to(line)
        is_new = True

        def step(session: client.Session) -> client.Reply:
            nonlocal is_new
            if words[0] == "admit-after" and client.is_hose(words[2:]) and not is_new:
                return self.settled(session, line, words)
            is_new = False
            return session.reply_to(line)

        return self.again(step)

    def give(self, order: client.Order) -> client.Reply:
        """Gives an `admit` so that one VPN comes of it."""
        reply: Optional[client.Reply] = None
        try:
            reply = self.again(order.give)
        except client.Bad as bad:
            reply = client.Bad(bad.word - 1)  # the line has one word more than what was typed
        except client.Refusal as refusal:
            reply = refusal
        finally:
            is_done = isinstance(reply, client.Admitted)
            self.in_doubt = order if order.is_in_doubt and not is_done else None
        return reply

    def settled(self, session: client.Session, line: str, words: List[str]) -> client.Reply:
        """The reply to an `admit-after` whose first one was lost."""
        known = int(words[1]) if words[1].isdigit() else 0
        order = client.Order(known, client.ends_of(["admit", *words[2:]]), True)
        found = order.look(session)
        return found if found else session.reply_to(line)

    def go_on(self) -> None:
        if self.in_doubt is None:
            self.say("no `admit` is in doubt")
        else:
            self.show(self.give(self.in_doubt))

    # ---- Completion.

    def completions(self, line: str, typed: str) -> List[str]:
        """What the last word of a line, of which a part is typed, may become."""
        words = line[:len(line) - len(typed)].split()
        try:
            if words and self._session:
                self.learn(words[0])
        except LOST:
            self.drop()
        return [one for one in self.known.offered(words) if one.startswith(typed)]

    def learn(self, command: str) -> None:
        """Asks for what the words of a command are."""
        fields = COMMANDS[command].fields if command in COMMANDS else ()
        if "ID" in fields or "K" in fields:
            self.known.take(self._session.vpns())
        if (ENDS in fields or "L" in fields) and not self.known.nodes:
            self.known.learn_network(self._session)


# ---- At a terminal.


def complete_by(shell: Shell) -> None:
    """Has readline complete words, and keep lines in a file of the user's own."""
    found: List[str] = []

    def complete(typed: str, number: int) -> Optional[str]:
        if number == 0:
            found[:] = shell.completions(readline.get_line_buffer()[:readline.get_endidx()], typed)
        return found[number] if number < len(found) else None

    readline.set_completer_delims(" ")
    readline.set_completer(complete)
    is_libedit = "libedit" in (readline.__doc__ or "")
    readline.parse_and_bind("bind ^I rl_complete" if is_libedit else "tab: complete")


def history_file() -> str:
    return os.path.expanduser(os.environ.get("HOSED_HISTORY", HISTORY))


def read_history() -> None:
    readline.set_history_length(MOST_HISTORY)
    try:
        readline.read_history_file(history_file())
    except OSError:
        pass  # there is none yet


def keep_history() -> None:
    """Keeps the lines for the next time, for their owner alone to read."""
    try:
        os.close(os.open(history_file(), os.O_WRONLY | os.O_CREAT, 0o600))
        readline.write_history_file(history_file())
    except OSError:
        pass  # as in a folder where nothing may be written


def run(given) -> None:
    """The shell of a customer at a terminal. Raises `WrongInput` where no session comes about."""
    shell = Shell(given.customer, lambda: client.greeted(given), is_tabled=given.table)
    try:
        shell.session()
    except LOST as fault:
        raise networks.WrongInput(str(fault)) from None
    print(f"{given.customer} at epoch {shell.epoch}; `help` tells the commands, Tab completes them")
    if readline:
        complete_by(shell)
        read_history()
    try:
        shell.run()
    finally:
        if readline:
            keep_history()
