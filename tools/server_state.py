"""What is seen of a server from beside it: whether a program has its journal open, whether it
answers a question, what a host tells its operator, and what tools/standby.py writes into a file.

Nothing of this asks anything of a server but to answer a question as a customer, or a host to tell
its figures.
"""
import os
import re
import time
from typing import Dict, Iterator, List, Optional

import client
import replies
from figures import Family, Histogram, Sample, gauge

LOCKS = "/proc/locks"
LOCK = re.compile(r"[0-9]+: (?!->).* ([0-9a-f]+:[0-9a-f]+):([0-9]+) [0-9]+ \S+")
PATIENCE = 5.0  # seconds for an answer
FRESH = 30.0  # seconds for which a file of figures holds; standby.py writes its own every few
NAME, OPERATOR = "metrics", "operator"


def is_held(path: str, locks: str = LOCKS) -> Optional[bool]:
    """Whether a program holds a lock on a file, as a server does on its journal; None where the
    system does not tell."""
    try:
        state = os.stat(path)
        with open(locks, encoding="ascii") as file:
            held = LOCK.findall(file.read())
    except (OSError, ValueError):
        return None
    device = f"{os.major(state.st_dev):02x}:{os.minor(state.st_dev):02x}"
    is_of_disk = os.major(state.st_dev) > 0  # else the system may name another device there
    return any(inode == str(state.st_ino) and (there == device or not is_of_disk)
               for there, inode in held)


def free_bytes(path: str) -> int:
    """How many bytes the file system of a file has left for a program that is not root."""
    state = os.statvfs(path)
    return state.f_bavail * state.f_frsize


class Question:
    """A session that is asked the same line each time, and the times that answers took. It is
    opened anew where it is lost."""

    line = "link 0"

    def __init__(self, place: client.Place, customer: str = NAME, patience: float = PATIENCE):
        self._words = client.HOST, place, customer, patience
        self._session: Optional[client.Session] = None
        self.answers = False
        self.reply: Optional[client.Reply] = None
        """The last answer, where there was one."""
        self.seconds = Histogram()

    def ask(self) -> None:
        before = time.monotonic()
        try:
            if self._session is None:
                self._session = client.Session(*self._words)
            self.reply = self._session.reply_to(self.line)
            self.answers = True
            self.seconds.add(time.monotonic() - before)
        except client.FAULTS:
            self.close()
            self.answers = False

    def close(self) -> None:
        if self._session:
            self._session.break_off()
        self._session = None

    def families(self) -> Iterator[Family]:
        yield gauge("hosed_answers", "1 where the server answered a question just now, else 0.",
                    int(self.answers))
        yield Family("hosed_answer_seconds", "histogram",
                     "Seconds from that question to its answer.", self.seconds.samples())


# The figures of a host that each tell how many replies of a kind there were.
REPLIES = "admitted", "refused", "released", "down", "up", "disk", "memory"
# Those that tell how many orders and quotes took longer than so many seconds.
SLOWER = {"0.0001": "over_100us", "0.001": "over_1ms", "0.01": "over_10ms", "0.1": "over_100ms",
          "1.0": "over_1s", "10.0": "over_10s"}


class HostQuestion(Question):
    """A session of a host's operator, which is asked for the host's figures."""

    line = "figures"

    def __init__(self, place: client.Place, patience: float = PATIENCE):
        super().__init__(place, OPERATOR, patience)

    def ask(self) -> None:
        """Of a host that was begun anew the session of before is lost, and it answers another."""
        was_there = self._session is not None
        super().ask()
        if was_there and not self.answers:
            super().ask()

    def told(self) -> Optional[client.Figures]:
        """What the host told just now."""
        is_told = self.answers and isinstance(self.reply, client.Figures)
        return self.reply if is_told else None

    def families(self) -> Iterator[Family]:
        told = self.told()
        yield gauge("hosed_up", "1 where the host told its operator its figures just now, else 0.",
                    int(told is not None))
        yield Family("hosed_answer_seconds", "histogram",
                     "Seconds from that question to its answer.", self.seconds.samples())
        if told:
            yield from of_host(told, time.time())


def of_host(told: client.Figures, now: float) -> Iterator[Family]:
    """What a host counted since its start, and told at this time."""
    yield gauge("hosed_host_connections", "Connections at this moment.", told.connections)
    yield gauge("hosed_host_connections_ever",
                "Connections that are there or gave a line, since the start.", told.ever)
    yield Family("hosed_host_lines_total", "counter", "Lines that were answered since the start.",
                 [Sample({}, told.lines)])
    yield Family("hosed_host_replies_total", "counter",
                 "Replies to orders and of failures since the start, by the first word.",
                 [Sample({"reply": reply}, getattr(told, reply)) for reply in REPLIES])
    yield Family("hosed_host_log_lines_lost_total", "counter",
                 "Lines of the log that could not be written.", [Sample({}, told.lost)])
    yield Family("hosed_host_reply_seconds", "histogram",
                 "Seconds from when the host took an order, or a line that asks for a quote, to "
                 "its reply, with the disk's syncs.",
                 list(reply_times(told)))
    yield gauge("hosed_host_last_sync_time_seconds",
                "When an order was on the disk last, or the host began, in seconds since 1970.",
                f"{now - told.synced / 1000:.3f}")
    yield gauge("hosed_host_epoch", "Orders in the host's book.", told.epoch)
    if isinstance(told, replies.FiguresWithStandby):
        yield gauge("hosed_host_standby_epoch", "Orders that the standby was heard to have.",
                    told.standby)
        yield gauge("hosed_host_alone", "1 where the host goes on without its standby, else 0.",
                    told.alone)


def reply_times(told: client.Figures) -> Iterator[Sample]:
    """How many orders and quotes a host answered within each of some times, as a histogram has
    them."""
    for bound, slower in SLOWER.items():
        yield Sample({"le": bound}, told.timed - getattr(told, slower), "_bucket")
    yield Sample({"le": "+Inf"}, told.timed, "_bucket")
    yield Sample({}, f"{told.took / 1e9:.6f}", "_sum")
    yield Sample({}, told.timed, "_count")


# ---- Files of figures.


class Figures:
    """Files which tools/standby.py replaces again and again."""

    def __init__(self, paths: List[str]):
        self.paths = paths

    def ages(self) -> Dict[str, float]:
        """How old each file is, in seconds; one that is not there is older than any."""
        found = {}
        for path in self.paths:
            try:
                found[path] = max(0.0, time.time() - os.stat(path).st_mtime)
            except OSError:
                found[path] = float("inf")
        return found

    def text(self) -> str:
        """What stands in those that are fresh: what is older holds no more."""
        return "".join(self._read(path) for path, age in self.ages().items() if age <= FRESH)

    def _read(self, path: str) -> str:
        try:
            with open(path, encoding="utf-8") as file:
                return file.read()
        except (OSError, ValueError):
            return ""

    def families(self) -> Iterator[Family]:
        if self.paths:
            yield Family("hosed_figures_age_seconds", "gauge",
                         "How old a file of figures is, of standby.py.",
                         [Sample({"file": path}, "+Inf" if age == float("inf") else f"{age:.3f}")
                          for path, age in self.ages().items()])
