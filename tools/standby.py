#!/usr/bin/env python3
"""Keeps a standby up to date: sends it the entries of a journal that a program writes to.

COMMAND is one that runs `hosed follow` on the standby, as `ssh standby hosed follow network.txt
orders.journal`. It is begun, asked how many entries it has and for their chain value, and gets what
it has not: the entries that are there, and then each that comes, as it comes. JOURNAL is read
without a lock and without a copy, as by tools/tail.py. Each second in which answers came, and at
the end, the last one is told on standard output: `have N`.

Where the link breaks, COMMAND ends, or the standby's disk or memory fails, that is told on standard
error, and COMMAND is begun again after 1 second, or up to 60 where it goes on so; its answers tell
where to go on. A COMMAND that answers nothing for 30 seconds is ended, or, before its first answer,
where it may have to log in and to read a long journal, for those of --start-seconds. As long as no
follower answers, that is told once a minute at least. It ends itself, with a sentence, where going
on means nothing:

- the journal is damaged, of another network, or cannot be read, at the start or for 5 seconds;
- the standby has entries that the journal has not, or other ones, in the same way. A follower says
  `have N` of packets of any history up to N, so its chain value is compared at each beginning;
- the standby's words, topology or journal are wrong, or it takes no entry of this journal;
- with --once, the standby has all that the journal has;
- with --give-up, no answer came for so many seconds.

To systemd it tells that it has started once the standby was compared with the journal, and then how
the standby is.

example, with a standby on the same machine:
  python3 tools/standby.py --once demo/star.txt orders.journal hosed follow demo/star.txt s.journal

status:
  0 with --once, the standby has all; 2 the words are not these, TOPOLOGY is none, or COMMAND cannot
  be begun; 5 the journal is damaged; 6 it is not there, or cannot be read; 12 it is of another
  network; 13 the standby has entries that it has not; 14 the standby refuses what it is given;
  15 no answer came for the seconds of --give-up
"""
import argparse
import re
import sys
import threading
from time import monotonic, sleep, time
from typing import Iterator, List, Optional

import figures
import following
import journals
import networks
import service
from follower_link import Ended, FollowerLink
from live_journal import JournalFault, LiveJournal

LEAST_PAUSE, MOST_PAUSE = 1, 16  # milliseconds between two looks at the journal
FULL = 262_144  # bytes that are not handed on, with which no more are read
BEAT, PATIENCE = 10, 30  # seconds without a packet, and without an answer
STARTING = 120  # seconds until a command's first answer
REMINDER = 60  # seconds between two sentences, while no follower answers
SETTLED = 5  # seconds for which a fault of the journal has to stay
AGAIN, MOST_AGAIN = 1, 60  # seconds before a command is begun again
UNSOUND = 3  # times in a row
REPORT, EVERY = 1, 5  # seconds between two lines, and between two writings of figures
REFUSALS = 1, 2, 5  # the statuses of a follower whose words, topology or journal are wrong


class Trouble(Exception):
    """What may pass: a link that broke, or a follower whose disk failed."""


class Refused(networks.WrongInput):
    status = 14


class NoAnswer(networks.WrongInput):
    status = 15


class Report:
    """What is told of a standby, and since when nothing is."""

    def __init__(self):
        self.have: Optional[int] = None
        self.told: Optional[int] = None
        self.heard = self.said = self.explained = monotonic()

    def takes(self, have: int) -> None:
        """Notes an answer: the standby has so many entries."""
        self.have, self.heard = have, monotonic()
        if self.heard - self.said >= REPORT:
            self.tell()

    def tell(self) -> None:
        if self.have != self.told:
            print(f"have {self.have}", flush=True)
            service.notify(f"STATUS=the follower has {following.counted(self.have)}")
        self.told, self.said = self.have, monotonic()

    def keep(self, path: str) -> None:
        """Writes the figures to a file again and again, also while nothing answers."""
        while True:
            try:
                figures.put(path, figures.exposed(self.families()))
            except OSError as fault:
                told(f"{path} cannot be written: {fault.strerror}")
            sleep(EVERY)

    def families(self) -> Iterator[figures.Family]:
        if self.have is not None:
            yield figures.gauge("hosed_standby_epoch", "Orders that the standby is known to have.",
                                self.have)
        yield figures.gauge("hosed_standby_heard_time_seconds",
                            "When the standby answered last, or else this program began, in "
                            "seconds since 1970.", f"{time() - self.silence():.3f}")

    def explain(self, sentence: str) -> None:
        """Tells how it is, to systemd too."""
        told(sentence)
        service.notify(f"STATUS={sentence}")
        self.explained = monotonic()

    def remind(self) -> None:
        """Tells once a minute that no follower answers."""
        silence = self.silence()
        if silence >= REMINDER and monotonic() - self.explained >= REMINDER:
            has = "nothing is known of it" if self.have is None else \
                f"it had {following.counted(self.have)}"
            self.explain(f"the follower is missing for {silence:.0f} s; {has}")

    def silence(self) -> float:
        return monotonic() - self.heard


class Session:
    """One run of the command, over a journal of which nothing was read yet."""

    def __init__(self, journal: LiveJournal, link: FollowerLink, report: Report,
                 starting: float = STARTING):
        self.journal, self.link, self.report = journal, link, report
        self.patience = starting
        self.have = 0
        self.asked = 0  # questions where it is that were not answered yet
        self.waiting = 0  # packets, these among them
        self.since = monotonic()  # when an answer came, or the first of these packets went

    def begin(self) -> None:
        """Asks where the follower is, and goes there."""
        self.have = following.asked_epoch(self.answer(following.ASK_EPOCH))
        question = following.ask_value(self.have)
        value = following.asked_value(self.answer(question), self.have)
        following.compare(self.journal, self.have, value)
        self.report.takes(self.have)

    def answer(self, packet: bytes) -> str:
        """The line that answers a packet, before which nothing is to be answered."""
        self.send([packet])
        lines: List[str] = []
        while not lines:
            lines = self.turn(MOST_PAUSE)
        if len(lines) > 1:
            raise Trouble(f"it answers {len(lines)} lines to one packet")
        return lines[0]

    def follow(self, once: bool) -> bool:
        """Sends entries and takes answers, as long as one run of the follower takes packets; or up
        to the end of the journal, and says whether it is there."""
        pause, is_all = LEAST_PAUSE, False
        while not is_all and self.link.sent + len(self.link.unsent) + FULL < following.MOST_INPUT:
            count = self.send_entries()
            lines = self.turn(0 if count else pause)
            for line in lines:
                self.take(line)
            pause = LEAST_PAUSE if count or lines else min(2 * pause, MOST_PAUSE)
            is_all = once and not count and not self.waiting
        self.end()
        return is_all

    def send_entries(self) -> int:
        """How many entries were sent; a question goes where there was none for long."""
        if len(self.link.unsent) >= FULL:
            return 0
        records = self.journal.read()
        self.send([following.packet_of(record) for record in records])
        if not self.waiting and monotonic() - self.since >= BEAT:
            self.send([following.ASK_EPOCH])
            self.asked += 1
        return len(records)

    def send(self, packets: List[bytes]) -> None:
        if packets and not self.waiting:
            self.since = monotonic()
        self.link.send(b"".join(packets))
        self.waiting += len(packets)

    def turn(self, pause: int) -> List[str]:
        """The lines that came after a while. Raises `Trouble` where they are late."""
        lines = self.link.turn(pause)
        if lines:
            self.since, self.patience = monotonic(), PATIENCE
            self.waiting -= len(lines)
        elif self.waiting and monotonic() - self.since >= self.patience:
            raise Trouble(f"it answers nothing for {self.patience} seconds")
        else:
            self.report.remind()
        return lines

    def take(self, line: str) -> None:
        """Takes a line that answers an entry, or a question where the follower is."""
        answer = following.read_answer(line)
        if (answer.kind, answer.epoch) == ("have", self.have + 1):
            self.have += 1
        elif (answer.kind, answer.epoch) == ("want", self.have + 1) and self.asked:
            self.asked -= 1
        elif answer.kind == "unsound":
            raise Refused(f"the follower does not take the entry of epoch {answer.epoch}")
        else:
            raise Trouble(f"it answers {line} behind `have {self.have}`")
        self.report.takes(self.have)

    def end(self) -> None:
        """Takes the answers that are to come, and has the follower end."""
        while self.waiting:
            for line in self.turn(MOST_PAUSE):
                self.take(line)
        self.link.close_input()
        self.waiting = 1  # for the end
        self.since = monotonic()
        try:
            while True:
                self.turn(MOST_PAUSE)
        except Ended as ended:
            if ended.status:
                raise


class Standby:
    """Sessions one after another, until there is nothing to go on with."""

    def __init__(self, given: argparse.Namespace, digest: bytes):
        self.given, self.digest = given, digest
        self.report = Report()
        if given.figures:
            threading.Thread(
                target=self.report.keep, args=(given.figures,), daemon=True).start()
        self.again = AGAIN
        self.refused = 0
        self.fault_since: Optional[float] = None

    def run(self) -> None:
        while not self.session():
            self.check_silence()

    def session(self) -> bool:
        """Whether the standby has all that it was to get."""
        try:
            return self.follow()
        except Ended as ended:
            if ended.said and ended.status in REFUSALS:
                raise Refused(f"the follower ended: {ended.said}") from None
            self.pause(f"the follower is gone: {ended}")
        except (Trouble, following.WrongAnswer) as trouble:
            self.pause(f"the follower is left: {trouble}")
        except Refused as refused:
            self.refused += 1
            if self.refused == UNSOUND:
                raise
            self.pause(str(refused))
        except JournalFault as fault:
            if self.is_settled():
                raise
            self.pause(str(fault))
        return False

    def is_settled(self) -> bool:
        """Whether a fault of the journal is there for long, or was from the beginning."""
        now = monotonic()
        if self.fault_since is None:
            self.fault_since, self.again = now, AGAIN
        return self.report.have is None or now - self.fault_since >= SETTLED

    def follow(self) -> bool:
        """Follows in one session."""
        with LiveJournal(self.given.journal, self.digest, self.given.synced) as journal:
            with begun(self.given.command) as link:
                session = Session(journal, link, self.report, self.given.start_seconds)
                session.begin()
                self.report.explain(
                    f"the follower has {following.counted(session.have)}, as the journal begins")
                service.notify("READY=1")
                have, since = session.have, monotonic()
                try:
                    return session.follow(self.given.once)
                finally:
                    self.report.tell()
                    if session.have > have or monotonic() - since >= SETTLED:
                        self.again, self.refused, self.fault_since = AGAIN, 0, None

    def pause(self, why: str) -> None:
        self.report.explain(f"{why}; again in {self.again} s")
        sleep(self.again)
        self.again = min(2 * self.again, MOST_AGAIN)

    def check_silence(self) -> None:
        if self.given.give_up and self.report.silence() >= self.given.give_up:
            raise NoAnswer(f"no follower answers for {self.given.give_up} seconds")


def begun(command: List[str]) -> FollowerLink:
    try:
        return FollowerLink(command)
    except (OSError, ValueError) as fault:
        raise networks.WrongInput(f"{command[0]} cannot be begun: {fault}") from None


def told(sentence: str) -> None:
    print(f"standby.py: {sentence}", file=sys.stderr, flush=True)


def seconds_word(word: str) -> int:
    if not re.fullmatch("[1-9][0-9]{0,8}", word):
        raise argparse.ArgumentTypeError("a number of seconds")
    return int(word)


def main() -> None:
    words = argparse.ArgumentParser(
        description=__doc__, formatter_class=argparse.RawDescriptionHelpFormatter)
    words.add_argument("topology", metavar="TOPOLOGY", help="the network of the journal")
    words.add_argument("journal", metavar="JOURNAL")
    words.add_argument("command", metavar="COMMAND", nargs=argparse.REMAINDER,
                       help="what runs `hosed follow`, with its words")
    words.add_argument("--once", action="store_true", help="end where the standby has all")
    words.add_argument("--give-up", metavar="SECONDS", type=seconds_word,
                       help="end where no answer came for so long")
    words.add_argument("--figures", metavar="FILE",
                       help="for Prometheus, replaced every few seconds")
    words.add_argument("--start-seconds", metavar="SECONDS", type=seconds_word, default=STARTING,
                       help=f"in which COMMAND has to tell where the standby is ({STARTING})")
    words.add_argument("--synced", action="store_true",
                       help="send what is on the disk: it is synced here, too")
    given = networks.add_tariff(words).parse_args()
    if not given.command:
        words.error("COMMAND is missing")
    digest = journals.digest_of(networks.load_topology(given.topology, given.tariff))
    Standby(given, digest).run()


if __name__ == "__main__":
    sys.exit(networks.status_of(main))
