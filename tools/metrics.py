#!/usr/bin/env python3
"""Tells figures of the journal of a server that runs, and shows its book.

JOURNAL is read without a lock and without a copy, up to its last entry, as by tools/tail.py: the
epoch, how many VPNs are live, of all and by customer, load, capacity and state of each link by its
ends, orders by kind, what is reserved costs, the bytes of the file, and when it was written last.
Besides, as seen from beside the server: whether a program has the journal open (`hosed_up`) and the
room of its file system; with --operator what a host tells at its operator's door: connections,
lines, orders by their replies, lost lines of the log, how long orders and quotes took, and when an
order was on the disk last, so that `hosed_up` is an answer of the host; with --ask whether a server
answers a question, and in which time, by a session of the customer `metrics` that stays open; with
--figures what tools/standby.py writes into a file by its own --figures. A file older than 30 seconds
is left out, and `hosed_figures_age_seconds` tells its age. They are written once

- as a text for Prometheus, on standard output, or to the file of --write, which is replaced as a
  whole, as the textfile collector of node_exporter wants it; with --every again and again, and
  where the journal cannot be read, `hosed_journal_readable 0` alone, until it can;
- as JSON with --json, or as the page of tools/page.py with --page;

or, with --http PORT, answered at 127.0.0.1 as long as the program runs: `/` is the page, which the
browser asks for anew every 10 seconds, /metrics the text, and /json the JSON. Where the journal
cannot be read at that time, or is gone, the status is 503, and the answer says why. Where another
journal of the same network is put at JOURNAL, that one is told from then on.

examples:
  python3 tools/metrics.py demo/star.txt orders.journal
  python3 tools/metrics.py --json demo/star.txt orders.journal

status:
  0 all is written; 2 the words are not these, TOPOLOGY is none, the file cannot be written, or the
  port cannot be had; 5 the journal is damaged; 6 it is not there, is not begun, or cannot be read;
  12 it is of another network
"""
import argparse
import json
import os
import re
import sys
import time
from typing import Iterator, List, Optional

import client
import figures
import journals
import networks
import page
import server_state
from books import Book
from figures import Family, Sample, gauge
from live_journal import LiveJournal, Unreadable
from picture import Picture
from metrics_server import serve


RENEW = 10  # seconds


class Watched:
    """The journal at a path, and its book so far."""

    def __init__(self, path: str, topology: networks.Topology):
        self.path, self.topology = path, topology
        self.picture: Optional[Picture] = None  # which takes seconds, and stays
        self.question: Optional[server_state.Question] = None
        self.host: Optional[server_state.HostQuestion] = None
        self.files = server_state.Figures([])
        self.digest = journals.digest_of(topology)
        self.journal: Optional[LiveJournal] = LiveJournal(path, self.digest)
        self.book = Book(topology)

    def update(self) -> None:
        """Reads up to the last entry. Where the journal lost entries, or was damaged and may be so
        no more, it is read anew."""
        try:
            self._read()
        except networks.WrongInput:
            self._read()
        if self.journal.value is None:
            raise Unreadable(f"{self.path} is not begun")
        try:
            os.stat(self.path)
        except OSError as fault:
            raise Unreadable(f"{self.path} is gone: {fault.strerror}") from None
        for question in (self.question, self.host):
            if question:
                question.ask()

    def _read(self) -> None:
        """Reads up to the last entry. After a fault the next call begins anew."""
        if self.journal is None:
            self.journal, self.book = LiveJournal(self.path, self.digest), Book(self.topology)
        try:
            records = self.journal.read()
            while records:
                for record in records:
                    self.book.enter(record)
                records = self.journal.read()
        except networks.WrongInput:
            self.close()
            raise

    def close(self) -> None:
        if self.journal is not None:
            self.journal.close()
        self.journal = None


# ---- Figures.

def families(watched: Watched, now: float) -> Iterator[Family]:
    """Each figure of the journal, and of the server as it is seen from beside."""
    yield from of_book(watched.book)
    written = watched.journal.written()
    yield gauge("hosed_journal_readable", "1 where the journal was read, else 0.", 1)
    yield gauge("hosed_journal_bytes", "Bytes of the journal.", watched.journal.size())
    yield gauge("hosed_journal_free_bytes", "Bytes that its file system has left.",
                server_state.free_bytes(watched.path))
    yield gauge("hosed_last_entry_time_seconds",
                "When the journal was written last, in seconds since 1970.", f"{written:.3f}")
    yield gauge("hosed_last_entry_age_seconds", "How long ago that was when this was written.",
                f"{max(now - written, 0):.3f}")
    held = server_state.is_held(watched.path)
    if watched.host:
        yield from watched.host.families()
    elif held is not None:
        yield gauge("hosed_up", "1 where a program has the journal open, as a server, else 0.",
                    int(held))
    if watched.question:
        yield from watched.question.families()
    yield from watched.files.families()


def of_book(book: Book) -> Iterator[Family]:
    links = [({"link": str(link.number), "a": link.a, "b": link.b}, link) for link in book.links()]
    yield gauge("hosed_epoch", "Orders in the journal.", book.epoch)
    yield Family("hosed_orders_total", "counter", "Orders in the journal, by kind.",
                 [Sample({"kind": kind}, count) for kind, count in book.orders.items()])
    yield gauge("hosed_live_vpns", "VPNs that are live.", len(book.live))
    yield Family("hosed_customer_vpns", "gauge", "VPNs that are live, of a customer who has one.",
                 [Sample({"customer": name}, count) for name, count in book.customers().items()])
    yield gauge("hosed_cost", "What all that is reserved costs.", book.cost())
    for name, what, value in (
            ("load", "What is reserved on a link.", lambda link: link.load),
            ("capacity", "What a link can carry.", lambda link: link.capacity),
            ("out", "1 where a link is out of service, else 0.", lambda link: int(link.out))):
        yield Family(f"hosed_link_{name}", "gauge", what,
                     [Sample(labels, value(link)) for labels, link in links])


def exposed(watched: Watched) -> str:
    """The figures in the text format of Prometheus."""
    return figures.exposed(families(watched, time.time())) + watched.files.text()


def as_json(watched: Watched) -> str:
    book = watched.book
    written = watched.journal.written()
    told = {
        "epoch": book.epoch, "chain": watched.journal.value.hex(),
        "orders": dict(book.orders), "live_vpns": len(book.live), "cost": book.cost(),
        "customers": book.customers(), "journal_bytes": watched.journal.size(),
        "journal_free_bytes": server_state.free_bytes(watched.path),
        "up": is_up(watched),
        "last_entry_time_seconds": round(written, 3),
        "last_entry_age_seconds": round(max(time.time() - written, 0), 3),
        "links": [{"link": link.number, "a": link.a, "b": link.b, "capacity": link.capacity,
                   "cost": link.cost, "load": link.load, "out": link.out}
                  for link in book.links()]}
    figures_of_host = watched.host.told() if watched.host else None
    if figures_of_host:
        told["host"] = vars(figures_of_host)
    return json.dumps(told, indent=1) + "\n"


def is_up(watched: Watched) -> Optional[bool]:
    """Whether the host answers, or else whether a program has the journal open."""
    if watched.host:
        return watched.host.told() is not None
    return server_state.is_held(watched.path)


def as_page(watched: Watched) -> str:
    book = watched.book
    title = os.path.basename(watched.path)
    watched.picture = watched.picture or Picture(watched.topology)
    return page.page(title, book.topology, book.audit(), frozenset(book.out), watched.picture)


def renewed(text: str) -> str:
    """The page with a script that has the browser ask for it anew, also with an end of its
    address."""
    script = f"<script>setTimeout(() => location.reload(), {1_000 * RENEW});</script>\n</body>"
    return text.replace("</body>", script)


# ---- The program.


def put(path: str, text: str) -> None:
    """Replaces a file as a whole."""
    try:
        figures.put(path, text)
    except OSError as fault:
        raise networks.WrongInput(f"{path} cannot be written: {fault.strerror}") from None


def write(watched: Watched, given: argparse.Namespace) -> None:
    watched.update()
    made = as_json if given.json else as_page if given.page else exposed
    if given.write:
        put(given.write, made(watched))
    else:
        print(made(watched), end="", flush=True)


def write_on(watched: Watched, given: argparse.Namespace) -> None:
    """Writes again and again. Where the journal cannot be read nothing else is told, so that no
    figure stays as it was."""
    said = ""
    while True:
        time.sleep(given.every)
        try:
            write(watched, given)
            said = ""
        except networks.WrongInput as fault:
            if str(fault) != said:
                networks.told(str(fault))
            said = str(fault)
            if given.write and not given.json and not given.page:
                unread = gauge("hosed_journal_readable", "1 where the journal was read, else 0.", 0)
                put(given.write, figures.exposed([unread]))


def number_word(least: int, most: int):
    def read(word: str) -> int:
        if not re.fullmatch("[1-9][0-9]{0,8}", word) or not least <= int(word) <= most:
            raise argparse.ArgumentTypeError(f"a number of {least} to {most}")
        return int(word)
    return read


def words_of() -> argparse.ArgumentParser:
    words = argparse.ArgumentParser(
        description=__doc__, formatter_class=argparse.RawDescriptionHelpFormatter)
    words.add_argument("topology", metavar="TOPOLOGY", help="the network of the journal")
    words.add_argument("journal", metavar="JOURNAL")
    forms = words.add_mutually_exclusive_group()
    forms.add_argument("--json", action="store_true", help="write JSON")
    forms.add_argument("--page", action="store_true", help="write the page")
    forms.add_argument("--http", metavar="PORT", type=number_word(1, 65_535),
                       help="answer at this port of 127.0.0.1")
    words.add_argument("--write", metavar="FILE", help="write to a file, which is replaced")
    words.add_argument("--operator", metavar="PATH", type=client.place,
                       help="the operator's door of a host, which is asked for its figures")
    words.add_argument("--ask", metavar="PORT", type=client.place,
                       help="a port or a Unix socket of the server, which is asked each time")
    words.add_argument("--as", metavar="NAME", dest="customer", default=server_state.NAME,
                       help=f"the customer who asks there ({server_state.NAME})")
    words.add_argument("--figures", metavar="FILE", action="append", default=[],
                       help="figures of standby.py, which are told, too; may come again")
    words.add_argument("--every", metavar="SECONDS", type=number_word(1, 86_400),
                       help="write again and again, with a pause of so long")
    return networks.add_tariff(words)


def main() -> None:
    words = words_of()
    given = words.parse_args()
    if given.http and (given.write or given.every):
        words.error("--http takes neither --write nor --every")
    if given.ask and given.operator:
        words.error("--operator takes no --ask: the answer at that door is what is asked for")
    watched = Watched(given.journal, networks.load_topology(given.topology, given.tariff))
    watched.files = server_state.Figures(given.figures)
    if given.ask:
        watched.question = server_state.Question(given.ask, given.customer)
    if given.operator:
        watched.host = server_state.HostQuestion(given.operator)
    if given.http:
        serve(given.http, watched.update, {
            "/": ("text/html; charset=us-ascii", lambda: renewed(as_page(watched))),
            "/metrics": ("text/plain; version=0.0.4; charset=utf-8", lambda: exposed(watched)),
            "/json": ("application/json", lambda: as_json(watched))})
    write(watched, given)
    if given.every:
        write_on(watched, given)


if __name__ == "__main__":
    sys.exit(networks.status_of(main))
