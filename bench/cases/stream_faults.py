#!/usr/bin/env python3
"""Writes crates/cases_program/data/stream_faults.cases and session_faults.cases.

Each call of the input, of the output, of the cabinet and of the door fails once: in a run over a
journal, in an audit, in a server of ten customers, and in a session of all commands. And lines of
exactly 4,096 and of 4,097 bytes stand at each place of a session. What must come of each is told by
the plain model of star_model.py: a call of the input gives so many bytes, each reply goes out in
one call, and what was acknowledged or done is in the journal.

usage: bench/cases/stream_faults.py streams | diff - crates/cases_program/data/stream_faults.cases
       and so with `sessions` and session_faults.cases
"""

import os
import sys

sys.path.insert(0, os.path.join(os.path.dirname(os.path.abspath(__file__)), "..", "parts"))
from usage import tell_usage

from star_model import STAR, Disk, Journal, Server, audit

PIECE = 16  # bytes that a call of an input gives
PART, PARTS = 20, 7  # bytes that a call of an audit's output takes, and how many calls of it fail
SERVED, BOOKS = 100, 6  # the same of the book that a server tells at its end
LINES = ("admit a:3 b:4 c:5", "quote a:1 b:1", "take 1", "show 1", "link 2", "release 1", "show 1")
STAR_TEXT = "".join(line + "\n" for line in STAR)
MOST_LINE = 4_096
ANSWERED = "link 2"


def server():
    return Server(Journal(Disk(b"", ())))


def left_of(server):
    server.journal.close()
    return [f"left {server.journal.disk.held.hex()}"]


def whole_lines(text):
    return text.split("\n")[:-1]


def calls_of(text):
    """How many calls give a text, and tell that it has ended."""
    return -(-len(text) // PIECE) + 1


# ---- A run over a journal.


def run_of(lines, words):
    """The lines of a run that answers some of them, which ends with these words."""
    served = server()
    told = []
    for line in lines:
        told.append(f"> {served.reply(line)}")
    return told + words + left_of(served)


def inputs_of_runs():
    lines = [f"acme {line}" for line in LINES]
    text = STAR_TEXT + "".join(line + "\n" for line in lines)
    says = [f"< {line}" for line in text.splitlines()]
    for nth in range(1, calls_of(text) + 1):
        given = text[:PIECE * (nth - 1)]
        yield [f"case a run, and call {nth} of its input fails", "words run j", f"read {PIECE}",
               f"read-fails {nth}", *says]
        if len(given) < len(STAR_TEXT):
            # Nothing is begun before the network is whole.
            yield ["> read", "status 3", "left "]
        else:
            yield run_of(whole_lines(given[len(STAR_TEXT):]), ["> read", "status 3"])


def outputs_of_runs():
    lines = [f"acme {line}" for line in LINES]
    for nth in range(1, len(lines) + 1):
        yield [f"case a run, and call {nth} of its output fails", "words run j",
               f"write-fails {nth}", *(f"< {line}" for line in (*STAR, *lines))]
        # The line is done whose reply does not go out.
        *told, last, status, left = run_of(lines[:nth], ["status 4"])
        yield [*told, status, left]


def cabinets_of_runs():
    yield ["case a run, and the cabinet's first call fails", "words run j", "cabinet-fails 1",
           *(f"< {line}" for line in STAR), f"< acme {LINES[0]}"]
    yield ["> cabinet", "status 6", "left "]


# ---- An audit, and a server of ten customers.


def audits():
    for nth in range(1, PARTS + 1):
        yield [f"case an audit, and call {nth} of its output fails", "words audit t j",
               f"write {PART}", f"write-fails {nth}"]
        yield [*(f"> {line}" for line in audit(())), f"front {PART * (nth - 1)}", "status 4",
               *left_of(server())]
    yield from cabinets("an audit", "words audit t j")


def cabinets(name, *lines):
    """The text is asked for twice, from its beginning and from its end, and then the journal."""
    for nth in (1, 2, 3):
        yield [f"case {name}, and call {nth} of the cabinet fails", *lines, f"cabinet-fails {nth}"]
        yield ["> cabinet", "status 6", "left "]


CUSTOMERS = 10


def customer(number, served):
    """What customer K says and is told, and the server after that."""
    lines = [f"hello c{number}", "admit a:1 b:1", "bye"]
    replies = [f"welcome at {number - 1}", served.reply(f"c{number} admit a:1 b:1"), "bye"]
    for line, reply in zip(lines, replies):
        yield f"{number}< {line}"
        yield f"{number}> {reply}"


def served_by(count):
    """The lines of a server that serves so many of its customers one after the other."""
    served, told = server(), []
    for number in range(1, count + 1):
        told += customer(number, served)
    for number in range(count + 1, CUSTOMERS + 1):
        told += [f"{number}< hello c{number}", f"{number}< admit a:1 b:1"]
    return told, served


def servers():
    words = [f"words serve t j 7000 {CUSTOMERS} 1"]
    yield ["case a server, and the door does not open", *words, "door-fails 1"]
    told, served = served_by(0)
    yield [*told, "> door", "status 9", *left_of(served)]
    for count in range(CUSTOMERS):
        yield [f"case a server, and accept {count + 1} of the door fails", *words,
               f"door-fails {count + 2}"]
        told, served = served_by(count)
        book = [f"> {line}" for line in audit(served.journal.entries)]
        yield ["> ready", *told, *book, "> door", "status 9", *left_of(served)]
    yield ["case a server, and the output fails before it is ready", *words, "write-fails 1"]
    told, served = served_by(0)
    yield [*told, "status 4", *left_of(served)]
    for nth in range(1, BOOKS + 1):
        yield [f"case a server, and call {nth} that tells its book fails", *words,
               f"write {SERVED}", f"write-fails {nth + 1}"]
        told, served = served_by(CUSTOMERS)
        book = [f"> {line}" for line in audit(served.journal.entries)]
        front = len("ready\n") + SERVED * (nth - 1)
        yield ["> ready", *told, *book, f"front {front}", "status 4", *left_of(served)]
    yield from cabinets("a server", *words, "1< hello c1")


# ---- Sessions.


def session(lines):
    """The replies to the lines of a session after its greeting, and the epoch."""
    served = server()
    replies = [f"welcome at {len(served.journal.entries)}"]
    for line in lines:
        replies.append("bye" if line == "bye" else served.reply(f"acme {line}"))
    return replies, len(served.journal.entries)


SAID = ["hello acme", *LINES, "bye"]


def inputs_of_sessions():
    text = "".join(line + "\n" for line in SAID)
    for nth in range(1, calls_of(text)):
        given = whole_lines(text[:PIECE * (nth - 1)])
        replies, epoch = session(given[1:]) if given else ([], 0)
        is_done = given == SAID
        yield [f"case a session of all commands, and call {nth} of its input fails",
               f"read {PIECE}", f"read-fails {nth}", *(f"< {line}" for line in SAID)]
        yield [*(f"> {reply}" for reply in replies), f"status {0 if is_done else 3}", f"at {epoch}"]


def outputs_of_sessions():
    for nth in range(1, len(SAID) + 1):
        replies, epoch = session(SAID[1:nth])
        yield [f"case a session of all commands, and call {nth} of its output fails",
               f"write-fails {nth}", *(f"< {line}" for line in SAID)]
        yield [*(f"> {reply}" for reply in replies[:nth - 1]), "status 4", f"at {epoch}"]


def padded(line, length, ends=True):
    """A line with spaces behind it up to this length."""
    return [f"<. {line}", f"<{length - len(line)}. {{s}}", *(["<"] if ends else [])]


def long_lines():
    for length in (MOST_LINE, MOST_LINE + 1):
        is_long = length > MOST_LINE
        for place in range(len(SAID)):
            lines = list(SAID)
            says = [f"< {line}" for line in lines]
            if place == 0:
                says[:1] = padded(lines[0], length)
                replies, epoch = (["long"], 0) if is_long else session(lines[1:])
                status = 2 if is_long else 0
            else:
                says[place:place] = padded(ANSWERED, length)
                replies, epoch = session([*lines[1:place], ANSWERED, *lines[place:]])
                if is_long:
                    replies[place] = "long"
                status = 0
            yield [f"case a line of {length:,} bytes in place {place + 1} of a session", *says]
            yield [*(f"> {reply}" for reply in replies), f"status {status}", f"at {epoch}"]
        yield [f"case a last line of {length:,} bytes, without its line feed", "< hello acme",
               *padded(ANSWERED, length, False)]
        replies, _ = session([ANSWERED])
        yield ["> welcome at 0", f"> {'long' if is_long else replies[1]}", "status 1", "at 0"]


def print_cases(*tables):
    for table in tables:
        for number, lines in enumerate(table):
            if number % 2 == 0:
                print()
            print("\n".join(lines))


def main():
    if sys.argv[1] == "sessions":
        print("# Written by bench/cases/stream_faults.py sessions: "
              "each call of a session's input and")
        print("# output fails, and lines of 4,096 bytes and a byte more stand at each place.")
        print("session")
        for line in STAR:
            print(f"= {line}")
        print_cases(inputs_of_sessions(), outputs_of_sessions(), long_lines())
        return
    print("# Written by bench/cases/stream_faults.py streams: "
          "each call of the input, of the output, of")
    print("# the cabinet and of the door fails once.")
    for line in STAR:
        print(f"= {line}")
    print_cases(inputs_of_runs(), outputs_of_runs(), cabinets_of_runs(), audits(), servers())


if __name__ == "__main__":
    tell_usage(__doc__)
    main()
