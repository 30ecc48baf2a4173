#!/usr/bin/env python3
"""Writes the entries of a journal as packets for `hosed follow`, while a program writes to it.

JOURNAL is read without a lock and without a copy. On standard output come, as `hosed ship` writes
them, the entries from the epoch FROM on that are there, and then each that comes, as it comes. An
entry is written once its gate is open in the file; with --synced once it is on the disk, too, so
that a machine that stops keeps what was written here. No entry is judged: `follow` does that.

It ends where it is stopped, where nobody reads its output, and

- with --once, at the end of the journal;
- before more than 1 GiB is written, which is what one run of `follow` reads;
- where the journal is damaged, is of another network, or cannot be read;
- where it has not the entries before FROM, or not those of the chain value --after; and where it
  lost entries that were written: the writer took the last one back after its disk failed, or
  another file was put there. A follower with these entries is of another history then.

Where another file is put at JOURNAL that has the entries that were written, that one is read on.
Where JOURNAL leads nowhere any more, the file that was opened is; where it is not begun yet, it is
waited for. tools/standby.py asks a follower where it is, and keeps it up to date.

example, which ends by itself:
  python3 tools/tail.py --once demo/star.txt orders.journal > packets

status:
  0 it ended at the end of the journal, or before 1 GiB; 2 the words are not these, or TOPOLOGY is
  none; 5 the journal is damaged; 6 it is not there, or cannot be read; 12 it is of another network;
  13 it has not the entries that it should have; 141 nobody reads the output
"""
import argparse
import re
import select
import sys
from typing import Optional

import following
import journals
import networks
from live_journal import LiveJournal

LEAST_PAUSE, MOST_PAUSE = 1, 16  # milliseconds between two looks at the journal


class Output:
    """The standard output, as bytes that are handed on at once."""

    def __init__(self):
        self.file = sys.stdout.buffer
        self.end = select.poll()
        self.end.register(self.file, 0)

    def write(self, packets: bytes) -> None:
        self.file.write(packets)
        self.file.flush()

    def wait(self, pause: int) -> None:
        """Waits for some milliseconds. Raises `BrokenPipeError` where nobody reads any more."""
        if any(events & select.POLLERR for _, events in self.end.poll(pause)):
            raise BrokenPipeError


def send(journal: LiveJournal, output: Output, once: bool) -> Optional[int]:
    """Writes packets; gives the epoch from which another run has to go on, where 1 GiB is full."""
    written, pause = 0, LEAST_PAUSE
    while True:
        epoch = journal.epoch
        packets = b"".join(map(following.packet_of, journal.read()))
        if packets:
            written, pause = written + len(packets), LEAST_PAUSE
            if written > following.MOST_INPUT:
                return epoch + 1
            output.write(packets)
        elif once:
            return None
        else:
            output.wait(pause)
            pause = min(2 * pause, MOST_PAUSE)


def epoch_word(word: str) -> int:
    if not re.fullmatch("[1-9][0-9]{0,9}", word) or int(word) > journals.MOST_EPOCH:
        raise argparse.ArgumentTypeError("FROM is an epoch of 1 to 4000000000")
    return int(word)


def value_word(word: str) -> bytes:
    if not re.fullmatch("[0-9a-f]{64}", word):
        raise argparse.ArgumentTypeError("a chain value is 64 hexadecimal digits")
    return bytes.fromhex(word)


def main() -> None:
    words = argparse.ArgumentParser(
        description=__doc__, formatter_class=argparse.RawDescriptionHelpFormatter)
    words.add_argument("topology", metavar="TOPOLOGY", help="the network of the journal")
    words.add_argument("journal", metavar="JOURNAL")
    words.add_argument("start", metavar="FROM", nargs="?", type=epoch_word, default=1,
                       help="the epoch of the first entry that is written (1)")
    words.add_argument("--after", metavar="VALUE", type=value_word,
                       help="the chain value of the entries before FROM, as a follower tells it")
    words.add_argument("--once", action="store_true", help="end where the journal ends")
    words.add_argument("--synced", action="store_true",
                       help="write what is on the disk: it is synced here, too")
    given = networks.add_tariff(words).parse_args()
    digest = journals.digest_of(networks.load_topology(given.topology, given.tariff))
    with LiveJournal(given.journal, digest, given.synced) as journal:
        following.compare(journal, given.start - 1, given.after)
        start = send(journal, Output(), given.once)
    if start:
        print(f"tail.py: 1 GiB is written: go on from {start}", file=sys.stderr)


if __name__ == "__main__":
    sys.exit(networks.status_of(main))
