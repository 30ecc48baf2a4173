#!/usr/bin/env python3
"""Lists the entries of a journal, of either version, by docs/GUIDE.md alone; verifies its chain.

The last line is the chain value of all entries, or `damaged at P`, and then the status is 5. It
judges no book: whether a link is oversold is told by `hosed audit`. A program may write to the
journal meanwhile: what is told then are its first entries, up to one of them.

example:
  python3 tools/read_journal.py orders.journal

status:
  0 it was read to its end, or was not begun; 2 the words are not these; 5 it is damaged;
  6 it is not there, or cannot be read
"""
import argparse
import sys

import journals
import networks
from live_journal import Bytes, DamagedJournal, File, Reader


def lines(held):
    """What is told of the bytes of a journal."""
    return told_of(Reader(Bytes(held)))


def told_of(reader):
    """What is told of a journal that a reader has not begun to read."""
    try:
        if not reader.is_begun():
            yield "not begun"
            return
        yield f"version {reader.head.version} digest {reader.head.digest.hex()}"
        records = reader.records()
        while records:
            for record in records:
                yield f"at {record.gate} {line_of(record)}"
            records = reader.records()
        yield f"at {reader.place.gate} end, chain {reader.place.value.hex()}"
    except journals.Damaged as damaged:
        yield f"{damaged}"


def line_of(record):
    return f"{record.epoch} {journals.told_of(record.entry)}" if record.entry else "seal"


def main():
    words = argparse.ArgumentParser(
        description=__doc__, formatter_class=argparse.RawDescriptionHelpFormatter)
    words.add_argument("journal", metavar="JOURNAL")
    given = words.parse_args()
    line = ""
    for line in told_of(Reader(File(given.journal))):
        print(line)
    if line.startswith("damaged"):
        sys.exit(DamagedJournal.status)


if __name__ == "__main__":
    sys.exit(networks.status_of(main))
