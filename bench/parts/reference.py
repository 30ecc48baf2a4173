#!/usr/bin/env python3
"""Prints what a plain loop takes for the same bytes, and how many times as long the program took.

The loop reads the input line by line, splits each line into words, and writes the program's
replies, one write each. It decides nothing: it says how fast the machine is, so that a ratio can be
compared between machines where a figure cannot.

usage: bench/parts/reference.py INPUT REPLIES SECONDS     SECONDS: what the program took
"""

import itertools
import os
import sys
import tempfile
import time

from usage import tell_usage

LONG_ENOUGH = 2  # seconds, after which a loop is not run again
MOST_RUNS = 20


def plain_loop(text, replies, sink):
    """Reads all lines, and writes a reply for each of the last ones."""
    answers = iter(replies)
    before = sum(1 for _ in open(text, "rb")) - len(replies)
    start = time.perf_counter()
    with open(text, "rb") as source:
        for line in itertools.islice(source, before):
            line.split(b" ")
        for line in source:
            line.split(b" ")
            os.write(sink, next(answers))
    return time.perf_counter() - start


def main():
    text, output, taken = sys.argv[1], sys.argv[2], float(sys.argv[3])
    with open(output, "rb") as lines:
        replies = lines.readlines()
    seconds = []
    with tempfile.TemporaryFile() as sink:
        while len(seconds) < MOST_RUNS and sum(seconds) < LONG_ENOUGH:
            os.ftruncate(sink.fileno(), 0)
            seconds.append(plain_loop(text, replies, sink.fileno()))
    least = min(seconds)
    ratio = taken / least
    print(f"reference: {least:.4f} s for a plain loop over the same bytes, ratio {ratio:.2f}")


if __name__ == "__main__":
    tell_usage(__doc__)
    main()
