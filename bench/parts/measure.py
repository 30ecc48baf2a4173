#!/usr/bin/env python3
"""Runs the program on an input, and prints the least seconds of so many runs, the most KiB, and the
least seconds of a processor, which other processes disturb less.

The output of the last run stays in the file REPLIES.

usage: bench/parts/measure.py PROGRAM INPUT REPLIES RUNS
"""

import resource
import subprocess
import sys
import time

from usage import tell_usage


def processor_seconds():
    used = resource.getrusage(resource.RUSAGE_CHILDREN)
    return used.ru_utime + used.ru_stime


def main():
    program, text, replies, runs = sys.argv[1:]
    seconds, processor = [], []
    for _ in range(int(runs)):
        with open(text, "rb") as source, open(replies, "wb") as sink:
            before, start = processor_seconds(), time.perf_counter()
            subprocess.run([program, "run"], stdin=source, stdout=sink)
            seconds.append(time.perf_counter() - start)
            processor.append(processor_seconds() - before)
    peak = resource.getrusage(resource.RUSAGE_CHILDREN).ru_maxrss
    print(f"{min(seconds):.4f} {peak} {min(processor):.4f}")


if __name__ == "__main__":
    tell_usage(__doc__)
    main()
