#!/usr/bin/env bash
# Bytes that are read in a second of a processor of a journal of 20,000 entries of three endpoints,
# on a disk in memory; and how many times as long that takes as the SHA-256 digest of the same
# bytes. And how long the chain value of a record of ten bytes takes, which with the value before it
# is one block of SHA-256, beside a block of a long text.
# usage: bench/measure/journal.sh [PROGRAM] [DIGESTS]     what is not given is built
[ "${1-}" != --help ] || exec sed -n '2,/^[^#]/s/^# \{0,1\}//p' "$0"
set -euo pipefail
export LC_ALL=C
cd "$(dirname "${BASH_SOURCE[0]}")/../.."
program=${1:-$(bench/measure/figures/build.sh codec)}
digests=${2:-$(bench/measure/figures/build.sh digests)}

python3 - "$program" "$digests" <<'END'
import resource
import subprocess
import sys

PROGRAM, DIGESTS = sys.argv[1:]
BYTES, TIMES, RUNS = 39 + 82 * 20_000, 500, 3
RECORDS = 1_000_000


def least_seconds(runs):
    """The least seconds of a processor of each of these, words and what they print, by turns."""
    least = [float("inf")] * len(runs)
    for _ in range(RUNS):
        for place, (words, told) in enumerate(runs):
            before = resource.getrusage(resource.RUSAGE_CHILDREN)
            done = subprocess.run(words, check=True, capture_output=True, text=True)
            after = resource.getrusage(resource.RUSAGE_CHILDREN)
            assert told in (None, done.stdout), done.stdout
            seconds = after.ru_utime - before.ru_utime + after.ru_stime - before.ru_stime
            least[place] = min(least[place], seconds)
    return least


appended, readings, digests, records, blocks = least_seconds([
    ([PROGRAM, "appends"], f"{BYTES} bytes\n"),
    ([PROGRAM, "readings"], f"{TIMES * BYTES} bytes\n"),
    ([PROGRAM, "digests"], f"{TIMES * BYTES} bytes\n"),
    ([DIGESTS, "records"], None),
    ([DIGESTS, "blocks"], None),
])
# Each of these appends the entries first; what that takes alone is taken off.
readings -= appended
digests -= appended
print(f"journal: {TIMES * BYTES / readings / 1e6:.0f} MB a second read, {readings:.2f} s")
print(f"entries: {TIMES * 20_000 / readings:.0f} a second")
print(f"reference: {digests:.2f} s for the digests of their bytes, ratio {readings / digests:.2f}")
print(f"chain: {records / RECORDS * 1e9:.0f} ns for the chain value of a record of ten bytes")
print(f"reference: {blocks / RECORDS * 1e9:.0f} ns for a block, ratio {records / blocks:.2f}")
END
