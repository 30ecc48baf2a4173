#!/usr/bin/env bash
# Entries of three endpoints that are read, spelled, and read and spelled again in a second, a
# million of them; and how many times as long each takes as to copy their bytes. Before that, of
# 100,000 byte strings at random each that is read as an entry is to be its spelling.
# usage: bench/measure/codec.sh [PROGRAM]
[ "${1-}" != --help ] || exec sed -n '2,/^[^#]/s/^# \{0,1\}//p' "$0"
set -euo pipefail
export LC_ALL=C
cd "$(dirname "${BASH_SOURCE[0]}")/../.."
program=${1:-$(bench/measure/figures/build.sh codec)}
[ "$("$program" random)" = "all spell themselves again" ]

python3 - "$program" <<'END'
import subprocess
import sys
import time

ENTRIES, RUNS = 1_000_000, 3


def least_seconds(word):
    seconds = []
    for _ in range(RUNS):
        start = time.perf_counter()
        done = subprocess.run([sys.argv[1], word], check=True, capture_output=True, text=True)
        seconds.append(time.perf_counter() - start)
        assert done.stdout == f"{45 * ENTRIES} bytes\n", done.stdout
    return min(seconds)


copies = least_seconds("copies")
for word, what in ("decodes", "read"), ("encodes", "spelled"), ("entries", "read and spelled"):
    seconds = least_seconds(word)
    told = f"{ENTRIES / seconds:.0f} entries a second {what}, {seconds:.4f} s"
    print(f"codec: {told}, ratio {seconds / copies:.2f}")
print(f"reference: {copies:.4f} s to copy their bytes")
END
