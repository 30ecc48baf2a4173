#!/usr/bin/env bash
# How many times as long four threads take that quote on one shared book as one thread does, for
# 2,000 quotes by each thread: hoses of three endpoints, the same ones for each, on a random network
# of 512 nodes and 2,048 links. At most 1.5 times is wanted on a machine with four processors. The
# reference is four programs of one thread at once, which share nothing: what the machine makes of
# them, no lock can mend. All is seconds by the clock, the least of seven runs that are made by
# turns; other processes that run meanwhile make the ratios greater.
# usage: bench/measure/quotes.sh [PROGRAM [SEED]]
[ "${1-}" != --help ] || exec sed -n '2,/^[^#]/s/^# \{0,1\}//p' "$0"
set -euo pipefail
export LC_ALL=C
cd "$(dirname "${BASH_SOURCE[0]}")/../.."
program=${1:-$(bench/measure/figures/build.sh quotes)}

python3 - "$program" "${2:-1}" <<'END'
import subprocess
import sys
import tempfile
import time

sys.path.insert(0, "tools")
from generate import Draws, network  # noqa: E402

program, seed = sys.argv[1:]
NODES, LINKS, QUOTES, RUNS, WANTED = 512, 2048, 2000, 7, 1.5


def run(threads):
    words = [program, "quotes", str(threads), str(QUOTES)]
    with open(topology.name) as text:
        return subprocess.Popen(words, stdin=text, stdout=subprocess.PIPE, text=True)


def seconds(programs, threads):
    """How long it takes so many programs at once, in each of which so many threads quote."""
    start = time.perf_counter()
    runs = [run(threads) for _ in range(programs)]
    told = [done.communicate()[0] for done in runs]
    taken = time.perf_counter() - start
    assert told == [f"{threads * QUOTES} quoted\n"] * programs, told
    return taken


with tempfile.NamedTemporaryFile("w") as topology:
    topology.write("\n".join([*network(Draws(int(seed)), NODES, LINKS), ""]))
    topology.flush()
    runs = [(seconds(1, 1), seconds(1, 4), seconds(4, 1)) for _ in range(RUNS)]
one, four, apart = (min(taken) for taken in zip(*runs))
print(f"quotes: {QUOTES} on one thread in {one:.3f} s, as many on each of four in {four:.3f} s")
print(f"ratio {four / one:.2f}, and at most {WANTED} is wanted")
print(f"reference: {apart:.3f} s by four programs of one thread, ratio {four / apart:.2f}")
END
