#!/usr/bin/env bash
# How long a run without a command takes to open a journal of 20,000 live VPNs of 3 and of 64
# endpoints as a store, and two programs to read and digest the same bytes, in seconds of a
# processor; and how many times as long each of these takes as the first. One is in Python, whose
# SHA-256 is by instructions of the processor's own where it has them; the other, DIGESTS, has the
# SHA-256 of the opening itself. What a run without a journal, and the programs without a file, take
# is taken off. Before that, an audit is to find all VPNs of the journal and what they cost.
# usage: bench/measure/store.sh [PROGRAM] [DIGESTS]     DIGESTS: else it is built
[ "${1-}" != --help ] || exec sed -n '2,/^[^#]/s/^# \{0,1\}//p' "$0"
. "$(dirname "$0")/../parts/setup.sh"
digests=${2:-$(bench/measure/figures/build.sh digests)}

python3 - "$program" "$work" "$digests" <<'END'
import hashlib
import resource
import subprocess
import sys

sys.path.insert(0, "bench/parts")
from disk_loop import star  # noqa: E402

PROGRAM, PLACE, DIGESTS = sys.argv[1:]
VPNS, RUNS = 20_000, 15
JOURNAL, TOPOLOGY = f"{PLACE}/journal", f"{PLACE}/topology"
DIGEST = "import hashlib, sys\nfor path in sys.argv[1:]: hashlib.sha256(open(path, 'rb').read()).digest()"


def journal(ends):
    """The journal of so many admissions of acme, each with a rate of 1 at each end."""
    ones = b"".join(number.to_bytes(2, "big") + b"\0\0\0\1" for number in range(ends))
    spelling = b"\1\4acme" + bytes([ends]) + ones + ends.to_bytes(2, "big") + ones
    value = hashlib.sha256(star(ends).encode()).digest()
    records = [b"\1HOSE\2" + value]
    for _ in range(VPNS):
        value = hashlib.sha256(value + spelling).digest()
        records.append(b"\1" + len(spelling).to_bytes(4, "big") + value + spelling)
    return b"".join(records) + b"\0"


def least_seconds(runs):
    """The least seconds of a processor of each of these, words and an input, run by turns."""
    least = [float("inf")] * len(runs)
    for _ in range(RUNS):
        for place, (words, path) in enumerate(runs):
            before = resource.getrusage(resource.RUSAGE_CHILDREN)
            with open(path, "rb") as file:
                subprocess.run(words, stdin=file, check=True, capture_output=True)
            after = resource.getrusage(resource.RUSAGE_CHILDREN)
            seconds = after.ru_utime - before.ru_utime + after.ru_stime - before.ru_stime
            least[place] = min(least[place], seconds)
    return least


def audited():
    words = [PROGRAM, "audit", TOPOLOGY, JOURNAL]
    return subprocess.run(words, check=True, capture_output=True, text=True).stdout.split("\n")


for ends in (3, 64):
    with open(TOPOLOGY, "w") as file:
        file.write(star(ends))
    with open(JOURNAL, "wb") as file:
        size = file.write(journal(ends))
    told = audited()
    wanted = f"link 0 n0 h capacity 1000000000 cost 1 load {VPNS}"
    assert told[:2] == [f"epoch {VPNS}", wanted], told[:2]
    assert told[-2] == f"live {VPNS} cost {VPNS * ends}", told[-2]
    python, library = [sys.executable, "-c", DIGEST], [DIGESTS, "input"]
    opening, empty, reading, started, same, nothing = least_seconds([
        ([PROGRAM, "run", JOURNAL], TOPOLOGY),
        ([PROGRAM, "run"], TOPOLOGY),
        ([*python, JOURNAL], "/dev/null"),
        (python, "/dev/null"),
        (library, JOURNAL),
        (library, "/dev/null"),
    ])
    opened, read, same = opening - empty, reading - started, same - nothing
    print(f"store: {VPNS} VPNs of {ends} endpoints opened in {opened:.4f} s, {size} bytes")
    print(f"reference: {read:.4f} s to read and digest them, ratio {read / opened:.2f}")
    print(f"reference: {same:.4f} s by the same SHA-256, ratio {same / opened:.2f}")
END
