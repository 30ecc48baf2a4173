#!/usr/bin/env bash
# Milliseconds that reading a topology in JSON of the greatest size takes, against those of Python's
# json.load of the same file without the start of Python. The journal is one of another network, so
# the topology is read and its digest taken, and nothing else; the start of the program counts.
# usage: bench/measure/json.sh [PROGRAM]
[ "${1-}" != --help ] || exec sed -n '2,/^[^#]/s/^# \{0,1\}//p' "$0"
. "$(dirname "$0")/../parts/setup.sh"

printf 'node another\nend\n' | "$program" run "$work/journal"
python3 - "$program" "$work" <<'END'
import json
import os
import subprocess
import sys
import time

program, work = os.path.abspath(sys.argv[1]), sys.argv[2]
path = os.path.join(work, "greatest.json")
names = [f"node-of-the-n{node:03}" for node in range(512)]
links = [{"a": names[link % 512], "b": names[(link + 1 + link // 512) % 512],
          "capacity": 1_000_000_000, "length": 1_000_000, "cost": 1_000_000}
         for link in range(2048)]
with open(path, "w", encoding="ascii") as file:
    json.dump({"nodes": names, "links": links}, file)


def least(action, runs):
    seconds = []
    for _ in range(runs):
        start = time.perf_counter()
        action()
        seconds.append(time.perf_counter() - start)
    return 1000 * min(seconds)


def load():
    with open(path, encoding="ascii") as file:
        json.load(file)


def read():
    done = subprocess.run([program, "audit", path, os.path.join(work, "journal")],
                          capture_output=True, check=False)
    if done.returncode != 5:
        sys.exit(f"json: {done.stdout!r}")


of_program, of_python = least(read, 20), least(load, 20)
print(f"json: {of_program:.2f} ms for {os.path.getsize(path)} bytes; "
      f"reference: json.load of Python {of_python:.2f} ms, ratio {of_program / of_python:.2f} "
      "(wanted: 3 at most)")
END
