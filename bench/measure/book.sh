#!/usr/bin/env bash
# Microseconds that commands take on a book with 10 and with 20,000 live VPNs: a question after the
# youngest VPN, and an admission with the release of the youngest, of the oldest and of the one in
# the middle. The book of 10 is the reference of the same run.
# usage: bench/measure/book.sh [PROGRAM]
[ "${1-}" != --help ] || exec sed -n '2,/^[^#]/s/^# \{0,1\}//p' "$0"
. "$(dirname "$0")/../parts/setup.sh"

# The seconds of the program on a book with so many live VPNs, before the commands and with them.
seconds() { # LIVE COMMANDS REPEATS
    python3 - "$@" >"$work/input" <<'SCRIPT'
import sys

live, commands, repeats = int(sys.argv[1]), sys.argv[2], int(sys.argv[3])
ADMIT = "acme admit a:1 b:1"
print("node a\nnode b\nlink a b 1000000000 1\nend")
print("\n".join([ADMIT] * live))
epoch, ids = live, list(range(1, live + 1))
for _ in range(repeats):
    if commands == "show":
        print(f"acme show {ids[-1]}")
        continue
    if commands == "youngest":
        print(f"{ADMIT}\nacme release {epoch + 1}")
    else:
        place = 0 if commands == "oldest" else len(ids) // 2
        print(f"acme release {ids.pop(place)}\n{ADMIT}")
        ids.append(epoch + 2)
    epoch += 2
SCRIPT
    measure 3
    echo "$taken"
}

# Prints what the commands take on both books, and the ratio.
figure() { # COMMANDS REPEATS NAME
    local few many
    few=$(per_command 10 "$1" "$2")
    many=$(per_command 20000 "$1" "$2")
    python3 -c 'import sys
name, few, many = sys.argv[1], float(sys.argv[2]), float(sys.argv[3])
print(f"{name}: {many:.2f} us with 20,000 live; reference: {few:.2f} us with 10, "
      f"ratio {many / few:.2f}, difference {many - few:.2f} us")' "$3" "$few" "$many"
}

# The microseconds of one.
per_command() { # LIVE COMMANDS REPEATS
    local before with
    before=$(seconds "$1" "$2" 0)
    with=$(seconds "$1" "$2" "$3")
    python3 -c 'import sys
before, with_them, repeats = map(float, sys.argv[1:])
print((with_them - before) / repeats * 1e6)' "$before" "$with" "$3"
}

figure show 200000 "a question after the youngest VPN"
figure youngest 40000 "an admission and the release of the youngest VPN"
figure oldest 10000 "an admission and the release of the oldest VPN"
figure middle 10000 "an admission and the release of the VPN in the middle"
