#!/usr/bin/env bash
# Runs each command that reads a topology on texts of exactly 1 GiB and of a byte more, and prints
# what each ended with. The first is read to its `end`, and what the command says of it is the same
# as of the network alone; the second ends with status 8 and the line `too long`. The texts are
# lines of comments before a network of two nodes, and take 2 GiB of the folder for temporary files.
# Ends with status 1 where a command did otherwise.
# usage: bench/judge/too_long.sh [PROGRAM]
[ "${1-}" != --help ] || exec sed -n '2,/^[^#]/s/^# \{0,1\}//p' "$0"
. "$(dirname "$0")/../parts/setup.sh"

python3 - "$program" "$work" <<'END'
import subprocess
import sys

PROGRAM, PLACE = sys.argv[1:]
SECONDS = 120  # after which a program hangs
LIMIT = 1 << 30
NETWORK = b"node a\nnode b\nlink a b 1 1\nend\n"
SHORT, WHOLE, LONGER = f"{PLACE}/short", f"{PLACE}/whole", f"{PLACE}/longer"
JOURNAL = f"{PLACE}/journal"
# The words after the topology, and the input.
COMMANDS = {
    "audit": ([JOURNAL], b""),
    "ship": ([JOURNAL, "1"], b""),
    "follow": ([JOURNAL], b""),
    "serve": ([JOURNAL, "7000", "1", "1"], b""),
    "prove": (["a:1", "b:1"], b""),
    "check": ([], b"no certificate\n"),
    "price": ([], b"acme a:1 b:1\n"),
}


def write(path, size):
    """Writes the network behind as many comments as make a text of this size."""
    line = b"#" * 4095 + b"\n"
    left = size - len(NETWORK)
    with open(path, "wb") as file:
        for _ in range(left // (256 * len(line))):
            file.write(line * 256)
        left %= 256 * len(line)
        file.write(line * (left // len(line)))
        left %= len(line)
        file.write(b"#" * (left - 1) + b"\n" if left else b"")
        file.write(NETWORK)


def told(command, topology, words, given):
    """The status of a command and what it wrote."""
    words = [PROGRAM, command, topology, *words]
    done = subprocess.run(words, input=given, capture_output=True, timeout=SECONDS)
    return done.returncode, done.stdout


with open(SHORT, "wb") as file:
    file.write(NETWORK)
write(WHOLE, LIMIT)
write(LONGER, LIMIT + 1)
wrong = 0
for command, (words, given) in COMMANDS.items():
    if command == "serve":
        # (a server of a whole text waits for customers)
        wanted = [(LONGER, (8, b"too long\n"))]
    else:
        wanted = [(WHOLE, told(command, SHORT, words, given)), (LONGER, (8, b"too long\n"))]
    for topology, answer in wanted:
        got = told(command, topology, words, given)
        is_so = got == answer and answer[0] in (0, 8, 10)
        wrong += not is_so
        name = topology.rsplit("/", 1)[1]
        print(f"{command} {name}: status {got[0]}, {got[1][:40]!r}{'' if is_so else ': WRONG'}")
sys.exit(1 if wrong else 0)
END
