#!/usr/bin/env bash
# Runs the program on real files, and prints what came of each: a journal that is begun, gone on
# with and read, byte by byte; one on which a write fails; a topology that is read in pieces; and
# what is no file, as a journal and as a topology. Two programs on one journal are in
# bench/judge/two.sh. Ends with status 1 where something else came of one.
# usage: bench/judge/files.sh [PROGRAM]
[ "${1-}" != --help ] || exec sed -n '2,/^[^#]/s/^# \{0,1\}//p' "$0"
. "$(dirname "$0")/../parts/setup.sh"

PYTHONPATH=tools:bench/parts python3 - "$program" "$work" <<'END'
import hashlib
import os
import resource
import signal
import subprocess
import sys

from planner import link_line

PROGRAM, PLACE = os.path.abspath(sys.argv[1]), sys.argv[2]
SECONDS = 60  # after which a program hangs

with open("demo/star.txt") as file:
    STAR = file.read()
os.chdir(PLACE)

# The canonical text of the star, each link with its cost.
CANONICAL = "".join(f"node {name}\n" for name in "abch") + "".join(
    f"link {name} h 10 {cost} {cost}\n" for name, cost in (("a", 1), ("b", 2), ("c", 3))) + "end\n"
DIGEST = hashlib.sha256(CANONICAL.encode()).digest()
# acme's a:1 b:1, with 1 on the links 0 and 1; and the release of VPN 1.
ONES = b"\0\0\0\0\0\1" + b"\0\1\0\0\0\1"
ADMISSION = b"\1\4acme" + b"\2" + ONES + b"\0\2" + ONES
RELEASE = b"\2\4acme" + b"\0\0\0\1"
ADMIT, ADMITTED = "acme admit a:1 b:1\n", "admitted 1 cost 3 at 1 links 0:1 1:1\n"
BOOK = f"""epoch 1
{link_line(0, "a", "h", 10, 1, 1)}
{link_line(1, "b", "h", 10, 2, 1)}
{link_line(2, "c", "h", 10, 3, 0)}
vpn 1 acme cost 3 ends a:1 b:1 links 0:1 1:1
live 1 cost 3
"""
right = []


def journal(*spellings):
    """A journal of version 2: each record has the chain value of the list with its entry."""
    held, value = b"\1HOSE\2" + DIGEST, DIGEST
    for one in spellings:
        value = hashlib.sha256(value + one).digest()
        held += b"\1" + len(one).to_bytes(4, "big") + value + one
    return held + b"\0"


def at_most(size):
    """Has a write past so many bytes of a file fail."""
    signal.signal(signal.SIGXFSZ, signal.SIG_IGN)
    resource.setrlimit(resource.RLIMIT_FSIZE, (size, size))


def comes(name, words, text, status, output, limit=None):
    """Tells whether a program with these words and this input ends so."""
    before = None if limit is None else lambda: at_most(limit)
    done = subprocess.run([PROGRAM, *words], input=text, capture_output=True, text=True,
                          timeout=SECONDS, preexec_fn=before)
    print(f"{name}: status {done.returncode}, {done.stdout!r}")
    told = (done.returncode, done.stdout, done.stderr.count("\n"))
    right.append(told == (status, output, int(status != 0)))


def holds(path, bytes, rest=0):
    """Tells whether a file has these bytes and at most so many after them."""
    with open(path, "rb") as file:
        held = file.read()
    right.append(held.startswith(bytes) and len(held) <= len(bytes) + rest)
    print(f"{path}: {'as' if right[-1] else 'not as'} the format has it")


def write(path, bytes):
    with open(path, "wb") as file:
        file.write(bytes)


comes("a new journal", ["run", "new"], STAR + ADMIT, 0, ADMITTED)
holds("new", journal(ADMISSION))
comes("the same again", ["run", "new"], STAR + "acme release 1\n", 0, "released 1 at 2\n")
holds("new", journal(ADMISSION, RELEASE))

write("short", b"fewer than 39")
comes("a file of a few bytes", ["run", "short"], STAR, 0, "")
holds("short", journal())

# A journal of one admission has 109 bytes, and of two 179. What was written of the second stands
# after the last gate, which is closed.
comes("a file of 140 bytes at most", ["run", "full"], STAR + ADMIT + ADMIT, 0,
      ADMITTED + "disk at 1\n", limit=140)
comes("the same without a limit", ["run", "full"], STAR + "x link 0\n", 0,
      link_line(0, "a", "h", 10, 1, 1) + " at 1\n")
holds("full", journal(ADMISSION), rest=140 - 109)

# A topology is read in pieces of 4,096 bytes, in two of which it stands here.
write("topology", b"#" * 4_090 + b"\n" + STAR.encode())
comes("a topology of 4,165 bytes", ["audit", "topology", "full"], "", 0, BOOK)
comes("no such topology", ["audit", "none", "full"], "", 6, "cabinet\n")
for path in ".", "/dev/null":
    comes(f"the journal {path}", ["run", path], STAR, 6, "cabinet\n")
    comes(f"the topology {path}", ["audit", path, "full"], "", 6, "cabinet\n")

print(f"files: {sum(right)} of {len(right)} as wanted")
sys.exit(0 if all(right) else 1)
END
