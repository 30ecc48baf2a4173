#!/usr/bin/env python3
"""Audits what a stop may leave of a long journal of version 1 while it is sealed.

The journal has 20,000 live VPNs of three endpoints, and is made here after docs/GUIDE.md. Of each
of the seal's four calls, a write of its record, a sync, a write of the gate and a sync, a stop
leaves what was written, what was synced, or any bytes in their place, of which 0, 1 and 255 are
tried, or a part of what was written. Each such file is to be audited as the journal of version 2 of
the same entries is, and is then to be the sealed journal, byte by byte, whose chain value
tools/read_journal.py tells as that of version 2. Prints how many were audited, or the first that
differs, and ends with status 1 there.

usage: bench/judge/seals.py [PROGRAM]
The PROGRAM (./hosed) is seen from the top of the repository.
"""

import hashlib
import os
import subprocess
import sys
import tempfile

sys.path.insert(0, os.path.join(os.path.dirname(os.path.abspath(__file__)), "..", "parts"))
from usage import TOP, tell_usage

import read_journal

tell_usage(__doc__)
os.chdir(TOP)
PROGRAM = os.path.abspath((sys.argv[1:] + ["./hosed"])[0])
HANGS = 120  # seconds
VPNS, ENDS = 20_000, 3
FILLED = 0, 1, 255
# A star in which each endpoint has a link of its own number: its canonical text.
STAR = ("".join(f"node n{node}\n" for node in range(ENDS)) + "node h\n"
        + "".join(f"link n{node} h 1000000000 1 1\n" for node in range(ENDS)) + "end\n")
ONES = b"".join(number.to_bytes(2, "big") + b"\0\0\0\1" for number in range(ENDS))
ADMISSION = b"\1\4acme" + bytes([ENDS]) + ONES + ENDS.to_bytes(2, "big") + ONES


def journals():
    """The journal in version 2, in version 1, and what a seal writes of it after its gate."""
    value = hashlib.sha256(STAR.encode()).digest()
    chained, plain = ([b"\1HOSE" + version + value] for version in (b"\2", b"\1"))
    length = len(ADMISSION).to_bytes(4, "big")
    for _ in range(VPNS):
        value = hashlib.sha256(value + ADMISSION).digest()
        chained.append(b"\1" + length + value + ADMISSION)
        plain.append(b"\1" + length + ADMISSION)
    seal = (1 + len(value)).to_bytes(4, "big") + b"\5" + value + b"\0"
    return b"".join(chained) + b"\0", b"".join(plain) + b"\0", seal


def images(plain, seal):
    """What a stop leaves, by its name."""
    yield "before the seal", plain
    for count in range(1, len(seal) + 1):
        yield f"{count} bytes of the record", plain + seal[:count]
    for byte in FILLED:
        yield f"the record filled with {byte}", plain + bytes([byte]) * len(seal)
    for byte in FILLED:
        yield f"the record and the gate {byte}", plain[:-1] + bytes([byte]) + seal


def audited(folder, held):
    """The audit of a journal, its status, and the journal afterwards."""
    topology, journal = (os.path.join(folder, name) for name in ("topology", "journal"))
    with open(topology, "w", encoding="ascii") as file:
        file.write(STAR)
    with open(journal, "wb") as file:
        file.write(held)
    words = [PROGRAM, "audit", topology, journal]
    done = subprocess.run(words, stdout=subprocess.PIPE, timeout=HANGS)
    with open(journal, "rb") as file:
        return done.stdout, done.returncode, file.read()


def chain_of(held):
    *_, last = read_journal.lines(held)
    return last.partition("chain ")[2]


def main():
    chained, plain, seal = journals()
    sealed, count = plain[:-1] + b"\1" + seal, 0
    with tempfile.TemporaryDirectory() as folder:
        text, status, left = audited(folder, chained)
        told = f"epoch {VPNS}\n".encode(), f"live {VPNS} cost {VPNS * ENDS}\n".encode()
        assert status == 0 and text.startswith(told[0]) and text.endswith(told[1]), text[:80]
        assert left == chained, "a journal of version 2 was changed"
        assert chain_of(sealed) == chain_of(chained) == seal[5:-1].hex(), "the reader differs"
        for name, held in images(plain, seal):
            if audited(folder, held) != (text, 0, sealed):
                sys.exit(f"seals: {name} is not audited, or not sealed, as it must be")
            count += 1
    print(f"seals: {count} files of {len(plain)} bytes and more, each audited and sealed as wanted")


main()
