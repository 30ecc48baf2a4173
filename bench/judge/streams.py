#!/usr/bin/env python3
"""Runs the program with words and streams that no stored run has, and compares what comes of them.

The statuses and outputs that are wanted are those of docs/GUIDE.md. Each command is run with each
standard stream closed, too: then no file and no connection has the stream's descriptor, and a
journal that has orders keeps its bytes. Prints each run that was not as wanted, and how many were;
ends with status 1 where one was not.

usage: bench/judge/streams.py [PROGRAM]
The PROGRAM (./hosed) is seen from the top of the repository.
"""

import os
import socket
import subprocess
import sys
import tempfile

sys.path.insert(0, os.path.join(os.path.dirname(os.path.abspath(__file__)), "..", "parts"))
from usage import TOP, tell_usage

from planner import link_line

GIB = 1 << 30
MOST_WORD = 4_096

os.chdir(TOP)
with open("demo/star.txt", "rb") as star:
    STAR = star.read()
LINK = link_line(0, "a", "h", 10, 1, 0).encode() + b" at 0\n"
ORDERS = b"acme admit a:1 b:1\nbeta admit a:2 b:2\n"
LOADED = link_line(0, "a", "h", 10, 1, 3).encode() + b" at 2\n"
AUDIT = f"""epoch 2
{link_line(0, "a", "h", 10, 1, 3)}
{link_line(1, "b", "h", 10, 2, 3)}
{link_line(2, "c", "h", 10, 3, 0)}
vpn 1 acme cost 3 ends a:1 b:1 links 0:1 1:1
vpn 2 beta cost 6 ends a:2 b:2 links 0:2 1:2
live 2 cost 9
""".encode()
HANGS = 60  # seconds

# Words, the input, the status, the output.
WORDS = [
    ([], b"", 1, b"words 1\n"),
    (["--version"], b"", 0, b"hosed 0.2.0\n"),
    (["--version"], STAR, 0, b"hosed 0.2.0\n"),
    (["--help", "x"], b"", 1, b"words 1\n"),
    (["--version", "run"], b"", 1, b"words 1\n"),
    (["run", "x", "run"], STAR, 1, b"words 3\n"),
    (["run", "-x"], STAR, 1, b"words 2\n"),
    (["run", ""], STAR, 1, b"words 2\n"),
    (["ru"], STAR, 1, b"words 1\n"),
    (["runs"], STAR, 1, b"words 1\n"),
    ([""], STAR, 1, b"words 1\n"),
    ([b"\xff"], STAR, 1, b"words 1\n"),
    ([b"run\xff"], STAR, 1, b"words 1\n"),
    (["run", b"\xff"], STAR, 1, b"words 2\n"),
    (["r" * MOST_WORD], STAR, 1, b"words 1\n"),
    (["r" * (MOST_WORD + 1)], STAR, 1, b"words 1\n"),
    (["run"], b"", 2, b"topology 1 1\n"),
    (["run"], STAR, 0, b""),
    (["run"], STAR + b"acme link 0", 0, LINK),
    (["run"], STAR + b"acme link 0\n\n", 0, LINK + b"bad 1\n"),
]


def run(program, words, **streams):
    done = subprocess.run([program, *words], stderr=subprocess.PIPE, **streams)
    return done.returncode, done.stdout, done.stderr


def with_words(program):
    for words, text, status, output in WORDS:
        found = run(program, words, input=text, stdout=subprocess.PIPE)
        hint = found[2].count(b"\n") == int(status != 0)
        yield f"{words} over {len(text)} bytes", found[:2] == (status, output) and hint, found
    found = run(program, ["--help"], input=STAR, stdout=subprocess.PIPE)
    tells = found[1].startswith(b"usage: hosed run") and not found[2]
    yield "--help", found[0] == 0 and tells, found


def with_failing_streams(program):
    """Inputs that cannot be read and outputs that cannot be written: status 3 and 4."""
    folder = os.open("/", os.O_RDONLY)
    found = run(program, ["run"], stdin=folder, stdout=subprocess.PIPE)
    yield "an input that cannot be read", found[:2] == (3, b"read\n"), found
    os.close(folder)
    found = run("/bin/sh", ["-c", f"exec '{program}' run <&-"], stdout=subprocess.PIPE)
    yield "a closed input", found[:2] == (3, b"read\n"), found
    for words, status in ((["run"], 4), (["--help"], 4), (["--version"], 4), (["fly"], 1)):
        with open("/dev/full", "wb") as full:
            found = run(program, words, input=STAR + b"acme link 0\n", stdout=full)
        told = found[2].count(b"\n") == 1
        yield f"{words} to a full device", found[0] == status and told, found
        closed = f"exec '{program}' {words[0]} >&-"
        found = run("/bin/sh", ["-c", closed], input=STAR + b"acme link 0\n")
        yield f"{words} to a closed output", found[0] == status, found
        reader, writer = os.pipe()
        os.close(reader)
        found = run(program, words, input=STAR + b"acme link 0\n", stdout=writer)
        os.close(writer)
        # Who reads has gone, and chose to: nothing is told of that.
        told = found[2].count(b"\n") == int(status != 4)
        yield f"{words} to a pipe that nobody reads", found[0] == status and told, found


# How a shell closes each standard stream.
CLOSED = {0: "<&-", 1: ">&-", 2: "2>&-"}

CERTIFICATE = (
    b"cost 26\nhose a:3 b:4 c:5\nuse 0 3\nuse 1 4\nuse 2 5\npot 0 0 0 3 4 1\npot 1 0 3 0 5 2\n"
    b"pot 2 0 4 5 0 3\npot 3 0 1 2 3 0\nend\n"
)
PRICES = b"price acme flat 26 12 26 hops 12 12 12 long 112 60 112 best hops\n"
GENERATED = b"gen 1 hoses 0 admitted 0 refused 0 released 0 epoch 0 cost 0\n"

# What each command is given on its input, where that is not a topology and a line.
INPUTS = {"check": CERTIFICATE, "price": b"acme a:3 b:4 c:5\n"}

# The status and the output of each command where a stream is closed that it uses, and where it is
# another one. Nothing is read of the input of `audit`, `serve`, `prove` and `gen`.
WITHOUT = {
    "run": {0: (3, b"read\n"), 1: (4, b""), 2: (0, LOADED)},
    "audit": {0: (0, AUDIT), 1: (4, b""), 2: (0, AUDIT)},
    "serve": {0: (0, b"ready\n" + AUDIT), 1: (4, b""), 2: (0, b"ready\n" + AUDIT)},
    "prove": {0: (0, CERTIFICATE), 1: (4, b""), 2: (0, CERTIFICATE)},
    "check": {0: (3, b"read\n"), 1: (4, b""), 2: (0, b"yes 26\n")},
    "price": {0: (3, b"read\n"), 1: (4, b""), 2: (0, PRICES)},
    "gen": {0: (0, GENERATED), 1: (4, b""), 2: (0, GENERATED)},
}


def content(path):
    with open(path, "rb") as file:
        return file.read()


def free_port():
    with socket.socket() as probe:
        probe.bind(("127.0.0.1", 0))
        return probe.getsockname()[1]


def is_used(process, stream):
    """Whether a running program has a file at the descriptor of this stream."""
    return os.path.lexists(f"/proc/{process.pid}/fd/{stream}")


def converse(process, port, stream):
    """Is the one customer of a server; whether it has a file at the descriptor of the stream."""
    with socket.create_connection(("127.0.0.1", port), HANGS) as peer:
        replies = peer.makefile("rb")
        peer.sendall(b"hello acme\nlink 0\n")
        assert (replies.readline(), replies.readline()) == (b"welcome at 2\n", LOADED)
        return is_used(process, stream)


def without(program, words, stream, text, port):
    """Runs a program to its end with a stream closed. A server that is ready has a customer."""
    shell = f'exec "$@" {CLOSED[stream]}'
    streams = {"stdin": subprocess.PIPE, "stdout": subprocess.PIPE, "stderr": subprocess.PIPE}
    with subprocess.Popen(["/bin/sh", "-c", shell, program, program, *words], **streams) as process:
        output, used = b"", False
        if words[0] == "serve":
            output = process.stdout.readline()
        if output == b"ready\n":
            used = converse(process, port, stream)
        try:
            rest, _ = process.communicate(text, HANGS)
        except subprocess.TimeoutExpired:
            process.kill()
            return "hangs", output, used
        return process.returncode, output + rest, used


def with_closed_streams(program):
    """Each command with a stream closed, on a journal that has orders."""
    text, silent = STAR + b"acme link 0\n", subprocess.DEVNULL
    for command, ends in WITHOUT.items():
        for stream, (status, output) in ends.items():
            with tempfile.TemporaryDirectory() as work:
                journal, port = os.path.join(work, "journal"), free_port()
                subprocess.run([program, "run", journal], input=STAR + ORDERS, stdout=silent)
                kept = content(journal)
                words = {
                    "run": ["run", journal],
                    "audit": ["audit", "demo/star.txt", journal],
                    "serve": ["serve", "demo/star.txt", journal, str(port), "1", "1"],
                    "prove": ["prove", "demo/star.txt", "a:3", "b:4", "c:5"],
                    "check": ["check", "demo/star.txt"],
                    "price": ["price", "demo/star.txt"],
                    "gen": ["gen", "1", "6", "5", "0"],
                }[command]
                given = INPUTS.get(command, text)
                found = without(program, words, stream, given, port)
                right = found == (status, output, False) and content(journal) == kept
            yield f"{command} {CLOSED[stream]} on a journal", right, found


def with_long_inputs(program):
    """A topology and one line without an end, of 1 GiB together, and of a byte more."""
    chunk = b"x" * (1 << 20)
    for more, status, output in ((0, 0, b"long\n"), (1, 8, b"too long\n")):
        pipes = {"stdin": subprocess.PIPE, "stdout": subprocess.PIPE}
        with subprocess.Popen([program, "run"], **pipes) as process:
            process.stdin.write(STAR)
            left = GIB + more - len(STAR)
            while left > 0:
                left -= process.stdin.write(chunk[:left])
            process.stdin.close()
            found = process.stdout.read(), process.wait()
        yield f"an input of 1 GiB and {more} bytes", found == (output, status), found


def main():
    program = os.path.abspath((sys.argv[1:] + ["./hosed"])[0])
    count = wrong = 0
    for ways in (with_words, with_failing_streams, with_closed_streams, with_long_inputs):
        for name, is_right, found in ways(program):
            count += 1
            if not is_right:
                wrong += 1
                print(f"{name}: {found}")
    print(f"streams: {count - wrong} of {count} runs as wanted")
    sys.exit(1 if wrong else 0)


if __name__ == "__main__":
    tell_usage(__doc__)
    main()
