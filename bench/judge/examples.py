#!/usr/bin/env python3
"""Runs the examples of README.md and of docs/ with a program, and compares what comes of them.

Four kinds of examples are marked in the text:

  a block that begins with ```console       commands after `$ `, and the lines that each writes
  a table after <!-- script TOPOLOGY -->    lines of a script, and the reply to each
  a table after <!-- words -->              words of the program, and the line that tells which
                                            is wrong
  a table after <!-- sessions TOPOLOGY -->  customers of a server: what each says, row by row,
                                            and is answered

All blocks are run in one folder, one after the other and the documents in this order, as by one
who types them all; it has links to demo/ and tools/, and `./hosed` is the program, also after
`try`. A section, which is what stands under a heading of two `#`, has a shell of its own, and at
its end all that it started has ended. Nothing may be left in the folder but what is below its
`examples`. Port 7000 is one that is free. Prints each example that came out otherwise, and how many
were run; ends with status 1 where one did.

usage: bench/judge/examples.py [PROGRAM]
The PROGRAM (./hosed) is seen from the top of the repository.
"""
import os
import re
import select
import signal
import socket
import subprocess
import sys
import tempfile
import time

sys.path.insert(0, os.path.join(os.path.dirname(os.path.abspath(__file__)), "..", "parts"))
from usage import TOP, tell_usage

os.chdir(TOP)
PROGRAM = os.path.abspath((sys.argv[1:] + ["./hosed"])[0])
DOCUMENTS = ("README.md", "docs/GUIDE.md", "docs/OPERATING.md")
SECONDS = 60  # after which a command hangs
SHELL = 'exec 9<&0 </dev/null; while IFS= read -r -u 9 line; do eval "$line"; done; wait'
CODE = re.compile(r"`([^`]*)`")


class Differs(Exception):
    """What was wanted, and what came."""

    def __init__(self, of, wanted, found):
        super().__init__(f"{of}\n  wanted: {wanted!r}\n  found:  {found!r}")


def sections(text):
    return re.split(r"(?m)^## ", text)


def blocks(section):
    """The commands of all blocks, each with what it writes."""
    commands = []
    for block in re.findall(r"(?ms)^```console\n(.*?)^```$", section):
        for part in re.split(r"(?m)^\$ ", block)[1:]:
            commands.append(part.split("\n", 1))
    return commands


def tables(section, kind):
    """Each table of a kind: the word after its kind, and its rows, without the head."""
    for mark, table in re.findall(rf"(?m)^<!-- {kind} ?(.*?) ?-->\n((?:^\|.*\n?)+)", section):
        rows = [line.strip().strip("|").split("|") for line in table.splitlines()]
        yield mark, rows


def free_port():
    with socket.socket() as probe:
        probe.bind(("127.0.0.1", 0))
        return probe.getsockname()[1]


def make_folder(folder):
    for name in ("demo", "tools"):
        os.symlink(os.path.join(TOP, name), os.path.join(folder, name))
    with open(f"{folder}/hosed", "w", encoding="utf-8") as script:
        script.write(f'#!/bin/sh\n[ "$1" = try ] && shift\nexec "{PROGRAM}" "$@"\n')
    os.chmod(f"{folder}/hosed", 0o755)


def taken(pipe, count):
    """So many bytes of a pipe, or all up to its end or until it hangs."""
    found, end = b"", time.monotonic() + SECONDS
    while len(found) < count:
        if not select.select([pipe], [], [], max(0, end - time.monotonic()))[0]:
            break
        more = os.read(pipe.fileno(), count - len(found))
        if not more:
            break
        found += more
    return found.decode()


def stop_all(shell):
    """Ends a shell and all that it started."""
    try:
        os.killpg(shell.pid, signal.SIGKILL)
    except ProcessLookupError:
        pass


def run_blocks(commands, folder):
    """Runs commands in a folder and one shell; a later one begins when all is written."""
    port = str(free_port())
    streams = {"stdin": subprocess.PIPE, "stdout": subprocess.PIPE,
               "stderr": subprocess.DEVNULL, "start_new_session": True}
    with subprocess.Popen(["bash", "-c", SHELL], cwd=folder, **streams) as shell:
        try:
            for command, wanted in commands:
                shell.stdin.write(f"{command.replace('7000', port)}\n".encode())
                shell.stdin.flush()
                found = taken(shell.stdout, len(wanted.encode()))
                if found != wanted:
                    raise Differs(command, wanted, found)
            shell.stdin.close()
            rest = taken(shell.stdout, 10_000)
            if rest:
                raise Differs(f"after {commands[-1][0]}", "", rest)
        finally:
            stop_all(shell)
    return len(commands)


def check_folder(folder):
    """Raises `Differs` where an example left a file elsewhere than below `examples`."""
    found = sorted(set(os.listdir(folder)) - {"demo", "tools", "hosed", "examples"})
    if found:
        raise Differs("what is left beside examples/", [], found)


def run_script(topology, rows):
    """The reply to each line; of a line that is given `N times` the last one."""
    lines, places, wanted = [], [], []
    for row in rows[2:]:
        times = re.search(r", (\d+) times", row[0])
        lines += CODE.findall(row[0])[:1] * (int(times[1]) if times else 1)
        places.append(len(lines) - 1)
        wanted.append(CODE.findall(row[1])[0])
    with open(topology, encoding="ascii") as network:
        text = network.read() + "".join(f"{line}\n" for line in lines)
    done = subprocess.run([PROGRAM, "run"], input=text, stdout=subprocess.PIPE,
                          universal_newlines=True, timeout=SECONDS)
    replies = done.stdout.splitlines()
    for place, reply in zip(places, wanted):
        found = replies[place] if place < len(replies) else None
        if found != reply:
            raise Differs(lines[place], reply, found)
    if len(replies) != len(lines):
        raise Differs(lines[-1], len(lines), len(replies))
    return len(rows) - 2


def run_words(rows):
    count = 0
    for row in rows[2:]:
        cases = [CODE.findall(case) for case in row[0].split(";")]
        for case in cases:
            words = case[0].split() if case else []
            done = subprocess.run([PROGRAM, *words], stdout=subprocess.PIPE,
                                  stderr=subprocess.DEVNULL, stdin=subprocess.DEVNULL,
                                  universal_newlines=True, timeout=SECONDS)
            wanted = (1, CODE.findall(row[1])[0] + "\n")
            if (done.returncode, done.stdout) != wanted:
                raise Differs(words, wanted, (done.returncode, done.stdout))
            count += 1
    return count


def run_sessions(topology, rows):
    """Customers in columns: what one says, what one is answered, and so for the next."""
    heads, port = [CODE.findall(cell) for cell in rows[0]], str(free_port())
    columns = [place for place, head in enumerate(heads) if head]
    with tempfile.TemporaryDirectory() as folder:
        words = [PROGRAM, "serve", topology, f"{folder}/journal", port, str(len(columns)), "2"]
        with subprocess.Popen(words, stdout=subprocess.PIPE) as server:
            try:
                if taken(server.stdout, 6) != "ready\n":
                    raise Differs(words, "ready", None)
                peers = {}
                for place in columns:
                    peers[place] = socket.create_connection(("127.0.0.1", int(port)), SECONDS)
                streams = {place: peer.makefile("rw", encoding="ascii")
                           for place, peer in peers.items()}
                for row in rows[2:]:
                    for place in columns:
                        say(streams[place], CODE.findall(row[place]), CODE.findall(row[place + 1]))
            finally:
                server.kill()
    return sum(len(CODE.findall(row[place])) for row in rows[2:] for place in columns)


def say(stream, lines, replies):
    for line, reply in zip(lines, replies):
        stream.write(f"{line}\n")
        stream.flush()
        found = stream.readline()
        if found != f"{reply}\n":
            raise Differs(line, reply, found)


def examples(section, folder):
    """What runs each example of a section."""
    if blocks(section):
        yield lambda: run_blocks(blocks(section), folder)
        yield lambda: check_folder(folder) or 0
    for topology, rows in tables(section, "script"):
        yield lambda topology=topology, rows=rows: run_script(topology, rows)
    for _, rows in tables(section, "words"):
        yield lambda rows=rows: run_words(rows)
    for topology, rows in tables(section, "sessions"):
        yield lambda topology=topology, rows=rows: run_sessions(topology, rows)


def run_document(path, folder):
    """How many examples of a document came out as they should, and how many otherwise."""
    with open(path, encoding="utf-8") as document:
        text = document.read()
    count = differed = 0
    for section in sections(text):
        for run in examples(section, folder):
            try:
                count += run()
            except Differs as fault:
                differed += 1
                print(f"{path}, {section.splitlines()[0]}: {fault}")
    print(f"examples: {count} of {path}")
    return differed


def main():
    with tempfile.TemporaryDirectory() as folder:
        make_folder(folder)
        differed = sum(run_document(path, folder) for path in DOCUMENTS)
    sys.exit(1 if differed else 0)


if __name__ == "__main__":
    tell_usage(__doc__)
    main()
