#!/usr/bin/env python3
"""Tells what the program enters for one line: frames, functions, crates.

The program is built of the same sources, without a proof and with no function put into another one,
so that each call is one; it notes which functions it enters and leaves, and when it reads. LINE, or
`admit a:3 b:4 c:5`, is said by the customer acme on the network demo/star.txt, after `vpns`: to
`run`, with the book in memory, and to `serve` with a journal, at a port and with one worker. Each
figure is of the thread that answers, from the end of the read that gave the line to the begin of
the next one, and of functions that are written in this repository, closures with them, whatever
types they are for; what the compiler adds to drop values and to call closures is left out.

  frames     those from `main` to the function that answers a line: the first one called `answer`,
             or another NAME, that is entered then
  functions  those that are entered, each once, with their files and crates
  entries    each time that one is entered, and how often the crate changes from one to the next
  calls      from one to the next one that it enters, with libraries between them left out, and how
             many of these go into another crate; then the same of different pairs
  doors      functions that whenever they are entered enter exactly one other one
  laws       functions called law_.., which are there for proofs
  libraries  functions of the kit's libraries, each once, and without what the compiler adds

--list names what is entered, in order, each with its depth; --names counts the entries of each
function; --doors names the doors and what they enter. The program is built in some minutes where a
source is newer than it, and is bench/out/entered then.

usage: bench/repository/entered.py [--list] [--names] [--doors] [--until NAME] [LINE ..]
"""
import argparse
import collections
import os
import re
import shlex
import shutil
import socket
import struct
import subprocess
import sys
import tempfile

sys.path.insert(0, os.path.join(os.path.dirname(os.path.abspath(__file__)), "..", "parts"))
from usage import TOP, tell_usage

import client
import definitions

PROGRAM = os.path.join(TOP, "bench", "out", "entered")
NETWORK = os.path.join(TOP, "demo", "star.txt")
FIRST, LINE = "vpns", "admit a:3 b:4 c:5"
SECONDS = 60  # after which a program hangs
ENTERED, LEFT, READS, READ, BEGINS = range(1, 6)  # as entered.c has them
CRATES = set(definitions.crates_of(TOP))

# ---- The program.

# Takes the module that rt try has compiled with checks of memory, in place of compiling it.
TAKES_MODULE = """#!/bin/sh
for word; do case $word in *.bc) module=$word ;; -fsanitize=address) checks=yes ;; esac; done
[ "$checks" ] || exec {clang} "$@"
/bin/cp "$module" {kept}
exit 1
"""
HOOKS = ('"instrument-function-entry-inlined"="__cyg_profile_func_enter" '
         '"instrument-function-exit-inlined"="__cyg_profile_func_exit"')
# What would put a function into its callers, or checks memory by calls that are no one's.
DROPPED = re.compile(r"\b(alwaysinline|inlinehint|sanitize_address|sanitize_thread)\b ?")


def kit():
    found = shutil.which("rt")
    if not found:
        sys.exit("the Rattle kit's folder bin is not on the path (README.md)")
    return os.path.dirname(os.path.dirname(os.path.realpath(found)))


def is_built():
    if not os.path.exists(PROGRAM):
        return False
    made = os.path.getmtime(PROGRAM)
    return all(os.path.getmtime(path) <= made for crate in CRATES
               for path in sources_of(os.path.join(TOP, "crates", crate, "src")))


def sources_of(folder):
    return [os.path.join(at, name) for at, _, names in os.walk(folder) for name in names]


def link_kit(folder, module):
    """A kit of links to the real one, whose compiler keeps the module that it is given there."""
    real = kit()
    for name in os.listdir(real):
        if name not in ("bin", "toolchain"):
            os.symlink(os.path.join(real, name), os.path.join(folder, name))
    shutil.copytree(os.path.join(real, "bin"), os.path.join(folder, "bin"), symlinks=True)
    os.makedirs(os.path.join(folder, "toolchain", "bin"))
    os.symlink(os.path.join(real, "toolchain", "lib"), os.path.join(folder, "toolchain", "lib"))
    for name in os.listdir(os.path.join(real, "toolchain", "bin")):
        path = os.path.join(folder, "toolchain", "bin", name)
        if name == "clang":
            clang = os.path.join(real, "toolchain", "bin", name)
            with open(path, "w") as file:
                file.write(TAKES_MODULE.format(clang=shlex.quote(clang), kept=shlex.quote(module)))
            os.chmod(path, 0o755)
        else:
            os.symlink(os.path.join(real, "toolchain", "bin", name), path)


def hooked(text):
    """A module with each of its functions telling when it is entered and left."""
    lines = []
    for line in text.splitlines():
        if line.startswith("attributes #"):
            line = DROPPED.sub("", line).replace("{", "{ " + HOOKS, 1)
        elif line.startswith("define ") and not re.search(r"#\d+", line):
            line = re.sub(r"\{$", HOOKS + " {", line)
        lines.append(line)
    return "\n".join(lines) + "\n"


def build(work):
    """Compiles the program with hooks."""
    print("entered: compiling the program without its proof, once; some minutes", file=sys.stderr)
    folder, module = os.path.join(work, "kit"), os.path.join(work, "module.bc")
    os.mkdir(folder)
    link_kit(folder, module)
    words = [os.path.join(folder, "bin", "rt"), "try", "--steps", "1", "--", "--version"]
    made = subprocess.run(words, cwd=os.path.join(TOP, "crates", "hosed_main"),
                          env={**os.environ, "TMPDIR": work},
                          stdin=subprocess.DEVNULL, capture_output=True, text=True)
    if not os.path.exists(module):
        sys.exit("rt try made no module that this script finds\n" + made.stderr[-2000:])
    compile_hooked(work, module)


def compile_hooked(work, module):
    real = kit()
    clang = [os.path.join(real, "toolchain", "bin", "clang"), "-x", "ir", "-O0"]
    text, hooks = os.path.join(work, "module.ll"), os.path.join(work, "hooked.ll")
    run([*clang, "-Xclang", "-disable-llvm-passes", "-S", "-emit-llvm", module, "-o", text])
    with open(text, encoding="utf-8", errors="surrogateescape") as file:
        found = hooked(file.read())
    with open(hooks, "w", encoding="utf-8", errors="surrogateescape") as file:
        file.write(found)
    run([*clang, "-c", hooks, "-o", os.path.join(work, "hooked.o")])
    recorder = os.path.join(work, "recorder.o")
    run(["gcc", "-O1", "-c", os.path.join(TOP, "bench", "repository", "entered.c"), "-o", recorder])
    libraries = [os.path.join(real, "c", name) for name in ("libos_c.a", "liblibc_c.a")]
    os.makedirs(os.path.dirname(PROGRAM), exist_ok=True)
    run(["gcc", "-no-pie", os.path.join(work, "hooked.o"), recorder, *libraries, "-lm", "-ldl",
         "-lpthread", "-o", PROGRAM])


def run(words):
    done = subprocess.run(words, capture_output=True, text=True)
    if done.returncode != 0:
        sys.exit(f"{words[0]} failed\n{done.stderr[-2000:]}")
    return done.stdout


# ---- What a run records.


def record_run(folder, line):
    """Says two lines to `run`, each once the one before is answered."""
    words = [PROGRAM, "run"]
    pipes = {"stdin": subprocess.PIPE, "stdout": subprocess.PIPE, "text": True}
    with open(NETWORK, encoding="ascii") as file:
        network = file.read()
    process = subprocess.Popen(words, env={**os.environ, "ENTERED_FOLDER": folder}, **pipes)
    replies = []
    for said in (f"{network}acme {FIRST}", f"acme {line}"):
        process.stdin.write(f"{said}\n")
        process.stdin.flush()
        replies.append(process.stdout.readline())
    process.stdin.close()
    process.wait(SECONDS)
    return replies[-1]


def record_serve(folder, work, line):
    """Says two lines to `serve`, after its greeting."""
    with socket.socket() as probe:
        probe.bind((client.HOST, 0))
        port = probe.getsockname()[1]
    words = [PROGRAM, "serve", NETWORK, os.path.join(work, "journal"), str(port), "1", "1"]
    process = subprocess.Popen(words, env={**os.environ, "ENTERED_FOLDER": folder},
                               stdout=subprocess.PIPE, text=True)
    if process.stdout.readline() != "ready\n":
        sys.exit("the server did not begin")
    peer = client.Lines(client.HOST, port, SECONDS)
    peer.ask("hello acme")
    peer.ask(FIRST)
    reply = peer.ask(line)
    peer.ask("bye")
    peer.close()
    process.communicate(timeout=SECONDS)
    return reply


# ---- What was recorded.

Entry = collections.namedtuple("Entry", "name depth stack")


def names_by_address():
    names = {}
    for line in run(["nm", PROGRAM]).splitlines():
        address, kind, name = line.split(None, 2) if line[0] != " " else ("", "", "")
        if kind in "tTwW" and name:
            names.setdefault(int(address, 16), name)
    return names


def notes_of(folder):
    """Of each thread its pairs."""
    notes = {}
    for name in os.listdir(folder):
        with open(os.path.join(folder, name), "rb") as file:
            data = file.read()
        notes[int(name)] = list(struct.iter_unpack("<QQ", data[:len(data) // 16 * 16]))
    return notes


def cut(notes, names, number):
    """The entries of the thread that reads it, for the read of this number that gave something."""
    stacks = {0: []}  # of each thread where it begins
    for thread in sorted(notes):
        for kind, value in walk(notes[thread], list(stacks.get(thread, [])), names):
            if kind == BEGINS:
                stacks[value[0]] = value[1]
    found = []
    for thread in sorted(notes):
        reads, taken = 0, []
        for kind, value in walk(notes[thread], list(stacks.get(thread, [])), names):
            if kind == READ and value:
                reads += 1
                taken = []
            elif kind == READS and reads == number:
                found.append(taken)
                break
            elif kind == ENTERED:
                taken.append(value)
    if len(found) != 1:
        sys.exit(f"the line was read by {len(found)} threads")
    return found[0]


def walk(pairs, stack, names):
    """What a thread did: each entry with the stack then, and its reads."""
    for kind, value in pairs:
        if kind == ENTERED:
            stack.append(names.get(value, "?"))
            yield ENTERED, Entry(stack[-1], len(stack), tuple(stack))
        elif kind == LEFT:
            stack.pop()
        elif kind == BEGINS:
            yield BEGINS, (value, tuple(stack))
        else:
            yield kind, value


# ---- Names, as `crate::module::TYPE::function::<TYPES>`.


def plain(name):
    """A function's name without the types that it is for."""
    return name.split("::<")[0]


def crate_of(name):
    return name.split("::")[0]


def is_ours(name):
    """Of this repository, and written there: what the compiler adds has a `+` in its name, but for
    the `+2` of a second closure."""
    return crate_of(name) in CRATES and "+" not in re.sub(r"\+\d+\b", "", plain(name))


def file_of(name):
    crate, module = name.split("::")[:2]
    path = os.path.join("crates", crate, "src", f"{module}.rt")
    return path if os.path.exists(os.path.join(TOP, path)) else f"crates/{crate}/src/lib.rt"


# ---- Figures.


def changes(crates):
    return sum(one != other for one, other in zip(crates, crates[1:]))


def calls_of(ours):
    """Of each entry the nearest caller that is ours, by its place in the stack, and both names."""
    for entry in ours:
        above = [(place, name) for place, name in enumerate(entry.stack[:-1]) if is_ours(name)]
        if above:
            yield above[-1][0], plain(above[-1][1]), plain(entry.name)


def entered_by(ours):
    """Of each function the lists of what its entries entered, one list for each entry."""
    found, open_lists = collections.defaultdict(list), {}
    for entry in ours:
        above = [place for place, name in enumerate(entry.stack[:-1]) if is_ours(name)]
        if above and above[-1] in open_lists:
            open_lists[above[-1]].append(plain(entry.name))
        open_lists = {place: made for place, made in open_lists.items() if place < entry.depth - 1}
        open_lists[entry.depth - 1] = []
        found[plain(entry.name)].append(open_lists[entry.depth - 1])
    return found


def doors_of(ours):
    """The functions each of whose entries enters exactly one other, and which ones."""
    return {name: sorted({made[0] for made in lists}) for name, lists in entered_by(ours).items()
            if all(len(made) == 1 for made in lists)}


def tell(words, reply, entries, options):
    ours = [entry for entry in entries if is_ours(entry.name)]
    names = {plain(entry.name) for entry in ours}
    closures = {name for name in names if "::fn::" in name}
    libraries = {plain(entry.name) for entry in entries
                 if crate_of(entry.name) not in CRATES and "+" not in plain(entry.name)}
    calls = [(caller, entered) for _, caller, entered in calls_of(ours)]
    apart = [call for call in calls if crate_of(call[0]) != crate_of(call[1])]
    laws = [name for name in names if name.split("::")[-1].startswith("law_")]
    print(f"{words}: {reply.strip()}")
    tell_frames(ours, options.until)
    print(f"  functions: {len(names)}, {len(closures)} of them closures, of "
          f"{len({file_of(name) for name in names})} files and "
          f"{len({crate_of(name) for name in names})} crates")
    print(f"  entries: {len(ours)}, {changes([crate_of(entry.name) for entry in ours])} changes "
          "of crate")
    print(f"  calls: {len(calls)}, {len(apart)} of them into another crate; "
          f"{len(set(calls))} and {len(set(apart))} different ones")
    print(f"  doors: {len(doors_of(ours))}")
    print(f"  laws: {len(laws)}")
    print(f"  libraries: {len(libraries)} functions")


def tell_frames(ours, until):
    for entry in ours:
        if plain(entry.name).split("::")[-1] == until:
            mine = [plain(name) for name in entry.stack if is_ours(name)]
            print(f"  frames: {len(mine)}")
            for number, name in enumerate(mine, 1):
                print(f"    {number:2} {name}")
            return
    print(f"  frames: no function called {until} was entered")


def tell_list(ours):
    for entry in ours:
        depth = sum(is_ours(name) for name in entry.stack)
        print(f"    {'. ' * (depth - 1)}{plain(entry.name)}")


def tell_names(ours):
    for name, count in collections.Counter(plain(entry.name) for entry in ours).most_common():
        print(f"    {count:5} {name}")


def tell_doors(ours):
    for name, entered in doors_of(ours).items():
        print(f"    {name} -> {', '.join(entered)}")


def main():
    tell_usage(__doc__)
    reader = argparse.ArgumentParser(usage=__doc__.split("usage: ")[1])
    for name in ("--list", "--names", "--doors"):
        reader.add_argument(name, action="store_true")
    reader.add_argument("--until", default="answer")
    reader.add_argument("line", nargs="*")
    options = reader.parse_args()
    line = " ".join(options.line) or LINE
    with tempfile.TemporaryDirectory() as work:
        if not is_built():
            build(work)
        names = names_by_address()
        for words, number in (("run", 2), ("serve", 3)):
            folder = os.path.join(work, words)
            os.mkdir(folder)
            reply = (record_run(folder, line) if words == "run"
                     else record_serve(folder, work, line))
            entries = cut(notes_of(folder), names, number)
            tell(words, reply, entries, options)
            ours = [entry for entry in entries if is_ours(entry.name)]
            for wanted, tell_them in ((options.list, tell_list), (options.names, tell_names),
                                      (options.doors, tell_doors)):
                if wanted:
                    tell_them(ours)


if __name__ == "__main__":
    main()
