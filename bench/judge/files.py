#!/usr/bin/env python3
"""Shows which calls of the system the program makes on its files, and what comes of their faults.

The proofs say nothing of a real file, so a program that leaves a sync out, or takes a read that was
cut short for the end, would be proved as well. Here the calls of openings and of one order are
compared, one by one and in order, with those that are wanted (strace); then each of them fails, is
cut short, is interrupted, or finds its file replaced or locked (strace, and a library that gcc
makes of bench/judge/edge.c). Then the library has the program do as if it were written wrongly, in
each way of WRONG, and one of the trials has to refuse it. Prints each trial that did not come out
as wanted, which one refuses each wrong body, and how many came out as wanted; ends with status 1
where one did not or a wrong body passed, and where strace or gcc is missing.

usage: bench/judge/files.py [PROGRAM]
The PROGRAM (./hosed) is seen from the top of the repository.
"""

import fcntl
import os
import re
import resource
import shutil
import signal
import subprocess
import sys
import tempfile
from functools import partial

sys.path.insert(0, os.path.join(os.path.dirname(os.path.abspath(__file__)), "..", "parts"))
from usage import TOP, tell_usage

from planner import link_line

os.chdir(TOP)
PROGRAM = os.path.abspath((sys.argv[1:] + ["./hosed"])[0])
HANGS = 120  # seconds
with open("demo/star.txt", encoding="ascii") as star:
    STAR = star.read()

# An order, its reply, and how many bytes its record has with the gate after it: a length, a chain
# value, a kind, a name after its length, two endpoints, two links, a gate. A seal's has a length, a
# kind, a chain value and a gate.
ORDER, REPLY = "acme admit a:1 b:1\n", "admitted 1 cost 3 at 1 links 0:1 1:1\n"
VALUE = 32
RECORD = 4 + VALUE + 1 + (1 + 4) + (1 + 2 * (2 + 4)) + (2 + 2 * (2 + 4)) + 1
SEAL = 4 + 1 + VALUE + 1
HEAD = 39  # bytes of a journal that was begun
JSON_LIMIT = 16_777_216  # bytes of a topology in JSON

# ---- What the program did.


class Work:
    """A folder for trials of a program that is as it is, or wrong in a way."""

    def __init__(self, path, library, wrong=None):
        self.path, self.library, self.wrong = path, library, wrong


class Place:
    """A folder of its own for one trial, and the programs that run there."""

    def __init__(self, work, name):
        self.path = os.path.join(work.path, name)
        self.library, self.wrong = work.library, work.wrong
        os.mkdir(self.path)
        self.journal = self.at("journal")
        self.topology = self.at("star.txt")
        with open(self.topology, "w", encoding="ascii") as file:
            file.write(STAR)

    def at(self, name):
        return os.path.join(self.path, name)

    def run(self, words, text="", before=(), edge=None, **more):
        """The status and the output of the program, with calls that the library changes."""
        variables = {**os.environ, "LD_PRELOAD": self.library, **(edge or {})}
        if self.wrong:
            variables["EDGE_WRONG"] = self.wrong
        streams = {"input": text, "stdout": subprocess.PIPE, "stderr": subprocess.PIPE}
        told = {"text": True, "cwd": self.path, "env": variables, "timeout": HANGS}
        done = subprocess.run([*before, PROGRAM, *words], **streams, **told, **more)
        return done.returncode, done.stdout

    def order(self, lines=ORDER, **more):
        return self.run(["run", "journal"], STAR + lines, **more)

    def audit(self, **more):
        return self.run(["audit", "star.txt", "journal"], **more)

    def bytes(self, name="journal"):
        try:
            with open(self.at(name), "rb") as file:
                return file.read()
        except FileNotFoundError:
            return None

    def order_in_version_1(self):
        """An order, whose journal is then put into version 1: its record has no chain value."""
        self.order()
        held = self.bytes()
        length = HEAD + 4
        with open(self.journal, "wb") as file:
            file.write(held[:5] + b"\1" + held[6:length] + held[length + VALUE:])


# Calls that change nothing and are no part of a promise.
LOOKS = {"statx", "newfstatat", "fstat", "readlink", "fcntl", "lseek"}
LINE = re.compile(r"^(?:\d+ +)?(\w+)\((.*)\) += (-?\d+)")
OPENED = re.compile(r'"([^"]*)", (.*)$')
DONE_AT = re.compile(r"^\d+<([^>]*)>(?:, (.*))?$")


def told(line, place, names):
    """A call in short, by the names of its files."""
    call, words, answer = LINE.match(line).groups()
    if call == "openat":
        path, flags = OPENED.search(words).groups()
        path = os.path.realpath(os.path.join(place.path, path))
        return f"open {names[path]} {flags.replace(',', '')}"
    path, rest = DONE_AT.match(words).groups()
    if call in ("pread64", "pwrite64"):
        _, _, at = rest.rsplit(", ", 2)
        return f"{call[:-2]} {names[path]} at {at}: {answer}"
    return f"{call} {names[path]} {(rest or '').replace(',', '')}".rstrip()


def calls_of(place, act, inject=(), path="journal"):
    """What a program came to, and its calls on the journal of this path and its folder."""
    trace, names = place.at("trace"), {place.journal: "journal", place.path: "folder"}
    paths = [word for one in (path, *names) for word in ("-P", one)]
    options = ["-f", "-qq", "-y", "-s", "0", "-e", "trace=%file,%desc", *inject, *paths]
    came = act(before=["strace", "-o", trace, *options])
    with open(trace, encoding="utf-8", errors="replace") as file:
        lines = [line for line in file if LINE.match(line)]
    os.remove(trace)
    lines = [line for line in lines if LINE.match(line)[1] not in LOOKS]
    lines = [line for line in lines if "execve" not in line]
    return came, [told(line, place, names) for line in lines]


# ---- The calls that are wanted.

OPENS = [
    "open journal O_RDWR|O_CREAT|O_NOCTTY|O_CLOEXEC 0600",
    "flock journal LOCK_EX|LOCK_NB",
    "fsync journal",
    "fadvise64 journal 0 0 POSIX_FADV_DONTNEED",
    "open folder O_RDONLY|O_NOCTTY|O_CLOEXEC",
    "fsync folder",
    "close folder",
]
# A journal that is begun: it is emptied, its first gate is closed, its head is written, and the
# gate is opened, each through a sync.
BEGINS = [
    "fdatasync journal",
    "ftruncate journal 0",
    "fdatasync journal",
    "pwrite journal at 0: 1",
    "fdatasync journal",
    f"pwrite journal at 1: {HEAD - 1}",
    "fdatasync journal",
    "pwrite journal at 0: 1",
    "fdatasync journal",
]


def reads(size):
    """A journal of this size, which was asked for and is less than a piece, is read at once."""
    return [f"pread journal at 0: {size}"]


def enters(end, record=RECORD):
    """An entry, or a seal, after this many bytes: the record, and then the gate before it."""
    return [
        f"pwrite journal at {end}: {record}",
        "fdatasync journal",
        f"pwrite journal at {end - 1}: 1",
        "fdatasync journal",
    ]


CLOSES = ["fdatasync journal", "close journal"]


def trial_of_the_calls(work):
    """The calls of a new journal and one order, and of one that is there, by a symbolic link."""
    place = Place(work, "calls")
    found = calls_of(place, place.order)
    yield "a new journal", found, ((0, REPLY), OPENS + BEGINS + reads(HEAD) + enters(HEAD) + CLOSES)
    os.mkdir(place.at("links"))
    link = "links/journal"
    os.symlink("../journal", place.at(link))
    found = calls_of(place, lambda before: place.run(["run", link], STAR, before), path=link)
    size = HEAD + RECORD
    wanted = OPENS + ["fdatasync journal"] + reads(size) + CLOSES
    yield "a journal that is there, by a link", found, ((0, ""), wanted)


def trial_of_a_seal(work):
    """The calls of a journal of version 1 that is opened, and of the same once it is sealed."""
    place = Place(work, "seal")
    place.order_in_version_1()
    size = HEAD + RECORD - VALUE
    act = partial(place.run, ["run", "journal"], STAR)
    for name, size, seals in (
        ("a journal of version 1", size, enters(size, SEAL)),
        ("one that is sealed", size + SEAL, []),
    ):
        wanted = OPENS + ["fdatasync journal"] + reads(size) + seals + CLOSES
        yield name, calls_of(place, act), ((0, ""), wanted)


# ---- Calls that fail, do less than they were asked for, or find another file.


def fails(call, nth=1, error="EIO"):
    return ["-e", f"inject={call}:error={error}:when={nth}"]


# The call that fails, whether it is that of an order, and what comes of it.
REFUSED = (6, "cabinet\n")
FAILING = [
    ("flock", 1, "EAGAIN", REFUSED),
    ("flock", 1, "ENOLCK", REFUSED),
    ("fsync", 1, "EIO", REFUSED),
    ("fadvise64", 1, "EINVAL", REFUSED),
    ("fsync", 2, "EIO", REFUSED),
    ("fdatasync", 1, "EIO", REFUSED),
    ("pread64", 1, "EIO", REFUSED),
    ("pwrite64", 1, "ENOSPC", (0, "disk at 1\n")),
    ("pwrite64", 2, "EIO", (0, "disk at 1\n")),
    ("fdatasync", 2, "EIO", (0, "disk at 1\n")),
    ("fdatasync", 3, "EIO", (0, "disk at 1\n")),
]
SECOND = "beta admit b:2 c:2\n"


def trial_of_failing_calls(work):
    """Each kind of call fails once, on a journal that has an order. The order stays."""
    for number, (call, nth, error, wanted) in enumerate(FAILING):
        place = Place(work, f"failing {number}")
        place.order()
        kept = place.audit()
        act = partial(place.order, SECOND)
        found, _ = calls_of(place, act, fails(call, nth, error))
        yield f"{error} at call {nth} of {call}", (found, place.audit()), (wanted, kept)


FAILING_SEAL = ("pwrite64", 1), ("fdatasync", 2), ("pwrite64", 2), ("fdatasync", 3)


def trial_of_failing_seals(work):
    """Each call of a seal fails once, upon which no journal is opened. The order stays."""
    whole = Place(work, "not sealed")
    whole.order()
    kept = whole.audit()
    for call, nth in FAILING_SEAL:
        place = Place(work, f"seal {call} {nth}")
        place.order_in_version_1()
        found, _ = calls_of(place, partial(place.order, SECOND), fails(call, nth))
        yield f"call {nth} of {call} in a seal", (found, place.audit()), (REFUSED, kept)


def trial_of_pieces(work):
    """Reads and writes that are cut short and interrupted go on to their ends."""
    whole = Place(work, "whole")
    wanted = (whole.order(ORDER + SECOND), whole.bytes(), whole.audit())
    for name, variables in (
        ("pieces of one byte", {"EDGE_PIECE": "1"}),
        ("pieces of five bytes", {"EDGE_PIECE": "5"}),
        ("interruptions", {"EDGE_INTERRUPT": "1"}),
        ("interrupted pieces", {"EDGE_INTERRUPT": "1", "EDGE_PIECE": "3"}),
    ):
        place = Place(work, name)
        edge = {"EDGE_FILE": place.journal, **variables}
        found = (place.order(ORDER + SECOND, edge=edge), place.bytes(), place.audit(edge=edge))
        yield name, found, wanted


def trial_of_another_file(work):
    """A journal that is replaced before it is locked is not written, nor is the other one."""
    for is_there in (True, False):
        place = Place(work, f"replaced {is_there}")
        place.run(["run", "other"], STAR + SECOND)
        other = place.bytes("other")
        if is_there:
            place.order()
            os.link(place.journal, place.at("kept"))
        kept = place.bytes("kept")
        edge = {"EDGE_FILE": place.journal, "EDGE_AT": "flock"}
        found = place.order(edge={**edge, "EDGE_OTHER": place.at("other")})
        files = (place.bytes("kept"), place.bytes())
        yield f"another file, where one was there: {is_there}", (found, files), (
            REFUSED,
            (kept, other),
        )


def trial_of_a_text(work):
    """A topology that is replaced while it is read is read to its end all the same."""
    place = Place(work, "text")
    place.order()
    wanted = place.audit()
    with open(place.at("other"), "w", encoding="ascii") as file:
        file.write(STAR.replace("10", "99"))
    edge = {"EDGE_FILE": place.topology, "EDGE_AT": "pread"}
    edge.update({"EDGE_OTHER": place.at("other"), "EDGE_PIECE": "20"})
    yield "a text that is replaced", place.audit(edge=edge), wanted
    found = place.audit()
    yield "the text that replaced it", (found[0], found[1].split()[:2]), (5, ["journal", "other"])


def trial_of_json(work):
    """A text in JSON may be as long as its limit; a folder of such a name is the cabinet's fault."""
    place = Place(work, "json")
    text = '{"nodes":["a","b"],"links":[{"a":"a","b":"b","capacity":1,"length":1}]'
    book = f"epoch 0\n{link_line(0, 'a', 'b', 1, 1, 0)}\nlive 0 cost 0\n"
    os.mkdir(place.at("folder.json"))
    for name, size, wanted in (
        (".json", len(text) + 1, (0, book)),
        ("at.json", JSON_LIMIT, (0, book)),
        ("past.json", JSON_LIMIT + 1, (8, "too long\n")),
        ("folder.json", None, (6, "cabinet\n")),
    ):
        if size is not None:
            with open(place.at(name), "w", encoding="ascii") as file:
                file.write(text + " " * (size - len(text) - 1) + "}")
        yield f"the topology {name}", place.run(["audit", name, name + ".journal"]), wanted


def trial_of_locks_and_modes(work):
    """A journal that is locked is not opened; a new one is its owner's alone."""
    place = Place(work, "locked")
    old = os.umask(0)
    place.order()
    os.umask(old)
    yield "the mode of a new journal", oct(os.stat(place.journal).st_mode & 0o777), oct(0o600)
    kept = place.bytes()
    with open(place.journal, "rb") as file:
        fcntl.flock(file, fcntl.LOCK_EX)
        found = place.order(SECOND)
    yield "a journal that is locked", (found, place.bytes()), (REFUSED, kept)
    yield "and that no longer is", place.audit()[0], 0


def trial_of_a_limit(work):
    """A write past the limit on a file's size ends the program, or fails without its signal."""
    size = HEAD + RECORD + 3

    def limit():
        resource.setrlimit(resource.RLIMIT_FSIZE, (size, size))
        resource.setrlimit(resource.RLIMIT_CORE, (0, 0))

    kept = None
    for name, is_ignored, wanted in (
        ("a limit", False, (-signal.SIGXFSZ, REPLY)),
        ("a limit whose signal is ignored", True, (0, REPLY + "disk at 1\n")),
    ):
        place = Place(work, name)
        # Python ignores the signal, and has a program that it starts not ignore it by this word.
        more = {"preexec_fn": limit, "restore_signals": not is_ignored}
        found = place.order(ORDER + SECOND, **more)
        whole = Place(work, f"{name}, without")
        whole.order()
        kept = whole.audit()
        yield name, (found, place.audit()), (wanted, kept)


# ---- All trials.

# What a program may do wrongly with every clause of it proved.
WRONG = (
    "no sync",
    "a short write is done",
    "a short read is the end",
    "an interrupted read is the end",
    "no folder",
    "another folder",
    "the journal is cut",
    "the lock is not looked at",
    "no sync at first",
    "no advice",
    "all may read",
)


def library_of(folder):
    library = os.path.join(folder, "edge.so")
    words = ["gcc", "-O1", "-Wall", "-Wextra", "-shared", "-fPIC"]
    words += ["bench/judge/edge.c", "-o", library]
    subprocess.run([*words, "-ldl"], check=True)
    return library


def all_trials(work):
    yield from trial_of_the_calls(work)
    yield from trial_of_a_seal(work)
    yield from trial_of_failing_calls(work)
    yield from trial_of_failing_seals(work)
    yield from trial_of_pieces(work)
    yield from trial_of_another_file(work)
    yield from trial_of_a_text(work)
    yield from trial_of_json(work)
    yield from trial_of_locks_and_modes(work)
    yield from trial_of_a_limit(work)


def refusal(folder, library, wrong):
    """The first trial that a wrong body does not come out of as wanted."""
    os.mkdir(folder)
    for name, found, wanted in all_trials(Work(folder, library, wrong)):
        if found != wanted:
            return name
    return None


def try_all(folder):
    """How many trials did not come out as wanted, and wrong bodies passed."""
    library = library_of(folder)
    right = os.path.join(folder, "right")
    os.mkdir(right)
    count = faults = 0
    for name, found, wanted in all_trials(Work(right, library)):
        count += 1
        if found != wanted:
            faults += 1
            print(f"{name}\nfound:  {found}\nwanted: {wanted}")
    print(f"files: {count - faults} of {count} trials as wanted")
    for number, wrong in enumerate(WRONG):
        refused = refusal(os.path.join(folder, str(number)), library, wrong)
        print(f"{wrong}: {'refused by ' + refused if refused else 'passed'}")
        faults += refused is None
    return faults


def main():
    missing = [tool for tool in ("strace", "gcc") if shutil.which(tool) is None]
    if missing:
        sys.exit(f"files: {' and '.join(missing)} is not there, so nothing was tried")
    with tempfile.TemporaryDirectory() as folder:
        faults = try_all(os.path.realpath(folder))
    sys.exit(1 if faults else 0)


if __name__ == "__main__":
    tell_usage(__doc__)
    main()
