#!/usr/bin/env python3
"""Writes the cases of crates/cases_disks/data/images.cases: a disk of at most four bytes beside a
plain model that keeps each image that a stop may leave.

A call of each kind fails at each place of ten calls, and none fails. What the picks name after each
call is one of the model's images, or this program ends with an error. The model knows of the disk
only what is meant by torn and cut bytes: a write that was begun may leave any bytes in its range
and any length up to its end, a cut any length down to its own, and a sync leaves what is read.

usage: bench/cases/images.py | diff - crates/cases_disks/data/images.cases
"""

import itertools
import os
import sys

sys.path.insert(0, os.path.join(os.path.dirname(os.path.abspath(__file__)), "..", "parts"))
from usage import tell_usage

tell_usage(__doc__)
MOST = 4  # bytes of the disk
VALUES = (0, 1, 2, 3, 9)  # those of its bytes
FILLED = (0, 9)
KINDS = ("len", "read", "write", "cut", "sync")
# The calls, in words of a case: the length is asked before a write and a cut.
CALLS = (
    ("write", 0, (1, 2)),
    ("sync",),
    ("write", 1, (3, 1)),
    ("len",),
    ("cut", 1),
    ("read",),
    ("write", 1, (2, 3)),
    ("write", 2, (1, 1)),
    ("sync",),
    ("cut", 2),
)
ALL = [image for len in range(MOST + 1) for image in itertools.product(VALUES, repeat=len)]


def written(image, at, bytes):
    return image[:at] + bytes + image[at + len(bytes):]


def write_may_leave(old, new, at, size):
    end = at + size
    same = all(new[place:place + 1] == old[place:place + 1]
               for place in range(MOST) if not at <= place < end)
    return len(old) <= len(new) <= max(len(old), end) and same


def cut_may_leave(old, new, to):
    return min(to, len(old)) <= len(new) <= len(old) and old[:len(new)] == new


class Model:
    """What a read gives, what the last sync left, and all that a stop now may leave."""

    def __init__(self):
        self.reads = self.synced = ()
        self.images = {()}
        self.due = None
        self.marks = ""
        self.moments = [self.picked()]

    def filled(self, byte):
        """The longest image, with this byte wherever two such images differ."""
        most = max(len(image) for image in self.images)
        columns = zip(*(image for image in self.images if len(image) == most))
        return tuple(column[0] if len(set(column)) == 1 else byte for column in columns)

    def picked(self):
        picked = [self.reads, self.synced] + [self.filled(byte) for byte in FILLED]
        assert all(image in self.images for image in picked), picked
        return picked

    def is_done(self, kind):
        """Makes a call of this kind: whether it is one that does not fail."""
        fails = self.due == kind
        if fails:
            self.due = None
        self.marks += "x" if fails else "."
        return not fails

    def note(self):
        self.moments.append(self.picked())

    def begin(self, may_leave):
        self.images = {new for new in ALL if any(may_leave(old, new) for old in self.images)}

    def make(self, kind, *words):
        if kind in ("write", "cut"):
            done = self.is_done("len")
            self.note()
            if not done:
                return
        done = self.is_done(kind)
        if kind == "write":
            at, bytes = min(words[0], len(self.reads)), words[1]
            if done:
                self.reads = written(self.reads, at, bytes)
            self.begin(lambda old, new: write_may_leave(old, new, at, len(bytes)))
        elif kind == "cut":
            to = min(words[0], len(self.reads))
            if done:
                self.reads = self.reads[:to]
            self.begin(lambda old, new: cut_may_leave(old, new, to))
        elif kind == "sync" and done:
            self.synced, self.images = self.reads, {self.reads}
        self.note()


def word(kind, *words):
    told = [kind] + [bytes(one).hex() if isinstance(one, tuple) else str(one) for one in words]
    return ":".join(told)


def case(kind, place):
    """The case in which the next call of this kind after so many of the ten fails."""
    model, words = Model(), []
    for number, call in enumerate(CALLS):
        if number == place:
            model.due = kind
            words.append(f"fail:{kind}:1")
        model.make(*call)
        words.append(word(*call))
    moments = len(model.moments)
    words.append(f"count stops:0..{moments}")
    faults = model.marks.count("x")
    counted = f"{moments - 1} calls {faults} faults 0 starved"
    left = [" ".join(bytes(image).hex() or "empty" for image in moment) for moment in model.moments]
    return f"disk {' '.join(words)} = {model.marks} {counted} / {' / '.join(left)}"


def main():
    print("# Written by bench/cases/images.py: "
          "what a stop after each call of a disk leaves, kept, lost,")
    print("# filled with 0 and filled with 9, where none of ten calls fails, and where the next call")
    print("# of a kind after so many of them does.")
    print(case(None, None))
    for kind in KINDS:
        for place in range(len(CALLS)):
            print(case(kind, place))


main()
