#!/usr/bin/env python3
"""Tries the wrong bodies of wrong/CRATE, each of which the check of its crate must refuse.

It tells what each comes to, and of each crate how many are refused: by a clause (or a proof of
one), by a limit of the prover alone, for a name alone (a proof names what the body took away, which
says little of the contract), with no reason, or not at all. It ends with a failure where one is not
refused, cannot be tried, or is refused for a name alone and not listed in wrong/README.md.

A caller's proof rests on the callee's contract alone, so bodies of different functions are tried in
one check. So are values of different constants that a function without a body pins, with a clause
for each (`ensures most_links { MOST_LINKS ≡ most_links }`). Where a check of several tells nothing,
as where one meets a limit of the prover, each half is tried. Any other constant, and a ghost member
of an `impl`, is tried by itself, in a check of the functions that name the constant or the type.
Any other edit, and one of which such a check does not tell for sure that a clause refuses it, is
tried alone: in a check of what it changes, and then, where that does not refuse it, of the whole
crate. What an edit comes to is judged by the kit's rules, those of `rt must-fail`.

Where `rt check` has built the libraries below a crate, its check of the crate is what all tries
begin with. Else they are made over the libraries that `rt ci` kept of the same texts on this
machine, if it kept the crate as well, and what one try proves the later ones take: nothing is
proved for them that none of them rests on.

usage: bench/repository/wrong.py [--at-once N] [CRATE ..]     (N crates at a time, 1 if left out;
leave the crates' files as they are while it runs)
"""

import concurrent.futures
import hashlib
import importlib.machinery
import json
import os
import pathlib
import re
import shutil
import subprocess
import sys
import tempfile
import types

sys.path.insert(0, os.path.join(os.path.dirname(os.path.abspath(__file__)), "..", "parts"))
from usage import tell_usage

WRONG = pathlib.Path(__file__).resolve().parents[2] / "wrong"
JOBS = ["--jobs", "1"]
# What an answer of the kit begins with, and the column that counts it.
KINDS = {
    "refused, as it must be: ": "clause",
    "refused, as it must be (only by a limit": "limit",
    "refused, as it must be (only because a proof": "name",
    "refused": "no reason",
    "NOT REFUSED": "not refused",
    "": "not tried",
}
ROW = "{:<16}" + "{:>12}" * (len(KINDS) + 1)
CONSTANT = re.compile(r"(?:pub(?:\(\w+\))? )?const (\w+): ")
PIN = re.compile(r"ensures (\w+) \{ (\w+)(?:\.now)? ≡ ")
BLOCK = re.compile(rb"(?m)^(?:impl\b(?:.* for)?|(?:pub(?:\(\w+\))? )?trait)(?:<[^{]*?>)? (\w+)")
PLACE = re.compile(r"(?:note: )?(?:\./)?((?:src|proofs)/[^:\s]+):(\d+):\d+:")
# As the kit has it: a proof that names what the edit took away, and what cites that proof.
NAME = re.compile(r"(note: )?(\./)?proofs/.*(has no (field|`)|is not in scope|was not admitted)")


def loaded(name):
    """A program of the kit, as a module."""
    sys.modules[name] = module = types.ModuleType(name)
    module.__file__ = f"{os.path.dirname(os.path.realpath(shutil.which('rt')))}/{name}"
    importlib.machinery.SourceFileLoader(name, module.__file__).exec_module(module)
    return module


sys.dont_write_bytecode = True
RT, BODIES = loaded("rt"), loaded("rt-plant-bodies")


def touched(crate):
    """When each file of the crate changed last."""
    return {it: os.stat(it).st_mtime_ns for it in RT.rtlib.files_of(crate.folder)}


class Tries:
    """The tries of a crate's edits, with the names of its functions, which are proved, and the place
    of what its checks keep."""

    def __init__(self, crate, proved, kept):
        self.crate, self.kept = crate, kept
        self.source, self.names = BODIES.Source(crate.folder), {}
        self.source.read("src/main.rt" if crate.is_program else "src/lib.rt")
        told = [it.split("::") for it in proved]
        for it in self.source.functions:
            # The name by which the check told that it is proved, where just one fits.
            module, owner = [crate.name, *it.module], [it.owner] if it.block else []
            fits = [at for at in told if at[-1 - len(owner) :] == [*owner, it.name]]
            fits = [at for at in fits if owner or at[:-1] == module]
            if it.in_trait:
                fits = [at for at in told if at[-1] == it.name and at[:-2] == module]
                fits = [at for at in fits if it.block.fits(at[-2])]
            if len(fits) == 1 and not it.in_cycle:
                self.names[it] = "::".join(fits[0])
        # The function that pins a constant, and its clause that does.
        self.pins = {}
        for it in self.names:
            head = self.source.data[it.file][it.start : it.opens].decode("utf-8")
            self.pins.update({name: (it, clause) for clause, name in PIN.findall(head)})
        # What each edit changes: functions, or constants in place of which stand their clauses.
        self.edits = {}
        for edit in sorted((WRONG / crate.name).glob("*.edit")):
            self.edits[edit] = self.functions(edit) or self.clauses(edit)
        self.named = {it: self.users(it) for it in self.edits if not self.edits[it]}

    def places(self, edit):
        """The files and the places there of what it looks for."""
        file, found = "", []
        for word, _, rest in (it.partition(": ") for it in edit.read_text("utf-8").split("\n")):
            file = rest.strip() if word == "file" else file
            if word == "old":
                at = self.source.data.get(file, b"").find(rest.encode())
                found.append((file, at, at + len(rest.encode())))
        return found if self.applied([edit]) else []

    def functions(self, edit):
        """Those whose bodies it changes, or none where it changes anything else."""
        found = set()
        for file, at, end in self.places(edit):
            around = [it for it in self.names if it.file == file and it.opens <= at]
            found.add(next(((it, "") for it in around if end <= it.end), None))
        return set() if None in found else found

    def clauses(self, edit):
        """Those that pin the constants which it changes, or none where it changes anything else."""
        found = set()
        for file, at, _ in self.places(edit):
            front, rest = self.source.data.get(file, b"")[:at], self.source.data.get(file, b"")[at:]
            line = (front.rsplit(b"\n", 1)[-1] + rest).split(b"\n", 1)[0]
            constant = CONSTANT.match(line.decode("utf-8"))
            found.add(self.pins.get(constant[1]) if constant else None)
        return set() if None in found else found

    def users(self, edit):
        """Those that name the constants, or the types of the blocks, in which it changes something;
        none where it changes anything else."""
        found = set()
        for file, at, _ in self.places(edit):
            data = self.source.data.get(file, b"")
            line = data[data.rfind(b"\n", 0, at) + 1 :].split(b"\n", 1)[0].decode("utf-8")
            constant, above = CONSTANT.match(line), [*BLOCK.finditer(data, 0, at)]
            is_inside = line.startswith(" ") and above
            name = constant[1].encode() if constant else above[-1][1] if is_inside else None
            texts = {it: self.source.data[it.file][it.start : it.end] for it in self.names}
            word = re.compile(rb"\b%s\b" % name) if name else None
            users = {(it, "") for it in texts if word and word.search(texts[it])}
            if not users:
                return set()
            found |= users
        return found

    def applied(self, edits):
        """The files with these edits, if they can be applied."""
        return RT.edited("\n".join(it.read_text("utf-8") for it in edits), self.crate.folder)[0]

    def batches(self):
        """Puts edits together so that no two change one function or constant, and all can be
        applied; those of constants apart from the others, which may rest on them."""
        found = []
        for edit in (it for it in self.edits if self.edits[it]):
            fits = (it for it in found if not self.edits[edit] & self.changed(it))
            fits = (it for it in fits if self.is_constant(it[0]) == self.is_constant(edit))
            batch = next((it for it in fits if self.applied([*it, edit])), None)
            if batch is None:
                found.append(batch := [])
            batch.append(edit)
        return found

    def changed(self, batch):
        return set().union(*(self.edits[it] for it in batch))

    def is_constant(self, edit):
        return any(clause for _, clause in self.edits[edit])

    def is_of(self, edit, line):
        """Whether a line of a check tells of a function, or of a clause, that the edit changes."""
        at = PLACE.match(line)
        for it, clause in self.edits[edit] if at else ():
            last = self.source.data[it.file][: it.end].count(b"\n") + 1
            folder = "/".join(["proofs", *self.names[it].split("::")[1:], ""])
            is_here = at[1] == it.file and it.line <= int(at[2]) <= last
            is_told = not clause or f"-clause-{clause}`" in line
            if is_told and (is_here or at[1].startswith(folder)):
                return True
        return False

    def only(self, edits):
        """The words by which a check is of the functions alone that these edits change."""
        names = {self.names[it] for it, _ in self.changed(edits)}
        return [word for name in sorted(names) for word in ("--only", name)]

    def told(self, batch):
        """As `together`, of each half where nothing is told of the whole."""
        found, half = self.together(batch), len(batch) // 2
        if found or not half:
            return found
        return {**self.told(batch[:half]), **self.told(batch[half:])}

    def together(self, batch):
        """The edits of a batch that a clause refuses for sure, and the first line that says so."""
        texts, found = self.applied(batch), {}
        ran = RT.checked(self.crate, texts, [*JOBS, *self.only(batch)], self.kept)
        lines, fell = ran.stdout.split("\n"), r"(?m)^fn (\S+): (?:not proved|no proof)"
        fell = {*re.findall(fell, ran.stdout)}
        if re.search(r"\berror\[[\w-]+\]", ran.stdout) and not fell:
            # (the front end refuses it: without those that it names)
            rest = [it for it in batch if not any(self.is_of(it, line) for line in lines)]
            return self.together(rest) if 0 < len(rest) < len(batch) else {}
        unread = [it for it in lines if RT.unread(it, texts)]
        bad = {edit for edit in batch if any(self.is_of(edit, it) for it in unread)}
        if ran.returncode != 1 or not all(any(self.is_of(it, at) for it in bad) for at in unread):
            return {}
        for edit in (it for it in batch if it not in bad):
            told = [it for it in lines if self.is_of(edit, it) and not NAME.match(it)]
            told = [it for it in told if ": error" in it or it.startswith("note: ")]
            if told and fell & {self.names[it] for it, _ in self.edits[edit]}:
                found[edit] = f"refused, as it must be: {told[0][:160]}"
        return found

    def alone(self, edit):
        """What it comes to in a check of what it changes, or where that says nothing, of all."""
        for only in [self.only([edit]), []] if self.edits[edit] else [[]]:
            told = RT.must_fail(self.crate, str(edit), [*JOBS, *only], self.kept)[1]
            told = told.split(".edit: ", 1)[1]
            if told.startswith("refused"):
                break
        return told

    def all(self):
        """What each edit comes to."""
        found = {}
        for batch in self.batches():
            found.update(self.told(batch))
        for edit in (it for it in self.named if self.named[it]):
            self.edits[edit] = self.named[edit]
            found.update(self.together([edit]))
        return {it: found.get(it) or self.alone(it) for it in self.edits}


def checked(*given, made=RT.checked):
    """As the kit's, but that a check of some functions tells as one of all that it is not proved."""
    ran = made(*given)
    if ran.returncode == 1 and ran.stdout.rstrip().rpartition("\n")[2].startswith("only="):
        ran.stdout += "logic=not-proved\n"
    return ran


RT.checked = checked


def take_kept(crate, room):
    """Puts the libraries below the crate into a folder, as `rt ci` kept them of the same texts on
    this machine, and has its checks read them there; gives what it kept of the crate, or None where
    it has not kept them all."""
    RT.Crate.allowed = RT.handles_of(str(WRONG.parent))
    kept, places = RT.Kept([]), {}
    for it in [*crate.below(), crate]:
        at = kept.place(it, False, kept.key(it))
        made = RT.rtlib.text_of(f"{at}/made.json")
        files = [*map(tuple, json.loads(made)["files"])] if made else []
        if it is crate:
            break
        for number, (path, of_file) in enumerate(files):
            to = f"{room}/{it.name}/{path.partition('/')[2]}"
            os.makedirs(os.path.dirname(to), exist_ok=True)
            RT.link_or_copy(f"{at}/{number}", to)
            if RT.rtlib.sum_of(to) != of_file:
                return None
        if not files:
            return None
        # (as the kit sums them up, for the keys of those above)
        kept.rlibs[it.name] = hashlib.sha256(repr(files).encode()).hexdigest()
        places[it] = f"{room}/{it.name}/{it.name}.rlib"
    for below, place in places.items():
        below.rlib = place
    return {path: f"{at}/{number}" for number, (path, _) in enumerate(files)}


def stands(crate, room):
    """The names of the crate's functions, where it is proved, and where a check keeps its work."""
    kept, proved = f"{room}/kept", r"(?m)^fn (\S+): proved\b"
    is_built = all(it.is_built() for it in crate.below())
    files = None if is_built else take_kept(crate, f"{room}/libraries")
    if files is None:
        how = {"stdout": subprocess.PIPE, "stderr": subprocess.STDOUT, "errors": "replace"}
        ran = subprocess.run(["rt", "check", *JOBS], cwd=crate.folder, **how)
        if not ran.returncode:
            # (by links, as the kit does it: a check replaces such a file, and changes none)
            RT.linked(f"{crate.folder}/out/incremental", kept)
        return [] if ran.returncode else re.findall(proved, ran.stdout), kept
    os.mkdir(kept)
    mir = files.get(f"rlib/{crate.name}.rlib/toolchain/mir.json")
    if mir:
        return [it for it, _ in json.loads(RT.rtlib.text_of(mir)) if "+" not in it], kept
    ran = RT.checked(crate, {}, JOBS, kept)
    return [] if ran.returncode else re.findall(proved, ran.stdout), kept


def tried(crate):
    """What each edit of the crate comes to, and the processor's seconds of the tries."""
    with tempfile.TemporaryDirectory(prefix="wrong-") as room:
        were, (names, kept) = touched(crate), stands(crate, room)
        began, tries = os.times(), Tries(crate, names, kept)
        found = tries.all() if names else {}
        spent = round(sum(os.times()[:4]) - sum(began[:4]))
    without = "the crate as it stands is not proved"
    if touched(crate) != were:
        found, without = {}, "a file of the crate changed meanwhile"
    return {it: found.get(it, without) for it in tries.edits}, spent


def crates_with_edits():
    found = RT.rtlib.crates_below(str(WRONG.parent))
    return {it.name: it for it in found if (WRONG / it.name).is_dir()}


def shown(name):
    """What was found of the crate's edits, the kind of each, and the row of the crate."""
    found, spent = tried(crates_with_edits()[name])
    found = {f"{name}/{it.stem}": found[it] for it in sorted(found)}
    kinds = [next(kind for start, kind in KINDS.items() if it.startswith(start))
             for it in found.values()]
    return found, kinds, [name, *map(kinds.count, KINDS.values()), spent]


def main(words):
    at_once, names = (int(words[1]), words[2:]) if words[:1] == ["--at-once"] else (1, words)
    crates = crates_with_edits()
    if {*names} - {*crates}:
        sys.exit("wrong: a crate that is named has no folder below wrong/")
    listed = re.findall(r"(?m)^- `(\w+/[\w.-]+)`", (WRONG / "README.md").read_text("utf-8"))
    # (those with most edits first, so that none of them is left alone at the end)
    names = sorted(names or crates, key=lambda it: -len([*(WRONG / it).iterdir()]))
    rows, wrong = [], []
    with concurrent.futures.ProcessPoolExecutor(at_once) as pool:
        for run in concurrent.futures.as_completed([pool.submit(shown, it) for it in names]):
            found, kinds, row = run.result()
            lines = {it: f"{it}: {found[it]}" for it in found}
            print(*lines.values(), sep="\n", flush=True)
            is_well = {it for it, kind in zip(found, kinds) if kind in ("clause", "limit")}
            wrong += [lines[it] for it in found if it not in is_well and it not in listed]
            rows.append(row)
    rows.append(["all", *map(sum, [*zip(*rows)][1:])])
    heads = ROW.format("crate", *KINDS.values(), "seconds")
    print("", heads, *(ROW.format(*it) for it in rows), *wrong, sep="\n")
    return 1 if wrong else 0


if __name__ == "__main__":
    tell_usage(__doc__)
    sys.exit(main(sys.argv[1:]))
