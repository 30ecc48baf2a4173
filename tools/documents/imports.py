#!/usr/bin/env python3
"""Prints what each crate takes of the others, as the rows of a table that docs/ARCHITECTURE.md has.

A crate takes Rust items (types, calls, constants), definitions (of specs/) and lemmas (of proofs/);
of lemmas the modules are named. Tests are left out. make_documents.py writes the rows into the
document.

usage: imports.py             the rows
       imports.py --all       with the names of the items and of the definitions
       imports.py --unused    instead the names that a file of specs/ or proofs/ imports and does not
                              use; ends with status 1 where there are such
"""
import os
import re
import sys

from definitions import TOP, USE, crates_of, files_of, tokens_of, uses_of

GHOST = re.compile(r"\bRattle\.(\w+)\.(specs|proofs)\.([\w']+)")
PATH = re.compile(r"(?<![\w:.])(\w+)::(\{[^;]*?\}|\w+)")
TESTS = re.compile(r"#\[cfg\(test\)\]\s*mod \w+(;| \{.*)", re.S)
KINDS = ("items", "definitions", "lemmas")
HEAD = ("| Crate | Types and calls of | Definitions of | Lemmas of |\n"
        "|---|---|---|---|\n")


def texts(top, crate, part):
    """The texts of a part of a crate, without its tests."""
    for name, path in files_of(top, crate, part):
        if name != "tests":
            with open(path, encoding="utf-8") as it:
                yield it.read()


def taken_by(top, name, known):
    """What a crate takes: (other crate, kind) to names."""
    found = {}

    def add(other, kind, names):
        if other in known and other != name:
            found.setdefault((other, kind), set()).update(names)

    for text in texts(top, name, "src"):
        text = re.sub(r"//[^\n]*", "", TESTS.sub("", text))
        for path in GHOST.finditer(text):
            add(path[1], "definitions" if path[2] == "specs" else "lemmas", [path[3]])
        for path in PATH.finditer(re.sub(r"ghost use [^;]*;", "", text)):
            add(path[1], "items", re.findall(r"\w+", path[2]))
    for part in ("specs", "proofs"):
        for text in texts(top, name, part):
            for path in GHOST.finditer(re.sub(r"(?m)^\s*--.*$", "", text)):
                add(path[1], "definitions" if path[2] == "specs" else "lemmas", [path[3]])
    return found


def row(name, found, known):
    """The table's row: of items and definitions the crates, of lemmas the modules too."""
    items, definitions = (
        ", ".join(other for other in known if (other, kind) in found) for kind in KINDS[:2]
    )
    lemmas = "; ".join(
        f"{other}: {', '.join(sorted(found[other, 'lemmas']))}"
        for other in known
        if (other, "lemmas") in found
    )
    return f"| `{name}` | {items} | {definitions} | {lemmas} |"


def table(top=TOP):
    known = list(crates_of(top))
    return HEAD + "".join(row(name, taken_by(top, name, known), known) + "\n" for name in known)


def unused(text):
    """The names that the `use` lines of a file bring in and that nothing below them names: an
    operator by its parts, a module by a name within it. What is handed on is not looked at."""
    lines = text.split("\n")
    found = [USE.match(line.strip()) for line in lines]
    below = [line for line, use in zip(lines, found) if not use]
    words = {token.text for token in tokens_of(below)}
    words |= {word.split(".")[0] for word in words}
    letters = " ".join(words)
    return [use.alias for match in found if match and not match[1]
            for use in uses_of(match[2], match[3], match[4], False, 0)
            if not (use.alias in words or "◌" in use.alias
                    and all(part in letters for part in use.alias.split("◌")))]


def tell_unused(top=TOP):
    """A row for each file that imports what it does not use."""
    for crate in crates_of(top):
        for part in ("specs", "proofs"):
            for _, path in files_of(top, crate, part):
                with open(path, encoding="utf-8") as file:
                    found = unused(file.read())
                if found:
                    yield f"{os.path.relpath(path, top)}: {' '.join(found)}"


def main(words):
    if "--help" in words or "-h" in words:
        print(__doc__.strip())
        return 0
    if words not in ([], ["--all"], ["--unused"]):
        print(__doc__.strip(), file=sys.stderr)
        return 1
    if words == ["--unused"]:
        found = list(tell_unused())
        print("".join(f"{row}\n" for row in found), end="")
        return 1 if found else 0
    known = list(crates_of(TOP))
    for name in known:
        found = taken_by(TOP, name, known)
        print(row(name, found, known))
        if words:
            for (other, kind), names in sorted(found.items()):
                print(f"    {other} {kind}: {' '.join(sorted(names))}")
    return 0


if __name__ == "__main__":
    sys.exit(main(sys.argv[1:]))
