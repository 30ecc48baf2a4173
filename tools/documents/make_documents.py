#!/usr/bin/env python3
"""Makes what the documents have from the sources, so that it cannot say another thing than they do.

  docs/ARCHITECTURE.md   what each crate is, by its root file, and which crate takes what of which
  docs/GUIDE.md          the forms of the program's words, and what words mean, as `--help` tells
  CONTRIBUTING.md        the files that name a reply, a command and an entry
  README.md, docs/PROOFS.md
                         how long the statement is
  tools/lines.py         the tables of commands and replies

A made part stands between `<!-- made: NAME -->` and `<!-- end of NAME -->`, on lines of their own
or within one, and in Python between `# ---- made: NAME` and `# ---- end of NAME`. All else is written by hand, and stays. Run it after each change of a comment, an
import or a usage text, and after each merge, whose conflicts within a made part are gone then: the
tests of tools/ fail where a made part is not what it makes. Ends with status 1 where `--check`
finds such a part, or a marker is missing.

usage: make_documents.py            writes the parts that differ, and names their documents
       make_documents.py --check    names the parts that differ, and writes nothing
"""
import os
import re
import sys

import imports
import line_tables
from definitions import ENDINGS, TOP, crates_of, files_of
from resolve import Repository
from statement import Statement

TEXTS = "crates/hosed_program/src/texts.rt"
PARTS = {"README.md": ["statement"], "docs/PROOFS.md": ["statement"],
         "docs/ARCHITECTURE.md": ["crates", "imports"], "docs/GUIDE.md": ["glossary", "usage"],
         "CONTRIBUTING.md": ["places"], "tools/lines.py": ["lines"]}
MARKERS = {".md": "<!-- {} -->", ".py": "# ---- {}"}
EXAMPLES = [("Reply", "NoQuote"), ("Command", "Take"), ("Command", "Vpns"), ("Entry", "Release")]


class MarkerMissing(Exception):
    """A document has not just one pair of the markers of a part."""


def replaced(text, name, made, marker="<!-- {} -->"):
    """The text with a made part between its markers."""
    begin, end = marker.format(f"made: {name}"), marker.format(f"end of {name}")
    if text.count(begin) != 1 or text.count(end) != 1 or text.index(begin) > text.index(end):
        raise MarkerMissing(f"{begin} or {end} does not stand there once")
    before, _, rest = text.partition(begin)
    own_line = rest.startswith("\n")
    inner = f"\n{made.strip()}\n" if own_line else made
    return before + begin + inner + rest[rest.index(end):]


# ---- the parts

def crates_text(top):
    """A table of the crates, lowest first: the first paragraph of each one's root file."""
    rows = []
    for crate in crates_of(top):
        folder = os.path.join(top, "crates", crate, "src")
        root = next(name for name in ("lib.rt", "main.rt") if name in os.listdir(folder))
        with open(os.path.join(folder, root), encoding="utf-8") as file:
            said = re.match(r"(?://! .*\n)*", file.read())[0]
        text = " ".join(line[4:] for line in said.splitlines())
        rows.append(f"| `{crate}` | {cell(re.sub(r':$', '.', text))} |")
    return "\n".join(["| Crate | What it is |", "|---|---|", *rows])


def names_constructor(text, is_source, kind, name):
    """Whether a file declares a constructor of a type or names it: by its type, or by what its
    `use` lines bring in of the type's constructors."""
    if is_source:
        declared = re.search(rf"(?ms)^pub enum {kind}\b.*?^\}}", text)
        if declared and re.search(rf"(?m)^    {name}\b", declared[0]):
            return True
        return re.search(rf"(?m)^(?!\s*//).*\b{kind}(::|\.){name}\b", text) is not None
    plain = re.sub(r"(?m)--.*$", "", text)
    for line in re.findall(rf"(?m)^use \S+\.{kind}\.TheVariants(.*)$", plain):
        alias = re.fullmatch(r" as (\S+)", line)
        if alias and re.search(rf"(?<![\w.]){re.escape(alias[1])}\.{name}\b", plain):
            return True
        if not alias and re.search(rf"[{{ ]{name}( as|,|\}})", line):
            return True
    return False


def places_of(top, crate, kind, name):
    """The files of a crate that name a constructor."""
    found = []
    for part, ending in ENDINGS.items():
        for file, path in files_of(top, crate, part):
            with open(path, encoding="utf-8") as it:
                if names_constructor(it.read(), part == "src", kind, name):
                    found.append(f"`{part}/{file}{ending}`")
    return found


def places_text(top):
    """A table of the files that name each example, by crate, and how many they are."""
    rows, counts = [], [0] * len(EXAMPLES)
    for crate in crates_of(top):
        found = [places_of(top, crate, kind, name) for kind, name in EXAMPLES]
        counts = [count + len(files) for count, files in zip(counts, found)]
        if any(found):
            rows.append(f"| `{crate}` | " + " | ".join(", ".join(files) for files in found) + " |")
    heads = " | ".join(f"`{kind}::{name}`: {count}"
                       for (kind, name), count in zip(EXAMPLES, counts))
    return "\n".join([f"| Crate | {heads} |", "|---" * (len(EXAMPLES) + 1) + "|", *rows])


def length_text(statement):
    """How long the statement is."""
    reached = [key for key in statement.reached if key[0] == "definition"]
    everything = statement.all_keys()
    return (f"{len(reached):,} of {len(everything):,} definitions, {statement.lines(reached):,} of "
            f"{statement.lines(everything):,} lines")


def usage_parts(top):
    """The parts of the usage text between blank lines."""
    with open(os.path.join(top, TEXTS), encoding="utf-8") as file:
        return re.search(r'HELP: &str = "\\\n(.*?)";', file.read(), re.S)[1].split("\n\n")


def usage_text(top):
    """The lines that tell the forms of the program's words."""
    return f"```\n{usage_parts(top)[0]}\n```"


def glossary_text(top):
    """The words that the usage text explains, as a table: those of the part that `order` begins."""
    part = next(part for part in usage_parts(top) if part.startswith("order "))
    rows = (line.split(None, 1) for line in part.split("\n"))
    return "\n".join(["| Word | Meaning |", "|---|---|",
                      *(f"| {word} | {meaning} |" for word, meaning in rows)])


def lines_text(top):
    """The tables of commands and replies."""
    return "\n".join([line_tables.commands_text(top), line_tables.replies_text(top)])


def cell(text):
    """Text as it may stand in a line of a list."""
    return text.replace("<", "&lt;") if re.search(r"<[a-zA-Z/!]", text) else text


def made_parts(top, statement):
    """Each made part, by document and name."""
    statement.closure(statement.all_keys())  # so that each name of each definition is looked up
    makers = {"statement": lambda: length_text(statement),
              "crates": lambda: crates_text(top),
              "imports": lambda: imports.table(top),
              "usage": lambda: usage_text(top),
              "glossary": lambda: glossary_text(top),
              "places": lambda: places_text(top),
              "lines": lambda: lines_text(top)}
    made = {name: make() for name, make in makers.items()}
    problems = statement.problems()
    if problems:
        raise ValueError("; ".join(f"{it.path}:{it.line}: {it.name} is not found"
                                   for it in problems))
    return {(document, name): made[name] for document, names in PARTS.items() for name in names}


def stale_parts(top=TOP, write=False, statement=None):
    """The parts that are not what the sources make, by document and name."""
    found, texts = [], {}
    parts = made_parts(top, Statement(Repository(top)) if statement is None else statement)
    for (document, name), made in parts.items():
        if document not in texts:
            with open(os.path.join(top, document), encoding="utf-8") as file:
                texts[document] = file.read()
        text = replaced(texts[document], name, made, MARKERS[document[-3:]])
        if text != texts[document]:
            found.append((document, name))
            texts[document] = text
    for document in {document for document, _ in found} if write else ():
        with open(os.path.join(top, document), "w", encoding="utf-8") as file:
            file.write(texts[document])
    return found


def main(words):
    if "--help" in words or "-h" in words:
        print(__doc__.strip())
        return 0
    if words not in ([], ["--check"]):
        print(__doc__.strip(), file=sys.stderr)
        return 1
    check = words == ["--check"]
    try:
        stale = stale_parts(write=not check)
    except (MarkerMissing, ValueError) as problem:
        print(f"make_documents: {problem}", file=sys.stderr)
        return 1
    for document, name in stale:
        print(f"{document}: {name} {'is not what the sources make' if check else 'made anew'}")
    return 1 if check and stale else 0


if __name__ == "__main__":
    sys.exit(main(sys.argv[1:]))
