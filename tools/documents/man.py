#!/usr/bin/env python3
"""Writes the man page of hosed, on standard output: the program's usage text in
crates/hosed_program/src/texts.rt, as it answers `--help`, laid out as a page.

    python3 tools/documents/man.py > hosed.1; man ./hosed.1

Each line of the page is one of the text, so it says what the program says. With --check FILE it
writes nothing, and ends with status 1 where FILE is another page; with --usage it writes the text
itself. SOURCE is texts.rt, or what `hosed --help` wrote; the version is that of `hosed --version`
in texts.rt, or that of --version.

status:
  0 the page is written, or FILE is it; 1 FILE is another page; 2 these words are not allowed, or
  SOURCE is no usage text
"""
import argparse
import os
import re
import sys
from typing import Iterator, List, NamedTuple, Optional

HERE = os.path.dirname(os.path.abspath(__file__))
sys.path.append(os.path.join(HERE, ".."))
import networks

TEXTS = os.path.join(HERE, "..", "..", "crates", "hosed_program", "src", "texts.rt")
NAME = "provisions virtual private networks in the hose model, with proved promises"
CONSTANT = r'(?s)pub const %s: &str = "(.*?[^\\])";'
COMMAND = re.compile(r"(?:hosed (--help|[a-z]+)|--(tariff) NAME|A (TOPOLOGY) whose)\b")
"""How a paragraph begins that is the first one of a command, or of a word."""


class Usage(NamedTuple):
    """The usage text, and the program's version."""

    text: str
    version: str


def constant(source: str, name: str) -> str:
    """A constant of texts.rt that is a text, as the compiler reads it."""
    found = re.search(CONSTANT % name, source)
    if not found:
        raise networks.WrongInput(f"there is no text {name} in it")
    text = re.sub(r"\\\n\s*", "", found[1])
    return re.sub(r"\\(.)", lambda escape: {"n": "\n"}.get(escape[1], escape[1]), text)


def read_usage(source: str, version: Optional[str] = None) -> Usage:
    """The usage text of texts.rt, or of what `--help` wrote."""
    if source.startswith("usage: "):
        return Usage(source, version or "hosed")
    return Usage(constant(source, "HELP"), version or constant(source, "VERSION").strip())


def escaped(line: str) -> str:
    """A line as roff takes it: a hyphen is one, and no line begins as a request."""
    line = line.replace("\\", "\\e").replace("-", "\\-")
    return f"\\&{line}" if line[:1] in (".", "'") else line


def paragraphs(text: str) -> List[List[str]]:
    return [part.split("\n") for part in re.split(r"\n{2,}", text.strip("\n"))]


def is_table(lines: List[str]) -> bool:
    """Whether lines are set in or have columns, so that they stay as they are."""
    return all(line.startswith("    ") or re.search(r"\S {2,}\S", line) or line.startswith("  ")
               for line in lines)


def section(lines: List[str]) -> Optional[str]:
    """The head under which a paragraph stands that begins another part of the text."""
    command = COMMAND.match(lines[0])
    if command:
        return next(filter(None, command.groups()))
    if lines[0].startswith("order "):
        return "words"
    if lines[0].startswith("status "):
        return "exit status"
    return None


def body(text: str) -> Iterator[str]:
    """The lines of the page after its synopsis."""
    yield ".SH DESCRIPTION"
    for lines in paragraphs(text):
        head = section(lines)
        if head in ("words", "exit status"):
            yield f".SH {head.upper()}"
        elif head:
            yield f".SS {escaped(head)}"
        if is_table(lines):
            yield from [".PP", ".nf", *map(escaped, lines), ".fi"]
        else:
            yield from [".PP", *map(escaped, lines)]


def page(usage: Usage) -> str:
    synopsis, _, rest = usage.text.partition("\n\n")
    forms = [re.sub(r"^usage: |^ +", "", line) for line in synopsis.split("\n")]
    name, _, number = usage.version.partition(" ")
    lines = [
        ".\\\" Made by tools/documents/man.py of the program's usage text.",
        f'.TH HOSED 1 "" "{escaped(name)} {escaped(number)}" "User Commands"',
        ".SH NAME", f"hosed \\- {escaped(NAME)}",
        ".SH SYNOPSIS", ".nf", *map(escaped, forms), ".fi", *body(rest),
        ".SH SEE ALSO", "docs/GUIDE.md and docs/OPERATING.md of the release.",
    ]
    return "\n".join(lines) + "\n"


def main() -> None:
    words = argparse.ArgumentParser(
        description=__doc__, formatter_class=argparse.RawDescriptionHelpFormatter)
    words.add_argument("source", metavar="SOURCE", nargs="?", default=TEXTS,
                       help="texts.rt, a usage text, or `-`; else that of this repository")
    words.add_argument("--version", metavar="VERSION", help="as `hosed 1.2.3`")
    words.add_argument("--usage", action="store_true", help="writes the usage text itself")
    words.add_argument("--check", metavar="FILE", help="compares FILE with the page")
    given = words.parse_args()
    usage = read_usage(networks.read_file(given.source), given.version)
    made = page(usage)
    if given.usage:
        print(usage.text, end="")
    elif given.check is None:
        print(made, end="")
    elif networks.read_file(given.check) != made:
        raise SystemExit(f"{words.prog}: {given.check} is another page")


if __name__ == "__main__":
    sys.exit(networks.status_of(main))
