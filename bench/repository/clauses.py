#!/usr/bin/env python3
"""Finds each name that the tables of docs/PROOFS.md put in backquotes in the sources of crates/,
each file that they name, and each path of the repository that any document or any file of cases
names. Prints each that is not there, and how many were looked for; ends with status 1 where one is
not there.

usage: bench/repository/clauses.py
"""
import glob
import os
import re
import sys

sys.path.insert(0, os.path.join(os.path.dirname(os.path.abspath(__file__)), "..", "parts"))
from usage import TOP, tell_usage

tell_usage(__doc__)
os.chdir(TOP)
NAME = re.compile(r"[^\W\d][\w']*")
FILE = re.compile(r"[\w/]+\.(?:antt|rt)\b")
PATH = re.compile(r"\b(?:bench|crates|demo|docs|tools|wrong)/[\w./-]*\w")
DOCUMENTS = ["README.md", "CONTRIBUTING.md",
             *(path for folder in ("docs", "bench", "wrong", "crates/*/data")
               for path in glob.glob(f"{folder}/*.md")),
             *glob.glob("crates/*/data/*.cases")]

files = [f"{top}/{name}" for top, _, names in os.walk("crates") for name in names
         if name.endswith((".antt", ".rt")) and "/out/" not in f"{top}/"]
known = set(os.listdir("crates"))
for path in files:
    with open(path, encoding="utf-8") as source:
        known.update(NAME.findall(source.read()))
with open("docs/PROOFS.md", encoding="utf-8") as document:
    tables = [line for line in document if line.startswith("|")]
asked = {(name, line) for line in tables for text in re.findall(r"`([^`]*)`", line)
         for name in NAME.findall(text)}
missing = {(name, line) for name, line in asked if name not in known}
named = {(name, line) for line in tables for name in FILE.findall(line)}
missing |= {(name, line) for name, line in named
            if not any(path == name or path.endswith(f"/{name}") for path in files)}
for document in DOCUMENTS:
    with open(document, encoding="utf-8") as text:
        paths = {(name, document) for line in text for name in PATH.findall(line)
                 if "/out/" not in name and "NAME" not in name}
    named |= paths
    missing |= {(name, line) for name, line in paths if not os.path.exists(name)}
for name, line in sorted(missing):
    print(f"{name}: not there, but in {line[:70]}")
print(f"clauses: {len({name for name, _ in asked | named})} names, {len(missing)} not there")
sys.exit(1 if missing else 0)
