#!/usr/bin/env python3
"""Prints the figures of the house: how large definitions, calls and crates are, and how often a
thing is said.

Product crates are those of crates.txt but those of cases and of tests. What is counted, by the name
that --list takes:

  parameters   definitions with 8 or more parameters, and with 12 or more: of each record, data,
               abbreviation and function of specs/ the explicit ones, those of the modules around it
               included, as whoever uses it from outside gives them; an arrow of its type is one
  outcomes     the parameters of each definition whose name ends in Outcome
  stays        clauses (requires, ensures) of functions that say Stays
  calls        functions of src/ with 6 or more parameters, self included; in all crates
  bodies       functions of src/ whose body has more than 40 lines of code; in all crates
  frames       frames, functions and doors that one line goes through, as entered.py tells them;
               where no program is built for that, which takes minutes, it says so
  text         lines of src, specs and proofs for each line of a function's body that is code
  laws         calls law_.. in bodies
  loops        loops over lines: a `while` or `loop` that names a LineReader which is a parameter of
               its function
  commands     files that name every constructor of Command, each as a word outside of comments
  definitions  definitions and their lines, without comments, by crate
  duplicates   pairs of places that share six lines or more, as the program `duplicates` finds them
               in scripts, in .rt and in .antt; the latter two it reads as copies under the endings
               of Rust and Haskell, which have the same comments
  lines        lines of src, specs and proofs, by crate; tests stand in crates of their own

usage: bench/repository/house.py                all figures
       bench/repository/house.py --list KIND    the places of one of them
       bench/repository/house.py --places NAME..
           how many files and crates each name stands in, comments too
"""
import collections
import os
import re
import shutil
import signal
import subprocess
import sys
import tempfile

sys.path.insert(0, os.path.join(os.path.dirname(os.path.abspath(__file__)), "..", "parts"))
from usage import TOP, tell_usage

import definitions
import entered
import rust_source

NOT_PRODUCT = ("cases_common", "cases_files", "cases_stage", "cases_parts", "cases_plans",
               "cases_disks", "cases_program", "cases_host", "cases_lead", "tests_threads",
               "hose_star")
PARTS = definitions.ENDINGS
MOST_BODY = 40
CRATES = definitions.crates_of(TOP)
PRODUCT = [crate for crate in CRATES if crate not in NOT_PRODUCT]
FILES = definitions.read_all(TOP)
SOURCES = rust_source.Sources(TOP)


def all_definitions():
    return [found for file in FILES.values() for found in file.definitions]


def functions(crates=PRODUCT):
    return [found for source in SOURCES.values() if source.crate in crates
            for found in source.functions()]


def texts(part, crate):
    """The files of a part of a crate: path and text."""
    for _, path in definitions.files_of(TOP, crate, part):
        with open(path, encoding="utf-8") as file:
            yield os.path.relpath(path, TOP), file.read()


def place(function):
    return f"{function.source.path}:{function.line}"


def parameters():
    found = sorted(((it.parameters(), it) for it in all_definitions()),
                   key=lambda pair: (-pair[0], pair[1].key))
    rows = [f"{count:3} {it.name:28} {it.path}:{it.line}" for count, it in found if count >= 8]
    many = sum(count >= 12 for count, _ in found)
    return [f"definitions with 8 or more parameters: {len(rows)}, with 12 or more: {many}"], rows


def outcomes():
    found = [it for it in all_definitions() if it.name.endswith("Outcome")]
    rows = [f"{it.parameters():3} {it.name:28} {it.path}:{it.line}" for it in found]
    told = ", ".join(f"{it.name} {it.parameters()}" for it in found)
    return [f"parameters of outcomes: {told}"], rows


def stays():
    rows, ends = [], collections.Counter()
    for function in functions():
        for clause in function.clauses:
            if any(token.text == "Stays" for token in clause.tokens):
                rows.append(f"{function.source.path}:{clause.line}: {function.name}")
                ends[function.source.crate] += 1
    told = ", ".join(f"{crate} {count}" for crate, count in ends.most_common(5))
    return [f"clauses that say Stays: {len(rows)} ({told}, ..)"], rows


def calls():
    found = sorted(((len(it.parameters), it) for it in functions(CRATES)),
                   key=lambda pair: -pair[0])
    rows = [f"{count:3} {it.name:28} {place(it)}" for count, it in found if count >= 6]
    inside = sum(it.source.crate in PRODUCT for count, it in found if count >= 6)
    return [f"functions with 6 or more parameters: {len(rows)}, {inside} of them in product crates"
            ], rows


def bodies():
    found = sorted(((len(it.body_lines()), it) for it in functions(CRATES)),
                   key=lambda pair: (-pair[0], place(pair[1])))
    rows = [f"{count:3} {it.name:28} {place(it)}" for count, it in found if count > MOST_BODY]
    return [f"bodies of more than {MOST_BODY} lines: {len(rows)}, the longest {found[0][0]}"], rows


def frames():
    if not entered.is_built():
        return ["frames: no program is built for them; bench/repository/entered.py does it"], []
    told = subprocess.run([sys.executable, entered.__file__], stdout=subprocess.PIPE,
                          universal_newlines=True, check=True).stdout
    found = []
    for command, part in re.findall(r"(?m)^(\w+): .*\n((?:  .*\n)+)", told):
        counts = dict(re.findall(r"(?m)^  (frames|functions|doors): (\d+)", part))
        found.append(f"{command} " + ", ".join(f"{what} {counts.get(what, 'none')}"
                                               for what in ("frames", "functions", "doors")))
    return ["frames: " + "; ".join(found)], told.splitlines()


def text():
    lines = {part: sum(body.count("\n") for crate in PRODUCT for _, body in texts(part, crate))
             for part in PARTS}
    body = sum(len(it.body_lines()) for it in functions())
    total = sum(lines.values())
    told = ", ".join(f"{part} {count}" for part, count in lines.items())
    by_crate = collections.Counter()
    for it in functions():
        by_crate[it.source.crate] += len(it.body_lines())
    rows = []
    for crate in PRODUCT:
        own = sum(one.count("\n") for part in PARTS for _, one in texts(part, crate))
        rows.append(f"{own / max(by_crate[crate], 1):6.1f} {crate:16} {own:6} lines, "
                    f"{by_crate[crate]:5} of bodies")
    rows.sort(reverse=True)
    return [f"text for a line of body: {total / body:.1f} ({told}: {total} lines; {body} of bodies)"
            ], rows


def laws():
    rows = []
    for function in functions():
        tokens = function.inside
        for at, token in enumerate(tokens[:-1]):
            follows = tokens[at + 1].text in ("(", "::")
            if token.text.startswith("law_") and follows:
                rows.append(f"{function.source.path}:{token.line}: {token.text}")
    return [f"calls law_.. in bodies: {len(rows)}"], rows


def loops():
    rows = []
    for function in functions():
        names = {run[0].text for run in function.parameters
                 if any(token.text == "LineReader" for token in run)}
        for at, token in enumerate(function.inside):
            if token.text not in ("while", "loop"):
                continue
            begin = next(k for k in range(at, len(function.inside))
                         if function.inside[k].text == "{")
            end = rust_source.closing(function.inside, begin)
            if names & {one.text for one in function.inside[at:end]}:
                rows.append(f"{function.source.path}:{token.line}: {function.name}")
    return [f"loops over lines: {len(rows)}"], rows


def constructors_of(name):
    """The constructors of an enum of the product crates."""
    for source in SOURCES.values():
        for item in source.items:
            if item.kind == "enum" and item.name == name and source.crate in PRODUCT:
                return [run[0].text for run in rust_source.parts_of(item.inside)]
    return []


def commands():
    names, rows = constructors_of("Command"), []
    for crate in PRODUCT:
        for part in PARTS:
            for path, body in texts(part, crate):
                plain = re.sub(r"(?m)(//|--).*$", "", body)
                words = set(re.findall(r"[^\W\d]\w*", plain))
                if words.issuperset(["Command", *names]):
                    rows.append(path)
    crates = {path.split("/")[1] for path in rows}
    return [f"files that list all commands ({', '.join(names)}): {len(rows)} of {len(crates)} "
            "crates"], rows


def definition_lines():
    found = collections.OrderedDict((crate, [0, 0, 0]) for crate in CRATES)
    for file in FILES.values():
        found[file.crate][0] += len(file.definitions)
        found[file.crate][1] += sum(len(it.code()) for it in file.definitions)
        found[file.crate][2] += file.total
    rows = [f"{crate:16} {count:5} definitions, {code:5} lines, {total:5} with comments and uses"
            for crate, (count, code, total) in found.items() if count]
    whole = [sum(counts[k] for counts in found.values()) for k in range(3)]
    heads = [f"definitions: {whole[0]}, {whole[1]} lines ({whole[2]} with comments and uses)"]
    for crate in ("hose_outside", "hose_offline", "hose_copying", "hosed_requests", "hosed"):
        heads.append("  {}: {} definitions, {} lines ({})".format(crate, *found[crate]))
    return heads, rows


def duplicates_in(folder):
    """What `duplicates` tells of a folder: how many pairs there are, and each."""
    done = subprocess.run(["duplicates", "--most", "200", "--seconds", "120", "--repo", folder],
                          stdout=subprocess.PIPE, universal_newlines=True)
    told = done.stdout.splitlines() or ["nothing told"]
    return told[0], told[1:]


def copy_crates(folder, parts, ending):
    """Copies these parts of all crates into a folder, under names with another ending behind."""
    for crate in CRATES:
        for part in parts:
            for _, path in definitions.files_of(TOP, crate, part):
                copy = os.path.join(folder, os.path.relpath(path, TOP) + ending)
                os.makedirs(os.path.dirname(copy), exist_ok=True)
                shutil.copy(path, copy)


def duplicates():
    if shutil.which("duplicates") is None:
        return ["duplicates: no such program on the path"], []
    found = {"scripts": duplicates_in(TOP)}
    for name, parts, ending in ((".rt", ("src",), ".rs"), (".antt", ("specs", "proofs"), ".hs")):
        with tempfile.TemporaryDirectory() as folder:
            copy_crates(folder, parts, ending)
            head, rows = duplicates_in(folder)
        found[name] = head, [row.replace(f"{name}{ending}:", f"{name}:") for row in rows]
    heads = [f"duplicates in {name}: {head}" for name, (head, _) in found.items()]
    return heads, [row for _, rows in found.values() for row in rows]


def lines():
    rows, sums = [], collections.Counter()
    for crate in CRATES:
        counts = [sum(body.count("\n") for _, body in texts(part, crate)) for part in PARTS]
        kind = "product" if crate in PRODUCT else "tests"
        for part, count in zip(PARTS, counts):
            sums[kind, part] += count
        rows.append(f"{crate:16} " + " ".join(f"{part} {count:5}"
                                              for part, count in zip(PARTS, counts)))
    heads = []
    for kind in ("product", "tests"):
        told = ", ".join(f"{part} {sums[kind, part]}" for part in PARTS)
        heads.append(f"lines of {kind}: {told}")
    return heads, rows


KINDS = {"parameters": parameters, "outcomes": outcomes, "stays": stays, "calls": calls,
         "bodies": bodies, "frames": frames, "text": text, "laws": laws, "loops": loops,
         "commands": commands, "definitions": definition_lines, "duplicates": duplicates,
         "lines": lines}


def places(name):
    """How many files and crates a name stands in, as a word."""
    word = re.compile(rf"(?<!\w){re.escape(name)}(?!\w)")
    found = [path for crate in CRATES for part in PARTS for path, body in texts(part, crate)
             if word.search(body)]
    product = [path for path in found if path.split("/")[1] in PRODUCT]
    crates = {path.split("/")[1] for path in product}
    print(f"{name}: {len(product)} files of {len(crates)} product crates, {len(found)} in all")
    return product


def main(words):
    if not words:
        for kind in KINDS:
            print("\n".join(KINDS[kind]()[0]))
    elif words[0] == "--list" and len(words) == 2 and words[1] in KINDS:
        heads, rows = KINDS[words[1]]()
        print("\n".join(heads + rows))
    elif words[0] == "--places" and len(words) > 1:
        for name in words[1:]:
            found = places(name)
            if len(words) == 2:
                print("\n".join(found))
    else:
        print(__doc__.strip(), file=sys.stderr)
        return 1
    return 0


if __name__ == "__main__":
    signal.signal(signal.SIGPIPE, signal.SIG_DFL)  # as `| head` wants it
    tell_usage(__doc__)
    sys.exit(main(sys.argv[1:]))
