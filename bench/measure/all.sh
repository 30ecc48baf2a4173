#!/usr/bin/env bash
# Runs the scripts that measure, one after another, and writes the table of docs/FIGURES.md from
# what they print: each figure with its reference of the same run. It wants an idle machine, and
# says in the table where it was not. It takes about ten minutes once the programs are built; what
# each script prints stays in LOGS. bench/measure/gate.sh is left out: it takes an hour.
# With names it runs these scripts alone, and prints the table in place of writing it. It ends with
# status 1 where a script failed, whose row then says so.
# usage: bench/measure/all.sh [-l LOGS] [SCRIPT ..]     SCRIPT: as orders.sh; LOGS (out/figures)
[ "${1-}" != --help ] || exec sed -n '2,/^[^#]/s/^# \{0,1\}//p' "$0"
set -euo pipefail
export LC_ALL=C
cd "$(dirname "${BASH_SOURCE[0]}")/../.."
logs=out/figures
if [ "${1-}" = -l ]; then
    logs=$2
    shift 2
fi
all=(admits book codec commands decisions host journal json long_lines maintenance moves orders
    quotes serve standby store takes topology)
scripts=("$@")
if (($# == 0)); then scripts=("${all[@]/%/.sh}"); fi
mkdir -p "$logs"
rm -f "$logs"/*.sh "$logs"/*.sh.seconds

# How many processors are at work, as the system counts it in three seconds.
at_work=$({ head -n 1 /proc/stat && sleep 3 && head -n 1 /proc/stat; } | awk -v of="$(nproc)" '{
    all = 0
    for (i = 2; i <= 9; i++) all += $i
    idle = $5 + $6
    if (NR == 2) printf "%.2f", of * (1 - (idle - was_idle) / (all - was_all))
    was_all = all
    was_idle = idle
}')

failed=0
for script in "${scripts[@]}"; do
    begun=$SECONDS
    "bench/measure/$script" >"$logs/$script" </dev/null || {
        echo "failed" >>"$logs/$script"
        failed=1
    }
    echo "$((SECONDS - begun))" >"$logs/$script.seconds"
    echo "all: $script took $((SECONDS - begun)) s" >&2
done

python3 - "$logs" "$at_work" "$#" "${scripts[@]}" <<'END'
import datetime
import os
import re
import subprocess
import sys

LOGS, AT_WORK, CHOSEN, SCRIPTS = sys.argv[1], float(sys.argv[2]), int(sys.argv[3]), sys.argv[4:]
DOCUMENT, BEGIN, END = "docs/FIGURES.md", "<!-- figures -->\n", "<!-- end of figures -->\n"
HEAD = "| Figure | Reference in the same run | Ratio | Script |\n|---|---|---|---|\n"
IDLE = 0.3  # processors at work, at most
LEFT_OUT = re.compile(r"^files: |^load: ")  # where files lie, and lines of a table of their own
BESIDE = re.compile(r"; (?:reference: |(?=echo |loop |serve ))")
# Rows that show no more than those beside them: a second reference, the cheap places of a book, few
# and many sessions, and comparisons between the rows that stay, of which one is the dearest.
SAME = re.compile(r"^the same$|release of the (?:youngest|oldest) |^(?:1|16) workers .*: sessions|"
                  r"^comparing .*(?: 512 | 1,024 |\b(?:10|500) entries on one|,\d+ entries of three)")
SAID = re.compile(r", the last(?: reply)?: .*$|, ratio [\d.]+")  # replies, and what a column has


def named(lines):
    """The lines, and whether they are set in: these begin with the one above that is not."""
    name = ""
    for line, following in zip(lines, [*lines[1:], ""]):
        if line.startswith("    "):
            yield (line if line.startswith("    echo ") else f"{name}: {line.strip()}"), True
        elif following.startswith("    "):
            name = line
        else:
            yield line, False


def groups(lines):
    """The lines that tell figures, and the reference that follows them, which may be none."""
    figures, was_in = [], False
    for line, is_in in named(lines):
        if figures and was_in and not is_in:
            yield figures, "none"
            figures = []
        was_in = is_in
        first, *rest = BESIDE.split(line, 1)
        if rest:
            yield [first], rest[0]
        elif line.startswith(("reference: ", "    echo ")):
            yield figures or ["the same"], line.strip().replace("reference: ", "", 1)
            figures = []
        else:
            figures.append(line)
    if figures:
        yield figures, "none"


def ratio_of(reference, figures):
    found = re.search(r",? ratio (-?[\d.]+(?: to [\d.]+)?)", reference)
    if found:
        return reference.replace(found[0], "", 1), found[1]
    told = re.findall(r"ratio ([\d.]+)", " ".join(figures))
    return reference, "; ".join(told) or "none"


def machine():
    with open("/proc/cpuinfo", encoding="ascii", errors="replace") as told:
        model = re.search(r"(?m)^model name\s*: (.*)$", told.read())
    idle = "idle" if AT_WORK <= IDLE else f"not idle, {AT_WORK} processors at work"
    return f"{os.cpu_count()} of {model[1] if model else 'an unknown processor'}, {idle}"


def rows():
    for script in SCRIPTS:
        with open(os.path.join(LOGS, script), encoding="utf-8", errors="replace") as log:
            lines = [line.rstrip() for line in log if line.strip() and not LEFT_OUT.search(line)]
        for figures, reference in groups(lines):
            if SAME.search(figures[0]):
                continue
            reference, ratio = ratio_of(reference, figures)
            told = "; ".join(SAID.sub("", figure) for figure in figures)
            cells = (told, reference, ratio, f"`{script}`")
            yield "| " + " | ".join(cell.replace("|", "\\|") for cell in cells) + " |\n"


table = f"On {machine()}, {datetime.date.today().isoformat()}.\n\n{HEAD}" + "".join(rows())
if CHOSEN:
    print(table, end="")
    sys.exit()
commit = subprocess.run(["git", "rev-parse", "--short", "HEAD"], stdout=subprocess.PIPE,
                        universal_newlines=True).stdout.strip()
with open(DOCUMENT, encoding="utf-8") as document:
    before, rest = document.read().split(BEGIN)
_, after = rest.split(END)
with open(DOCUMENT, "w", encoding="utf-8") as document:
    document.write(before + BEGIN + table + END + after)
print(f"all: {DOCUMENT} has the figures of commit {commit}; its sentences above them may be old")
END
exit "$failed"
