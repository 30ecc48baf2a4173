#!/usr/bin/env bash
# What a quote costs while a link is out of service, beside what it costs with every link in
# service: on a random network of 512 nodes and 2,048 links, for hoses of 2 and of 64 endpoints,
# after 512 quotes of 2 endpoints that warm it up. At most 1.5 times is wanted. And what one of the
# first 512 quotes costs, while the rows over the links in service are made. A processor's seconds,
# the least of five runs that are made by turns; what the warm-up takes is measured alone and taken
# off.
# usage: bench/measure/maintenance.sh [PROGRAM [SEED]]
[ "${1-}" != --help ] || exec sed -n '2,/^[^#]/s/^# \{0,1\}//p' "$0"
. "$(dirname "$0")/../parts/setup.sh"

python3 - "$program" "${2:-1}" <<'END'
import resource
import subprocess
import sys

sys.path.insert(0, "tools")
from generate import Draws, ends_text, network  # noqa: E402

program, seed = sys.argv[1:]
NODES, LINKS, WARM, QUOTES, RUNS, OUT = 512, 2048, 512, 1000, 5, 7
draws = Draws(int(seed))


def roomy(line):
    """The line, of a link with room for all quotes."""
    words = line.split()
    return " ".join([*words[:3], f"{words[3]}000", words[4]]) if words[0] == "link" else line


def quote_line(number, count):
    """By another customer for every sixteen, since no more quotes are held by one."""
    return f"c{number // 16} quote {ends_text(draws, NODES, count)}"


def seconds(lines):
    """A processor's seconds for these lines; each is answered by a plan, or by an order done."""
    before = resource.getrusage(resource.RUSAGE_CHILDREN)
    done = subprocess.run([program, "run"], input="\n".join(topology + lines + [""]), text=True,
                          stdout=subprocess.PIPE, check=True)
    used = resource.getrusage(resource.RUSAGE_CHILDREN)
    words = {line.split()[0] for line in done.stdout.splitlines()}
    assert words <= {"quoted", "down"}, words
    assert len(done.stdout.splitlines()) == len(lines)
    return used.ru_utime + used.ru_stime - before.ru_utime - before.ru_stime


topology = [roomy(line) for line in network(draws, NODES, LINKS)]
quotes = {count: [quote_line(number, count) for number in range(QUOTES)] for count in (2, 64)}
warm = [quote_line(QUOTES + number, 2) for number in range(WARM)]
scripts = {}
for name, order in (("in", []), ("out", [f"operator down {LINKS - OUT}"])):
    scripts[name, "begun"] = order
    scripts[name, "warm"] = order + warm
    for count in quotes:
        scripts[name, count] = order + warm + quotes[count]
least = {}
for _ in range(RUNS):
    for what, lines in scripts.items():
        least[what] = min(least.get(what, 1e9), seconds(lines))


def microseconds(name, after, before, number):
    return (least[name, after] - least[name, before]) / number * 1e6


def tell(what, after, before, number):
    with_all, with_one_out = (microseconds(name, after, before, number) for name in ("in", "out"))
    print(f"{what} with a link out: {with_one_out:.0f} us")
    print(f"reference: {with_all:.0f} us with none out, ratio {with_one_out / with_all:.2f}")


for count in quotes:
    tell(f"a quote of {count} endpoints", count, "warm", QUOTES)
tell(f"one of the first {WARM} quotes, of 2 endpoints,", "warm", "begun", WARM)
END
