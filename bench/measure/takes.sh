#!/usr/bin/env bash
# What 200 takes cost beside the 200 quotes before them on a random network of 512 nodes and 2,048
# links. And the seconds of a million takes of an empty number where all 16 quotes are held; as many
# questions about a link are the reference of the same run. All is a processor's time, the least of
# nine runs that are made by turns. Takes cost so little that what those runs differ by hides it.
# Then what it takes to compare the grounds of a quote whose first plan does not fit with the book
# after 0 to 6,800 other entries, which leave up to 65,000 changes, on such networks of 512 to 2,048
# links: as a take does, by the changes since or, where they are many, by all links; by all links;
# and to copy these changes. The first is to be at most 1.2 times the cheaper of the two. A program
# of bench/measure/figures calls the planner itself, as takes do under the lock.
# usage: bench/measure/takes.sh [PROGRAM [SEED]]
[ "${1-}" != --help ] || exec sed -n '2,/^[^#]/s/^# \{0,1\}//p' "$0"
. "$(dirname "$0")/../parts/setup.sh"

RUNS=9
python3 - "$work" "${2:-1}" <<'END'
import sys

sys.path.insert(0, "tools")
from generate import Draws, ends_text, network  # noqa: E402

work, seed = sys.argv[1:]
NODES, LINKS, QUOTES, HELD, EMPTY = 512, 2048, 200, 16, 1000000
draws = Draws(int(seed))


def quote_line(number):
    count = 2 + draws.below(4)
    return f"c{number // HELD} quote {ends_text(draws, NODES, count)}"


def take_line(number):
    return f"c{number // HELD} take {number % HELD + 1}"


topology = network(draws, NODES, LINKS)
quotes = [quote_line(number) for number in range(QUOTES)]
takes = [take_line(number) for number in range(QUOTES)]
scripts = {
    "topology": [],
    "quotes": quotes,
    "takes": quotes + takes,
    "held": quotes[:HELD],
    "empty": quotes[:HELD] + ["c0 take 17"] * EMPTY,
    "questions": quotes[:HELD] + ["c0 link 0"] * EMPTY,
}
for name, script in scripts.items():
    with open(f"{work}/{name}", "w") as text:
        text.write("\n".join(topology + script) + "\n")
END

declare -A seconds
for ((run = 0; run < RUNS; run++)); do
    for name in topology quotes takes held questions empty; do
        cp "$work/$name" "$work/input"
        measure
        seconds[$name]=$(printf '%s\n' ${seconds[$name]-} "$processor" | sort -g | sed -n 1p)
        cp "$work/replies" "$work/$name.replies"
    done
done
python3 - "$work" "${seconds[topology]}" "${seconds[quotes]}" "${seconds[takes]}" \
    "${seconds[held]}" "${seconds[questions]}" "${seconds[empty]}" <<'END'
import sys
from collections import Counter

work = sys.argv[1]
topology, quotes, takes, held, questions, empty = map(float, sys.argv[2:])


def kinds(name):
    with open(f"{work}/{name}.replies") as replies:
        words = [line.split()[:2] for line in replies]
    counts = Counter(" ".join(pair) if pair[0] == "no" else pair[0] for pair in words)
    return counts, ", ".join(f"{count} {kind}" for kind, count in sorted(counts.items()))


counts, told = kinds("takes")
number = counts["quoted"]
quoting, taking = (quotes - topology) * 1e3, (takes - quotes) * 1e3
print(f"takes: {taking:.1f} ms for {number}; {told}")
print(f"reference: {quoting:.1f} ms for as many quotes, ratio {taking / quoting:.3f}")
counts, told = kinds("empty")
number = counts["no quote"]
print(f"takes of an empty number: {empty - held:.2f} s for {number}; {told}")
ratio = (empty - held) / (questions - held)
print(f"reference: {questions - held:.2f} s for as many questions about a link, ratio {ratio:.2f}")
END

figures=$(bench/measure/figures/build.sh takes)
python3 - "$figures" "$work" "${2:-1}" <<'END'
import resource
import subprocess
import sys

sys.path.insert(0, "tools")
from generate import Draws  # noqa: E402

figures, work, seed = sys.argv[1:]
NODES, LINKS, RUNS = 512, (512, 1024, 2048), 5
draw = Draws(int(seed)).below


def link_line(number):
    """Between the first two nodes is a short link without room for the quote, and a way round it;
    between the next two a short one, along which all go."""
    ends = ((0, 1, 10, 1), (2, 3, 1000000, 1), (0, 2, 1000000, 7), (1, 2, 1000000, 7))
    if number < len(ends):
        a, b, capacity, length = ends[number]
    elif number < NODES:
        a, b, capacity, length = number, draw(number), 1000000, 2 + draw(99)
    else:
        a, b, capacity, length = draw(NODES), draw(NODES - 1), 1000000, 2 + draw(99)
        if b >= a:
            b += 1
    return f"link n{a} n{b} {capacity} {length}"


def seconds(links, what, kind, entries, count):
    """A processor's seconds, and how many changes there are."""
    before = resource.getrusage(resource.RUSAGE_CHILDREN)
    with open(f"{work}/network{links}") as network:
        done = subprocess.run([figures, what, kind, str(entries), str(count)], stdin=network,
                              stdout=subprocess.PIPE, check=True, text=True)
    used = resource.getrusage(resource.RUSAGE_CHILDREN)
    changes, held = (int(part.split()[0]) for part in done.stdout.split(", "))
    assert held == count, done.stdout
    return used.ru_utime + used.ru_stime - before.ru_utime - before.ru_stime, changes


def nanoseconds(links, kind, entries):
    """Of one comparison as a take does, one by all links, and one copy of the changes."""
    _, changes = seconds(links, "since", kind, entries, 0)
    counts = {
        "since": 400000000 // (min(changes, links) + 20),
        "all": 400000000 // links,
        "copies": 400000000 // (changes + 20),
    }
    least = {}
    for _ in range(RUNS):
        for what, count in counts.items():
            for often in (0, count):
                taken, _ = seconds(links, what, kind, entries, often)
                least[what, often] = min(taken, least.get((what, often), taken))
    return changes, *((least[what, count] - least[what, 0]) / count * 1e9
                      for what, count in counts.items())


for links in LINKS:
    lines = [f"node n{node}" for node in range(NODES)]
    lines += [link_line(number) for number in range(links)]
    with open(f"{work}/network{links}", "w") as network:
        network.write("\n".join(lines + ["end", ""]))
places = [(2048, "far", 0), (2048, "near", 10), (2048, "far", 10), (2048, "near", 500),
          (2048, "near", 1000), (2048, "far", 1000), (2048, "far", 6800), (1024, "near", 10),
          (1024, "near", 250), (512, "near", 10), (512, "near", 125)]
where = {"near": "on one link each", "far": "of three nodes at random"}
for links, kind, entries in places:
    changes, since, by_all, copied = nanoseconds(links, kind, entries)
    after = f"{entries:,} entries {where[kind]}, {changes:,} changes" if entries else "no entry"
    print(f"comparing as a take does on {links:,} links after {after}: {since:.0f} ns")
    told = f"by all links {by_all:.0f} ns; a copy of the changes {copied:.0f} ns"
    print(f"reference: {told}, ratio {since / by_all:.3f}")
END
