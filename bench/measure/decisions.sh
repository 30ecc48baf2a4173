#!/usr/bin/env bash
# Decisions on two networks of 512 nodes and 2,048 links, beside plain Rust that does the same work
# (planner.rs) where rustc is there, and else beside a plain loop over the same bytes: 2,400
# admissions of 2 to 5 endpoints on a random network, and 4,000 of 2 to 8 on a congested one, so
# full that nearly all plans are second ones, and half of the hoses are refused. The time is
# that of the whole run, with reading the topology and making the rows of all nodes; what these two
# take alone is measured in the same run. Times are a processor's, the least of five runs.
# usage: bench/measure/decisions.sh [PROGRAM [SEED]]
[ "${1-}" != --help ] || exec sed -n '2,/^[^#]/s/^# \{0,1\}//p' "$0"
. "$(dirname "$0")/../parts/setup.sh"

RUNS=5
python3 - "$work" "${2:-1}" <<'END'
import sys

sys.path.insert(0, "tools")
from generate import Draws, admit_line, network  # noqa: E402

work, seed = sys.argv[1:]
NODES, LINKS = 512, 2048
draws = Draws(int(seed))


def write(name, topology, admissions):
    """The topology alone, and with the admissions."""
    for part, script in (("begun", []), ("whole", admissions)):
        with open(f"{work}/{name}.{part}", "w") as text:
            text.write("\n".join(topology + script) + "\n")


def congested_link(number):
    """Each node is joined to one of the eight before it; then come links between any two."""
    node = number + 1
    if node < NODES:
        a, b = node, node - 1 - draws.below(min(node, 8))
    else:
        a, b = draws.below(NODES), draws.below(NODES - 1)
        b += b >= a
    capacity = 20 + draws.below(41)
    return f"link n{a} n{b} {capacity} {1 + draws.below(100)}"


def congested_admission():
    customer = draws.below(8)
    ends = {}
    for _ in range((2, 3, 3, 4, 5, 8)[draws.below(6)]):
        node = draws.below(NODES)
        while node in ends:
            node = (node + 1) % NODES
        ends[node] = 1 + draws.below(6)
    return f"c{customer} admit " + " ".join(f"n{node}:{rate}" for node, rate in ends.items())


topology = network(draws, NODES, LINKS)
write("random", topology, [admit_line(draws, NODES) for _ in range(2400)])
nodes = [f"node n{node}" for node in range(NODES)]
topology = [*nodes, *(congested_link(number) for number in range(LINKS)), "end"]
write("congested", topology, [congested_admission() for _ in range(4000)])
END
ours=$program
if command -v rustc >/dev/null; then
    rustc --edition 2021 -O -o "$work/planner" bench/measure/planner.rs
fi

# Measures one of the two, and prints what it takes.
decide() { # NAME
    local begun whole
    program=$ours
    cp "$work/$1.begun" "$work/input"
    measure "$RUNS"
    begun=$processor
    cp "$work/$1.whole" "$work/input"
    measure "$RUNS"
    whole=$processor
    python3 - "$1" "$whole" "$begun" "$peak" "$work/replies" <<'END'
import sys
from collections import Counter

name, whole, begun, peak = sys.argv[1], *map(float, sys.argv[2:4]), sys.argv[4]
with open(sys.argv[5]) as replies:
    kinds = Counter(line.split()[0] for line in replies)
counts = ", ".join(f"{count} {kind}" for kind, count in sorted(kinds.items()))
print(f"decisions on a {name} network: {whole * 1000:.0f} ms of a processor, {counts}, {peak} KiB")
print(f"of these {begun * 1000:.0f} ms before the first: the topology, and the rows of all nodes")
END
    if [ ! -x "$work/planner" ]; then
        reference
        return
    fi
    mv "$work/replies" "$work/decided"
    program=$work/planner
    measure "$RUNS"
    cmp "$work/decided" "$work/replies"
    python3 - "$whole" "$processor" <<'END'
import sys

figure, reference = map(float, sys.argv[1:])
took = f"{reference * 1000:.0f} ms, ratio {reference / figure:.2f}"
print(f"reference: plain Rust that keeps its rows {took}")
END
}

decide random
decide congested
