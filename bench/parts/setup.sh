# What the scripts beside this one begin with. Each may be told a PROGRAM, as seen from the top of
# the repository.
set -euo pipefail
export LC_ALL=C
cd "$(dirname "${BASH_SOURCE[0]}")/../.."
# The script ./hosed may build the program. The program itself is what is measured.
program=${1:-crates/hosed_main/out/hosed_main}
if (($# < 1)); then ./hosed --version >/dev/null; fi
work=$(mktemp -d)
trap 'rm -rf "$work"' EXIT

# Runs the program on $work/input, RUNS times, and leaves its output in $work/replies; the least
# seconds are then in `taken`, the most KiB in `peak`, the least of a processor in `processor`.
measure() { # [RUNS]
    read -r taken peak processor < <(
        python3 bench/parts/measure.py "$program" "$work/input" "$work/replies" "${1:-1}"
    )
}

# Prints what a plain loop takes for the same bytes, and how many times as long the program took.
reference() {
    python3 bench/parts/reference.py "$work/input" "$work/replies" "$taken"
}

# The last reply, cut where it is long.
last_reply() {
    tail -n 1 "$work/replies" | cut -c 1-60
}
