#!/usr/bin/env bash
# Megabytes a second of input that is all lines too long to be commands.
# usage: bench/measure/long_lines.sh [PROGRAM]
[ "${1-}" != --help ] || exec sed -n '2,/^[^#]/s/^# \{0,1\}//p' "$0"
. "$(dirname "$0")/../parts/setup.sh"

python3 - >"$work/input" <<'END'
import sys
sys.stdout.write("node a\nend\n")
for _ in range(40_000):
    sys.stdout.write("x" * 4_999 + "\n")
END
measure
rate=$(python3 -c 'import sys; print(f"{200 / float(sys.argv[1]):.0f}")' "$taken")
printf 'long lines: %s MB/s, %.2f s, %s replies of 40000\n' \
    "$rate" "$taken" "$(wc -l <"$work/replies")"
reference
