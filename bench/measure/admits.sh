#!/usr/bin/env bash
# Seconds that 20,001 admissions take from start to end, the last of them at a full book.
# usage: bench/measure/admits.sh [PROGRAM]
[ "${1-}" != --help ] || exec sed -n '2,/^[^#]/s/^# \{0,1\}//p' "$0"
. "$(dirname "$0")/../parts/setup.sh"

{
    printf 'node a\nnode b\nlink a b 1000000000 1\nend\n'
    python3 -c 'print("acme admit a:1 b:1\n" * 20001, end="")'
} >"$work/input"
measure
printf 'admits: %.2f s, %s replies, the last: %s\n' \
    "$taken" "$(wc -l <"$work/replies")" "$(last_reply)"
reference
