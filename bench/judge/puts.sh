#!/usr/bin/env bash
# How many writes to standard output 100 short replies take: one each, where a reply goes out whole.
# usage: bench/judge/puts.sh [PROGRAM]
[ "${1-}" != --help ] || exec sed -n '2,/^[^#]/s/^# \{0,1\}//p' "$0"
. "$(dirname "$0")/../parts/setup.sh"
if ! command -v strace >/dev/null; then
    echo "puts: no figure, since strace is not installed"
    exit 0
fi

{
    printf 'node a\nnode b\nlink a b 1000000000 1\nend\n'
    python3 -c 'print("acme admit a:1 b:1\n" * 100, end="")'
} >"$work/input"

# Runs the command, and keeps in $work/writes its writes to the file REPLIES.
trace() { # REPLIES COMMAND..
    local replies=$1
    shift
    strace -f -y -qq -s 4096 -e trace=write,writev -o "$work/trace" "$@" <"$work/input" >"$replies"
    grep -F "<$replies>," "$work/trace" >"$work/writes" || true
}

trace "$work/replies" "$program" run
count=$(wc -l <"$work/writes")
whole=$(grep -cE '>, "admitted [^\\]*\\n", ' "$work/writes" || true)
echo "puts: $(wc -l <"$work/replies") replies in $count writes, $whole of them one whole reply"
trace "$work/plain" python3 -c 'import os, sys
for line in open(sys.argv[1], "rb"):
    os.write(1, line)' "$work/replies"
plain=$(wc -l <"$work/writes")
ratio=$(python3 -c 'import sys; print(f"{int(sys.argv[1]) / int(sys.argv[2]):.2f}")' \
    "$count" "$plain")
echo "reference: $plain writes of a plain loop over the same bytes, ratio $ratio"
