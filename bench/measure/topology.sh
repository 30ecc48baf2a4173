#!/usr/bin/env bash
# Milliseconds that reading a topology of the greatest size takes, and the memory of the whole
# process then. The text ends in a wrong line in place of `end`, so that it is only read.
# usage: bench/measure/topology.sh [PROGRAM]
[ "${1-}" != --help ] || exec sed -n '2,/^[^#]/s/^# \{0,1\}//p' "$0"
. "$(dirname "$0")/../parts/setup.sh"

python3 - >"$work/input" <<'END'
for node in range(512):
    print(f"node node-of-the-n{node:03}")
for link in range(2048):
    a, b = link % 512, (link + 1 + link // 512) % 512
    print(f"link node-of-the-n{a:03} node-of-the-n{b:03} 1000000000 1000000 1000000")
print("ends")
END
measure 20
milliseconds=$(python3 -c 'import sys; print(f"{1000 * float(sys.argv[1]):.1f}")' "$taken")
echo "topology: $milliseconds ms, $peak KiB, $(last_reply) (wanted: topology 2561 1)"
reference
