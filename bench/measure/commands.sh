#!/usr/bin/env bash
# Seconds that a million questions about a link take from start to end, and a million admissions and
# releases by turns; and the memory of the process with 20,000 live VPNs of 64 endpoints.
# usage: bench/measure/commands.sh [PROGRAM]
[ "${1-}" != --help ] || exec sed -n '2,/^[^#]/s/^# \{0,1\}//p' "$0"
. "$(dirname "$0")/../parts/setup.sh"

# Runs the program on the input, and prints how long that took, and the last reply.
figure() { # NAME
    measure
    printf '%s: %.2f s, %s MiB, the last reply: %s\n' \
        "$1" "$taken" "$((peak / 1024))" "$(last_reply)"
    reference
}

star=$(cat demo/star.txt)
python3 -c 'import sys; print(sys.argv[1]); print("acme link 0\n" * 1000000, end="")' \
    "$star" >"$work/input"
figure "a million questions about a link"
python3 - "$star" >"$work/input" <<'END'
import sys
print(sys.argv[1])
for epoch in range(1, 1000000, 2):
    print(f"acme admit a:1 b:1\nacme release {epoch}")
END
figure "a million admissions and releases"
python3 - >"$work/input" <<'END'
for node in range(64):
    print(f"node n{node}")
for node in range(1, 64):
    print(f"link n0 n{node} 1000000000 1")
print("end")
ends = " ".join(f"n{node}:1" for node in range(64))
print(f"acme admit {ends}\n" * 20000, end="")
END
figure "20,000 VPNs of 64 endpoints"
