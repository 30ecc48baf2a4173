#!/usr/bin/env bash
# What the gate costs from nothing: one whole `rt ci` with nothing kept, its minutes, and for each
# crate the processor seconds of its proof, of the proof with its tests, and of its must-fail edits
# with what they begin with; and the longest way through the proofs to hosed_main (way.py). With
# names it takes these crates and those below them, and prints the way to the first that is named.
# The minutes say something on an idle machine alone.
# usage: bench/measure/gate.sh [CRATE ..]
[ "${1-}" != --help ] || exec sed -n '2,/^[^#]/s/^# \{0,1\}//p' "$0"
set -euo pipefail
export LC_ALL=C
cd "$(dirname "$0")/../.."
work=$(mktemp -d)
trap 'rm -rf "$work"' EXIT

# The kit keeps beside itself what was proved on this machine. One of links, beside which nothing
# lies, proves from nothing; its prover notes what each of its runs took.
kit=$(dirname "$(dirname "$(realpath "$(command -v rt)")")")
mkdir -p "$work/kit/bin" "$work/copy/.git"
ln -s "$kit"/* "$work/kit" 2>/dev/null || true
cp -a "$kit"/bin/* "$work/kit/bin"
rm "$work/kit/bin/rattle"
export GATE_PROVER=$kit/bin/rattle GATE_NOTES=$work/notes
cat >"$work/kit/bin/rattle" <<'WRAPPER'
#!/usr/bin/env python3
import os, resource, subprocess, sys
status = subprocess.run([os.environ["GATE_PROVER"], *sys.argv[1:]]).returncode
took = resource.getrusage(resource.RUSAGE_CHILDREN)
words = sys.argv[1:]
crate = words[words.index("--crate-name") + 1] if "--crate-name" in words else "-"
kind = "tests" if "--test" in words else "proof"
kind = "edits" if "/rt-edit" in os.getcwd() + " ".join(words) else kind
with open(os.environ["GATE_NOTES"], "a") as notes:
    notes.write(f"{crate} {kind} {took.ru_utime + took.ru_stime:.2f}\n")
sys.exit(status if status >= 0 else 128 - status)
WRAPPER
chmod +x "$work/kit/bin/rattle"
cp -a crates.txt HANDLES "$work/copy"
tar -c --exclude=out crates | tar -x -C "$work/copy"

TIMEFORMAT='%R %U %S'
if ! { time (cd "$work/copy" && PATH=$work/kit/bin:$PATH rt ci "$@" >"$work/log" 2>&1 </dev/null); } 2>"$work/time"; then
    echo "gate: rt ci failed:" >&2
    tail -n 5 "$work/log" >&2
    exit 1
fi
tail -n 1 "$work/log"
awk '
    { seconds[$1, $2] += $3; all[$2] += $3; crates[$1] = 1 }
    END {
        printf "%-20s %8s %8s %8s\n", "crate", "proof", "tests", "edits"
        for (crate in crates)
            if (crate != "-")
                printf "%-20s %8.0f %8.0f %8.0f\n", crate, seconds[crate, "proof"],
                    seconds[crate, "tests"], seconds[crate, "edits"] | "sort"
        close("sort")
        printf "%-20s %8.0f %8.0f %8.0f\n", "all", all["proof"], all["tests"], all["edits"]
    }' "$work/notes" | tee "$work/table"
bench/measure/way.py "$work/table" "${1-hosed_main}"
read -r wall user kernel <"$work/time"
awk -v wall="$wall" -v user="$user" -v kernel="$kernel" 'BEGIN {
    printf "%.1f minutes by the clock, %.1f processor minutes\n", wall / 60, (user + kernel) / 60 }'
model=$(sed -n 's/^model name[^:]*: //p' /proc/cpuinfo | head -n 1)
echo "in processor seconds; $(nproc) processors, $model; $(rt version | head -n 1)"
