#!/usr/bin/env bash
# Builds a program whose figures no part of the gate takes, and prints where it lies. Its sources
# stand in bench/measure/figures/NAME under names with `.txt` behind them, since the gate takes none
# of Rattle outside of crates/; they are built as the crate figures_NAME in a copy of this
# repository.
# usage: bench/measure/figures/build.sh NAME     NAME: codec, digests, quotes or takes
[ "${1-}" != --help ] || exec sed -n '2,/^[^#]/s/^# \{0,1\}//p' "$0"
set -euo pipefail
export LC_ALL=C
cd "$(dirname "${BASH_SOURCE[0]}")/../../.."
name=$1
sources=bench/measure/figures/$name
crate=figures_$name
program=bench/out/$crate

# The program is built again where a source of it or of a crate is newer.
is_new() {
    local newer
    [[ -x $program ]] || return 1
    newer=$(find "$sources" crates -name out -prune -o -type f -newer "$program" -print -quit)
    [[ -z $newer ]]
}

# Prints the lines of crates.txt for the program, and for what it stands on.
lines() {
    awk -F: -v needs="$(<"$sources/libraries.txt")" -v last="$crate" '
        { sub(/#.*/, "") }
        /:/ { names[++count] = $1; of[$1] = $2 }
        END {
            names[++count] = last
            of[last] = " " needs
            wanted[last] = 1
            for (at = count; at > 0; at--) {
                if (!(names[at] in wanted)) continue
                found = split(of[names[at]], below, " ")
                for (one = 1; one <= found; one++) wanted[below[one]] = 1
            }
            for (at = 1; at <= count; at++)
                if (names[at] in wanted) print names[at] ":" of[names[at]]
        }' crates.txt
}

# By the gate over these crates, which proves none that it has kept; without the wrong bodies that
# it would try as well.
build() {
    local folder below
    work=$(mktemp -d)
    trap 'rm -rf "$work"' EXIT
    folder=$work/crates/$crate
    mkdir "$work/.git"
    cp HANDLES "$work"
    lines >"$work/crates.txt"
    mkdir "$work/crates"
    for below in $(cut -d : -f 1 "$work/crates.txt"); do
        [[ $below == "$crate" ]] ||
            tar -c --exclude=out --exclude=must-fail "crates/$below" | tar -x -C "$work"
    done
    cp -R "$sources" "$folder"
    rm "$folder/libraries.txt"
    find "$folder" -type f -name '*.txt' -exec sh -c 'mv "$1" "${1%.txt}"' - {} \;
    (cd "$work" && rt ci </dev/null >"$work/log" 2>&1) || {
        tail -n 20 "$work/log" >&2
        return 1
    }
    mkdir -p bench/out
    cp "$folder/out/$crate" "$program"
}

is_new || build
echo "$program"
