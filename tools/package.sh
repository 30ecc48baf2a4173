#!/usr/bin/env bash
# Makes the archive of a release, hosed-VERSION-x86_64.tar.gz, in FOLDER: the proved program, a man
# page, completion for bash, units for systemd, the tools, the demo networks, the documents and the
# page of the statement, with SHA256SUMS of all of them. Prints the digests of the program and of
# the archive, and the least C library that the program needs. The same commit and program give the
# same archive.
#
# The program is that of ./hosed, which proves and builds it where it is not built, or a source is
# newer: from nothing in up to 20 minutes, else by what the gate kept. The files are those of the
# commit, so nothing may be changed that git knows of.
#
# With --check no archive is made: the commit is cloned into another folder, its program is built
# there by the clone's own ./hosed, and compared with the one here. What the gate kept on this
# machine serves both, so there the second build compiles alone. Ends with status 1 where a byte
# differs.
#
# usage: tools/package.sh [--check] [FOLDER]     FOLDER: out/release where it is not given
[ "${1-}" != --help ] || exec sed -n '2,/^[^#]/s/^# \{0,1\}//p' "$0"
set -euo pipefail
export LC_ALL=C
umask 022
home=$(cd "$(dirname "$(readlink -f "${BASH_SOURCE[0]}")")/.." && pwd)
program=crates/hosed_main/out/hosed_main
check=
if [ "${1-}" = --check ]; then
    check=1
    shift
fi
folder=$(realpath -m "${1-$home/out/release}")
cd "$home"

fail() {
    echo "package: $*" >&2
    exit 1
}

digest() { sha256sum "$1" | cut -d ' ' -f 1; }

[ -z "$(git status --porcelain --untracked-files=no)" ] || fail "files differ from the commit's"
version=$(./hosed --version)
commit=$(git rev-parse HEAD)
work=$(mktemp -d)
trap 'rm -rf "$work"' EXIT

if [ -n "$check" ]; then
    other=$work/another/folder
    mkdir "$work/another"
    git clone -q "$home" "$other"
    git -C "$other" checkout -q --detach "$commit"
    "$other/hosed" --version >"$work/version"
    echo "here:        $(digest "$program") of $version, commit $commit"
    echo "in a clone:  $(digest "$other/$program")"
    cmp "$program" "$other/$program" || fail "two builds of one commit differ"
    exit
fi

name=${version// /-}-x86_64
root=$work/$name
mkdir "$root"
git archive "$commit" README.md CHANGELOG.md docs demo tools | tar -x -C "$root"
# What tries the tools, and what wants the sources of the crates.
(cd "$root/tools" && rm -r -- tests documents package.sh)
mv "$root/tools/hosed.bash" "$root/hosed.bash"
python3 tools/documents/man.py --version "$version" >"$root/hosed.1"
python3 tools/documents/statement.py --html "$root/statement.html"
install -m 755 "$program" "$root/hosed"
(cd "$root" && find . -type f -printf '%P\n' | sort | xargs -d '\n' sha256sum) >"$work/sums"
mv "$work/sums" "$root/SHA256SUMS"

mkdir -p "$folder"
archive=$folder/$name.tar.gz
tar -C "$work" --sort=name --format=gnu --owner=0 --group=0 --numeric-owner \
    --mode='u+rwX,go+rX,go-w' --mtime="@$(git log -1 --format=%ct "$commit")" -c "$name" |
    gzip -9n >"$work/archive"
mv "$work/archive" "$archive"
(cd "$folder" && sha256sum "$name.tar.gz" >"$name.tar.gz.sha256")
echo "program:  $(digest "$program") of $version, commit $commit"
echo "archive:  $(digest "$archive") $archive"
least=$(readelf -V "$program" | grep -o 'GLIBC_[0-9.]*' | sort -uV | tail -n 1)
echo "library:  ${least/_/ } at least"
