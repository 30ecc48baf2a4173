#!/usr/bin/env bash
# Installs a release in an empty root folder, upgrades it and goes back, by the very lines of
# docs/OPERATING.md, "Install": those of its blocks after <!-- run: NAME -->. In the folder are the
# system's shell and its programs for files and users, with their libraries, and nothing else but
# the archive and the network of demo/star.txt; nothing is served, so its systemctl does nothing
# (bench/judge/units.py runs all under a systemd). Between the steps a VPN is admitted by the user
# whom the server has. Looks at the owners and rights of what was made, that each program tells the
# same book, and that `systemd-analyze verify`, where it is there, finds nothing in the units. NEXT
# is the archive of the next release; where there is none, the same again. It wants root, for
# chroot. Prints what was seen, and ends with a failure at what is not so.
#
# usage: bench/judge/empty_root.sh ARCHIVE [NEXT]
[ "${1-}" != --help ] || exec sed -n '2,/^[^#]/s/^# \{0,1\}//p' "$0"
set -euo pipefail
export LC_ALL=C
home=$(cd "$(dirname "${BASH_SOURCE[0]}")/../.." && pwd)
archive=$(realpath "$1")
next=$(realpath "${2-$1}")
programs=(bash sh tar gzip sha256sum cp ln install mkdir cmp cat id useradd nologin setpriv)
root=$(mktemp -d) && chmod 755 "$root"
trap 'rm -rf "$root"' EXIT

fail() {
    echo "empty_root: $*" >&2
    exit 1
}

# The libraries that a program is linked with.
libraries() { ldd "$1" | grep -o '/[^ ]*'; }

copy_libraries() {
    local library
    libraries "$1" | while read -r library; do
        mkdir -p "$root${library%/*}"
        cp -nL "$library" "$root$library"
    done
}

copy_program() {
    local path
    path=$(command -v "$1")
    cp -L "$path" "$root/usr/bin/$1"
    copy_libraries "$path"
}

# Runs lines in the folder, as root in /root.
inside() {
    env -i PATH=/usr/local/sbin:/usr/local/bin:/usr/sbin:/usr/bin:/sbin:/bin HOME=/root \
        chroot "$root" /usr/bin/bash -euo pipefail -c "cd /root; $1"
}

# The block of a name of docs/OPERATING.md.
block() {
    awk -v mark="<!-- run: $1 -->" '$0 == mark { getline; here = 1; next }
        /^```$/ { here = 0 }
        here' "$home/docs/OPERATING.md"
}

expect() {
    [ "$2" = "$3" ] || fail "$1: $2, and not $3"
    echo "$1: $2"
}

as_hosed="setpriv --reuid hosed --regid hosed --clear-groups"
journal=/var/lib/hosed/orders.journal
audit="cp $journal copy && hosed audit /etc/hosed/network.txt copy"

mkdir -p "$root"/{etc,root,dev,tmp,var/lib,home,bin,sbin,usr/bin}
for name in "${programs[@]}"; do copy_program "$name"; done
ln -s ../usr/bin/bash "$root/bin/sh"
ln -s bin "$root/usr/sbin"
printf '#!/bin/sh\n' >"$root/usr/bin/systemctl"
chmod +x "$root/usr/bin/systemctl"
mknod -m 666 "$root/dev/null" c 1 3 || : >"$root/dev/null"
echo 'root:x:0:0:root:/root:/bin/sh' >"$root/etc/passwd"
echo 'root:x:0:' >"$root/etc/group"
: >"$root/etc/shadow"
: >"$root/etc/gshadow"
cp /etc/login.defs "$root/etc/"
cp "$home/demo/star.txt" "$root/root/network.txt"
mkdir "$root"/root/{release,next}
tar -xzf "$archive" -C "$root/root/release" --strip-components 1
tar -xzf "$next" -C "$root/root/next" --strip-components 1
for name in release next; do
    copy_libraries "$root/root/$name/hosed"
    echo "libraries of $name: $(libraries "$root/root/$name/hosed" | sed 's#.*/##' | xargs)"
done

least=$(readelf -V "$root/root/release/hosed" | grep -o 'GLIBC_[0-9.]*' | sort -uV | tail -n 1)
said=$(grep -o 'the GNU C library, [0-9.]*[0-9]' "$home/docs/OPERATING.md")
expect "the least C library" "${least#GLIBC_}" "${said##* }"
expect "the first book" "$(inside "$(block install)" | tail -n 1)" "live 0 cost 0"
owner=$(inside 'id -u hosed'):$(inside 'id -g hosed')
expect "the journal" "$(stat -c %a:%u:%g "$root$journal")" "600:$owner"
expect "its folder" "$(stat -c %a:%u:%g "$root/var/lib/hosed")" "700:$owner"
expect "an order" "$(echo 'acme admit a:3 b:4 c:5' | cat "$home/demo/star.txt" - |
    inside "$as_hosed hosed run $journal")" "admitted 1 cost 26 at 1 links 0:3 1:4 2:5"
book=$(inside "$audit")
expect "the version" "$(inside 'hosed --version')" "$("$root/root/release/hosed" --version)"
inside "$(block 'audit the next')"
inside "$(block upgrade)"
expect "the next version" "$(inside 'hosed --version')" "$("$root/root/next/hosed" --version)"
expect "the book after the upgrade" "$(inside "$audit" | sha256sum)" "$(sha256sum <<<"$book")"
expect "an order after it" "$(echo 'acme admit a:1 b:1' | cat "$home/demo/star.txt" - |
    inside "$as_hosed hosed run $journal")" "admitted 2 cost 3 at 2 links 0:1 1:1"
book=$(inside "$audit")
inside "$(block 'go back')"
expect "the version after going back" "$(inside 'hosed --version')" \
    "$("$root/root/release/hosed" --version)"
expect "its book" "$(inside "$audit" | sha256sum)" "$(sha256sum <<<"$book")"
inside "$(block 'go back without the orders since')"
expect "the epoch of the copy from before" "$(inside "$audit" | head -n 1)" "epoch 1"
if command -v systemd-analyze >/dev/null; then
    for unit in "$root"/root/release/tools/systemd/*.service; do
        sed -i "s#/usr/local/bin/hosed#$root/usr/local/bin/hosed#" "$unit"
        ln -sfn "$root/root/release/hosed" "$root/usr/local/bin/hosed"
        expect "systemd-analyze verify ${unit##*/}" "$(systemd-analyze verify "$unit" 2>&1)" ""
    done
fi
echo "empty_root: all is as docs/OPERATING.md says"
