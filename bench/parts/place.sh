# What the scripts beside this one begin with that measure files. Each takes a FOLDER on a real
# disk (the current one), keeps its files in $place there, and may be told a PROGRAM, as seen from
# the top of the repository.
set -euo pipefail
export LC_ALL=C
folder=$(realpath "${1:-.}")
cd "$(dirname "${BASH_SOURCE[0]}")/../.."
# The script ./hosed may build the program. The program itself is what is measured.
program=${2:-crates/hosed_main/out/hosed_main}
if (($# < 2)); then ./hosed --version >/dev/null; fi
place=$(mktemp -d -p "$folder")
trap 'rm -rf "$place"' EXIT

kind=$(df --output=fstype "$place" | tail -n 1)
case $kind in
    tmpfs | ramfs) echo "files: on $kind, which syncs in no time: no figure of a disk" ;;
    *) echo "files: on $kind" ;;
esac
