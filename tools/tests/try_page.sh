#!/usr/bin/env bash
# Tries pages of page.py in a headless Chromium, and leaves pictures of them in a folder, to look
# at. Ends with status 1 where something is wrong, and 2 where there is no Chromium.
#
# usage: tools/tests/try_page.sh [FOLDER]     FOLDER: out/page where it is not given
[ "${1-}" != --help ] || exec sed -n '2,/^[^#]/s/^# \{0,1\}//p' "$0"
set -u
here=$(dirname "$0")
folder=${1:-$here/../../out/page}
for name in chromium chromium-browser google-chrome; do
    chromium=$(command -v "$name") || continue
    mkdir -p "$folder" || exit
    exec python3 "$here/try_page.py" "$chromium" "$folder"
done
echo "try_page.sh: there is no Chromium here; on Debian, apt-get install chromium" >&2
exit 2
