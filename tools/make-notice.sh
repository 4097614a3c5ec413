#!/bin/sh
# make-notice.sh [FILE]: writes NOTICE, or FILE: what of others is in the programs, with versions, copyright and license texts, from
# crates.txt and the records of the toolchain, whose folder `rt doc` names. make-sbom.sh and make-deb.sh read NOTICE, so that they need
# no toolchain. Exit status 1: the toolchain's records lack something, or say what this script does not know; 77: there is no rt or no
# python3.
set -eu

top=$(CDPATH='' cd -- "$(dirname -- "$0")/.." && pwd)
# shellcheck source=tools/launcher/dist.sh
. "$top/tools/launcher/dist.sh"
for tool in rt python3; do
    command -v "$tool" >/dev/null || {
        echo "skipped: there is no $tool"
        exit 77
    }
done
page=$(rt doc)
new=$(mktemp)
trap 'rm -f -- "$new"' EXIT
# shellcheck disable=SC2086 # split into words
python3 -B "$top/tools/package/notice.py" "$top" "${page%/*}" "$(rt version)" $dist_programs >"$new"
cat "$new" >"${1:-$top/NOTICE}"
