#!/bin/sh
# make-sbom.sh [TREE]: writes to standard output what is in the programs, in the format SPDX 2.3 (JSON): the crates of this repository by
# crates.txt, those of the toolchain with versions and licenses by NOTICE, and Unicode's tables. With TREE, a folder that install.sh
# filled, it has the sums of the programs there; else those of the programs in dist/. The same commit and the same programs give the
# same bytes.
set -eu
export LC_ALL=C

top=$(CDPATH='' cd -- "$(dirname -- "$0")/.." && pwd)
# shellcheck source=tools/launcher/dist.sh
. "$top/tools/launcher/dist.sh"
# shellcheck source=tools/launcher/version.sh
. "$top/tools/launcher/version.sh"

# Prints `NAME PATH SUM` for each program: its crate, or `host` for the part in C, and its place in an installation.
list_programs() { # [TREE]
    for name in bidi_edit bidi_print; do
        if [ $# = 0 ]; then echo "$name lib/bidi_edit/$name $(noted program "$name")"; continue; fi
        [ ! -f "$1/lib/bidi_edit/$name" ] || echo "$name lib/bidi_edit/$name $(sha256sum <"$1/lib/bidi_edit/$name" | cut -c 1-64)"
    done
    [ $# = 0 ] || echo "host bin/bidi-edit $(sha256sum <"$1/bin/bidi-edit" | cut -c 1-64)"
}

# Prints a name of the form of a UUID for what was listed.
name_of() { # TEXT
    printf '%s' "$1" | sha256sum | sed 's/^\(.\{8\}\)\(.\{4\}\).\(.\{3\}\).\(.\{3\}\)\(.\{12\}\).*/urn:uuid:\1-\2-8\3-8\4-\5/'
}

find_version
programs=$(list_programs "$@")
created=$(TZ=UTC0 date -d "@${SOURCE_DATE_EPOCH:-${seconds:-0}}" +%Y-%m-%dT%H:%M:%SZ)
awk -v version="$version" -v created="$created" -v namespace="$(name_of "$version $programs")" -v programs="$programs" \
    -f "$top/tools/package/sbom.awk" "$top/NOTICE" "$top/crates.txt"
