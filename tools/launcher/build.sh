#!/bin/sh
# build.sh TOP PROGRAM..: compiles the host of the checkout TOP where a source is newer, and proves and builds these programs.
# Exit status 1: something could not be built, as standard error tells; 128 and the signal's number where a signal stopped it.
set -u

top=$1
shift
# shellcheck source=tools/launcher/names.sh
. "$top/tools/launcher/names.sh"

# Makes the toolchain use /tmp if nothing can be created in TMPDIR.
settle_folder() {
    [ -n "${TMPDIR:-}" ] || return 0
    if folder=$(mktemp -d 2>/dev/null); then
        rmdir -- "$folder"
        return
    fi
    printf 'bidi-edit: TMPDIR is ignored, since nothing can be created in %s: /tmp is used instead\n' "$(shown "$TMPDIR")" >&2
    export TMPDIR=/tmp
}

settle_folder
# first, since it takes a second, and says what has to be installed
sh "$top/host/build.sh" || exit
[ $# != 0 ] || exit 0
# Ctrl-C reaches both scripts; prove.sh cleans up and reports before this one ends
trap : INT QUIT
sh "$top/tools/launcher/proving/prove.sh" "$top" "$@" || exit
# for --version
kit=$top/crates/bidi_edit/out/kit
[ ! -d "${kit%/*}" ] || { rt version >"$kit.new" && mv "$kit.new" "$kit"; } 2>/dev/null || :
