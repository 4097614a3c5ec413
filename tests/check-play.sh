#!/bin/sh
# check-play.sh [--sanitized] [--lanes N] [--only WORDS] [--verbose] [FILE..]: plays the cases of tests/play/*.play, or of these files: what a user
# does, and what is seen then, in pseudo-terminals. tests/play/README.md says how a case is written. `--sanitized` plays them with a host that is
# built with AddressSanitizer and UBSan, `--only` those with these words in their title. The last line has the totals. Exit status 1: a case
# failed, or a program is not built; 77: there is no python3 with pyte, and it cannot be installed from Debian's packages.
set -u

top=$(CDPATH='' cd -- "$(dirname "$0")/.." && pwd)
# shellcheck source=tests/own_state.sh
. "$top/tests/own_state.sh"
# shellcheck source=tests/built.sh
. "$top/tests/built.sh"

# Sets `python` to one that has pyte.
find_python() {
    for python in python3 /usr/bin/python3; do
        "$python" -c 'import pyte' 2>/dev/null && return
    done
    return 1
}

# shellcheck disable=SC2015 # both may fail
find_python || { [ "$(id -u)" = 0 ] && apt-get install -y -q python3-pyte >/dev/null 2>&1 && find_python; } || {
    echo 'skipped: there is no python3 with pyte (apt-get install python3-pyte)'
    exit 77
}
build_kind=''
if [ "${1:-}" = --sanitized ]; then
    build_kind=sanitized
    shift
fi
find_built bidi_edit
# shellcheck disable=SC2154 # built.sh sets it
editor=$program
find_built bidi_print
# shellcheck disable=SC2086 # no word without a kind
sh "$top/host/build.sh" $build_kind || exit 1
folder=$(mktemp -d) || exit 1
trap 'rm -rf -- "$folder"' EXIT
trap 'exit 1' HUP INT TERM
mkdir "$folder/programs"
ln -s "$editor" "$folder/programs/bidi_edit"
ln -s "$program" "$folder/programs/bidi_print"
own_state "$folder"
is_named=''
for word; do
    case $word in *.play) is_named=1 ;; esac
done
[ -n "$is_named" ] || set -- "$@" "$top"/tests/play/*.play
"$python" -B "$top/tests/play/play.py" --host "$top/host/out/${build_kind:+$build_kind/}bidi-edit" --programs "$folder/programs" "$@"
