#!/bin/sh
# compare-editors.sh [--quick] [ROUNDS]: measures common actions in bidi_edit, emacs, vim, nano and joe, skips editors that are
# not installed, and prints the table of docs/PERFORMANCE.md. Each editor runs on its own terminal of 24 rows and 80
# columns, without configuration, on copies of the same texts: 16,000,000 bytes of ASCII, Hebrew, Arabic and mixed lines, and
# one paragraph of 1,000,000 bytes of each. It makes 3 rounds by default; --quick takes a sixteenth of each text, and one round.
#
# A figure is the median of the rounds: milliseconds until the last byte of the new screen, then after a slash the milliseconds
# of processor time of the editor and its child processes. Of the letters and pages of a round the former is the median, the
# latter the mean. Exit status 77: bidi_edit is neither built nor in dist/ of these sources, there is no python3, or none of the others
# is installed.
set -eu
export LC_ALL=C.UTF-8

top=$(cd "$(dirname "$0")/.." && pwd)
quick=''
if [ "${1:-}" = --quick ]; then
    quick=--quick
    shift
fi
case $#:${1:-} in
0:) ;;
1:[1-9] | 1:[1-9][0-9]) ;;
*)
    echo 'usage: tools/compare-editors.sh [--quick] [ROUNDS]' >&2
    exit 2
    ;;
esac
peers='emacs vim nano joe'
# shellcheck source=tools/measuring.sh
. "$top/tools/measuring.sh"
if [ "$found" = bidi_edit ]; then
    echo 'skipped: none of emacs, vim, nano and joe is installed'
    exit 77
fi
# shellcheck disable=SC2086 # split into words
python3 -B "$top/tools/compare_editors.py" $quick ${1:+--rounds "$1"} "$editor" "$folder" $found
