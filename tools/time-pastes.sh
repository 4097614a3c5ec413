#!/bin/sh
# time-pastes.sh [ROUNDS]: measures a paste of 1,000,000 bytes in bidi_edit, vim, nano and joe, skips editors that are not installed,
# and prints the table of docs/PERFORMANCE.md. Each editor runs on its own terminal of 24 rows and 80 columns, without configuration,
# with an empty text; bidi_edit is started by `bidi-edit`, so its figures are those of all of its processes, but for the row of the
# program alone. The text is ASCII, Hebrew or Arabic, in lines of 80 characters or in one line, between the marks of a bracketed
# paste. Figures are medians of ROUNDS, by default 3: the processor time and the time by the clock until the screen and all processes
# are at rest, the bytes that the terminal gets, and the memory that the peak grows by. A dash: it did not come to rest within a
# minute, or the saved file lacks something. Exit status 77: bidi_edit is neither built nor in dist/ of these sources, or there is no
# python3.
set -eu
export LC_ALL=C.UTF-8

top=$(cd "$(dirname "$0")/.." && pwd)
case $#:${1:-} in
0: | 1:[1-9] | 1:[1-9][0-9]) ;;
*)
    echo 'usage: tools/time-pastes.sh [ROUNDS]' >&2
    exit 2
    ;;
esac
# shellcheck disable=SC2034 # of measuring.sh
peers='vim nano joe'
# shellcheck source=tools/measuring.sh
. "$top/tools/measuring.sh"
# shellcheck disable=SC2086 # split into words
python3 -B "$top/tools/time_pastes.py" "$editor" "$folder" "${1:-3}" $found
