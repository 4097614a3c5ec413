#!/bin/sh
# check-joined-rows.sh [ROWS]: prints texts with joined letters by bidi_print, and compares the rows: with those of ROWS, with the
# output of fribidi for lines of words, and for each letter those by the tables of data/ with those by Unicode's own files. What
# cannot be compared (without fribidi, a word list or unicode-data) is skipped. The last line has the totals. Exit status 1: a row
# differs; 77: there is no python3.
#
# ROWS is a file of rows from an independent source, made with Unicode's five files, maybe packed by gzip; by default
# tests/data/joined-rows.tsv.gz. A line has fields with tabs between: the
# body, its characters in hexadecimal; the direction; the form of each character, which is ignored; the level of each unit; what
# each unit is shown as, in the order of the body, with commas between, in hexadecimal; and the row of 500 columns from left to
# right without the blanks that fill it up, in hexadecimal too. The row is compared with the printed one, and with what the units
# are shown as, set in order by their levels (rule L2), since bidi_print tells neither.
#
# The 5,000 lines are of words from Debian's packages hunspell-ar, myspell-fa and firefox-esr-l10n-ur (Arabic, Persian, Urdu), by
# a generator with a seed: with vowel points, strokes, joiners, right-to-left marks, digits and Latin words among them. fribidi
# agrees by definition except in these. What differs is made alike before the comparison, and counted:
#
# - fribidi makes one character of lam and alef, and has no option against that. Each such ligature is taken apart again, into the
#   final form of the alef and the initial or medial one of the lam.
# - A letter without any form in UnicodeData.txt joins in fribidi, which gives its neighbours forms that reach out to a letter of
#   isolated look. Here such a letter joins nothing. Words with one are left out, and not counted.
# - A letter of joining type U with an isolated form (the hamza, U+0621) is shown in that form here, and as itself by fribidi.
# - fribidi joins only characters of one level, and a left-to-right mark between two letters has another than they have, so it
#   parts them. Here only the levels of the two letters count. No such mark is put into the lines.
# - A joiner or point that begins a line is a unit without columns, which is shown as a mark here. No line begins with one.
# - fribidi sets a joiner or right-to-left mark as a character of its own, and drops it on demand (--clean). A joiner belongs to
#   its letter's unit here, and is dropped from our rows.
set -eu
export LC_ALL=C.UTF-8

top=$(cd "$(dirname "$0")/.." && pwd)
# shellcheck source=tests/built.sh
. "$top/tests/built.sh"
rows=$(readlink -f "${1:-$top/tests/data/joined-rows.tsv.gz}")

if ! command -v python3 >/dev/null; then
    echo 'skipped: there is no python3'
    exit 77
fi
folder=$(mktemp -d)
trap 'rm -rf "$folder"' EXIT
trap 'exit 1' HUP INT TERM

data=$top/data
find_built bidi_print
cd "$folder"
python3 "$top/tests/check_joined_rows.py" "$program" "$data" "$rows"
