#!/bin/sh
# check-unicode-data.sh [--time]: compares the answers of crates/player over Unicode's five files, from Debian's package unicode-data,
# with what the awk programs of unicode_answers.sh read in them: class, bracket, mirror, joining type and forms of all 1,112,064
# characters. `--time` also prints the processor time of one reading, by crates/bench. Exit status 1: an answer differs; 77: the
# package is not installed.
set -eu
export LC_ALL=C

folder=/usr/share/unicode
classes=$folder/extracted/DerivedBidiClass.txt
brackets=$folder/BidiBrackets.txt
mirroring=$folder/BidiMirroring.txt
joining=$folder/ArabicShaping.txt
characters=$folder/UnicodeData.txt
for file in "$classes" "$brackets" "$mirroring" "$joining" "$characters"; do
    if [ ! -r "$file" ]; then
        echo "skipped: $file is not there (apt-get install unicode-data)"
        exit 77
    fi
done

top=$(cd "$(dirname "$0")/.." && pwd)
# shellcheck source=tests/built.sh
. "$top/tests/built.sh"
# shellcheck source=tests/unicode_answers.sh
. "$top/tests/unicode_answers.sh"
find_built player
scratch=$(mktemp -d)
trap 'rm -rf "$scratch"' EXIT

fail() { # WHAT
    echo "FAILS $1" >&2
    exit 1
}

answers "$classes" "$brackets" "$mirroring" "$joining" "$characters" | told >"$scratch/wanted"
[ "$(wc -l <"$scratch/wanted")" = 1112064 ] || fail 'a line is missing'
sed 's/^U+\([0-9A-F]*\) .*/class\t\1\tjoined/' "$scratch/wanted" |
    "$program" "$classes" "$brackets" "$mirroring" "$joining" "$characters" >"$scratch/found"
if ! cmp -s "$scratch/wanted" "$scratch/found"; then
    diff "$scratch/wanted" "$scratch/found" | head -n 20
    fail 'the answers are not what awk reads'
fi
echo "unicode-data: the answers agree for 1112064 characters: $(grep -c ', of joining type' "$scratch/found") of a joining type other" \
    "than U, $(grep -o -E ', (isolated|initial|medial|final) ' "$scratch/found" | grep -c .) forms"
if [ "${1:-}" = --time ]; then
    find_built bench
    for files in "$classes $brackets $mirroring $joining $characters" "$classes $brackets $mirroring" "$classes /dev/null /dev/null"; do
        echo "$files:"
        # shellcheck disable=SC2086 # paths without blanks
        "$program" --time tables 200 $files
    done
fi
