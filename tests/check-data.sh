#!/bin/sh
# check-data.sh [FOLDER]: compares data/ with Unicode's five files, from Debian's package unicode-data or from FOLDER: the class,
# bracket, mirror, joining type and forms of each of the 1,114,112 codes. The awk program of unicode_answers.sh reads the files; if
# crates/player is built, so does the editor's reader, for every character. data/ must contain nothing but facts. Exit status
# 1: something differs; 77: Unicode's files are missing, or only the editor's reader is not built and all else agrees.
set -eu
export LC_ALL=C

folder=${1:-/usr/share/unicode}
classes=$folder/extracted/DerivedBidiClass.txt
[ -r "$classes" ] || classes=$folder/DerivedBidiClass.txt
for file in "$classes" "$folder/BidiBrackets.txt" "$folder/BidiMirroring.txt" "$folder/ArabicShaping.txt" "$folder/UnicodeData.txt"; do
    if [ ! -r "$file" ]; then
        echo "skipped: $file is not there (apt-get install unicode-data)"
        exit 77
    fi
done
top=$(dirname "$0")/..
data=$top/data
scratch=$(mktemp -d)
trap 'rm -rf "$scratch"' EXIT

# shellcheck source=tests/unicode_answers.sh
. "$top/tests/unicode_answers.sh"

answers "$classes" "$folder/BidiBrackets.txt" "$folder/BidiMirroring.txt" "$folder/ArabicShaping.txt" "$folder/UnicodeData.txt" >"$scratch/unicode"
answers "$data/DerivedBidiClass.txt" "$data/BidiBrackets.txt" "$data/BidiMirroring.txt" "$data/ArabicShaping.txt" "$data/UnicodeData.txt" >"$scratch/data"
[ "$(wc -l <"$scratch/unicode")" = 1114112 ]
cmp "$scratch/unicode" "$scratch/data"
echo "data: the answers agree for 1114112 codes: $(cut -d ' ' -f 2 "$scratch/data" | sort -u | wc -l) classes," \
    "$(cut -d ' ' -f 3 "$scratch/data" | grep -c .) brackets, $(cut -d ' ' -f 4 "$scratch/data" | grep -c .) mirrors," \
    "$(cut -d ' ' -f 5 "$scratch/data" | grep -c .) joining types, $(cut -d ' ' -f 6 "$scratch/data" | tr ',' '\n' | grep -c .) forms"

# data/ has no prose, only the line that names the file, and ranges with their values
if grep -v -h -E -x -e '# [A-Za-z]+-[0-9.]+, its facts alone, by tools/make-data.sh' -e '# @missing: [0-9A-F]+\.\.[0-9A-F]+; [A-Za-z_]+' \
    -e '[0-9A-F]+(\.\.[0-9A-F]+)?;[A-Z]+' -e '[0-9A-F]+;[0-9A-F]+(;[oc])?' -e '[0-9A-F]+;;[RLDCUT];' \
    -e '[0-9A-F]+;{5}<(isolated|initial|medial|final)> [0-9A-F]+;{9}' "$data"/*.txt; then
    echo "data: these lines are more than facts"
    exit 1
fi

player=$top/crates/player/out/player
if [ ! -x "$player" ]; then
    echo "skipped: the editor's reader, since crates/player is not built (cd crates/player && rt run)"
    exit 77
fi
# surrogates, D800 to DFFF, are not characters: 2,048 of the codes
awk 'BEGIN { for (code = 0; code <= 1114111; code++) if (code < 55296 || code > 57343) printf "class\t%04X\tjoined\n", code }' \
    >"$scratch/lines"
"$player" "$classes" "$folder/BidiBrackets.txt" "$folder/BidiMirroring.txt" "$folder/ArabicShaping.txt" "$folder/UnicodeData.txt" \
    <"$scratch/lines" >"$scratch/unicode"
"$player" "$data/DerivedBidiClass.txt" "$data/BidiBrackets.txt" "$data/BidiMirroring.txt" "$data/ArabicShaping.txt" \
    "$data/UnicodeData.txt" <"$scratch/lines" >"$scratch/data"
[ "$(wc -l <"$scratch/unicode")" = 1112064 ]
cmp "$scratch/unicode" "$scratch/data"
echo "data: the editor's reader agrees for 1112064 characters"
