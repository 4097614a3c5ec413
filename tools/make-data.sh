#!/bin/sh
# make-data.sh [FOLDER]: writes data/ from Unicode's five files, from Debian's package unicode-data or from FOLDER. It keeps facts
# only, in the files' own format: the ranges with their classes, also the @missing ones, the brackets, the mirrors, the joining
# types, and of UnicodeData.txt the lines that give a letter's form. It joins adjacent ranges of one class, and drops comments
# and names. tests/check-data.sh compares the answers.
set -eu
export LC_ALL=C

folder=${1:-/usr/share/unicode}
classes=$folder/extracted/DerivedBidiClass.txt
[ -r "$classes" ] || classes=$folder/DerivedBidiClass.txt
data=$(dirname "$0")/../data
mkdir -p "$data"

# Prints the first line of a table: the version of Unicode's file, and that the table is made from it.
head_line() { # FILE
    sed -n '1s/^# *\(.*\)\.txt.*$/# \1, its facts alone, by tools\/make-data.sh/p' "$1"
}

# Prints a file's data lines without comments and blanks.
facts() { # FILE
    sed -e 's/#.*//' -e 's/[[:blank:]]//g' -e '/^$/d' "$1"
}

{
    head_line "$classes"
    sed -n 's/^[[:blank:]]*#[[:blank:]]*@missing:[[:blank:]]*\([0-9A-F.]*\)[[:blank:]]*;[[:blank:]]*\([A-Za-z_]*\)[[:blank:]]*$/# @missing: \1; \2/p' "$classes"
    facts "$classes" | awk -F';' '
        function number(code,  i, n) {
            n = 0
            for (i = 1; i <= length(code); i++) n = n * 16 + index("123456789ABCDEF", substr(code, i, 1))
            return n
        }
        function tell() {
            if (class != "") print (first == last ? first : first ".." last) ";" class
        }
        {
            parts = split($1, ends, "[.][.]")
            if ($2 != class || number(ends[1]) != number(last) + 1) { tell(); first = ends[1]; class = $2 }
            last = ends[parts]
        }
        END { tell() }
    '
} >"$data/DerivedBidiClass.txt"
for name in BidiBrackets BidiMirroring; do
    { head_line "$folder/$name.txt" && facts "$folder/$name.txt"; } >"$data/$name.txt"
done
{
    head_line "$folder/ArabicShaping.txt"
    facts "$folder/ArabicShaping.txt" | awk -F';' '{ print $1 ";;" $3 ";" }'
} >"$data/ArabicShaping.txt"
# UnicodeData.txt has no comments, so its version is that of the files beside it
{
    head_line "$folder/ArabicShaping.txt" | sed 's/ArabicShaping/UnicodeData/'
    awk -F';' '
        split($6, word, " ") == 2 && word[1] ~ /^<(isolated|initial|medial|final)>$/ { print $1 ";;;;;" $6 ";;;;;;;;;" }
    ' "$folder/UnicodeData.txt"
} >"$data/UnicodeData.txt"
