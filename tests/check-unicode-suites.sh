#!/bin/sh
# check-unicode-suites.sh [FOLDER]: plays the cases of Unicode's test suites, from FOLDER or from Debian's package unicode-data, by
# crates/player, as lines of levels with the order in one row, and of clusters. All cases must be answered as the files say, but for
# the clusters known to differ. The files may be packed. Exit status 1: a case differs; 77: a file is missing.
set -eu
export LC_ALL=C

top=$(cd "$(dirname "$0")/.." && pwd)
# shellcheck source=tests/built.sh
. "$top/tests/built.sh"
folder=$(readlink -f "${1:-/usr/share/unicode}")
scratch=$(mktemp -d)
trap 'rm -rf "$scratch"' EXIT

# Copies the file with this name, unpacked, to the scratch folder.
unpack() { # NAME
    found=$(find "$folder" -name "$1" -o -name "$1.gz" -o -name "$1.bz2" -o -name "$1.xz" | sort | head -n 1)
    case $found in
    '') return 1 ;;
    *.gz) gzip -dc "$found" >"$scratch/$1" ;;
    *.bz2) bzip2 -dc "$found" >"$scratch/$1" ;;
    *.xz) xz -dc "$found" >"$scratch/$1" ;;
    *) cp "$found" "$scratch/$1" ;;
    esac
}

set -- DerivedBidiClass.txt BidiBrackets.txt BidiMirroring.txt BidiCharacterTest.txt BidiTest.txt GraphemeBreakTest.txt
for name in "$@"; do
    if ! unpack "$name"; then
        echo "skipped: $folder has no $name (apt-get install unicode-data)"
        exit 77
    fi
done

find_built player
cd "$scratch"

# Plays lines over Unicode's tables.
play() {
    "$program" DerivedBidiClass.txt BidiBrackets.txt BidiMirroring.txt
}

# Writes a line and its wanted answer for each case of BidiCharacterTest.txt: characters, a direction, the paragraph's level, levels
# and the order.
character_cases() {
    awk -F';' -v OFS='\t' '
        BEGIN { split("ltr rtl auto", direction, " ") }
        /^[0-9A-F]/ {
            print "order", $1, direction[$2 + 1]
            print $3, $4, ($5 == "" ? "-" : $5) >"wanted"
        }' BidiCharacterTest.txt >lines
}

# The classes, and a character of each.
classes='L=0061 R=05D0 AL=0627 EN=0030 ES=002B ET=0023 AN=0660 CS=002C NSM=0300 BN=00AD B=2029 S=0009 WS=0020 ON=0021 LRE=202A
LRO=202D RLE=202B RLO=202E PDF=202C LRI=2066 RLI=2067 FSI=2068 PDI=2069'

# The same for each case of BidiTest.txt, without the paragraph's level. Levels and order stand before the lines that they apply
# to, each of which has classes and a bitset of directions: 1 auto, 2 left to right, 4 right to left.
class_cases() {
    awk -F';' -v OFS='\t' -v classes="$classes" '
        function words(text) { gsub(/[ \t]+/, " ", text); sub(/^ /, "", text); sub(/ $/, "", text); return text == "" ? "-" : text }
        BEGIN {
            count = split(classes, each, /[ \n]/)
            for (i = 1; i <= count; i++) { split(each[i], part, "="); character[part[1]] = part[2] }
            split("auto ltr rtl", direction, " ")
        }
        sub(/^@Levels:/, "") { levels = words($0); next }
        sub(/^@Reorder:/, "") { order = words($0); next }
        /^[A-Z]/ {
            count = split(words($1), name, " ")
            codes = ""
            for (i = 1; i <= count; i++) codes = codes (i > 1 ? " " : "") character[name[i]]
            for (i = 1; i <= 3; i++) if (int($2 / 2 ^ (i - 1)) % 2) {
                print "order", codes, direction[i]
                print levels, order >"wanted"
            }
        }' BidiTest.txt >lines
}

# The same for each case of GraphemeBreakTest.txt.
cluster_cases() {
    sed -n 's/[[:space:]]*#.*//; /^÷/p' GraphemeBreakTest.txt >wanted
    sed 's/[÷×] *//g; s/ *$//; s/^/clusters\t/' wanted >lines
}

# Compares the answers in `found` with those in `wanted`, of which `known` differ, and counts the cases.
compare() { # NAME KNOWN
    [ "$(wc -l <found)" = "$(wc -l <wanted)" ] || { echo "FAILS $1: not as many answers as cases"; exit 1; }
    paste -d '|' wanted found lines | awk -F'|' '$1 != $2' >differing
    cases=$(wc -l <wanted) differing=$(wc -l <differing)
    echo "$1: $((cases - differing)) of $cases agree"
    if [ "$cases" = 0 ] || [ "$differing" != "$2" ]; then
        head -n 5 differing
        echo "FAILS $1: $2 are known to differ"
        exit 1
    fi
}

# the characters are of their classes by these tables too, and none is a bracket
for pair in $classes; do printf 'class\t%s\n' "${pair#*=}"; done | play | sed 's/,.*mirrored.*//' >found
for pair in $classes; do printf 'U+%s %s\n' "${pair#*=}" "${pair%=*}"; done | cmp - found

character_cases
play <lines >found
compare BidiCharacterTest 0
class_cases
play <lines | cut -f 2- >found
compare BidiTest 0
cluster_cases
play <lines >found
# the code follows 18.0.0, where two U+2701 and a joiner between them are no longer one cluster
case $(head -n 1 GraphemeBreakTest.txt) in
*-15.0.0.txt*) compare GraphemeBreakTest 1 ;;
*) compare GraphemeBreakTest 0 ;;
esac
