#!/bin/sh
# check-cases.sh [KIND..]: plays lines of tests/data with the crate `player`, and compares each answer with the independent model's.
# KIND is levels (the embedding levels of 1,500 paragraphs), rows (2,131 rows: levels, order, glyphs and places) or keys (500 inputs
# and the keys that they make); by default all. The last line has the totals. Exit status 1: an answer differs; 77: the player is
# not built.
set -u

top=$(CDPATH='' cd -- "$(dirname "$0")/.." && pwd)
data=$top/tests/data
# shellcheck source=tests/built.sh
. "$top/tests/built.sh"
(find_built "$dist_player" 2>/dev/null) || {
    echo "skipped: $dist_player is not built, and dist/ does not have it"
    exit 77
}
find_built "$dist_player"
room=$(mktemp -d) || exit 1
trap 'rm -rf "$room"' EXIT
trap 'exit 1' HUP INT TERM
passed=0 failed=0

# Has the player answer the lines of a file, and compares each answer. Shows the first that differ.
check() { # FILE KIND FIELDS-GIVEN FIELDS-WANTED
    gzip -dc "$data/$1.tsv.gz" | grep -v '^#' >"$room/lines"
    cut -f "$3" "$room/lines" | sed "s/^/$2	/" >"$room/given"
    cut -f "$4" "$room/lines" >"$room/wanted"
    count=$(wc -l <"$room/lines") alike=0
    if timeout 300 "$program" "$data/test-classes.txt" "$data/test-brackets.txt" "$data/test-mirroring.txt" <"$room/given" >"$room/found"; then
        alike=$(awk 'NR == FNR { wanted[FNR] = $0; next } $0 == wanted[FNR] { alike++ } END { print alike + 0 }' "$room/wanted" "$room/found")
        diff "$room/wanted" "$room/found" | head -n 20 | sed 's/^/FAILS /'
    else
        echo "FAILS $1: the player ended with a status of its own, see above"
    fi
    echo "$1: $alike of $count agree"
    passed=$((passed + alike)) failed=$((failed + count - alike))
    # none is a fault too
    [ "$alike" -gt 0 ] || failed=$((failed + 1))
}

[ $# -gt 0 ] || set -- levels rows keys
for kind; do
    case $kind in
    levels) check levels levels 1-2 3-4 ;;
    rows) check rows row 1-4 5-8 ;;
    keys) check keys keys 1 2-3 ;;
    *) echo 'usage: tests/check-cases.sh [levels | rows | keys]..' >&2 && exit 2 ;;
    esac
done
echo "$passed passed, $failed failed"
[ "$failed" = 0 ]
