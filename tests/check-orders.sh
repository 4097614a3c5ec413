#!/bin/sh
# check-orders.sh [FOLDER]: types letters at offsets whose order would make an unbalanced tree deep, in an empty text and in one of
# 16,000,000 bytes. FOLDER, by default tests/data/edit-orders, has a packed file for each text, with one offset in each line. The texts
# and what is typed are line feeds alone. So each offset is the start of a line, and the key that goes to a line by number reaches it. The last line has the totals. Exit status 1: a run ends wrongly, or the text is not as
# long as it should be, or the program is not built.
set -u

top=$(CDPATH='' cd -- "$(dirname "$0")/.." && pwd)
given=$(readlink -f "${1:-$top/tests/data/edit-orders}") || exit 1
# shellcheck source=tests/built.sh
. "$top/tests/built.sh"
find_built bidi_edit
editor=$program
folder=$(mktemp -d) || exit 1
trap 'rm -rf "$folder"' EXIT
trap 'exit 1' HUP INT TERM
cd "$folder" || exit 1
passed=0 failed=0

# Writes the keys that type at each offset, and then a Save. \033[84~ is the key that asks for a line number.
keys_of() { # FILE
    gzip -dc "$1" | awk '{ printf "\033[84~%d\n\r", $1 + 1 }' && printf '\023\021'
}

# Makes the edits in a text of BYTES line feeds.
check() { # NAME BYTES FILE
    head -c "$2" /dev/zero | tr '\0' '\n' >text
    keys_of "$given/$3" >keys
    edits=$(gzip -dc "$given/$3" | wc -l)
    timeout 120 "$editor" --rows 2 --cols 20 --classes "$top/data/DerivedBidiClass.txt" --brackets "$top/data/BidiBrackets.txt" \
        --mirroring "$top/data/BidiMirroring.txt" text <keys >/dev/null 2>told
    status=$?
    if [ "$status" = 0 ] && [ "$(wc -c <text)" = $(($2 + edits)) ] && [ "$(tr -d '\n' <text | wc -c)" = 0 ]; then
        passed=$((passed + 1))
        echo "ok $1: $edits edits"
    else
        failed=$((failed + 1))
        echo "FAILS $1: status $status, $(wc -c <text) bytes: $(head -n 1 told)"
    fi
}

check 'from an empty text' 0 deep-from-empty.txt.gz
check 'in a large text' 16000000 deep-in-16-mb.txt.gz
echo "$passed passed, $failed failed"
[ "$failed" = 0 ]
