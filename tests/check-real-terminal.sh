#!/bin/sh
# check-real-terminal.sh: checks the model of the terminal against tmux: feeds the painter's bytes to a pane of the picture's
# size, and reads the pane and its cursor back. crates/player answers the bytes: the first picture of a case whole, each
# later one by its changes. It is not part of `rt ci`. The last line has the totals. Exit status 1: a case differs; 77: there is
# no tmux and none can be installed from Debian's packages.
set -u

if ! command -v tmux > /dev/null 2>&1; then
    if command -v apt-get > /dev/null 2>&1 && [ "$(id -u)" = 0 ]; then
        apt-get install -y -q tmux > /dev/null 2>&1 || { apt-get update -q > /dev/null 2>&1 && apt-get install -y -q tmux > /dev/null 2>&1; }
    fi
fi
if ! command -v tmux > /dev/null 2>&1; then
    echo "skipped: there is no tmux, and it could not be installed"
    exit 77
fi

top=$(cd "$(dirname "$0")/.." && pwd)
# for `wait_for`
# shellcheck source=tests/report.sh
. "$top/tests/report.sh"
# shellcheck source=tests/built.sh
. "$top/tests/built.sh"
find_built player

folder=$(mktemp -d)
socket="bx$$"
export LC_ALL=C.UTF-8
passed=0 failed=0
trap 'tmux -L "$socket" kill-server 2> /dev/null; rm -rf "$folder"' EXIT

# Paints PICTURES into the pane, and compares what it shows. PICTURES are written as in the player's `paint` lines (crates/player
# describes them). ROWS are the rows that the pane must show, joined by |, without blanks at their ends; < and > enclose cells in
# reverse video. CURSOR is the column and the row of the cursor, counted from 0.
check() { # NAME HEIGHT WIDTH ROWS CURSOR PICTURES..
    name=$1 height=$2 width=$3 rows=$4 cursor=$5
    shift 5
    {
        printf 'paint\t%s\t%s' "$height" "$width"
        printf '\trows=%s' "$@"
        echo
    } | "$program" /dev/null /dev/null /dev/null > "$folder/digits" || { echo "NOT PAINTED $name"; failed=$((failed + 1)); return; }
    # each byte as an escape of printf, in octal
    printf '%b' "$(tr -d ' -' < "$folder/digits" | awk '{
        for (i = 1; i < length($0); i += 2)
            printf "\\0%03o", 16 * (index("123456789abcdef", substr($0, i, 1))) + index("123456789abcdef", substr($0, i + 1, 1))
    }')" > "$folder/bytes"
    printf 'cat "%s/bytes"; sleep 90\n' "$folder" > "$folder/run"
    tmux -u -f /dev/null -L "$socket" new-session -d -s "$name" -x "$width" -y "$height" "sh $folder/run" \; set -g status off
    tmux -L "$socket" resize-window -t "$name" -x "$width" -y "$height" 2> /dev/null
    # until tmux has read the bytes; the pane's own sleep keeps it open
    wait_for is_shown "$name" "$rows" "$cursor"
    sleep 0.2
    is_shown "$name" "$rows" "$cursor"
    tmux -L "$socket" kill-session -t "$name"
    if [ "$found" = "$rows" ] && [ "$found_cursor" = "$cursor" ]; then
        echo "ok $name"
        passed=$((passed + 1))
    else
        echo "DIFFERS $name: shows '$found', cursor $found_cursor; expected '$rows', cursor $cursor"
        failed=$((failed + 1))
    fi
}

# Sets `found` and `found_cursor` to what the pane shows. Its status says whether that is as wanted.
is_shown() { # NAME ROWS CURSOR
    found=$(tmux -u -L "$socket" capture-pane -p -e -t "$1" | sed -e 's/\x1b\[7m/</g' -e 's/\x1b\[\(0\|27\)\?m/>/g' -e 's/\x1b\[[0-9;]*m//g' -e 's/ *$//' | paste -s -d '|' | sed -e 's/|*$//')
    found_cursor=$(tmux -L "$socket" display-message -p -t "$1" '#{cursor_x},#{cursor_y}')
    [ "$found" = "$2" ] && [ "$found_cursor" = "$3" ]
}

# a letter of two columns, two of Hebrew, and an e with a mark of its own
wide=$(printf '\344\270\226')
alef=$(printf '\327\220')
bet=$(printf '\327\221')
acute=$(printf 'e\314\201')

# keeps the tmux server alive between two checks
tmux -u -f /dev/null -L "$socket" new-session -d -s keep -x 80 -y 24 'sleep 600'

check ascii 2 10 '|- 1:1' 0,0 '1;1:|-_1:1'
check inserted 1 5 'xab' 1,0 '1;1:ab' '1;2:xab'
check erased 1 5 'ab' 0,0 '1;2:xab' '1;1:ab'
check cursor_alone 1 5 'ab' 3,0 '1;1:ab' '1;4:ab'
check negative_mark 1 3 'a<I>b' 0,0 '1;1:a`Ib'
check negative_gone 1 3 'aIb' 2,0 '1;1:a`Ib' '1;3:aIb'
check to_the_edge 2 3 'abc|d' 2,0 '1;3:abc|d'
check wide 1 4 "$wide" 0,0 "1;1:$wide"
check wide_negative 1 4 "<$wide>b" 0,0 "1;1:\`${wide}b"
check before_a_wide_glyph 1 4 "x$wide" 1,0 "1;1:$wide" "1;2:x$wide"
check wide_covered 1 4 'ab' 0,0 "1;1:$wide" '1;1:ab'
check first_half_covered 1 4 'a' 0,0 "1;1:$wide" '1;1:a'
check second_half_covered 1 4 ' b' 0,0 "1;1:$wide" '1;1:_b'
check wide_moved 1 4 " $wide" 0,0 "1;1:$wide" "1;1:_$wide"
check wide_to_the_edge 1 4 "ab$wide" 0,0 "1;1:ab$wide"
check combining_mark 1 4 "${acute}b" 0,0 "1;1:{$acute}b"
check mark_gone 1 4 'eb' 0,0 "1;1:{$acute}b" '1;1:eb'
check hebrew 1 4 "$bet$alef" 0,0 "1;1:$bet$alef"

echo "$passed passed, $failed failed"
[ "$failed" = 0 ]
