#!/bin/sh
# check-noise.sh [--quick] [RUN..]: runs the built program on noise and on extreme texts, and prints the processor time and the
# peak memory of each run. It is not part of `rt ci`. --quick takes a tenth of each. RUN is one of 24x80, 1x1, 100x400, 500x500,
# line, feeds, cluster, RLI and brackets; the default is all. The last line has the totals. Exit status 1: a run hangs, ends by
# a signal or with another status, paints another picture at its beginning or end, or saves another file; 77: the program is not
# built or there is no python3, which measures.
#
# Noise: random bytes except Ctrl-Q, 1,024 at a time, over random characters. Then the window becomes 1x1, Undo is pressed as
# often as the noise can have edited, and the text is saved, which must be the opened one again.
#
# Extreme texts, each of 16,777,216 bytes: one line, line feeds alone, one cluster, RLI alone, and pairs of brackets. The
# picture at opening is known. Every move is made, the window and the direction change and come back, a letter is refused
# because the text is full (except with --quick), the first unit is deleted, and a letter is inserted in its place and saved.
set -eu
export LC_ALL=C

top=$(cd "$(dirname "$0")/.." && pwd)
# all sizes are divided by it
part=1
if [ "${1:-}" = --quick ]; then
    part=10
    shift
fi
asked=$*
for run in $asked; do
    case $run in
    24x80 | 1x1 | 100x400 | 500x500 | line | feeds | cluster | RLI | brackets) ;;
    *)
        echo 'usage: tests/check-noise.sh [--quick] [RUN..]' >&2
        exit 2
        ;;
    esac
done
# shellcheck source=tests/own_folder.sh
. "$top/tests/own_folder.sh"
passed=0 failed=0

# Limits of a run, in seconds of processor time and of wall time on a busy machine.
most=3600 longest=21600

# ---- texts and keys

# Random bytes from a generator whose numbers stay below 2 to the 46th, so that every awk gives the same.
random='function next_number() { state = (state * 16807) % 2147483647; return state }
    function below(count) { return int(next_number() / 2147483647 * count) }'

# Random bytes except Ctrl-Q.
noise() { # COUNT
    awk -v count="$1" -v state=1 "$random"'
        BEGIN { while (n < count) { byte = below(256); if (byte != 17) { printf "%c", byte; n++ } } }'
}

# Random characters: half of them any of Unicode, half of them relevant to the rules.
random_text() { # COUNT
    awk -v count="$1" -v state=2 "$random"'
        function put(code) {
            if (code < 128) printf "%c", code
            else if (code < 2048) printf "%c%c", 192 + int(code / 64), 128 + code % 64
            else if (code < 65536) printf "%c%c%c", 224 + int(code / 4096), 128 + int(code / 64) % 64, 128 + code % 64
            else printf "%c%c%c%c", 240 + int(code / 262144), 128 + int(code / 4096) % 64, 128 + int(code / 64) % 64, 128 + code % 64
        }
        BEGIN {
            # letters, blanks, separators, numbers, brackets, Hebrew, Arabic, marks, joiners, bidi controls, wide characters
            chosen = "97 90 32 9 10 13 48 53 44 46 43 45 37 36 40 41 91 93 60 62 1488 1489 1575 1576 1632 769 1425 8205 133 8232 8233"
            chosen = chosen " 8234 8235 8236 8237 8238 8294 8295 8296 8297 19990 128512"
            kinds = split(chosen, codes, " ")
            while (n < count) {
                code = below(2) ? codes[1 + below(kinds)] : below(1114112)
                if (code < 55296 || code > 57343) { put(code); n++ }
            }
        }'
}

# Repeats a text up to a length.
repeated() { # TEXT BYTES
    # head ends yes
    yes "$1" 2>/dev/null | tr -d '\n' | head -c "$2"
}

# Prints Undo COUNT times.
undone() { # COUNT
    head -c "$1" /dev/zero | tr '\0' '\032'
}

# Counts the bytes of the noise that can end an edit: typed characters, last bytes of characters, erasures and redos.
count_edits() { # FILE
    tr -d -c '\010-\012\015\031\040-\277' <"$1" | wc -c
}

# ---- a run

# Runs the editor in a window on `text`, with `keys` as input, 1,024 bytes at a time. Its output goes to a command.
run_editor() { # ROWS COLS COMMAND..
    rows=$1 cols=$2
    shift 2
    dd if=keys bs=1024 2>/dev/null | python3 "$top/tests/run_measured.py" "$most" ended timeout -k 10 "$longest" "$editor" --rows "$rows" --cols "$cols" \
        --classes "$top/data/DerivedBidiClass.txt" --brackets "$top/data/BidiBrackets.txt" \
        --mirroring "$top/data/BidiMirroring.txt" --joining "$top/data/ArabicShaping.txt" --characters "$top/data/UnicodeData.txt" \
        text 2>told | "$@"
}

# The beginning of a whole painting, 8 bytes, and the move to the first cell, 6 bytes, at its end on a blank screen.
cleared=$(printf '\033[0m\033[2J') first_cell=$(printf '\033[1;1H')

# Keeps the first eight bytes and the last fourteen, as many as those have.
keep_ends() {
    head -c 8 >beginning
    tail -c 14 >end
}

# Notes what is wrong with the run, in `wrong`, which `report` tells.
differ() { # WORDS
    wrong="$wrong, $1"
}

# Reports the last run, or its failure.
report() { # NAME
    read -r status seconds memory <ended
    [ "$status" = 0 ] || differ "status $status: $(head -n 1 told)"
    [ ! -e text.bx ] || differ 'text.bx is left'
    if [ -z "$wrong" ]; then
        passed=$((passed + 1))
        echo "ok $1: $seconds s, $memory MB"
    else
        failed=$((failed + 1))
        echo "FAILS $1: $seconds s, $memory MB$wrong"
    fi
}

# Runs noise over the random text in a window of this size.
check_noise() { # ROWS COLS COUNT
    wrong=''
    cp characters text
    noise "$3" >keys
    edits=$(count_edits keys)
    { printf '\033[8;1;1t' && undone "$edits" && printf '\023\021'; } >>keys
    run_editor "$1" "$2" keep_ends
    [ "$(cat beginning)" = "$cleared" ] || differ 'another beginning'
    [ "$(cat end)" = "$cleared$first_cell" ] || differ 'another end'
    cmp -s text characters || differ 'another file'
    report "noise of $3 bytes in $1x$2"
}

# Prints the end of the painting at opening in 24x80: the rendition sequence BEFORE (may be empty), the status row `- 1:1`, whose
# blank the cleared screen has, and the cursor's move to the first cell.
opening_end() { # BEFORE
    printf '\033[24;1H%b-\033[24;3H1:1\033[1;1H' "$1"
}

# Prints the painting at opening of 23 rows equal to the file `row`, with the rendition sequence BEFORE before the first row and
# BEHIND before the status row; each may be empty.
opening_of_rows() { # BEFORE BEHIND
    printf '\033[0m\033[2J'
    line=1
    while [ "$line" -le 23 ]; do
        printf '\033[%d;1H' "$line"
        [ "$line" != 1 ] || printf '%b' "$1"
        cat row
        line=$((line + 1))
    done
    opening_end "$2"
}

# Every move, another window, each direction with a repaint, and back to the start of the first row.
moves() {
    for _ in 1 2; do
        printf '\033[F\033[B\033[C\033[D\033[A\006\002\033[6~\033[6~\033[H\033[5~\033[5~\033[H'
    done
    printf '\033[8;40;100t\033[F\033[6~\033[9~\033[F\033[6~\033[9~\033[F\033[5~\033[9~\014\033[8;24;80t'
    printf '\033[5~\033[5~\033[5~\033[5~\033[5~\033[H'
}

# Opens `original`, whose first unit has BYTES bytes and whose opening is in `opening`, and replaces that unit by an `x`.
check_text() { # NAME BYTES
    wrong=''
    cp original text
    # a full text refuses a letter
    { moves && { [ "$part" != 1 ] || printf 'x'; } && printf '\033[3~x' && moves && printf '\032\032\031\031\023\021'; } >keys
    run_editor 24 80 cat >output
    head -c "$(wc -c <opening)" output | cmp -s - opening || differ 'another picture at opening'
    [ "$(tail -c 14 output)" = "$cleared$first_cell" ] || differ 'another end'
    [ "$part" != 1 ] || grep -a -q full output || differ 'the text was not told to be full'
    { printf 'x' && tail -c +"$(($2 + 1))" original; } | cmp -s - text || differ 'another file'
    report "$1 of $(wc -c <original) bytes"
    rm output
}

# ---- all runs

# Whether this run is to be made: all are where none is named.
is_asked() { # RUN
    [ -z "$asked" ] || case " $asked " in
    *" $1 "*) ;;
    *) return 1 ;;
    esac
}

random_text 100000 >characters
for window in 24x80 1x1 100x400; do
    is_asked "$window" || continue
    check_noise "${window%x*}" "${window#*x}" $((4000000 / part))
done
# a painting of this window takes the longest
if is_asked 500x500; then
    check_noise 500 500 $((50000 / part))
fi

# the greatest length of a text, or a tenth, but even, since brackets are pairs
bytes=$((16777216 / part / 2 * 2))
if is_asked line; then
    repeated a "$bytes" >original
    head -c 80 original >row
    opening_of_rows '' '' >opening
    check_text 'one line' 1
fi

if is_asked feeds; then
    head -c "$bytes" /dev/zero | tr '\0' '\n' >original
    { printf '\033[0m\033[2J' && opening_end ''; } >opening
    check_text 'line feeds' 1
fi

if is_asked cluster; then
    { printf '\303\251' && repeated "$(printf '\314\201')" $((bytes - 2)); } >original
    { printf '\033[0m\033[2J\033[1;1H' && cat original && opening_end ''; } >opening
    check_text 'one cluster' "$bytes"
fi

if is_asked RLI; then
    { repeated "$(printf '\342\201\247')" $((bytes / 3 * 3)) && printf '%.*s' $((bytes % 3)) aa; } >original
    repeated I 80 >row
    opening_of_rows '\033[7m' '\033[0m' >opening
    check_text 'RLI' 3
fi

if is_asked brackets; then
    repeated '()' "$bytes" >original
    head -c 80 original >row
    opening_of_rows '' '' >opening
    check_text 'pairs of brackets' 1
fi

echo "$passed passed, $failed failed"
[ "$failed" = 0 ]
