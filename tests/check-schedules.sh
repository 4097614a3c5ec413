#!/bin/sh
# check-schedules.sh [FOLDER [PROGRAM]]: plays random schedules from an independent model of the editor by crates/player, or by
# PROGRAM, step by step and by one call, and counts those whose answers all agree with the model. FOLDER, by default tests/data, has
# schedules.tsv, settled.tsv, each maybe packed by gzip, and the small tables test-classes.txt, test-brackets.txt and
# test-mirroring.txt. A line of a schedule has the fields of a scene, 1 to 7, the first of which names the tables, the small ones
# (test) or those of data/ (real), and then the fields of its answers, 8 to 14. crates/player/src/main.rt tells what they are;
# field 5 is the call of the store that fails, and field 9 has a digit for each step, 1 where the terminal then shows the picture
# last painted. The last line has the totals. Exit status 1: a schedule differs, or something is missing.
set -eu

top=$(cd "$(dirname "$0")/.." && pwd)
# shellcheck source=tests/built.sh
. "$top/tests/built.sh"
folder=${1:-$top/tests/data}
program=${2:+$(readlink -f "$2")}
scratch=$(mktemp -d)
trap 'rm -rf "$scratch"' EXIT
trap 'exit 1' HUP INT TERM

# Reports a fault, and exits.
fail() {
    echo "failed: $1" >&2
    exit 1
}

# Copies the schedules and both kinds of tables.
gather() {
    cp "$folder"/test-classes.txt "$folder"/test-brackets.txt "$folder"/test-mirroring.txt "$scratch" || fail "$folder lacks tables"
    cp "$top/data/DerivedBidiClass.txt" "$scratch/real-classes.txt"
    cp "$top/data/BidiBrackets.txt" "$scratch/real-brackets.txt"
    cp "$top/data/BidiMirroring.txt" "$scratch/real-mirroring.txt"
    # packed or not
    gzip -dcf -- "$folder"/schedules.tsv* "$folder"/settled.tsv* | grep -v '^#' >"$scratch/all" || fail "$folder has no schedule"
}

# Builds the program, unless one is given.
build() {
    [ -z "$program" ] || return 0
    (find_built "$dist_player" 2>/dev/null) || {
        echo "skipped: $dist_player is not built, and dist/ does not have it"
        exit 77
    }
    find_built "$dist_player"
}

# Plays scenes over the tables of this kind. A quarter of an hour is enough for all of them.
play() { # KIND
    sed 's/^/scene\t/' |
        timeout 900 "$program" "$scratch/$1-classes.txt" "$scratch/$1-brackets.txt" "$scratch/$1-mirroring.txt"
}

# Whether the schedule on this line agrees with the model if another call of the store fails. The number of calls in a save is
# unspecified, so a fault after the third call may hit another one than in the model. No schedule makes a hundred calls.
agrees_otherwise() { # KIND LINE
    sed -n "$2p" "$scratch/$1.in" |
        awk -F '\t' -v OFS='\t' '$5 > 3 { for (k = 4; k < 100; k++) { $5 = k; print } }' >"$scratch/tries"
    sed -n "$2p" "$scratch/$1.want" >"$scratch/wanted"
    play "$1" <"$scratch/tries" >"$scratch/tried" && grep -qxFf "$scratch/wanted" "$scratch/tried"
}

# Plays the schedules over the tables of this kind, and counts in `played`, `otherwise` and `differ`.
compare() { # KIND
    grep "^$1	" "$scratch/all" >"$scratch/$1.tsv" || fail "no schedule has the tables $1"
    cut -f 1-7 "$scratch/$1.tsv" >"$scratch/$1.in"
    cut -f 8-14 "$scratch/$1.tsv" >"$scratch/$1.want"
    play "$1" <"$scratch/$1.in" >"$scratch/$1.out" || fail "the program ended with a status of its own, see above"
    count=$(wc -l <"$scratch/$1.in")
    [ "$(wc -l <"$scratch/$1.out")" = "$count" ] || fail "$count schedules have not as many lines of answers"
    awk 'NR == FNR { want[FNR] = $0; next } $0 != want[FNR] { print FNR }' "$scratch/$1.want" "$scratch/$1.out" >"$scratch/others"
    while read -r line; do
        if agrees_otherwise "$1" "$line"; then
            otherwise=$((otherwise + 1))
        else
            echo "differs: schedule $line over $1 tables" >&2
            differ=$((differ + 1))
        fi
    done <"$scratch/others"
    played=$((played + count))
}

gather
build
played=0 otherwise=0 differ=0
compare test
compare real
shown=$(cut -f 9 "$scratch/all" | grep -c 1)
echo "$((played - differ)) of $played schedules agree ($otherwise with the store's fault at another call); $shown show a picture," \
    "$(cut -f 9 "$scratch/all" | tr -cd 1 | wc -c) times"
[ "$((2 * shown))" -ge "$played" ] || fail "fewer than half of the schedules show a picture"
echo "$((played - differ)) passed, $differ failed"
[ "$differ" = 0 ]
