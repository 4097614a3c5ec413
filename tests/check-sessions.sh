#!/bin/sh
# check-sessions.sh [--only NUMBER] [--max COUNT] [SESSIONS..]: runs the program on recorded sessions, and compares output, status
# and the resulting files byte by byte. For a refused command line only the refusal is compared. No other file may be left. SESSIONS
# is a folder in the form that sessions.sh describes, or an archive of one; by default all archives of tests/data. --only selects
# one session of each, and --max limits the number of differing sessions that are shown, 20 by default. The last line has the
# totals. Exit status 1: a session differs or none was run.
set -eu
export LC_ALL=C

top=$(cd "$(dirname "$0")/.." && pwd)
# shellcheck source=tests/built.sh
. "$top/tests/built.sh"
# shellcheck source=tests/sessions.sh
. "$top/tests/sessions.sh"

usage() {
    echo 'usage: tests/check-sessions.sh [--only NUMBER] [--max COUNT] [SESSIONS..]' >&2
    exit 2
}

# Notes a difference of a session.
differ() { # WORDS
    printf '    %s\n' "$1" >>"$scratch/differences"
}

# Compares a resulting file with the expected one; if that does not exist, the result must not either.
compare() { # NAME FOUND WANTED
    if [ ! -f "$2" ] && [ ! -f "$3" ]; then
        return
    elif [ ! -f "$2" ]; then
        differ "$1: there is none"
    elif [ ! -f "$3" ]; then
        differ "$1: there is one"
    elif ! cmp -s "$2" "$3"; then
        differ "$1: $(wc -c <"$2") bytes for $(wc -c <"$3"), and differs at $(cmp "$2" "$3" 2>&1 | sed 's/.*\(byte.*\)/\1/')"
    fi
}

# Runs one session, and writes its differences.
run_session() { # SESSION
    place=$scratch/place
    lay_out "$1" "$place"
    status=0
    # a minute, so that one that hangs ends
    (cd "$place" && with_words "$1" timeout 60 "$program" <"$1/keys" >"$scratch/stdout" 2>"$scratch/stderr") || status=$?
    : >"$scratch/differences"
    wanted=$(cat "$1/want.status")
    [ "$status" = "$wanted" ] || differ "status: $status and not $wanted"
    compare 'standard output' "$scratch/stdout" "$1/want.stdout"
    # a refused command line
    if [ "$wanted" = 2 ]; then
        [ -s "$scratch/stderr" ] || differ 'standard error: nothing is told'
    else
        compare 'standard error' "$scratch/stderr" "$1/want.stderr"
    fi
    compare 'the file' "$place/file" "$1/want.file"
    for name in "$place"/* "$place"/.[!.]* "$1/want.beside"/*; do
        name=${name##*/}
        case $name in
        file | tables | '*' | '.[!.]*') ;;
        *) compare "the file '$name'" "$place/$name" "$1/want.beside/$name" ;;
        esac
        [ "$name" = tables ] || [ ! -d "$place/$name" ] || [ -d "$1/$name" ] || differ "left: $name"
    done
}

# Removes leading zeros.
plain() { # NUMBER
    printf '%s\n' "${1#"${1%%[!0]*}"}"
}

# Runs all sessions of a folder, and prints those that differ and the number that agree.
run_sessions() { # FOLDER
    agreed=0 differing=0
    list_sessions "$1" >"$scratch/list"
    while IFS= read -r session; do
        [ -z "$only" ] || [ "$(plain "${session##*/}")" = "$(plain "$only")" ] || continue
        run_session "$session"
        if [ ! -s "$scratch/differences" ]; then
            agreed=$((agreed + 1))
            continue
        fi
        differing=$((differing + 1))
        [ "$differing" -le "$most" ] || continue
        echo "session ${session##*/} differs:"
        cat "$scratch/differences"
        [ ! -f "$session/notes" ] || sed 's/^/    /' "$session/notes"
    done <"$scratch/list"
    echo "${1##*/}: $agreed of $((agreed + differing)) sessions agree"
    passed=$((passed + agreed)) failed=$((failed + differing))
}

only='' most=20
while [ $# -gt 0 ]; do
    case $1 in
    --only) only=${2:-} ;;
    --max) most=${2:-} ;;
    -*) usage ;;
    *) break ;;
    esac
    case ${2:-} in '' | *[!0-9]*) usage ;; esac
    shift 2
done
[ $# -gt 0 ] || set -- "$top/tests/data/"*sessions.tar.gz "$top/tests/data/at-work-first-half.tar.gz"

scratch=$(mktemp -d)
trap 'rm -rf "$scratch"' EXIT
trap 'exit 1' HUP INT TERM
find_built bidi_edit
passed=0 failed=0
for sessions; do
    [ -e "$sessions" ] || { echo "$sessions is not there" >&2 && exit 1; }
    run_sessions "$(sessions_of "$sessions" "$scratch")"
done
echo "$passed passed, $failed failed"
[ "$failed" = 0 ] && [ "$passed" -gt 0 ]
