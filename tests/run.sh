#!/bin/sh
# run.sh [PART..]: tests the built programs, without the toolchain: their answers to the cases in tests/data, which an independent
# model computed, and host, sessions, saves, crashes, terminals and printing by scripts of their own. It takes at most ten minutes on
# two processors, with two parts at a time, and proves nothing: scripts/prove.sh does. A PART of the list below runs alone.
# scripts/test.sh starts it.
#
# Each part prints a line with its result and its seconds. A part, or a check of it, that cannot run here (there is no tmux, no
# strace, no second user) is named, and counts as skipped. What a failed part said stays in out/test/PART.log. The last line is 'N
# passed, M failed', and with ', K skipped' what could not be checked. Exit status 1: something failed; 2: there is no such part.
set -u

top=$(CDPATH='' cd -- "$(dirname -- "$0")/.." && pwd)
cd "$top" || exit 1
# shellcheck source=tests/built.sh
. "$top/tests/built.sh"
# shellcheck source=tools/mutants_digest.sh
. "$top/tools/mutants_digest.sh"

# Lists the parts, the longest first: a name, the seconds after which it counts as hanging, and the script with its words.
parts() {
    cat <<'TEXT'
play 1500 check-play.sh
saves 1500 check-saves.sh --quick
host 1500 check-host.sh
recovery 900 check-recovery.sh 100
rows 1500 check-print.sh
sessions 1500 check-sessions.sh
schedules 900 check-schedules.sh
cases 900 check-cases.sh
orders 900 check-orders.sh
edits 900 check-edits.sh 200
joined-rows 900 check-joined-rows.sh
runs 900 check-runs.sh
files 900 check-files.sh
session-files 900 check-session-files.sh
keeping 900 check-keeping.sh
dist 900 check-dist.sh
package 1500 check-package.sh
words 900 check-words.sh
TEXT
}

# A user edits meanwhile (tests/host/user.py), and the parts have his home: what they do to his sessions is a failure of the part `user`.

# How many parts run at once.
lanes=2
room=$(mktemp -d) || exit 1
passed=0 failed=0 skipped=0 done=0 running='' user=''

# Ends what runs.
stop() {
    for name in $running; do kill -s TERM "$(cat "$room/$name.process")" 2>/dev/null; done
    [ -z "$user" ] || kill -s TERM "$user" 2>/dev/null
    wait
    rm -rf -- "$room"
}
trap stop EXIT
trap 'exit 1' HUP INT TERM

# A part never builds: in the place of the toolchain's command it finds this one.
hide_toolchain() {
    mkdir "$room/bin"
    printf '#!/bin/sh\necho "rt: scripts/test.sh builds nothing" >&2\nexit 1\n' >"$room/bin/rt"
    chmod +x "$room/bin/rt"
    PATH=$room/bin:$PATH
    export PATH
}

# Names the programs that are tested; without one of them there is nothing to test.
find_programs() {
    for name in $dist_programs; do
        (find_built "$name" 2>/dev/null && echo "tests ${program#"$top/"}") && continue
        echo "$name is not built of these sources, nor is it in dist/: scripts/prove.sh proves and builds it"
        echo '0 passed, 1 failed'
        exit 1
    done
}

# Has the user edit, in a home that is from then on the one of all parts, so that they meet his sessions if they can. A line of the file 8
# is what he waits for.
begin_user() {
    command -v python3 >/dev/null || return 0
    user_begun=$(seconds_now)
    mkfifo "$room/user.line"
    exec 8<>"$room/user.line"
    timeout -k 10 3600 python3 -B tests/host/user.py "$top/bidi-edit" "$room/user" <"$room/user.line" >"$room/user.said" 2>&1 8>&- &
    user=$!
    while ! [ -e "$room/user/ready" ] && kill -0 "$user" 2>/dev/null; do sleep 0.1; done
    export HOME="$room/user/home" XDG_STATE_HOME="$room/user/home/.local/state"
}

# Tells what became of the user's sessions, as of a part.
end_user() {
    [ -n "$user" ] || return 0
    echo >&8
    status=0
    wait "$user" || status=$?
    user=''
    echo "$status $(($(seconds_now) - user_begun)) 3600" >"$room/user.end"
    finish user
}

seconds_now() {
    date +%s
}

# Runs a part, for `start`. Its process can be ended by TERM.
run_part() { # NAME SECONDS SCRIPT WORD..
    name=$1 most=$2 script=$3
    shift 3
    begun=$(seconds_now)
    timeout -k 10 "$most" sh "$top/tests/$script" "$@" >"$room/$name.said" 2>&1 </dev/null 8>&- &
    child=$!
    trap 'kill -s TERM "$child" 2>/dev/null; wait "$child"; exit 1' TERM
    status=0
    wait "$child" || status=$?
    echo "$status $(($(seconds_now) - begun)) $most" >"$room/$name.new"
    mv "$room/$name.new" "$room/$name.end"
}

start() { # NAME SECONDS SCRIPT WORD..
    (trap - EXIT && run_part "$@") &
    echo "$!" >"$room/$1.process"
    running="$running $1"
}

# Sets `fault` to what is wrong with a part that ended so, or to nothing.
judge() { # STATUS SECONDS-ALLOWED
    fault=''
    case $1 in
    0 | 77) ;;
    124 | 137) fault="it had not ended after $2 seconds" ;;
    *) [ "$part_failed" -gt 0 ] || fault="status $1" ;;
    esac
    [ "$1" != 0 ] || [ $((part_passed + part_failed + part_skipped)) -gt 0 ] || fault='it tells no numbers'
    [ -z "$fault" ] || part_failed=$((part_failed + 1))
    # the whole part could not run
    [ "$1" != 77 ] || [ "$part_skipped" -gt 0 ] || part_skipped=1
}

# Tells a part's result, and adds it to the totals.
finish() { # NAME
    read -r status seconds most <"$room/$1.end"
    numbers=$(sed -n 's/^\([0-9]*\) passed, \([0-9]*\) failed\(, \([0-9]*\) skipped\)\{0,1\}$/\1 \2 0\4/p' "$room/$1.said" | tail -n 1)
    read -r part_passed part_failed part_skipped <<TEXT
${numbers:-0 0 0}
TEXT
    part_skipped=$((${part_skipped#0} + 0))
    judge "$status" "$most"
    passed=$((passed + part_passed)) failed=$((failed + part_failed)) skipped=$((skipped + part_skipped)) done=$((done + 1))
    word=ok
    [ "$part_failed" = 0 ] || word=FAILS
    echo "$word $1: $part_passed passed, $part_failed failed, $part_skipped skipped, in $seconds s"
    grep '^skipped\|^nothing was checked' "$room/$1.said" | sed 's/^/    /'
    [ "$part_failed" = 0 ] || show_fault "$1"
}

# Shows what a failed part said, and keeps it.
show_fault() { # NAME
    [ -z "$fault" ] || echo "    $fault"
    grep -a -e '^FAILS' -e '^DIFFERS' -e differs "$room/$1.said" | head -n 20 | sed 's/^/    /'
    tail -n 5 "$room/$1.said" | sed 's/^/    | /'
    { mkdir -p out/test && cp "$room/$1.said" "out/test/$1.log"; } 2>/dev/null && echo "    all of it is in out/test/$1.log"
}

# Finishes parts that have ended. Its status says whether there was one.
finish_ended() {
    still='' ended=1
    for name in $running; do
        if [ -e "$room/$name.end" ]; then
            finish "$name"
            ended=0
        else
            still="$still $name"
        fi
    done
    running=$still
    return "$ended"
}

# Waits until fewer than COUNT parts run, and tells twice a minute what runs.
wait_below() { # COUNT
    told=$(seconds_now)
    # shellcheck disable=SC2086 # names
    while set -- "$1" $running && [ $# -gt "$1" ]; do
        if ! finish_ended; then sleep 0.2; fi
        [ $(($(seconds_now) - told)) -ge 30 ] || continue
        told=$(seconds_now)
        echo "after $((told - started)) s: $done of $count parts are done;$running still run"
    done
}

# Keeps the lines of the named parts, or of all whose scripts are there.
choose() { # PART..
    parts | while read -r name most script words; do
        [ -e "tests/$script" ] || continue
        case " $* " in
        '  ' | *" $name "*) echo "$name $most $script $words" ;;
        esac
    done >"$room/parts"
    for name; do
        grep -q -e "^$name " "$room/parts" || { echo "there is no part $name, but:" && parts | cut -d ' ' -f 1 && exit 2; }
    done >&2
    count=$(wc -l <"$room/parts")
}

# Tells which crates have changed since their mutants were last refused.
tell_mutants() {
    changed=$(changed_crates | paste -s -d ' ')
    [ -z "$changed" ] || echo "changed since their mutants were last refused (scripts/try-mutants.sh tries them): $changed"
}

started=$(seconds_now)
choose "$@"
hide_toolchain
find_programs
# compiled once, before two parts need it at the same time
sh host/build.sh
begin_user
while read -r line; do
    # shellcheck disable=SC2086 # split into words
    start $line
    wait_below "$lanes"
done <"$room/parts"
wait_below 1
end_user
tell_mutants
echo "in $(($(seconds_now) - started)) s:"
told="$passed passed, $failed failed"
[ "$skipped" = 0 ] || told="$told, $skipped skipped"
echo "$told"
[ "$failed" = 0 ]
