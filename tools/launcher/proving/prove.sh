#!/bin/sh
# shellcheck disable=SC2317 # traps call functions
# prove.sh TOP PROGRAM..: proves and builds these programs of the repository TOP with their dependencies, several crates at
# once, and reports progress: on a terminal in one changing line, else in a line for each crate. Finished proofs are stored, and
# the next start continues from them.
#
# rt locks all crates below the one it proves. So each crate is proved in a tree of its own, which has links to the repository's
# files, and its folder out is moved there and back. The script also waits for an rt that proves one of these crates in the
# repository itself, and that rt for the script.
#
# `room`, out/proving in TOP, is the working folder: it has `plan`, the lines of plan.awk, and of a crate NAME.log (what rt
# says), NAME.times, NAME.started with the second of its start, and NAME.ended with its status, once that is known. Beside it
# are `proving.lock`, with the number of this process, `proving.log`, the log of a crate that failed, and `proving.times`.
# `trees`, out/trees, has a crate's tree, and after the crate's end a link in its place.
set -u

parts=$(CDPATH='' cd -- "${0%/*}" && pwd)
# shellcheck source=tools/launcher/names.sh
. "$parts/../names.sh"

say() { # WORDS
    printf 'bidi-edit: %s\n' "$1" >&2
}

fail() { # CAUSE
    say "$1"
    exit 1
}

# ---- one crate, in a process of its own: `crate` is its name, `tree` its tree, `child` the command that is waited for, or empty

# Copies a folder as hard links if possible.
link() { # FOLDER TO
    [ -d "$1" ] || return 0
    mkdir -p "${2%/*}"
    cp -Rl "$1" "$2" 2>/dev/null || { rm -rf "$2" && cp -R "$1" "$2"; }
}

# Prints all dependencies of a crate, from the plan.
all_below() { # CRATE
    awk -v name="$1" '
        { for (i = 4; i <= NF; i++) uses[$1] = uses[$1] " " $i }
        function tell(crate,    n, i, used) {
            n = split(uses[crate], used, " ")
            for (i = 1; i <= n; i++) if (!(used[i] in told)) { told[used[i]] = 1; tell(used[i]); print used[i] }
        }
        END { tell(name) }' "$room/plan"
}

# Makes the crate's tree: its sources and its `out`, and the sources and libraries of its dependencies.
make_tree() {
    rm -rf "$tree"
    mkdir -p "$tree/crates"
    for each in $crate $(all_below "$crate"); do
        grep -e "^${each}[ :]" "$top/crates.txt" >>"$tree/crates.txt"
        for part in src specs proofs; do link "$top/crates/$each/$part" "$tree/crates/$each/$part"; done
        [ "$each" = "$crate" ] || link "$top/crates/$each/out/rlib" "$tree/crates/$each/out/rlib"
    done
    [ ! -d "$top/crates/$crate/out" ] || mv "$top/crates/$crate/out" "$tree/crates/$crate/out"
}

# Moves a crate's `out` back to the repository. rt notes beside the kit where a crate was proved, and another clone takes it from
# there: so a link to the repository's crates stays in the tree's place.
bring_back() { # TREE CRATE
    if [ -d "$1/crates/$2/out" ] && ! [ -e "$top/crates/$2/out" ]; then mv "$1/crates/$2/out" "$top/crates/$2/out"; fi
    rm -rf "$1"
    mkdir "$1" && ln -s ../../../crates "$1/crates"
}

# Stops the toolchain, which ends its own processes, and moves the work back.
give_up() {
    trap '' TERM
    [ -z "$child" ] || { kill "$child" && wait "$child"; }
    bring_back "$tree" "$crate"
    exit 143
} 2>/dev/null

# Runs a command so that a signal interrupts waiting for it.
await() { # COMMAND..
    "$@" &
    child=$!
    wait "$child"
    result=$?
    child=''
    return "$result"
}

# Proves a library, or builds a program. rt then runs the program, here without words and input; its status is ignored.
prove() { # JOBS NICENESS
    cd "$tree/crates/$crate" || return 1
    if ! [ -f src/main.rt ]; then
        await nice -n "$2" rt lib --jobs "$1"
    else
        await nice -n "$2" rt run --jobs "$1"
        [ -x "out/$crate" ] && [ -f "out/$crate.stamp" ]
    fi
}

# Proves or builds a crate; what it leaves in `room` is told at the head.
prove_one() { # CRATE JOBS NICENESS
    crate=$1 tree=$trees/$1 child=''
    trap '' HUP INT QUIT
    trap give_up TERM
    # 8 is for the lock that rt takes of a crate's folder, 9 is that of the whole start
    exec 8<"$top/crates/$crate" 9>&-
    ! command -v flock >/dev/null || await flock 8
    started=$(date +%s)
    make_tree
    prove "$2" "$3" 8<&-
    result=$?
    cd "$top" || exit 1
    bring_back "$tree" "$crate"
    { echo "$crate $started $(date +%s) $2" && times; } >"$room/$crate.times"
    # a rename, so that it is there whole
    echo "$result" >"$room/$crate.new" && mv "$room/$crate.new" "$room/$crate.ended"
}

# ---- all crates

running='' # words NAME:PROCESS

# Prints the number of words.
count() { # WORD..
    echo $#
}

# Sets `cores`, the number of processors, and `lanes`, the number of crates to prove at once: at most one for each processor, and
# one for each 4 GB of free memory.
find_lanes() {
    cores=$(nproc 2>/dev/null || getconf _NPROCESSORS_ONLN 2>/dev/null || echo 1)
    lanes=$(awk '/^MemAvailable:/ { print int($2 / 4000000) }' /proc/meminfo 2>/dev/null)
    [ -n "$lanes" ] || lanes=1
    [ "$lanes" -le "$cores" ] || lanes=$cores
    [ "$lanes" -ge 1 ] || lanes=1
}

# Prints the crates built by an earlier start.
find_already() {
    for stamp in "$top"/crates/*/out/rlib/stamp; do
        [ ! -f "$stamp" ] || basename "${stamp%/out/rlib/stamp}"
    done
}

# Writes the plan; plan.awk says what a line has.
make_plan() {
    find "$top/crates" -path '*/src/*' -name '*.rt' ! -path '*/src/tests*' -exec wc -l {} + |
        awk -v programs="$programs" -v already="$(find_already | tr '\n' ' ')" -f "$parts/plan.awk" "$top/crates.txt" - >"$room/plan"
    [ -s "$room/plan" ] || fail "$(shown "$top/crates.txt") names no crate $programs"
}

# Lets one start at a time build here. Child processes do not inherit the lock, so it ends with this script.
take_lock() {
    command -v flock >/dev/null || fail "$thing is not built, and flock, which keeps other starts away meanwhile, is missing: install util-linux"
    { mkdir -p -- "$top/out" && true >>"$room.lock"; } 2>/dev/null ||
        fail "$thing is not built, and cannot be built here, since nothing can be written in $(shown "$top"): build it in your own copy"
    exec 9<>"$room.lock"
    flock -n 9 || fail "process $(cat "$room.lock") is already building the editor: wait for it"
    echo $$ >"$room.lock"
    rm -f -- "$room.log" "$room.times"
}

# Moves back the work that a killed start left in its trees.
take_room() {
    for tree in "$trees"/*; do
        if [ ! -d "$tree" ] || [ -L "$tree/crates" ]; then continue; fi
        crate=${tree##*/}
        # waits for a crate that is still being proved
        ! command -v flock >/dev/null || flock "$top/crates/$crate" true
        bring_back "$tree" "$crate"
    done
    rm -rf "$room"
    mkdir -p "$room" "$trees" || exit 1
}

leave_room() {
    rm -rf "$room"
}

# Whether all these crates have ended, on which another stands.
is_ready() { # CRATE..
    for each; do
        [ -f "$room/$each.ended" ] || return 1
    done
}

# Starts a crate, which takes SECONDS and begins a chain of CHAIN seconds. The next crate of the longest chain gets four jobs,
# which take two thirds of the time by the clock, for more of the processors' time. Another gets one, at a lower priority
# (niceness) if that chain needs it no sooner than in twice its own time.
start() { # CRATE SECONDS CHAIN
    slack=$((longest - $3)) jobs=1 niceness=0
    date +%s >"$room/$1.started"
    if [ "$slack" = 0 ]; then
        jobs=$cores
        [ "$jobs" -le 4 ] || jobs=4
    elif [ "$slack" -ge $((2 * $2)) ]; then
        niceness=10
    fi
    prove_one "$1" "$jobs" "$niceness" </dev/null >"$room/$1.log" 2>&1 &
    running="$running $1:$!"
}

# Sets `longest`, the seconds that the longest chain of crates will still take. Of one that runs as much is done as it runs.
find_longest() {
    longest=0 now=$(date +%s)
    while read -r crate seconds chain _; do
        [ ! -f "$room/$crate.ended" ] || continue
        if [ -f "$room/$crate.started" ]; then
            read -r started <"$room/$crate.started"
            spent=$((now - started))
            [ "$spent" -le "$seconds" ] || spent=$seconds
            chain=$((chain - spent))
        fi
        [ "$longest" -ge "$chain" ] || longest=$chain
    done <"$room/plan"
}

# Starts the crates whose dependencies are there, while there are lanes.
start_ready() {
    find_longest
    while read -r crate seconds chain below; do
        [ ! -f "$room/$crate.ended" ] || continue
        # shellcheck disable=SC2086 # split into words
        [ "$(count $running)" -lt "$lanes" ] || break
        # shellcheck disable=SC2086 # split into words
        if ! [ -f "$room/$crate.log" ] && is_ready $below; then start "$crate" "$seconds" "$chain"; fi
    done <"$room/plan"
}

# Adds what a crate took to one file, a line a crate, which tools/time-first-start.sh reads: the name, start and end in seconds,
# the jobs, and the processor times that `times` prints.
keep_times() { # CRATE
    tr '\n' ' ' <"$room/$1.times" && echo
} >>"$room.times"

# Removes ended crates from the list of running ones.
collect() {
    still=''
    for each in $running; do
        name=${each%:*}
        if [ -f "$room/$name.ended" ]; then
            [ "$(cat "$room/$name.ended")" = 0 ] || stop_at "$name"
            tell_end "$name"
            keep_times "$name"
        elif kill -0 "${each#*:}" 2>/dev/null; then
            still="$still $each"
        else
            # gone without a result, or with one that came just now and is taken the next time
            [ -f "$room/$name.ended" ] || stop_at "$name"
            still="$still $each"
        fi
    done
    running=$still
}

# ---- progress

# Prints the number of stored proofs of each running crate; proofs are stored one by one.
kept_proofs() {
    for each in $running; do
        name=${each%:*}
        found=$(find "$trees/$name/crates/$name/out/incremental" -name '*.Proof.oantt' ! -name '*.TheImpl.*' 2>/dev/null | wc -l)
        echo "$name $((found))"
    done
}

# Prints a line of progress, as progress.awk makes it, with these variables of awk too.
progress() { # WORD=VALUE..
    for each; do set -- "$@" -v "$each"; shift; done
    awk -v room="$room" -v now="$(date +%s)" -v begun="$begun" -v cores="$cores" -v whole="$whole" -v kept="$(kept_proofs | tr '\n' ' ')" \
        "$@" -f "$parts/progress.awk" "$room/plan"
}

# Sets `cols`, the terminal's width.
width() {
    size=$(stty size <&2 2>/dev/null) || size=''
    cols=${size#* }
    case $cols in '' | 0 | *[!0-9]*) cols=80 ;; esac
}

# Prints a line over the previous one, cut to the terminal's width.
show() { # TEXT
    width
    printf '\r%-*.*s' "$((cols - 1))" "$((cols - 1))" "$1" >&2
}

# Shows the progress on a terminal; elsewhere only `tell_end` does.
tell() {
    [ -z "$is_terminal" ] || show "$(progress)"
}

# Counts a crate that has ended, and elsewhere than on a terminal tells it.
tell_end() { # CRATE
    number=$((number + 1))
    [ -n "$is_terminal" ] || say "$(progress ended="$1" number="$number")"
}

clear_line() {
    [ -z "$is_terminal" ] || { show ''; printf '\r' >&2; }
}

# ---- the end

# Ends all crates that run, each of which moves its work back.
end_all() {
    trap '' HUP INT QUIT TERM
    for each in $running; do kill "${each#*:}" 2>/dev/null; done
    for each in $running; do wait "${each#*:}" 2>/dev/null; done
    running=''
    clear_line
}

# Ends the script after a crate failed.
stop_at() { # CRATE
    end_all
    mv -f "$room/$1.log" "$room.log"
    leave_room
    fail "$1 could not be proved: $(shown "$room.log") says why; what is proved is kept"
}

# Ends the script by a signal.
stop_by() { # SIGNAL NUMBER
    end_all
    leave_room
    say 'stopped; what is proved is kept, and the next start continues from there'
    trap - "$1"
    kill -s "$1" $$
    exit $((128 + $2))
}

top=$(CDPATH='' cd -- "$1" 2>/dev/null && pwd) || fail "$(shown "$1") is not a folder that can be entered"
shift
programs=$*
case " $programs " in *' bidi_print '*) thing='the printing program' ;; *) thing='the editor' ;; esac
room=$top/out/proving trees=$top/out/trees
command -v rt >/dev/null || fail "$thing is not built, and the toolchain, rt, is missing: an installed package needs no toolchain"
is_terminal=''
[ ! -t 2 ] || is_terminal=1
take_lock
take_room
trap 'stop_by HUP 1' HUP
trap 'stop_by INT 2' INT
trap 'stop_by QUIT 3' QUIT
trap 'stop_by TERM 15' TERM
# the time of the start, the estimated seconds of all then, and the number of crates that have ended
begun=$(date +%s) whole='' number=0
find_lanes
make_plan
whole=$(progress asks=whole)
say "proving and building $thing, only this once: $(awk 'END { print NR }' "$room/plan") crates, up to $lanes at a time"
say 'Ctrl-C stops this; what is proved is kept'
while :; do
    start_ready
    [ -n "$running" ] || break
    tell
    sleep 1 9>&-
    collect
done
clear_line
leave_room
say "built, after $((($(date +%s) - begun + 30) / 60)) minutes"
