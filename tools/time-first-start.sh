#!/bin/sh
# time-first-start.sh [--limit MINUTES] [--crates 'NAME..'] [--again] [COMMIT..]: measures the time to the editor's first screen in
# a clean clone of each commit (default HEAD), without the proofs that the toolchain keeps of other copies, and tells where it
# went, by crates and functions, beside the time of `rt selftest`, which tells the machine's speed. With --crates it builds these
# crates alone, and waits for no screen. With --again it measures what a second clone, `rt ci` after a start, and a start after
# `rt ci` prove anew, which takes hours. It needs root, to hide that folder, and an otherwise idle machine. Exit status 1: no
# screen within the limit, by default 180 minutes; 77: a tool is missing.
set -eu

top=$(cd "$(dirname "$0")/.." && pwd)
parts=$top/tools/first_start
limit=180 crates='' is_again=''

skip() { # CAUSE
    echo "skipped: $1"
    exit 77
}

# Prints the folder beside the kit in which the toolchain keeps proofs of other copies.
kept_folder() {
    rt=$(readlink -f "$(command -v rt)")
    echo "${rt%/*/bin/rt}/rattle-kept"
}

# Runs this script again, with an empty folder in place of the one with kept proofs (kept_folder), and in BIDI_EDIT_HIDDEN the
# folder for all files of the run.
hide_kept() { # WORD..
    for tool in rt tmux git unshare pgrep; do
        command -v "$tool" >/dev/null || skip "there is no $tool"
    done
    unshare -m true 2>/dev/null || skip 'only root can hide what other copies kept'
    kept=$(kept_folder)
    mkdir -p "$kept"
    folder=$(cd "$(mktemp -d)" && pwd -P)
    mkdir "$folder/kept"
    export BIDI_EDIT_HIDDEN="$folder"
    # shellcheck disable=SC2016
    exec unshare -m sh -c 'mount --bind "$BIDI_EDIT_HIDDEN/kept" "$1" && shift && exec sh "$@"' sh "$kept" "$0" "$@"
}

# ---- a start

# Runs a command of tmux on the server of this run, whose session `person` has the editor.
in_terminal() { # WORD..
    tmux -u -L "$socket" -f /dev/null "$@"
}

# Whether the editor has the screen.
has_screen() {
    [ "$(in_terminal display-message -p -t person '#{alternate_on}')" = 1 ]
}

# Prints the last line on the screen.
show_last() {
    in_terminal capture-pane -p -t person | grep . | tail -n 1
}

# Makes a clean clone of a commit, in a folder of this name; sets `clone` to its path.
make_clone() { # COMMIT NAME
    clone=$folder/$2
    git clone -q "$top" "$clone"
    git -C "$clone" checkout -q "$1"
}

# Starts the building in the clone: with --crates alone, as the process `child`, else with the editor after it, in the terminal.
# Notes the time in `begun`.
begin() {
    begun=$(date +%s)
    : >"$folder/copies"
    if [ -n "$crates" ]; then
        # shellcheck disable=SC2086 # split into words
        sh "$clone/tools/launcher/proving/prove.sh" "$clone" $crates >"$folder/said" 2>&1 &
        child=$!
    else
        # the sleep, longer than a usual limit, keeps what stands there after a failure
        in_terminal new-session -d -s person -x 100 -y 24 "cd '$clone' && ./bidi-edit '$folder/note'; exec sleep 60000"
    fi
}

# Whether the building or the start is at its end; proving.log is there only after a failure.
is_over() {
    if [ -n "$crates" ]; then [ ! -d "/proc/$child" ]; else has_screen || [ -e "$clone/out/proving.log" ]; fi
}

# Notes the copies that the prover (antt-kernel) made of itself and that are at work: the crate, the process, its start in ticks
# since the machine's (field 22 of proc's `stat`) and the time now.
note_copies() {
    for process in $(pgrep -x antt-kernel); do
        place=$(readlink "/proc/$process/cwd") || continue
        case $place in "$clone"/*) ;; *) continue ;; esac
        echo "${place##*/} $process $(cut -d ' ' -f 22 "/proc/$process/stat") $(date +%s)" >>"$folder/copies"
    done
} 2>/dev/null

# Stops the building as Ctrl-C does, and lets it store its work.
stop() {
    if [ -n "$crates" ]; then kill "$child" 2>/dev/null || :; else in_terminal send-keys -t person C-c; fi
    # ten seconds, until its folder is gone
    for _ in 1 2 3 4 5 6 7 8 9 10; do
        sleep 1
        [ -e "$clone/out/proving" ] || break
    done
}

# Leaves the editor, or takes the end of the building. Its status says whether there was a screen, or all was built.
leave() {
    if [ -n "$crates" ]; then
        wait "$child" || return 1
    else
        has_screen || return 1
        in_terminal send-keys -t person C-q
        in_terminal kill-server
    fi
}

# Starts the editor (with --crates the building) in the clone, and prints the time to its first screen (to its end), after WHAT.
# Its status says whether that came within the limit.
start() { # WHAT
    begin
    until is_over; do
        if [ $(($(date +%s) - begun)) -gt $((limit * 60)) ]; then
            stop
            break
        fi
        note_copies
        sleep 1
    done
    seconds=$(($(date +%s) - begun))
    if leave; then
        echo "$1: $seconds seconds, $(awk -v s="$seconds" 'BEGIN { printf "%.1f", s / 60 }') minutes"
    else
        echo "$1: not built, after $seconds seconds: $(if [ -n "$crates" ]; then tail -n 1 "$folder/said"; else show_last; fi)"
        in_terminal kill-server 2>/dev/null || :
        return 1
    fi
}

# ---- where the time went

# Prints a line for each copy in `copies`: its crate, its start, and when it was last seen, in seconds of the epoch.
copies_seen() {
    awk -v now="$(date +%s.%N)" -v ticks="$(getconf CLK_TCK)" '
        FNR == NR { booted = now - $1; next }
        !($2 in to) { n++; process[n] = $2 }
        { begun[$2] = sprintf("%s %.2f", $1, booted + $3 / ticks); to[$2] = $4 }
        END { for (i = 1; i <= n; i++) print begun[process[i]], to[process[i]] }' /proc/uptime "$folder/copies"
}

# Prints the modules that a crate stored, with their times, by time.
modules_of() { # CRATE
    find "$clone/crates/$1/out/incremental" -name '*.oantt' ! -name '*.decls.oantt' -printf '%T@ %f\n' 2>/dev/null | sort -n
}

# Prints a line for each crate that was built: its name, start, end, jobs and processor time. In proving.times, which
# tools/launcher/proving/prove.sh writes, the fields 5 to 8 are such as 1m2.3s: user and system time, of the shell and of its children.
crate_times() {
    awk '
        function seconds(time,    part) { split(time, part, /[ms]/); return part[1] * 60 + part[2] }
        { print $1, $2, $3, $4, seconds($5) + seconds($6) + seconds($7) + seconds($8) }' "$clone/out/proving.times"
}

# Writes to the files `times` and `parts` the lines of crate_times, and what functions.awk tells of each of these crates.
find_parts() {
    : >"$folder/parts"
    : >"$folder/times"
    [ ! -f "$clone/out/proving.times" ] || crate_times >"$folder/times"
    copies_seen >"$folder/seen"
    while read -r crate from to _ processor; do
        modules_of "$crate" |
            awk -v crate="$crate" -v begun="$from" -v ended="$to" -v processor="$processor" -v top="$clone" \
                -f "$parts/functions.awk" "$folder/seen" - |
            sort -k1,1 -k3,3nr >>"$folder/parts"
    done <"$folder/times"
}

# Tells where the time of the last start went; crates.awk says how.
tell_parts() {
    find_parts
    awk -v cores="$(nproc)" -f "$parts/crates.awk" "$clone/crates.txt" "$folder/times" "$folder/parts"
}

# Measures `rt selftest`, by the clock and in processor time: `times` tells that of shell and children in a line each.
tell_selftest() {
    begun=$(date +%s)
    (rt selftest >/dev/null && times) >"$folder/selftest"
    awk -v wall="$(($(date +%s) - begun))" '
        { for (i = 1; i <= 2; i++) { split($i, part, /[ms]/); sum += part[1] * 60 + part[2] } }
        END { printf "rt selftest: %d seconds, %.1f of processor time\n", wall, sum }' "$folder/selftest"
}

# ---- again

# Starts the editor in the clone, and prints the time, and the number of functions that were proved, of all and by crates.
start_again() { # WHAT
    rm -f "$clone/out/proving.times"
    start "$1" || return 1
    find_parts
    awk '
        $1 == "proved" { crates++; if ($3) { anew += $3; list = list " " $2 " " $3 } }
        END { print "    " crates + 0 " crates built; functions proved anew: " anew + 0 (anew ? ":" list : "") }' "$folder/parts"
}

# Runs the gate in the clone, and prints what it said of what it did.
run_gate() { # WHAT
    begun=$(date +%s)
    # shellcheck disable=SC2086 # split into words
    (cd "$clone" && rt ci $crates </dev/null >"$folder/said" 2>&1) || echo "$1: failed"
    echo "$1: $(($(date +%s) - begun)) seconds"
    grep -e '^rt: ok' -e '^[0-9]* passed, ' "$folder/said" | sed 's/^/    /'
}

# Measures what is proved anew: in a second clone, by the gate after a start, and by a start after the gate in a third clone.
time_again() { # COMMIT
    make_clone "$1" first
    start_again "$1, a first start" || return 1
    make_clone "$1" second
    start_again "$1, a start in a second clone" || return 1
    run_gate "$1, rt ci after it"
    rm -rf "$folder/first" "$folder/second" "$folder/kept/"*
    make_clone "$1" third
    run_gate "$1, rt ci first"
    start_again "$1, a start after it"
    rm -rf "$folder/third"
}

[ -n "${BIDI_EDIT_HIDDEN:-}" ] || hide_kept "$@"
while :; do
    case ${1:-} in
    --limit) limit=$2 && shift 2 ;;
    --crates) crates=$2 && shift 2 ;;
    --again) is_again=1 && shift ;;
    *) break ;;
    esac
done
[ $# -gt 0 ] || set -- HEAD
socket="bf$$" folder=$BIDI_EDIT_HIDDEN child=''
trap '[ -z "$child" ] || kill "$child" 2>/dev/null || :; in_terminal kill-server 2>/dev/null || :; rm -rf "$folder"' EXIT
trap 'exit 1' HUP INT TERM
export XDG_STATE_HOME="$folder/state" LC_ALL=C.UTF-8
echo 'some words' >"$folder/note"
failed=0
tell_selftest
for commit; do
    if [ -n "$is_again" ]; then
        time_again "$commit" || failed=1
    else
        make_clone "$commit" clone
        if start "$commit"; then tell_parts; else failed=1; fi
        rm -rf "$clone"
    fi
done
exit "$failed"
