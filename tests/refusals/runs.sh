# shellcheck shell=sh
# shellcheck disable=SC2154 # variables that check-refusals.sh sets
# The recorded sessions of check-refusals.sh. A run NAME has its output in NAME.out, and its end in NAME.end; `whole` is the one
# without a refusal, `found` the one that is judged. `session` is the session's folder, `place` the folder where it runs.

# Runs the session `session` with the input in the file KEYS and these variables of the library. Its end is the status, standard
# error and the resulting FILE. Sets `refused_at` to the content of `told`.
run_session() { # NAME KEYS VARIABLE..
    name=$1 keys=$2 status=0
    shift 2
    if [ -f "$session/file" ]; then cp "$session/file" "$place/file"; else rm -f "$place/file"; fi
    (cd "$place" && with_words "$session" loaded "$@" "$editor" <"$scratch/$keys" >"$scratch/$name.out" 2>"$scratch/err") || status=$?
    ending "$status" err "$place/file" >"$name.end"
    IFS= read -r refused_at <told || refused_at=''
}

# Prints the end of a run: ERRORS is a file with its standard error.
ending() { # STATUS ERRORS FILE
    echo "status $1"
    if [ -f "$3" ]; then cat "$2" "$3"; else cat "$2" && echo 'no file'; fi
}

# Whether two runs are equal in everything.
are_alike() { # NAME NAME
    cmp -s "$1.out" "$2.out" && cmp -s "$1.end" "$2.end"
}

# Makes the runs that a refusal at the byte BYTE, counted from 1, is compared with, unless they exist. Of each the name ends with
# BYTE: `dropped`, with a byte that ends no key in its place; `failing`, with failing renames; `repainted`, with Repaint after it
# and its output discarded; `before`, the session before its output.
make_answers() { # BYTE
    [ ! -f "dropped$1.out" ] || return 0
    { head -c "$(($1 - 1))" keys && printf '\0' && tail -c "+$(($1 + 1))" keys; } >keys_dropped
    { head -c "$1" keys && printf '\014' && tail -c "+$(($1 + 1))" keys; } >"keys_repainted$1"
    head -c "$1" keys >keys_before
    run_session "dropped$1" keys_dropped REFUSED=0
    run_session "failing$1" keys "FAILING=$1"
    run_session "repainted$1" "keys_repainted$1" "MUTED=$1"
    run_session "before$1" keys_before "MUTED=$1"
}

# Whether the painting of a byte was put off in the run `found`, in which the growth of this number was refused.
is_painting_put_off() { # BYTE NUMBER
    cmp -s found.end whole.end && head -c "$(wc -c <"before$1.out")" found.out | cmp -s - "before$1.out" || return 1
    run_session anew "keys_repainted$1" "REFUSED=$2"
    [ "$refused_at" = "$1" ] && are_alike anew "repainted$1"
}

# Prints the kind of the run `found`, in which the growth of this number was refused after BYTES bytes were read.
kind_of_run() { # NUMBER BYTES
    if [ -z "$2" ]; then
        kind='FAILS it ended by a signal or not at all'
    elif are_alike found whole; then
        kind='session: the same'
    elif [ "$2" = 0 ]; then
        [ -f failing0.out ] || run_session failing0 keys FAILING=0
        if cmp -s found.end refused.end && [ ! -s found.out ]; then
            kind='session: out of memory at opening'
        elif are_alike found failing0; then
            kind='session: a failed save'
        else
            kind="FAILS another end: $(sed -n '1,2p' found.end)"
        fi
    else
        make_answers "$2"
        # without a status row a failed save looks like a dropped key
        if are_alike found "failing$2"; then
            kind='session: a failed save'
        elif are_alike found "dropped$2"; then
            kind='session: a dropped key'
        elif is_painting_put_off "$2" "$1"; then
            kind='session: a painting put off'
        else
            kind="FAILS byte $2, none of the ends that may be"
        fi
    fi
    case $kind in
    FAILS*) kind="FAILS growth $1,${kind#FAILS}" ;;
    esac
    echo "$kind"
}

# Reports files that a run left beside FILE.
tell_left() { # NUMBER
    for left in "$place"/*; do
        case $left in
        "$place/file" | "$place/tables") ;;
        *) echo "FAILS growth $1 leaves ${left##*/}" && rm -f "$left" ;;
        esac
    done
}

# Runs a session with each growth refused in turn, until none is, and prints the kind of each run.
sweep_session() { # SESSION
    session=$1 place=$scratch/place number=0
    rm -f dropped* failing* repainted* before* keys*
    lay_out "$session" "$place"
    cp "$session/keys" keys
    echo 'bidi_edit: out of memory' >out_of_memory
    ending 1 out_of_memory "$session/file" >refused.end
    run_session whole keys REFUSED=0
    ending "$(cat "$session/want.status")" "$session/want.stderr" "$session/want.file" >wanted.end
    if ! cmp -s whole.out "$session/want.stdout" || ! cmp -s whole.end wanted.end; then
        echo 'FAILS refused nothing, it differs from what is recorded'
        return
    fi
    while :; do
        number=$((number + 1))
        run_session found keys "REFUSED=$number"
        if [ "$refused_at" = -1 ]; then
            are_alike found whole && echo 'session: nothing refused' || echo 'FAILS refused nothing, it differs'
            return
        elif [ "$number" -ge 5000 ]; then # no session has so many
            echo 'FAILS 5000 growths are not all'
            return
        fi
        kind_of_run "$number" "$refused_at"
        tell_left "$number"
    done
}

# Runs twenty sessions with accepted command lines, spread over all.
check_sessions() { # SESSIONS
    folder=$(sessions_of "$1" "$scratch")
    list_sessions "$folder" | while IFS= read -r session; do
        [ "$(cat "$session/want.status")" = 2 ] || printf '%s\n' "$session"
    done >all
    awk '{ name[NR] = $0 } END { for (k = 0; k < 20 && NR; k++) print name[1 + int(k * NR / 20)] }' all | uniq >chosen
    while IFS= read -r session; do
        sweep_session "$session" >judged
        count_kinds "session ${session##*/}" <judged
    done <chosen
    echo "$(wc -l <chosen) sessions of $(wc -l <all)"
}
