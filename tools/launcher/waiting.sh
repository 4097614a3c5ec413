# shellcheck shell=sh
# The terminal while a start unpacks and compiles, for dist.sh and the script bidi-edit.

say_fault() { # WORDS
    printf 'bidi-edit: %s\n' "$1" >&2
}

# Whether this process is the one that the terminal belongs to; another would be stopped if it changed the terminal.
is_foreground() {
    { read -r line <"/proc/$$/stat"; } 2>/dev/null || return
    # shellcheck disable=SC2086 # split into words
    set -- ${line##*) }
    [ "$3" = "$6" ]
}

# Says after a second why the start takes time.
tell_later() {
    trap 'kill "$!" 2>/dev/null; exit' TERM
    sleep 1 &
    wait "$!"
    say_fault 'preparing the start, which takes some seconds'
}

# Leaves unseen what is typed from now on; the editor takes it later.
begin_wait() {
    modes='' teller=''
    if [ -t 2 ]; then
        tell_later &
        teller=$!
    fi
    is_foreground || return 0
    modes=$(stty -g 2>/dev/null </dev/tty) && stty -echo 2>/dev/null </dev/tty || modes=''
}

end_wait() {
    [ -z "$teller" ] || { kill "$teller" && wait "$teller"; } 2>/dev/null
    [ -z "$modes" ] || stty "$modes" 2>/dev/null </dev/tty
    modes='' teller=''
}

# Runs a command meanwhile. For the script bidi-edit, which has no traps.
while_waiting() { # COMMAND..
    begin_wait
    trap 'end_wait; exit 129' HUP
    trap 'end_wait; exit 130' INT
    trap 'end_wait; exit 131' QUIT
    trap 'end_wait; exit 143' TERM
    "$@"
    result=$?
    trap - HUP INT QUIT TERM
    end_wait
    return "$result"
}
