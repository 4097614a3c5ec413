# shellcheck shell=sh
# shellcheck disable=SC2034 # words that the scripts give and take
# Reports of a check, for scripts that count in `passed` and `failed`, and a wait with a limit. Scripts that run as several
# users name the current one in `who`.

# Counts and prints a check: STATUS 0 is a pass, any other a failure, of which DETAIL tells what was found.
report() { # NAME STATUS DETAIL
    if [ "$2" = 0 ]; then
        passed=$((passed + 1))
        echo "ok ${who:+$who }$1"
    else
        failed=$((failed + 1))
        printf '%s\n' "FAILS ${who:+$who }$1: $3"
    fi
}

# Reports whether two texts are equal.
same() { # NAME FOUND WANTED
    if [ "$2" = "$3" ]; then report "$1" 0 ''; else report "$1" 1 "'$2', and not '$3'"; fi
}

# Waits for a command to succeed, for so many minutes at most; tries every tenth of a second. Its status says whether the command succeeded.
wait_minutes() { # MINUTES COMMAND..
    tenths=$(($1 * 600))
    shift
    while ! "$@"; do
        tenths=$((tenths - 1))
        [ "$tenths" -gt 0 ] || return 1
        sleep 0.1
    done
}

# Waits for what takes a moment: only what hangs takes a minute, even on a busy machine.
wait_for() { # COMMAND..
    wait_minutes 1 "$@"
}
