#!/bin/sh
# check-session-files.sh [--sanitized] [--points] [NAME..]: checks the files of sessions: a table of decisions, what is kept, found,
# told and removed in folders on the disk, and then from outside, with a program for tests in place of the editor, what becomes
# of a running session whose FILE or folder others rename or remove. It wants a C compiler and python3, and takes a minute. `--points` also has each
# call of the system fail in turn; `--sanitized` checks a build with AddressSanitizer and UBSan; names select cases from outside, and
# none of the others. The last line has the totals. Exit status 1: a check failed; 77: there is no python3.
set -u

top=$(CDPATH='' cd -- "$(dirname "$0")/.." && pwd)
# shellcheck source=tests/host_checks.sh
. "$top/tests/host_checks.sh"

# Prints the options by which sessions_points.c gets the calls that it wraps.
wrapped_calls() {
    { sed -n 's/^WRAP([^,]*, \([a-z0-9_]*\),.*/\1/p' "$top/tests/host/sessions_points.c" && printf 'openat\nfcntl\n'; } | sed 's/^/-Wl,--wrap=/'
}

check_all() { # NAME..
    result=0
    if [ $# = 0 ]; then
        try judge_session session_judge.c || result=1
        # shellcheck disable=SC2046 # names without blanks
        try sessions_life ../tests/host/sessions_scene.c ../tests/host/sessions_parts.c ../tests/host/sessions_repairs.c $(sources) || result=1
    fi
    if [ -n "$points" ]; then
        # shellcheck disable=SC2046 # names without blanks
        try sessions_points $(sources) $(wrapped_calls) || result=1
    fi
    python3 -B "$top/tests/host/sessions_faults.py" "$built" "$@" || result=1
    return "$result"
}

points=''
if [ "${1:-}" = --points ]; then
    points=1
    shift
fi
add_up check_all "$@"
