#!/bin/sh
# check-keeping.sh [--sanitized] [--points]: checks what the host keeps and tells: tables of decisions, of command lines and of names. The cases
# are keeping.play, keeping-disks.play, unfinished.play and names.play in tests/play. It wants a C compiler. `--points` also kills a save under a new
# name at each of its calls, and has it fail, which takes some minutes. `--sanitized` checks a build with AddressSanitizer and UBSan, and no
# points. The last line has the totals. Exit status 1: a case failed; 77: there is no python3.
set -u

top=$(CDPATH='' cd -- "$(dirname "$0")/.." && pwd)
# shellcheck source=tests/host_checks.sh
. "$top/tests/host_checks.sh"

check_points() {
    # shellcheck disable=SC2046 # names without blanks
    compile faulty.so -shared -fPIC ../tests/host/faulty_calls.c -ldl && compile bidi-edit main.c $(sources) &&
        python3 -B "$top/tests/host/keeping_points.py" "$folder/bidi-edit" "$folder/faulty.so"
}

check_all() {
    result=0
    # shellcheck disable=SC2046 # names without blanks
    try judge_keep $(sources) || result=1
    try judge_command_line say.c command_line.c util.c || result=1
    [ -z "$points" ] || [ -n "$build_kind" ] || check_points || result=1
    return "$result"
}

points=''
if [ "${1:-}" = --points ]; then
    points=1
    shift
fi

add_up check_all
