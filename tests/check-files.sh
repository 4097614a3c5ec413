#!/bin/sh
# check-files.sh [--sanitized] [--points]: checks how the host opens and saves FILE, with a driver in the program's place: tables of
# decisions, what other programs do to FILE and its folder, disks that do not answer. It wants a C compiler and python3; some checks
# need root, strace, setfacl, mount or /dev/fuse, and are left out without. `--points` also kills each call of a save, and has it
# fail, on file systems of several kinds, which takes some minutes. `--sanitized` checks a build with AddressSanitizer and UBSan,
# and no points. The last line has the totals. Exit status 1: a check failed; 77: there is no python3.
set -u

top=$(CDPATH='' cd -- "$(dirname "$0")/.." && pwd)
# shellcheck source=tests/host_checks.sh
. "$top/tests/host_checks.sh"

check_points() {
    compile faulty.so -shared -fPIC ../tests/host/faulty_calls.c -ldl && python3 -B "$top/tests/host/save_points.py" "$folder/driver" "$folder/faulty.so"
}

check_all() { # [--points]
    result=0
    try judge_save save_judge.c cause.c say.c signals.c util.c || result=1
    # shellcheck disable=SC2046 # names without blanks
    compile driver ../tests/host/save_driver.c $(sources) || return
    python3 -B "$top/tests/host/save_faults.py" "$folder/driver" || result=1
    [ -z "${1:-}" ] || [ -n "$build_kind" ] || check_points || result=1
    return "$result"
}

case $#:${1:-} in
0: | 1:--points) ;;
*)
    echo 'usage: check-files.sh [--sanitized] [--points]' >&2
    exit 2
    ;;
esac
add_up check_all "$@"
