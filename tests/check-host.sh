#!/bin/sh
# check-host.sh [--sanitized] [--runs N] [NAME..]: ends the host at random moments, with a program for tests in place of the editor; and first
# checks its frames, and that the crates name them as the host does. tests/play/host.play, kinds.play and stops.play have the cases of the host.
# It wants a C compiler and python3, and takes less than two minutes. `--sanitized` checks a build with AddressSanitizer and UBSan (so does
# check-play.sh --sanitized); `--runs N` ends each kind N times, by default 12; names select kinds. The name `faults` selects a check that is made
# only then: strace fails each system call of the host in turn, which takes some minutes. The last line has the totals. Exit status 1: a check
# failed; 77: there is no python3.
set -u

top=$(CDPATH='' cd -- "$(dirname "$0")/.." && pwd)
# shellcheck source=tests/host_checks.sh
. "$top/tests/host_checks.sh"

check_frames() {
    try judge_frames frames.c && python3 -B "$top/tests/host/frame_names.py"
}

check_all() { # WORD..
    result=0
    check_frames || result=1
    python3 -B "$top/tests/host/check_host.py" "$built" "$@" || result=1
    return "$result"
}

add_up check_all "$@"
