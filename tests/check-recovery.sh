#!/bin/sh
# check-recovery.sh [COUNT [SEED]]: kills sessions at a random key, by KILL, HUP and TERM to the host, to the program or to both, and recovers
# each: all bytes that the program had read must be there. Most sessions end in a search or just after one, while matches are replaced, in a
# question, after what it put in or told, in a paste, with a selection or between undo groups, and what is typed after the recovery goes into the
# text, also if the session is killed and recovered once more. recovery/sessions.py makes the keys, and the text after each by a plain model, as
# cases of tests/play; tests/play/recovery.play has the messages and questions. COUNT is the number of sessions, by default 200, and SEED that
# of the random keys, by default 1. The last line has the totals. Exit status 1: a check failed, or the program is not built; 77: no python3 has
# pyte.
set -u

top=$(CDPATH='' cd -- "$(dirname "$0")/.." && pwd)
command -v python3 >/dev/null || {
    echo 'skipped: there is no python3'
    exit 77
}
room=$(mktemp -d) || exit 1
trap 'rm -rf -- "$room"' EXIT
trap 'exit 1' HUP INT TERM
python3 -B "$top/tests/recovery/sessions.py" "$room/sessions" "${1:-200}" "${2:-1}" >"$room/sessions.play" || exit 1
sh "$top/tests/check-play.sh" --lanes 4 "$room/sessions.play"
