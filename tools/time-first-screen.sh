#!/bin/sh
# time-first-screen.sh [COMMIT]: measures the time from `git clone` of this repository to the first screen of the editor, at COMMIT,
# by default HEAD, on a machine without toolchain: PATH has /usr/bin and /bin alone, HOME is empty. The file has one line of text; the
# screen counts as shown when that line is written to the terminal. Prints the seconds of each step. It needs git and python3. Exit
# status 1: there is no screen within a minute; 77: a tool is missing, or rt is in /usr/bin or /bin.
set -eu

top=$(CDPATH='' cd -- "$(dirname -- "$0")/.." && pwd)
for tool in git python3; do
    command -v "$tool" >/dev/null || {
        echo "skipped: there is no $tool"
        exit 77
    }
done
! PATH=/usr/bin:/bin command -v rt >/dev/null || {
    echo 'skipped: rt is in /usr/bin or /bin'
    exit 77
}
folder=$(mktemp -d)
trap 'rm -rf -- "$folder"' EXIT
trap 'exit 1' HUP INT TERM
python3 "$top/tools/time_first_screen.py" "$top" "$(git -C "$top" rev-parse "${1:-HEAD}")" "$folder"
