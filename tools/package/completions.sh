#!/bin/sh
# completions.sh SHELL HOST: prints the file by which bash, zsh or fish completes the options of the editor. The options are those that
# the editor HOST itself tells, so none stands in a second list; docs/bidi_edit.1 says what each does. tree.sh runs it.
set -eu
export LC_ALL=C

top=$(CDPATH='' cd -- "$(dirname -- "$0")/../.." && pwd)
room=$(mktemp -d)
trap 'rm -rf -- "$room"' EXIT
trap 'exit 1' HUP INT TERM
"$2" --help >"$room/help"
# without a FILE it tells how printing is called
"$2" --print >"$room/printing" 2>&1 </dev/null || :
awk -f "$top/tools/package/options.awk" "$room/help" "$room/printing" "$top/docs/bidi_edit.1" | awk -v shell="$1" -f "$top/tools/package/completions.awk"
