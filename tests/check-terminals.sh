#!/bin/sh
# check-terminals.sh [--pictures FOLDER] [NAME..]: runs the editor in terminals under Xvfb, types by xdotool and compares pictures:
# in xterm, urxvt, st, alacritty, terminology, kitty, qterminal, VTE (xfce4-terminal), konsole and mlterm; in foot (within weston),
# tmux and GNU screen within alacritty, and with settings in xterm and mlterm, the mouse and copies alone. The editor's picture must
# equal the picture of `cat` on the same rows (not in qterminal, which mirrors words), also of joined Arabic letters, and the shell's
# rows must be unchanged afterwards. Keys, selections, undo groups, questions, pastes (with xclip), titles, marks in the last column,
# and clusters of other widths than counted are checked too; and with xclip or wl-paste what the terminal sends for presses, drags and the wheel, with Shift too, and whether copies
# come to the system's clipboard, by a stand-in for the editor, and then what the editor makes of both. That last part is skipped until
# crates/bidi_edit/out has an editor that knows the option --clipboard. It is not part of `rt ci`. A missing terminal is skipped. `--pictures FOLDER` keeps the pictures
# (TERMINAL-joined.png has the joined letters); names after it select terminals. The last line has the totals. Exit status 1: a
# check failed; 77: Xvfb, xdotool, ImageMagick or the built programs are missing.
set -u

export LC_ALL=C.UTF-8
top=$(CDPATH='' cd -- "$(dirname "$0")/.." && pwd)
# shellcheck source=tests/report.sh
. "$top/tests/report.sh"
for part in window kinds checks mouse; do
    # shellcheck source=/dev/null
    . "$top/tests/terminals/$part.sh"
done

lacks() { # CAUSE
    echo "skipped: $1"
    exit 77
}

for program in Xvfb xdotool import compare convert; do
    command -v "$program" >/dev/null || lacks "there is no $program"
done
[ -x "$top/crates/bidi_edit/out/bidi_edit" ] || lacks 'bidi_edit is not built (./bidi-edit FILE builds it)'

pictures=''
if [ "${1:-}" = --pictures ]; then
    mkdir -p "$2" && pictures=$(CDPATH='' cd -- "$2" && pwd) || exit 1
    shift 2
fi
[ $# -gt 0 ] || set -- xterm xterm_set urxvt st alacritty alacritty_tmux alacritty_screen terminology kitty \
    qterminal vte konsole mlterm mlterm_set foot

passed=0 failed=0 skipped=0
room=$(mktemp -d) || exit 1
: "${pictures:=$room}"
# shellcheck disable=SC2034
server='' bus='' terminal=''
trap close_display EXIT
trap 'exit 1' HUP INT TERM
open_display
make_stand_in
write_texts
for kind in "$@"; do check_terminal "$kind"; done
echo "$passed passed, $failed failed, $skipped skipped"
[ "$failed" = 0 ] || exit 1
[ "$passed" -gt 0 ] || exit 77
