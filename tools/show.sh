#!/bin/sh
# show.sh [--cells] [--keys KEYS] FILE ROWS COLS [EDITOR WORD..]: prints the screen of an editor on FILE in a window of that
# size, from a real run in tmux, in a frame. The default EDITOR is ./bidi-edit; another example is `show.sh note.txt 8 40 emacs
# -nw -Q`. It prints a letter in negative image, such as a bidi control's, in a circle. Columns follow the screen, so the viewer
# must not reorder the text. With --cells it prints a line with the window's rows and columns and the cursor's row and column,
# from 0, and then the screen as tmux captures it, with the sequences for negative image, as draw_screens.py reads it. With --keys
# these are typed first, as tmux names them: `--keys 'C-w a b'`.
set -eu

# wants_cells: --cells is given
wants_cells='' keys=''
while :; do
    case ${1:-} in
    --cells) wants_cells=1 ;;
    --keys)
        keys=${2:-}
        shift
        ;;
    *) break ;;
    esac
    shift
done

if [ $# -lt 3 ] || ! [ -r "$1" ]; then
    echo 'usage: show.sh [--cells] [--keys KEYS] FILE ROWS COLS [EDITOR WORD..]' >&2
    exit 2
fi
command -v tmux >/dev/null || { echo 'show.sh: there is no tmux' >&2; exit 1; }
top=$(cd "$(dirname "$0")/.." && pwd)
file=$1 rows=$2 cols=$3
shift 3
[ $# -gt 0 ] || set -- "$top/bidi-edit"
# a relative path is relative to the caller's folder
case $1 in
/*) ;;
*/*)
    editor=$(cd "$(dirname -- "$1")" && pwd)/$(basename -- "$1")
    shift
    set -- "$editor" "$@"
    ;;
esac

export LC_ALL=C.UTF-8
folder=$(mktemp -d)
socket="show$$"
# the editor's
process=''
# Waits for the editor's end, since the host writes its session until then.
clean_up() {
    tmux -L "$socket" kill-server 2>/dev/null || :
    # five seconds
    tries=50
    while [ -n "$process" ] && [ "$tries" -gt 0 ] && kill -s 0 "$process" 2>/dev/null; do
        tries=$((tries - 1))
        sleep 0.1
    done
    rm -rf "$folder"
}
trap clean_up EXIT
trap 'exit 1' HUP INT TERM
# the editor gets a copy of the file with the same name
name=$(basename -- "$file")
cp -- "$file" "$folder/$name"
# the editor's sessions are removed with the scratch folder
{
    printf "export XDG_STATE_HOME='%s/.state'; cd '%s'; exec" "$folder" "$folder"
    for word in "$@" "$name"; do printf " '%s'" "$(printf '%s' "$word" | sed "s/'/'\\\\''/g")"; done
    echo ' 2>.errors'
} >"$folder/.run"

tmux -u -L "$socket" -f /dev/null new-session -d -s seen -x "$cols" -y "$rows" "sh '$folder/.run'" \; set -g status off
tmux -L "$socket" resize-window -t seen -x "$cols" -y "$rows" 2>/dev/null || :
process=$(tmux -L "$socket" display-message -p -t seen '#{pane_pid}')

# Captures the screen once it is unchanged for half a second.
capture() {
    echo >"$folder/.before"
    : >"$folder/.now"
    while sleep 0.5 && ! cmp -s "$folder/.before" "$folder/.now"; do
        mv "$folder/.now" "$folder/.before"
        if ! tmux -u -L "$socket" capture-pane -p -e -t seen >"$folder/.now" 2>/dev/null; then
            echo 'show.sh: the editor ended' >&2
            cat "$folder/.errors" >&2
            exit 1
        fi
    done
}

capture
if [ -n "$keys" ]; then
    # shellcheck disable=SC2086 # a word for each key
    tmux -u -L "$socket" send-keys -t seen $keys
    capture
fi

if [ -n "$wants_cells" ]; then
    tmux -L "$socket" display-message -p -t seen "$rows $cols #{cursor_y} #{cursor_x}"
    cat "$folder/.now"
    exit
fi

# Replaces negative letters by circled ones, and draws the frame.
line=$(printf '%*s' "$cols" '' | tr ' ' '-')
echo "+$line+"
sed -e 's/\x1b\[27m/\x1b[0m/g' -e 's/\x1b\[m/\x1b[0m/g' -e ':more' \
    -e 's/\x1b\[7m\x1b\[0m//; t more' \
    -e 's/\x1b\[7me/ⓔ\x1b[7m/; t more' -e 's/\x1b\[7mE/Ⓔ\x1b[7m/; t more' -e 's/\x1b\[7mo/ⓞ\x1b[7m/; t more' \
    -e 's/\x1b\[7mO/Ⓞ\x1b[7m/; t more' -e 's/\x1b\[7mp/ⓟ\x1b[7m/; t more' -e 's/\x1b\[7mi/ⓘ\x1b[7m/; t more' \
    -e 's/\x1b\[7mI/Ⓘ\x1b[7m/; t more' -e 's/\x1b\[7mf/ⓕ\x1b[7m/; t more' -e 's/\x1b\[7mP/Ⓟ\x1b[7m/; t more' \
    -e 's/\x1b\[7m?/⍰\x1b[7m/; t more' -e 's/\x1b\[7m~/⍨\x1b[7m/; t more' -e 's/\x1b\[7m#/⌗\x1b[7m/; t more' \
    -e 's/\x1b\[[0-9;]*m//g' "$folder/.now" | while IFS= read -r row; do
    printf '|%s%*s|\n' "$row" "$((cols - $(printf '%s' "$row" | wc -L)))" ''
done
echo "+$line+"
