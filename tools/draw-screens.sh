#!/bin/sh
# draw-screens.sh [SVG]: draws SVG, by default docs/screens.svg, the picture of README.md, from real runs in tmux. Of the files
# in tools/screens it shows note.txt in ./bidi-edit and in emacs, arabic.txt in ./bidi-edit, vim and emacs, catalogue.txt in
# ./bidi-edit, and there a search in pointed.txt, a region of note.txt, and a name of guide.txt before and after it is wrapped.
# Exit status 77: a program is missing.
set -eu

cd "$(dirname "$0")/.."
out=${1:-docs/screens.svg}
for program in tmux emacs vim python3; do
    command -v "$program" >/dev/null || { echo "skipped: there is no $program"; exit 77; }
done
[ -x crates/bidi_edit/out/bidi_edit ] || { echo 'skipped: bidi_edit is not built (./bidi-edit FILE builds it)'; exit 77; }

folder=$(mktemp -d)
trap 'rm -rf "$folder"' EXIT
tools/show.sh --cells tools/screens/note.txt 9 34 >"$folder/note"
# without a menu and a start message
show_emacs() { # FILE ROWS COLS
    tools/show.sh --cells "$@" emacs -nw -Q --eval '(menu-bar-mode -1)' --eval '(message nil)'
}
show_emacs tools/screens/note.txt 9 34 >"$folder/emacs"
tools/show.sh --cells tools/screens/arabic.txt 5 24 >"$folder/arabic"
show_emacs tools/screens/arabic.txt 5 24 >"$folder/arabic_emacs"
# in its mode for Arabic, without a message at the start
tools/show.sh --cells tools/screens/arabic.txt 5 24 vim -u NONE -i NONE -n -A --cmd 'set shortmess+=F noruler' >"$folder/arabic_vim"
tools/show.sh --cells tools/screens/catalogue.txt 7 56 ./bidi-edit --direction ltr >"$folder/catalogue"
tools/show.sh --cells --keys 'C-w ה א ר ץ' tools/screens/pointed.txt 6 34 >"$folder/search"
tools/show.sh --cells --keys 'C-Right C-@ C-Right C-Right' tools/screens/note.txt 6 34 >"$folder/region"
tools/show.sh --cells --keys 'C-Left C-Left C-@ C-f C-f C-f C-k' tools/screens/guide.txt 3 34 >"$folder/asked"
tools/show.sh --cells --keys 'C-Left C-Left C-@ C-f C-f C-f C-k i C-b C-b C-b C-t' tools/screens/guide.txt 3 34 >"$folder/wrapped"

title='A note in English, Hebrew and Arabic in bidi_edit and in emacs, an Arabic sentence in bidi_edit, vim and emacs, a catalogue, a '\
'search, a region and an isolate in bidi_edit'
description='Left, bidi_edit in a window of 9 rows and 34 columns. The Hebrew sentence has two rows: the first, from the right, says that '\
'the meeting is on Tuesday at 10:30, the second goes on with the room, 7 in parentheses, and lunch, and ends in the full stop. The Arabic '\
'sentence has two rows likewise. The two bidi controls of the English line are letters in negative image. '\
'Right, emacs, which puts a paragraph in order before it cuts it into rows: each of the two sentences ends in the upper row and begins in '\
'the lower one. Below these, an Arabic sentence with the number 25 and the word Hamlet: bidi_edit joins its letters, and shows '\
'number and word as they are read; vim joins the letters and shows 52 and telmaH; emacs leaves each letter by itself. '\
'Below, a catalogue in bidi_edit with the direction ltr: the columns number, title, author, year and price stand below one '\
'another, whether the titles are Hebrew, Arabic or English. Below that, left, a search: the last row shows the four letters '\
'that were typed, without vowel points, and the cursor is on the word with its points. Right, a region in negative image, from the '\
'second word of an English sentence to the first of two Hebrew words in it, which stands to the right of the second one, so that the '\
'region is seen in two pieces. At the bottom, a Hebrew sentence with the name C++. Left, the name is the region and shown as ++C, and '\
'the last row asks for a character to insert. Right, it is wrapped in an isolate, whose two controls are letters in negative image, and '\
'shown as C++; the last row tells of the letter C, at the cursor, that it is U+0043, of class L, and of level 2.'
emacs=$(emacs --version | sed -n '1s/.*Emacs \([0-9.]*\).*/emacs \1/p')
vim=$(vim --version | sed -n '1s/.*IMproved \([0-9.]*\).*/vim \1/p')
python3 tools/draw_screens.py "$title" "$description" 'bidi_edit' "$folder/note" "$emacs" "$folder/emacs" \
    'bidi_edit' "$folder/arabic" "$vim -A" "$folder/arabic_vim" "$emacs" "$folder/arabic_emacs" \
    'bidi_edit --direction ltr' "$folder/catalogue" 'Ctrl-W: find' "$folder/search" 'Ctrl-Space: a region' "$folder/region" \
    'Ctrl-K: insert' "$folder/asked" 'i: in an isolate; Ctrl-T: tell' "$folder/wrapped" >"$folder/svg"
mv "$folder/svg" "$out"
