# shellcheck shell=sh
# shellcheck disable=SC2154 # variables shared with other parts
# The mouse, and copies for the system's clipboard: what the terminal sends and takes, by a stand-in in the editor's place, and what
# the editor makes of it. Uses window.sh, kinds.sh and checks.sh. Here is set `stand_in`, the path of a host that runs the stand-in; in
# `room`, `record` is what the terminal sent to it, and `clip` the text that it copies.

# Installs host and stand-in as install.sh would.
make_stand_in() {
    stand_in=$room/stand_in/bin/bidi-edit
    mkdir -p "$room/stand_in/bin" "$room/stand_in/lib/bidi_edit" "$room/stand_in/share"
    cp "$top/host/out/bidi-edit" "$stand_in"
    cp "$top/tests/terminals/stand_in.py" "$room/stand_in/lib/bidi_edit/bidi_edit"
    echo 'a kit' >"$room/stand_in/lib/bidi_edit/kit"
    ln -s "$top/data" "$room/stand_in/share/bidi_edit"
    export BX_RECORD="$room/record" BX_CLIP="$room/clip"
}

open_stand_in() { # WORD..
    rm -f "$room/record"
    give "'$stand_in' $* text 2>../errors"
    wait_for is_raw
    wait_for has_status
    # for what the terminal still draws
    sleep 0.5
}

# ---- the pointer

# Finds the cells, in pixels of the display, by what 20 of them in negative change: sets `cell_width`, `cell_height`, `cell_left` and
# `cell_top` of the first one, and `cell_point`, the pixel of a cell that is pointed at.
measure_cells() { # KIND
    order "clear; printf '\033[?25l'"
    take_picture "$1-cells-before"
    order "printf '\033[5;21H\033[7m%20s\033[m' ''"
    take_picture "$1-cells"
    box=$(convert "$pictures/$1-cells-before.png" "$pictures/$1-cells.png" -compose difference -composite -threshold 0 -format '%@' info:)
    order "printf '\033[?25h'; clear"
    cell_height=${box#*x} cell_height=${cell_height%%+*} cell_width=$((${box%%x*} / 20))
    cell_left=${box#*+} cell_left=$((${cell_left%+*} - 20 * cell_width)) cell_top=$((${box##*+} - 4 * cell_height))
    if takes_right_half "$1"; then cell_point=$((cell_width / 2)); else cell_point=$((cell_width / 4)); fi
}

# Moves the pointer into a cell.
point_at() { # ROW COLUMN
    xdotool mousemove $((cell_left + ($2 - 1) * cell_width + cell_point)) $((cell_top + (2 * $1 - 1) * cell_height / 2))
    sleep 0.1
}

# What the pointer's buttons do: mousedown, mouseup or click and a button's number, or keydown, keyup and a key.
button() { # DO WHAT
    xdotool "$1" "$2"
    sleep 0.15
}

press_at() { # ROW COLUMN
    point_at "$1" "$2"
    button mousedown 1
    button mouseup 1
}

# Drags in a row, over a column between.
drag_in() { # ROW COLUMN COLUMN COLUMN
    point_at "$1" "$2"
    button mousedown 1
    point_at "$1" "$3"
    point_at "$1" "$4"
    button mouseup 1
}

# The same with Shift held.
with_shift() { # COMMAND..
    button keydown shift
    "$@"
    button keyup shift
}

# ---- the system's clipboard

# Whether the terminal's clipboard is that of Wayland.
is_wayland() {
    [ -S "$XDG_RUNTIME_DIR/bx" ]
}

# Puts a text into clipboard or primary selection, as another program does.
put_selection() { # SELECTION TEXT
    if is_wayland; then
        printf %s "$2" | WAYLAND_DISPLAY=bx timeout 3 wl-copy >/dev/null 2>&1
    else
        printf %s "$2" | xclip -selection "$1" >/dev/null 2>&1
    fi
}

selection() { # SELECTION
    if is_wayland; then
        WAYLAND_DISPLAY=bx timeout 3 wl-paste -n 2>/dev/null
    else
        timeout 3 xclip -o -selection "$1" 2>/dev/null
    fi
}

has_selection() { # SELECTION TEXT
    [ "$(selection "$1")" = "$2" ]
}

# ---- what the terminal sends

# Checks the reports that came since this was called last, without their ESC. A terminal may send the same one twice for a wheel.
reported() { # NAME WANTED
    sleep 0.3
    same "$1" "$(tr -d '\033' <"$room/record")" "$2"
    : >"$room/record"
}

# Presses, drags and the wheel are reported, those with Shift are not, and nothing is at the end.
check_reports() { # KIND
    open_stand_in
    press_at 2 5
    reported "$1, a press" '[<0;5;2M[<0;5;2m'
    drag_in 2 3 5 8
    reported "$1, a drag" '[<0;3;2M[<32;5;2M[<32;8;2M[<0;8;2m'
    press_at 1 1
    press_at 10 60
    reported "$1, presses at two corners" '[<0;1;1M[<0;1;1m[<0;60;10M[<0;60;10m'
    point_at 3 5
    button click 4
    reported "$1, the wheel up" "$(repeat "$(turns_of "$1")" '[<64;5;3M')"
    button click 5
    reported "$1, the wheel down" "$(repeat "$(turns_of "$1")" '[<65;5;3M')"
    with_shift drag_in 1 3 5 8
    reported "$1, a drag with Shift" ''
    is_wayland || check_primary "$1, what the terminal selects by it"
    leave_editor "$1, reports"
    check_silence "$1, reports at the end"
    open_stand_in --no-mouse
    press_at 2 5
    reported "$1, a press with --no-mouse" ''
    leave_editor "$1, no reports"
}

# Whether the letters at both ends are selected differs.
check_primary() { # NAME
    case $(selection primary) in
    *ef*) report "$1" 0 '' ;;
    *) report "$1" 1 "$(selection primary)" ;;
    esac
}

repeat() { # TIMES TEXT
    times=$1
    while [ "$times" -gt 0 ]; do
        printf %s "$2"
        times=$((times - 1))
    done
}

# Checks that presses, drags and the wheel send nothing to the shell.
check_silence() { # NAME
    give 'stty raw -echo; timeout 3 cat >../after; stty sane'
    wait_for is_raw
    drag_in 2 3 5 8
    wait_for has_obeyed
    same "$1" "$(tr -d '\033' <"$room/after")" ''
}

# Has the stand-in copy, and checks what the clipboard has then: the same in a terminal that takes it, else what it had.
copied() { # NAME KIND
    if takes_clips "$2"; then
        press ctrl+c
        wait_for has_selection clipboard "$(cat "$room/clip")"
        same "$1" "$(selection clipboard | cksum)" "$(cksum <"$room/clip")"
    else
        put_selection clipboard before
        press ctrl+c
        sleep 1
        same "$1, which it does not take" "$(selection clipboard)" before
    fi
}

# What is copied is in the system's clipboard as it is, and the screen as before; but for terminals that are harmed.
check_clips() { # KIND
    printf 'שלום, עולם\r\n' >"$room/clip"
    open_stand_in
    take_picture "$1-clip-before"
    copied "$1, a copy" "$1"
    take_picture "$1-clip"
    same_picture "$1, the screen with a copy" "$1-clip-before" "$1-clip"
    # the longest that the editor sends
    head -c 65536 /dev/zero | tr '\0' x >"$room/clip"
    case $(harm_of_clips "$1") in
    ended)
        press ctrl+c
        wait_for has_ended
        report "$1, a long copy ends it" $? 'it goes on'
        return
        ;;
    shown)
        press ctrl+c
        take_picture "$1-clip-long"
        other_picture "$1, a long copy is shown as text" "$1-clip-before" "$1-clip-long"
        ;;
    none)
        copied "$1, a long copy" "$1"
        take_picture "$1-clip-long"
        same_picture "$1, the screen with a long copy" "$1-clip-before" "$1-clip-long"
        ;;
    esac
    leave_editor "$1, copies"
}

# Whether the terminal has ended.
has_ended() {
    ! kill -0 "$terminal" 2>/dev/null
}

# ---- what the editor makes of it

# Whether the built editor knows pointing and copies: the checks of both wait for one that does.
knows_pointing() {
    : >"$room/files/empty"
    "$top/crates/bidi_edit/out/bidi_edit" --clipboard --check --classes "$top/data/DerivedBidiClass.txt" --brackets "$top/data/BidiBrackets.txt" \
        --mirroring "$top/data/BidiMirroring.txt" "$room/files/empty" >/dev/null 2>&1
}

# Edits a text by keys and the pointer, saves it, and compares what is saved.
edited() { # NAME TEXT WANTED COMMAND..
    name=$1 wanted=$3
    printf '%s\n' "$2" >"$room/files/typed"
    shift 3
    open_editor "${words:-} typed" "$kind-pointed"
    "$@"
    press ctrl+s
    let_save
    leave_editor "$kind, $name"
    same "$kind, $name" "$(paste -s -d '|' "$room/files/typed")" "$wanted"
}

# A letter is put in where the pointer is.
press_and_type() { # ROW COLUMN
    press_at "$1" "$2"
    press X
}

drag_and_type() { # ROW COLUMN COLUMN COLUMN
    drag_in "$@"
    press X
}

# The end of a line, from which a press with Shift does not move where the terminal keeps Shift.
shift_and_type() {
    press End
    with_shift press_at 1 2
    press X
}

turn_and_type() { # BUTTON TIMES
    point_at 3 5
    for _ in $(seq "$2"); do button click "$1"; done
    press X
}

drag_and_copy() { # ROW COLUMN COLUMN COLUMN
    drag_in "$@"
    press ctrl+c
    sleep 0.5
}

# The editor shows `abc םולש def` for the first text, and the second one at the right edge, from column 60 to the left.
check_pointing() { # KIND
    if ! knows_pointing; then
        skip "$1, pointing" 'the built editor does not know it'
        return
    fi
    kind=$1 words='' hebrew='שלום עולם'
    edited 'a press on a Latin letter' 'abc שלום def' 'aXbc שלום def' press_and_type 1 2
    edited 'a press on a Hebrew letter' 'abc שלום def' 'abc שXלום def' press_and_type 1 7
    edited 'a press right of the text' 'abc שלום def' 'abc שלום defX' press_and_type 1 30
    edited 'a press on the right edge' "$hebrew" "X$hebrew" press_and_type 1 60
    edited 'a press left of Hebrew text' "$hebrew" "${hebrew}X" press_and_type 1 5
    edited 'a press on the last row' 'abc' 'Xabc' press_and_type 10 3
    edited 'a drag' abcdef aXef drag_and_type 1 2 3 5
    edited 'a drag back' abcdef aXef drag_and_type 1 5 4 2
    edited 'a drag in Hebrew' "$hebrew" 'Xם עולם' drag_and_type 1 60 59 57
    edited 'the wheel down' "$(seq 40)" "$(seq 40 | sed "$((1 + 3 * 2 * $(turns_of "$1")))s/^/X/" | paste -s -d '|')" turn_and_type 5 2
    edited 'a press with Shift' abcd abcdX shift_and_type
    check_copying "$1"
    words=--no-mouse
    edited 'a press with --no-mouse' abcd Xabcd press_and_type 1 3
    check_silence "$1, reports behind the editor"
}

# What is copied is in the system's clipboard too, in its stored order, where the terminal takes it and --no-clipboard is not said.
check_copying() { # KIND
    put_selection clipboard before
    edited 'a copy' "$hebrew" "$hebrew" drag_and_copy 1 60 59 57
    if takes_clips "$1"; then wanted='שלו'; else wanted=before; fi
    same "$1, what is copied from right to left" "$(selection clipboard)" "$wanted"
    put_selection clipboard before
    words=--no-clipboard
    edited 'a copy with --no-clipboard' "$hebrew" "$hebrew" drag_and_copy 1 60 59 57
    same "$1, with --no-clipboard nothing" "$(selection clipboard)" before
    words=''
}

# All of these.
check_mouse() { # KIND
    tool=xclip
    ! is_wayland || tool=wl-paste
    if ! command -v "$tool" >/dev/null; then
        skip "$1, the mouse" "there is no $tool"
        return
    fi
    measure_cells "$1"
    check_reports "$1"
    check_pointing "$1"
    check_clips "$1"
}

# The same in tmux, which wants to be told that its programs may copy.
check_mouse_in_tmux() { # KIND
    if ! command -v tmux >/dev/null; then
        skip "$1" 'there is no tmux'
        return
    fi
    give "tmux -u -L bx$$ -f /dev/null new-session 'sh $room/shell' ';' set -g status off ';' set -g set-clipboard on"
    wait_for has_obeyed
    check_mouse "$1"
    give 'tmux kill-server'
    # until tmux has given the terminal back
    sleep 0.5
}

# GNU screen is not asked for reports, since older ones have another form, and gets no copies, as it shows the end of a long one.
check_mouse_in_screen() { # KIND
    if ! command -v screen >/dev/null; then
        skip "$1" 'there is no screen'
        return
    fi
    give "screen -U sh $room/shell"
    wait_for has_obeyed
    measure_cells "$1"
    open_stand_in
    press_at 2 5
    reported "$1, a press" ''
    head -c 65536 /dev/zero | tr '\0' x >"$room/clip"
    take_picture "$1-clip-before"
    press ctrl+c
    take_picture "$1-clip-long"
    other_picture "$1, a long copy would be shown as text" "$1-clip-before" "$1-clip-long"
    leave_editor "$1, the stand-in"
    give 'exit'
    sleep 0.5
}
