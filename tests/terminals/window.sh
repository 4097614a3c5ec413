# shellcheck shell=sh
# shellcheck disable=SC2154 # variables shared with other parts
# A display without a screen, and the one terminal on it: its shell obeys a pipe, and its window has pictures, keys and a name.
#
# For check-terminals.sh, which sets `room`, its own folder, and `pictures`, the folder of pictures. Here are set `server`, `bus`
# and `terminal`, the processes of display, bus and terminal, and `window`, the number of the terminal's window. In `room` are
# `files`, where the shell is, `orders`, the pipe for its lines, `ready`, which is there when it has obeyed the last one, `tty`,
# the name of its terminal, and `errors`, what the editor writes on standard error.

# Opens a free display with a bus of its own, and hides the terminal around the check.
open_display() {
    unset XTERM_VERSION VTE_VERSION KONSOLE_VERSION MLTERM TERMINOLOGY KITTY_WINDOW_ID ALACRITTY_WINDOW_ID TERM_PROGRAM
    unset INSIDE_EMACS WINDOWID COLORTERM SSH_CONNECTION WAYLAND_DISPLAY
    own_state "$room"
    mkdir -m 700 "$room/runtime" "$room/files"
    mkfifo "$room/display" "$room/orders"
    export XDG_RUNTIME_DIR="$room/runtime" LIBGL_ALWAYS_SOFTWARE=1
    Xvfb -displayfd 3 -screen 0 800x400x24 -nolisten tcp 3>"$room/display" >/dev/null 2>&1 &
    server=$!
    read -r number <"$room/display" || lacks 'Xvfb does not start'
    export DISPLAY=":$number"
    if command -v dbus-daemon >/dev/null; then
        bus=$(dbus-daemon --session --fork --print-pid=1 --print-address=3 3>"$room/address" 2>/dev/null)
        DBUS_SESSION_BUS_ADDRESS=$(cat "$room/address")
        export DBUS_SESSION_BUS_ADDRESS
    fi
    cat >"$room/shell" <<'TEXT'
cd "${0%/*}/files" || exit
exec 9<>"${0%/*}/orders"
tty >"${0%/*}/tty"
: >"${0%/*}/ready"
while IFS= read -r order <&9; do
    eval "$order" 9<&-
    : >"${0%/*}/ready"
done
TEXT
}

close_display() {
    close_terminal
    for process in $bus $server; do kill "$process" 2>/dev/null; done
    rm -rf -- "$room"
}

# Starts a terminal whose shell obeys `order`, and finds its window. Fails if none comes within a minute.
open_terminal() { # KIND
    rm -f "$room/ready"
    "start_$1" >"$room/said" 2>&1 &
    terminal=$!
    wait_for test -e "$room/ready" || return 1
    wait_for has_window || return 1
    # the pointer is in the window too, as some wish for keys; half a second for the focus
    xdotool mousemove 100 60 windowfocus "$window"
    sleep 0.5
}

# Whether there is a window. Sets `window`.
has_window() {
    window=$(xdotool search --onlyvisible --maxdepth 1 --class . 2>/dev/null | tail -n 1)
    [ -n "$window" ]
}

close_terminal() {
    [ -n "$terminal" ] || return 0
    kill "$terminal" 2>/dev/null
    wait "$terminal" 2>/dev/null
    terminal=''
}

# ---- the shell

# Gives the shell a line without waiting for its end.
give() { # LINE
    rm -f "$room/ready"
    # shellcheck disable=SC2016
    timeout 10 sh -c 'printf "%s\n" "$0" >"$1"' "$1" "$room/orders"
}

has_obeyed() {
    [ -e "$room/ready" ]
}

# Gives the shell a line, and waits for its end.
order() { # LINE
    give "$1"
    wait_for has_obeyed
}

# Whether a program has its terminal in raw mode.
is_raw() {
    stty -F "$(cat "$room/tty")" | grep -q -e -icanon
}

# ---- the window

# Keeps the picture of the window under a name, once three in a row are the same, or after nine seconds.
take_picture() { # NAME
    import -silent -window root "$pictures/$1.png"
    quiet=0 tries=30
    while [ "$quiet" -lt 2 ] && [ "$tries" -gt 0 ]; do
        tries=$((tries - 1))
        sleep 0.3
        import -silent -window root "$pictures/next.png"
        if [ "$(different "$1" next)" = 0 ]; then quiet=$((quiet + 1)); else quiet=0; fi
        mv "$pictures/next.png" "$pictures/$1.png"
    done
}

# Prints the number of different pixels.
different() { # PICTURE PICTURE
    compare -metric AE "$pictures/$1.png" "$pictures/$2.png" null: 2>&1
}

# Whether the left end of the window's last row, some way off the border, has more than one colour, as it has once the editor has
# painted its status row. A twelfth of the height is within the last of ten rows.
has_status() {
    # sets X, Y, WIDTH and HEIGHT
    eval "$(xdotool getwindowgeometry --shell "$window")"
    part=$((WIDTH / 5))x$((HEIGHT / 12 - 4))+$((X + 4))+$((Y + HEIGHT - HEIGHT / 12))
    [ "$(import -silent -window root png:- | convert png:- -crop "$part" -format %k info:)" -gt 1 ]
}

# Types keys, by their names in X, as fast as a fast typist.
press() { # KEY..
    for key in "$@"; do
        xdotool key --clearmodifiers "$key"
        sleep 0.05
    done
}

# Prints the window's title.
title() {
    xdotool getwindowname "$window"
}

has_title() { # PATTERN
    # shellcheck disable=SC2254
    case $(title) in $1) return 0 ;; esac
    return 1
}
