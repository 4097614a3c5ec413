# shellcheck shell=sh
# shellcheck disable=SC2154 # variables shared with other parts
# How each terminal is started, with 60 columns and 10 rows in one font, and what it is known for. `start_KIND` becomes the
# terminal, with the shell of window.sh; `room` is its folder.

start_xterm() {
    exec xterm -fa FreeMono -fs 12 -geometry 60x10+0+0 -xrm "XTerm*printerCommand: cat >'$room/read'" -xrm 'XTerm*printAttributes: 0' \
        -e sh "$room/shell"
}
# it asks before a paste of lines unless it was set not to
start_urxvt() {
    exec urxvt -fn xft:FreeMono:size=12 -geometry 60x10+0+0 -pe -confirm-paste --print-pipe "cat >'$room/read'" -e sh "$room/shell"
}
start_st() { exec st -f FreeMono:size=12 -g 60x10+0+0 -e sh "$room/shell"; }
start_mlterm() {
    mkdir -p "$HOME/.mlterm"
    printf 'DEFAULT=FreeMono-iso10646-1\nISO10646_UCS4_1=FreeMono-iso10646-1\n' >"$HOME/.mlterm/aafont"
    exec mlterm --type=xft -w 16 -g 60x10 -e sh "$room/shell"
}
start_vte() { exec xfce4-terminal --disable-server --font='FreeMono 12' --geometry=60x10+0+0 --hide-menubar --hide-toolbar --hide-scrollbar -x sh "$room/shell"; }
start_konsole() {
    exec konsole --nofork --hide-menubar --hide-tabbar -p Font='FreeMono,12' -p TerminalColumns=60 -p TerminalRows=10 -p ScrollBarPosition=2 \
        -p LocalTabTitleFormat=%w -e sh "$room/shell"
}
start_alacritty() {
    exec alacritty -o font.normal.family=FreeMono -o font.size=12 -o window.dimensions.columns=60 -o window.dimensions.lines=10 -e sh "$room/shell"
}
# without a window manager it draws only in a window that none may touch
start_terminology() { exec terminology -O --no-wizard=true -c=false -f=FreeMono/12 -g=60x10+0+0 -e sh "$room/shell"; }
# it has no option for its size
start_qterminal() { exec qterminal -e "sh $room/shell"; }
start_kitty() {
    mkdir -p "$HOME/.config/kitty"
    printf '%s\n' 'force_ltr yes' >"$HOME/.config/kitty/kitty.conf"
    exec kitty -o font_family=FreeMono -o font_size=12 -o remember_window_size=no -o initial_window_width=60c \
        -o initial_window_height=10c -o cursor_blink_interval=0 -o update_check_interval=0 sh "$room/shell"
}
# it wants Wayland: weston is its display, in a window of its size with borders
start_foot() {
    weston --backend=x11-backend.so --use-pixman --shell=kiosk-shell.so --width=604 --height=184 --no-config --socket=bx --idle-time=0 &
    compositor=$!
    wait_for test -S "$XDG_RUNTIME_DIR/bx"
    WAYLAND_DISPLAY=bx foot --font=FreeMono:size=12 sh "$room/shell" &
    foot=$!
    trap 'kill $foot $compositor' TERM
    wait "$foot"
    kill "$compositor"
}
# which lets programs copy to the system's clipboard
start_xterm_set() {
    exec xterm -fa FreeMono -fs 12 -geometry 60x10+0+0 -xrm 'XTerm*disallowedWindowOps: 20,21,SetXprop' -e sh "$room/shell"
}
start_mlterm_set() {
    mkdir -p "$HOME/.mlterm"
    echo 'allow_osc52=true' >"$HOME/.mlterm/main"
    start_mlterm
}
start_alacritty_tmux() { start_alacritty; }
start_alacritty_screen() { start_alacritty; }

# Prints the name of the terminal's program.
program_of() { # KIND
    case $1 in
    vte*) echo xfce4-terminal ;;
    konsole*) echo konsole ;;
    kitty*) echo kitty ;;
    alacritty*) echo alacritty ;;
    xterm*) echo xterm ;;
    mlterm*) echo mlterm ;;
    *) echo "$1" ;;
    esac
}

# Whether the terminal reorders by itself.
reorders() { # KIND
    case $1 in vte* | konsole* | mlterm) return 0 ;; esac
    return 1
}

# Prints what tells it to leave rows in the order that they come in, as a format of printf. konsole and mlterm do not obey the
# first sequence, and get what the host sends; OSC 50 would ask xterm and urxvt for a font.
reordering_off() { # KIND
    case $1 in
    konsole*) printf %s '\033[8l\033]50;BidiRenderingEnabled=false\a' ;;
    mlterm) printf %s '\033[8l\033]5379;use_ctl=false\a' ;;
    *) printf %s '\033[8l' ;;
    esac
}

# Prints what tells it to reorder again.
reordering_on() { # KIND
    case $1 in
    konsole*) printf %s '\033]50;BidiRenderingEnabled=true\a\033[8h' ;;
    mlterm) printf %s '\033]5379;use_ctl=true\a\033[8h' ;;
    *) printf %s '\033[8h' ;;
    esac
}

# Whether it joins letters by itself, also where it was asked not to reorder.
joins() { # KIND
    case $1 in vte* | kitty) return 0 ;; esac
    return 1
}

# Whether it wraps a combining mark after the last column onto the next row. terminology shows no marks, and wraps none.
wraps_marks() { # KIND
    [ "$1" = st ]
}

# Whether it keeps a non-joiner on the letter before it. mlterm gives it a column of its own.
keeps_joiners() { # KIND
    [ "$1" != mlterm ]
}

# How many pixels at the edges of joined letters it draws or not, by what it drew before.
loose_pixels() { # KIND
    if [ "$1" = mlterm ]; then echo 9; else echo 0; fi
}

# Whether clusters are checked that it may draw in other columns than the editor counts.
draws_clusters() { # KIND
    case $1 in xterm | vte | kitty | alacritty) return 0 ;; esac
    return 1
}

# Whether it prints its screen as text, to the file `read`.
prints_screen() { # KIND
    case $1 in xterm | urxvt) return 0 ;; esac
    return 1
}

# Whether it sends all arrows with Shift. terminology takes two for itself.
sends_shift() { # KIND
    [ "$1" != terminology ]
}

# Whether it sends a key of its own for End with Shift.
sends_shift_end() { # KIND
    [ "$1" != st ]
}

# Whether it sends keys of their own for Left, Right, Home and End with Ctrl and Shift.
sends_control_shift() { # KIND
    case $1 in xterm | alacritty | qterminal | vte | konsole | mlterm) return 0 ;; esac
    return 1
}

# Whether it sends keys of their own for arrows, Home and End with Ctrl.
sends_control() { # KIND
    case $1 in xterm | urxvt | terminology) return 0 ;; esac
    return 1
}

# Whether it sends keys of their own for Backspace with Ctrl and with Alt, and for Delete with Ctrl.
sends_words() { # KIND
    case $1 in xterm | urxvt) return 0 ;; esac
    return 1
}

# Whether the right half of a cell is reported as this cell. qterminal reports the next one.
takes_right_half() { # KIND
    [ "$1" != qterminal ]
}

# How many reports one turn of the wheel gives. alacritty takes the display's two ways to tell of it for two.
turns_of() { # KIND
    case $1 in
    alacritty*) echo 2 ;;
    *) echo 1 ;;
    esac
}

# Whether it puts what a program copies (OSC 52) into the system's clipboard, as it is set here.
takes_clips() { # KIND
    case $1 in alacritty* | foot | kitty | mlterm_set | xterm_set) return 0 ;; esac
    return 1
}

# Prints what a long copy does to a terminal that does not know it: urxvt shows its end as text, and terminology ends by it. The host
# has no copies made in these.
harm_of_clips() { # KIND
    case $1 in
    urxvt) echo shown ;;
    terminology) echo ended ;;
    *) echo none ;;
    esac
}

# Whether it gives an old title back.
keeps_title() { # KIND
    case $1 in xterm | vte | kitty | alacritty | mlterm | terminology) return 0 ;; esac
    return 1
}
