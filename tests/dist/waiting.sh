# shellcheck shell=sh
# shellcheck disable=SC2154 # words that check-dist.sh sets
# What a slow first start shows in its terminal, for check-dist.sh.

# Whether the terminal of the session has a row with this text.
shows() { # TEXT
    tmux -L "$socket" capture-pane -p -t start | grep -q -F -e "$1"
}

# Starts in a terminal, with a compiler that first waits until the file `go` is there. Afterwards a shell reads a line and tells the
# terminal's mode.
start_slowly() {
    mkdir -p "$folder/slow"
    rm -rf "$tree/out" "$folder/go" "$folder/begun"
    cat >"$folder/slow/cc" <<END
#!/bin/sh
echo begun >"$folder/begun"
while ! [ -e "$folder/go" ]; do sleep 0.1; done
exec $(command -v cc) "\$@"
END
    chmod +x "$folder/slow/cc"
    cat >"$folder/slow/session" <<END
trap : INT
PATH='$folder/slow:$folder/bin:$PATH' '$tree/bidi-edit' note
echo "status \$?"
stty -a | tr ' ;' '\n\n' | grep -x -e '-*echo' -e '-*icanon' | paste -s -d '|'
read -r line && echo "read <\$line>"
sleep 600
END
    tmux -u -L "$socket" -f /dev/null new-session -d -s start -x 100 -y 12 "sh '$folder/slow/session'"
    wait_for test -e "$folder/begun"
}

# The same where programs are built in crates/, and the host is compiled in its own folder.
check_waiting_built() { # NAME
    mkdir -p "$tree/host/lib" && cp -R "$tree/out/start/lib/bidi_edit" "$tree/host/lib/"
    build_all
    start_slowly
    wait_for shows 'bidi-edit: preparing the start, which takes some seconds'
    report "$1, built here: a line after a second" $? "$(tmux -L "$socket" capture-pane -p -t start)"
    : >"$folder/go"
    wait_for shows icanon
    same "$1, built here: the terminal is as before" "$(tmux -L "$socket" capture-pane -p -t start | grep -e host -e status -e icanon | paste -s -d ' ')" \
        'host note status 0 icanon|echo'
    tmux -L "$socket" kill-session -t start
    for name in $names; do rm -r "$tree/crates/$name/out"; done
}

# A start that takes longer than a second says so, shows nothing of what is typed meanwhile, and loses nothing of it. Ctrl-C ends it.
check_waiting() { # NAME
    command -v tmux >/dev/null || {
        skip "$1" 'there is no tmux'
        return
    }
    start_slowly
    wait_for shows 'bidi-edit: preparing the start, which takes some seconds'
    report "$1, a line after a second" $? "$(tmux -L "$socket" capture-pane -p -t start)"
    tmux -L "$socket" send-keys -t start F2 typed Enter
    sleep 0.5
    same "$1, nothing else is seen" "$(tmux -L "$socket" capture-pane -p -t start | grep .)" 'bidi-edit: preparing the start, which takes some seconds'
    : >"$folder/go"
    wait_for shows 'read <'
    same "$1, the editor runs, and the terminal is as before" "$(tmux -L "$socket" capture-pane -p -t start | grep -e host -e runs -e status -e icanon | paste -s -d ' ')" \
        'host note bidi_edit runs status 0 icanon|echo'
    tmux -L "$socket" capture-pane -p -t start | grep -q 'read <.*typed>'
    report "$1, what was typed is there" $? "$(tmux -L "$socket" capture-pane -p -t start)"
    tmux -L "$socket" kill-session -t start
    check_waiting_built "$1"
    start_slowly
    tmux -L "$socket" send-keys -t start C-c
    wait_for shows icanon
    same "$1, Ctrl-C" "$(tmux -L "$socket" capture-pane -p -t start | grep -e status -e icanon | paste -s -d ' ')" 'status 130 icanon|echo'
    nothing_beside "$1, Ctrl-C" "$tree/out" ''
    tmux -L "$socket" kill-session -t start
}
