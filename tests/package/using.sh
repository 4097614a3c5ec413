# shellcheck shell=sh
# shellcheck disable=SC2154 # words that check-package.sh sets
# The package installed in a folder, and the tree of the tar file, in use, for check-package.sh.

# Whether a row of the screen has this text.
has_line() { # TEXT
    tmux -L "$socket" capture-pane -p -t person | grep -q -F -e "$1"
}

is_over() {
    [ -s "$room/status" ]
}

type_keys() {
    tmux -L "$socket" send-keys -t person "$@"
}

# Makes `room`, a folder of an ordinary user, and sets `as_user` to the words that run a command as that user.
make_room() { # FOLDER
    room=$1
    mkdir -p "$room/home"
    as_user=''
    [ "$(id -u)" != 0 ] || {
        as_user='setpriv --reuid 65534 --regid 65534 --clear-groups'
        chown -R 65534:65534 "$room"
    }
}

# Opens a text in the editor, as a shell command starts it with the path of the text, types a letter at its start, saves and quits. The
# Arabic word's letters are joined.
use() { # NAME COMMAND
    has_tool "$1" tmux || return 0
    printf 'שלום world באב باب\n' >"$room/note"
    printf 'אשלום world באב باب\n' >"$folder/wanted"
    chmod 666 "$room/note"
    rm -f "$room/status" "$room/errors"
    tmux -u -L "$socket" -f /dev/null new-session -d -s person -x 60 -y 8 "$2 2>'$room/errors'; echo \$? >'$room/status'; exec sleep 600"
    wait_for has_line '1:1' || :
    # the forms of the word's letters from left to right: an isolated beh, a final alef, an initial beh
    has_line "$(printf '\357\272\217\357\272\216\357\272\221')" && found=0 || found=1
    report "$1: joined letters" "$found" "$(tmux -L "$socket" capture-pane -p -t person)"
    type_keys א
    wait_for has_line '* 1:2' || :
    type_keys C-s
    wait_for has_line '- 1:2' || :
    type_keys C-q
    wait_for is_over || :
    same "$1: the status" "$(cat "$room/status" 2>/dev/null)" 0
    told=$(cmp "$room/note" "$folder/wanted" 2>&1)
    report "$1: the saved text" $? "$told"
    tmux -L "$socket" kill-session -t person
}

# Uses the editor of a tree as an ordinary user, with HOME, where the session's files are, and without it. Only the tree's own tables are
# available.
use_tree() { # NAME TREE
    make_room "$folder/room"
    editor="env -u XDG_STATE_HOME BIDI_EDIT_DATA='$2/share/bidi_edit' HOME='$room/home' '$2/bin/bidi-edit'"
    use "$1, with HOME" "$as_user $editor '$room/note'"
    same "$1, with HOME: what is said" "$(cat "$room/errors")" ''
    same "$1, with HOME: what is kept" "$(find "$room/home/.local/state/bidi_edit" -type f)" ''
    use "$1, without HOME" "$as_user env -u HOME -u XDG_STATE_HOME BIDI_EDIT_DATA='$2/share/bidi_edit' '$2/bin/bidi-edit' '$room/note'"
    same "$1, the version" "$($as_user env BIDI_EDIT_DATA="$2/share/bidi_edit" "$2/bin/bidi-edit" --version 2>&1 | sed '2,3d' | paste -s -d '|')" \
        "bidi-edit $version|programs of dist/|sources of dist/ $(noted sources)"
    same "$1, printed" "$($as_user env BIDI_EDIT_DATA="$2/share/bidi_edit" "$2/bin/bidi-edit" --print "$room/note" | wc -l)" 1
    rm -rf "$room"
}

# Runs dpkg with these words on a root folder that has its lists and no C library.
in_root() { # WORD..
    dpkg --root="$root" --force-not-root --force-depends --force-script-chrootless --log=/dev/null "$@" >"$folder/said" 2>&1
}

# Installs the package by dpkg in a root folder, uses it, and removes it again: nothing may stay.
check_dpkg() { # NAME
    has_tool "$1" dpkg && has_tool "$1" update-alternatives || return 0
    root=$folder/root
    for each in var/lib/dpkg/info var/lib/dpkg/updates var/lib/dpkg/alternatives etc/alternatives var/log; do mkdir -p "$root/$each"; done
    : >"$root/var/lib/dpkg/status"
    in_root --install "$deb"
    report "$1, installed" $? "$(cat "$folder/said")"
    # shellcheck disable=SC2016 # the fields are dpkg's
    same "$1, its name" "$(dpkg-deb --show --showformat='${Package}_${Version}_${Architecture}' "$deb")" "bidi-edit_$version-1_amd64"
    same "$1, as dpkg tells" "$(in_root --status bidi-edit && sed -n 's/^Status: //p' "$folder/said")" 'install ok installed'
    same "$1, its sums" "$(in_root --verify bidi-edit; cat "$folder/said")" ''
    same "$1, as editor" "$(readlink "$root/usr/bin/editor" "$root/etc/alternatives/editor" | paste -s -d ' ')" \
        '/etc/alternatives/editor /usr/bin/bidi-edit'
    same "$1, as editor: its manual" "$(readlink "$root/usr/share/man/man1/editor.1.gz" "$root/etc/alternatives/editor.1.gz" | paste -s -d ' ')" \
        '/etc/alternatives/editor.1.gz /usr/share/man/man1/bidi-edit.1.gz'
    use_tree "$1" "$root/usr"
    in_root --purge bidi-edit
    report "$1, removed" $? "$(cat "$folder/said")"
    same "$1, nothing stays" "$(find "$root" -path "$root/var" -prune -o ! -type d -print)" ''
    same "$1, no process stays" "$(processes_of "$root")" ''
}

# Prints the processes whose program is in a folder.
processes_of() { # FOLDER
    for process in /proc/[0-9]*; do
        case $(readlink "$process/exe" 2>/dev/null) in "$1"/*) echo "${process#/proc/}" ;; esac
    done
}

check_tar() { # NAME
    use_tree "$1" "$folder/tree/bidi-edit-$version"
}
