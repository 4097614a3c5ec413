# shellcheck shell=sh
# For scripts that start the editor: what they leave in sessions, settings, caches and temporary files is apart from the user's, who may
# edit meanwhile.

# From here on HOME and TMPDIR are new folders in FOLDER, and no variable leads elsewhere. Other users may enter, but not read, FOLDER.
own_state() { # FOLDER
    unset XDG_STATE_HOME XDG_CONFIG_HOME XDG_CACHE_HOME XDG_DATA_HOME XDG_RUNTIME_DIR BIDI_EDIT_DATA TMUX STY
    chmod 711 "$1" && mkdir -m 711 "$1/home" "$1/temporary" || exit 1
    export HOME="$1/home" TMPDIR="$1/temporary"
}

# As root, sets `another_user` to the words that run a command as a user who is in no group, and fails if that user cannot read all of
# these paths, as in a checkout in root's home. Who is not root is such a user already.
as_another_user() { # PATH..
    another_user=''
    [ "$(id -u)" = 0 ] || return 0
    another_user='setpriv --reuid 65534 --regid 65534 --clear-groups'
    for path; do $another_user test -r "$path" 2>/dev/null || return 1; done
}
