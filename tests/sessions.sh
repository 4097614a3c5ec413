# shellcheck shell=sh
# Recorded sessions. Each is a folder whose name is a number: `args` has the program's words, one a line, `keys` the input, and
# `file` the edited file, if it exists. `want.stdout`, `want.stderr`, `want.status` and `want.file` have the expected output,
# status and final `file`. The folder `beside`, in some sessions, has the files that are next to `file` at the start, and
# `want.beside` all of them afterwards; without it, there must be none. The tables are in the folder `tables` beside the sessions.

# Prints the folder of the sessions: SESSIONS itself, or a folder in SCRATCH with SESSIONS unpacked, if it is a tar archive.
sessions_of() { # SESSIONS SCRATCH
    if [ -d "$1" ]; then
        readlink -f "$1"
        return
    fi
    rm -rf "$2/sessions"
    mkdir "$2/sessions"
    tar -x -f "$1" -C "$2/sessions"
    found=$(find "$2/sessions" -type d -name tables | head -n 1)
    printf '%s\n' "${found%/tables}"
}

# Prints the folders of the sessions in order.
list_sessions() { # FOLDER
    find "$1" -mindepth 1 -maxdepth 1 -type d -name '[0-9]*' | sort
}

# Makes a new folder for a session to run in.
lay_out() { # SESSION FOLDER
    rm -rf "$2"
    mkdir "$2"
    ln -s "${1%/*}/tables" "$2/tables"
    [ ! -e "$1/file" ] || cp -r "$1/file" "$2/file"
    [ ! -d "$1/beside" ] || cp "$1/beside/"* "$2/"
}

# Runs a command with the words of a session appended.
with_words() { # SESSION COMMAND..
    words=$1/args
    shift
    while IFS= read -r word; do set -- "$@" "$word"; done <"$words"
    "$@"
}
