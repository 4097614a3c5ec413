# shellcheck shell=sh
# shellcheck disable=SC2034,SC2154 # words that the scripts give and take
# Unpacks dist/, for dist.sh, which reads waiting.sh too. `top` is the repository, `place` the folder to unpack to, `begun` the time of the start.

# Prints the cause from messages of commands in English, without their names. On a full disk, tar only says what it could not write.
cause_of() { # WORDS
    case $1 in
    *'No space left on device'* | *'Wrote only'*) echo 'No space left on device' ;;
    *) printf '%s\n' "$1" | grep -v 'Exiting with failure' | sed -n '$s/.*: //p' ;;
    esac
}

# Marks the folder as checked when the start began.
mark() { # FOLDER
    TZ=UTC0 touch -t "$begun" "$1/lib/bidi_edit/SOURCES" 2>/dev/null || :
}

# Says that the folder cannot be written, and returns the status for that.
refuse_place() { # WORDS
    say_fault "dist/ cannot be unpacked in $(shown "${place%/*}"): $(cause_of "$1")"
    return 2
}

# Runs a command whose messages are read. For a subshell.
in_english() { # COMMAND..
    export LC_ALL=C
    "$@" 2>&1
}

# Puts the host of dist/ into the folder.
copy_host() { # FOLDER
    new=$1/bin/bidi-edit.$$
    cp -- "$1/lib/bidi_edit/host" "$new" && mv -f -- "$new" "$1/bin/bidi-edit" && return
    rm -f -- "$new"
    return 1
}

# Compiles the host into the folder. Without a compiler it takes the host in dist/, if that was compiled from these sources.
make_host() { # FOLDER
    if told=$(sh "$top/host/build.sh" into "$1/bin" 2>&1); then return; fi
    if [ "$(host_digest)" = "$(noted host)" ]; then
        told=$(in_english copy_host "$1") || refuse_place "$told"
        return
    fi
    case $told in
    *'there is no C compiler'*)
        say_fault 'there is no C compiler, and the host in dist/ was not built from the sources in host/: install a compiler (on Debian, apt install gcc libc6-dev), or undo what was changed in host/ (git status shows it)'
        ;;
    *) printf '%s\n' "$told" >&2 ;;
    esac
    return 2
}

# Copies the tables, each by a rename, since an editor may read the old ones. One that is there stays: an unfinished session knows its
# tables by their times, and would be recovered without its undo history.
copy_tables() { # FOLDER
    for table in "$top"/data/*.txt; do
        copy=$1/share/bidi_edit/${table##*/}
        ! cmp -s -- "$table" "$copy" 2>/dev/null || continue
        cp -- "$table" "$copy.new" && mv -f -- "$copy.new" "$copy" || return
    done
}

# Unpacks all but the host into a new folder.
fill() { # FOLDER
    mkdir -p -- "$1/bin" "$1/lib/bidi_edit" "$1/share/bidi_edit" && tar -xzof "$top/dist/$dist_archive" -C "$1/lib/bidi_edit" &&
        copy_tables "$1" && cp -- "$top/dist/SOURCES" "$1/lib/bidi_edit/SOURCES"
}

# Whether the programs can be executed here, by calls that change nothing: the host tells its version, and the editor refuses a call
# without a FILE.
run_here() { # FOLDER
    "$1/bin/bidi-edit" --version </dev/null >/dev/null 2>&1 || return
    "$1/lib/bidi_edit/bidi_edit" </dev/null >/dev/null 2>&1
    # a shell's statuses of a program that cannot be executed, and of signals
    [ $? -lt 126 ]
}

# Prints why the programs do not run here, as far as the system tells.
tell_no_run() {
    libc=$(getconf GNU_LIBC_VERSION 2>/dev/null) || libc='another C library'
    echo "the programs in dist/ do not run on this machine: they need glibc 2.34 or later, and this is ${libc:-another C library}"
}

# Makes the folder beside its place and then renames it, so that its place never has a part of it. `beside` is removed at the end.
unpack() {
    beside=$(in_english mktemp -d "$place.XXXXXX") || {
        refuse_place "$beside"
        return
    }
    trap 'rm -rf -- "$beside"' EXIT
    trap 'exit 2' HUP INT TERM
    told=$(in_english fill "$beside/tree") || {
        refuse_place "$told"
        return
    }
    make_host "$beside/tree" || return
    run_here "$beside/tree" || return 3
    mark "$beside/tree"
    # without the lock, another start may put its own folder there, before this line or before the rename
    ! is_unpacked "$place" || return 0
    [ ! -e "$place" ] || mv -T -- "$place" "$beside/old" 2>/dev/null || :
    told=$(in_english mv -T -- "$beside/tree" "$place") || is_unpacked "$place" || refuse_place "$told"
}

# Makes the place ready, one start at a time where there is flock; else the rename decides.
prepare_alone() {
    if command -v flock >/dev/null; then
        flock 9
        # what killed starts left
        rm -rf -- "$place".??????
    fi
    is_unpacked "$place" || {
        unpack
        return
    }
    told=$(in_english copy_tables "$place") || {
        refuse_place "$told"
        return
    }
    make_host "$place" && mark "$place"
}

# Makes the folder that the place is in, and a file for the lock.
make_room() {
    if [ "$place" = "$top/out/start" ]; then mkdir -p -- "$top/out"; else (umask 077 && mkdir -p -- "${place%/*}"); fi &&
        is_own_place && { [ "$place" = "$top/out/start" ] || chmod 700 -- "${place%/*}"; } && : >>"$place.lock"
}

# Removes all but the three newest folders of the user's cache, which belong to other checkouts. The one that was just made ready stays.
remove_old() {
    [ "$place" != "$top/out/start" ] || return 0
    # shellcheck disable=SC2012 # a name is a digest
    (cd -- "${place%/*}" && ls -t -d -- */lib/bidi_edit/SOURCES) 2>/dev/null | sed 's|/.*||' |
        awk -v own="${place##*/}" '$0 != own && /^[0-9a-f]+$/ && length($0) == 64 && ++count > 2' |
        while read -r old; do rm -rf -- "${place%/*}/${old:?}" "${place%/*}/$old.lock"; done
}

# The same, one start at a time, without the traps of the script.
prepare_locked() {
    (trap - HUP INT QUIT TERM && prepare_alone) 9>>"$place.lock"
}

# Makes the place ready and sets `start`. It returns the same statuses as find_start, and has its words.
prepare() { # [thoroughly]
    told=$(in_english make_room) || {
        [ -n "$told" ] || told=': it belongs to another user'
        refuse_place "$told"
        return
    }
    if [ $# = 0 ]; then while_waiting prepare_locked; else prepare_locked; fi
    case $? in
    0)
        start=$place
        remove_old
        ;;
    3)
        cause=$(tell_no_run)
        return 1
        ;;
    *) return 2 ;;
    esac
}
