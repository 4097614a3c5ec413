#!/bin/sh
# install.sh [--uninstall] [PREFIX]: installs the host, the programs, the tables and the manual page under PREFIX, by default
# $HOME/.local, or removes them; tools/package/tree.sh lists the files. It takes the programs that are built in crates/, or, where the
# editor is not, those of dist/, if they belong to the sources. It compiles the host where a source is newer, and proves nothing. Exit
# status 1: neither is there, or there is no C compiler for the host. The installation is independent of this repository.
#
# All files are first copied beside their places, so that a failed copy changes nothing; then each is renamed into place. A
# record, lib/bidi_edit/installed, has the checksum of each file and the folders that were created: only these are removed.
set -eu
umask 022
export LC_ALL=C CDPATH=''

top=$(CDPATH='' cd -- "$(dirname -- "$0")/.." && pwd)
# shellcheck source=tools/package/tree.sh
. "$top/tools/package/tree.sh"

refuse() { # CAUSE
    printf 'install.sh: %s\n' "$1" >&2
    exit 1
}

# Sets `is_removal`, `prefix`, `lib` and `record`. The option may stand before PREFIX or after it.
read_words() { # WORD..
    is_removal=''
    case $#:${1:-}:${2:-} in
    1:--uninstall: | 2:--uninstall:*)
        is_removal=1
        shift
        ;;
    2:*:--uninstall)
        is_removal=1
        set -- "$1"
        ;;
    esac
    case $#:${1:-} in
    [01]: | 1:[!-]*) ;;
    *)
        echo 'usage: install.sh [--uninstall] [PREFIX]' >&2
        exit 2
        ;;
    esac
    [ -n "${1:-}" ] || [ -n "${HOME:-}" ] || refuse 'HOME is not set: name a PREFIX'
    prefix=${1:-$HOME/.local}
    lib=$prefix/lib/bidi_edit
    record=$lib/installed
}

# ---- the installed files

find_programs() {
    if is_built bidi_edit; then take_built; return; fi
    take_ready && return
    # another status was told
    [ $? = 1 ] || exit 1
    refuse "${cause:-there is no dist/ to take them from}; tools/launcher/proving/prove.sh . bidi_edit builds the editor"
}

# ---- the record: a line `SUM PATH` for each file, `folder PATH` for each folder created, with paths below PREFIX

recorded_files() {
    [ ! -f "$record" ] || sed -n '/^folder /!s/^[^ ]* //p' "$record" | sort -u
}

recorded_folders() {
    [ ! -f "$record" ] || sed -n 's/^folder //p' "$record" | sort -u
}

# Whether a file is unchanged since its installation.
is_as_put() { # PATH
    [ -f "$prefix/$1" ] && [ ! -L "$prefix/$1" ] && grep -q -x -F -e "$(sha256sum <"$prefix/$1" | cut -c 1-64) $1" "$record"
}

# The folders to create. An installation without a record left those with the editor's own name.
new_folders() {
    while read -r path; do
        case $is_old:$path in
        1:*/bidi[_-]edit | 1:*/bidi[_-]edit/*) echo "$path" ;;
        *) [ -d "$prefix/$path" ] || echo "$path" ;;
        esac
    done <"$beside/folders"
    [ -z "$is_new" ] || echo .
}

# Writes the lists `folders` and `files` of the new tree, and the new record, all in `beside`.
write_record() {
    (cd "$beside/tree" && find . -mindepth 1 -type d) | sed 's|^\./||' | sort >"$beside/folders"
    (cd "$beside/tree" && find . -type f) | sed 's|^\./||' | sort >"$beside/files"
    (cd "$beside/tree" && find . -type f -exec sha256sum {} +) | sed 's|  \./| |' >"$beside/record"
    { recorded_folders && new_folders; } | sort -u | sed 's/^/folder /' >>"$beside/record"
}

# ---- replacement

# Requires that each file to be replaced belongs to an installation.
check_places() {
    recorded_files >"$beside/recorded"
    while read -r path; do
        place=$prefix/$path
        [ -e "$place" ] || [ -L "$place" ] || continue
        [ -L "$place" ] || [ ! -d "$place" ] || refuse "$(shown "$place") is a folder"
        [ -n "$is_old" ] || grep -q -x -F -e "$path" "$beside/recorded" ||
            refuse "$(shown "$place") is there, and no installation put it there: take it away first"
    done <"$beside/files"
}

# Renames each file into place, so that a running editor keeps its own. Meanwhile the record has the old and the new files.
exchange() {
    trap '' HUP INT TERM
    while read -r path; do mkdir -p -- "$prefix/$path"; done <"$beside/folders"
    [ ! -f "$record" ] || cat "$record" "$beside/record" >"$beside/both"
    [ ! -f "$beside/both" ] || mv -f -T -- "$beside/both" "$record"
    while read -r path; do mv -f -T -- "$beside/tree/$path" "$prefix/$path"; done <"$beside/files"
    while read -r path; do
        grep -q -x -F -e "$path" "$beside/files" || ! is_as_put "$path" || rm -- "$prefix/$path"
    done <"$beside/recorded"
    mv -f -T -- "$beside/record" "$record"
}

clean_up() {
    rm -rf -- "$beside"
    [ -z "$is_new" ] || rmdir -- "$prefix" 2>/dev/null || :
}

# Installs. `beside` is a folder in PREFIX, so that files can be renamed from there.
put_there() {
    find_programs
    # is_old: there is an installation from before there were records; is_new: PREFIX is created
    is_old='' is_new=''
    [ -f "$record" ] || [ ! -f "$lib/bidi_edit" ] || is_old=1
    [ -d "$prefix" ] || is_new=1
    mkdir -p -- "$prefix"
    beside=$(mktemp -d "$prefix/bidi-edit.XXXXXX")
    trap clean_up EXIT
    trap 'exit 1' HUP INT TERM
    fill_tree "$beside/tree"
    write_record
    check_places
    exchange
    printf '%s\n' "$(shown "$prefix/bin/bidi-edit")"
    tell_path
}

# Says whether the command bidi-edit is found, and whether it is the one that was installed.
# shellcheck disable=SC2016 # for the user's shell
tell_path() {
    places=$(CDPATH='' cd -- "$prefix/bin" && pwd)
    case :$PATH: in
    *":$places:"* | *":$prefix/bin:"*)
        found=$(command -v bidi-edit) || found=''
        # shellcheck disable=SC3013 # dash, bash and busybox have it
        if [ "$found" -ef "$prefix/bin/bidi-edit" ]; then
            echo 'bidi-edit FILE starts it'
        else
            echo "its folder is on PATH, but another bidi-edit comes first: $(shown "$found")"
        fi
        ;;
    *) printf 'its folder is not on PATH: start it by its path, or add a line to ~/.profile: PATH=$PATH:%s\n' "$(shown "$places")" ;;
    esac
}

# ---- removal

# Removes what the record has, and last the folders that are then empty.
take_away() {
    [ -f "$record" ] || refuse "there is no record of an installation in $(shown "$prefix"); where there is an old one, installing anew makes one"
    recorded_files | while read -r path; do
        if is_as_put "$path"; then
            rm -- "$prefix/$path"
        elif [ -e "$prefix/$path" ] || [ -L "$prefix/$path" ]; then
            echo "$(shown "$prefix/$path") was changed since, and stays"
        fi
    done
    folders=$(recorded_folders | sort -r)
    rm -- "$record"
    for path in $folders; do rmdir -- "$prefix/${path#.}" 2>/dev/null || :; done
    echo "bidi-edit is no longer in $(shown "$prefix")"
}

read_words "$@"
if [ -n "$is_removal" ]; then take_away; else put_there; fi
