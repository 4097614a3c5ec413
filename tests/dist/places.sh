# shellcheck shell=sh
# shellcheck disable=SC2154 # words that check-dist.sh sets
# Where the programs are unpacked, and by whom, for check-dist.sh.

# Makes a folder with all tools but these.
make_path() { # TOOL..
    rm -rf "$folder/path"
    mkdir "$folder/path"
    for tool in sh env cat cp mv rm rmdir mkdir mktemp chmod touch date uname sed grep awk sort find xargs sha256sum cut tar gzip head tail wc ls readlink \
        dirname basename tr paste nproc stty flock cc as ld collect2 id; do
        case " $* " in *" $tool "*) continue ;; esac
        ! command -v "$tool" >/dev/null || ln -s "$(command -v "$tool")" "$folder/path/$tool"
    done
}

# Without a compiler the host of the archive runs, if it is of the host's sources.
check_compiler() { # NAME
    make_path cc
    start PATH="$folder/path"
    runs "$1, none"
    same "$1, none: the host" "$(cmp "$tree/out/start/bin/bidi-edit" "$tree/out/start/lib/bidi_edit/host" 2>&1)" ''
    make_host_source "$tree/host/new.c" other
    mv "$tree/host/new.c" "$tree/host/main.c"
    start PATH="$folder/path"
    same "$1, none, and another host" "$status $(cat "$folder/said")" \
        '1 bidi-edit: there is no C compiler, and the host in dist/ was not built from the sources in host/: install a compiler (on Debian, apt install gcc libc6-dev), or undo what was changed in host/ (git status shows it)'
    rm -r "$tree/out"
    start PATH="$folder/path"
    same "$1, the same at the first start" "$status $(grep -c 'there is no C compiler' "$folder/said")" '1 1'
    nothing_beside "$1, the same" "$tree/out" ''
    cp "$folder/first/host/main.c" "$tree/host/main.c"
    printf '#!/bin/sh\nexit 1\n' >"$folder/path/cc"
    chmod +x "$folder/path/cc"
    start PATH="$folder/path"
    runs "$1, one that fails"
}

# Six starts at once: all run, and one folder stays.
start_six() { # NAME [VARIABLE=VALUE..]
    name=$1
    shift
    rm -rf "$tree/out"
    # shellcheck disable=SC2034 # counts
    for each in 1 2 3 4 5 6; do
        { env PATH="$folder/bin:$PATH" "$@" "$tree/bidi-edit" note >"$folder/said.$each" 2>&1 </dev/null; echo "$?" >>"$folder/said.$each"; } &
    done
    wait
    same "$name, all run" "$(cat "$folder"/said.? | sort | uniq -c | sed 's/^ *//' | paste -s -d '|')" '6 0|6 bidi_edit runs|6 host note'
    rm "$folder"/said.?
    nothing_beside "$name" "$tree/out" start
}

check_together() { # NAME
    start_six "$1, with flock"
    make_path flock
    start_six "$1, without flock" PATH="$folder/path"
    echo old >>"$tree/out/start/lib/bidi_edit/SOURCES"
    start
    runs "$1, an older folder"
    nothing_beside "$1, an older folder" "$tree/out" start
}

# What a killed start left goes at the next one.
check_killed() { # NAME
    mkdir -p "$tree/out/start.aB3456/tree/lib" "$tree/out/start/lib/bidi_edit"
    start
    runs "$1"
    nothing_beside "$1" "$tree/out" start
}

# Runs a start as a user who cannot write the checkout, with a home unless the first of env's WORDS takes it away.
start_other() { # WORD..
    [ "${1:-}" = -u ] || set -- HOME="$folder/other_home" "$@"
    set -- env "$@"
    other_user=$(id -u)
    if [ "$other_user" = 0 ]; then
        other_user=65534
        set -- setpriv --reuid 65534 --regid 65534 --clear-groups "$@"
    fi
    "$@" PATH="$folder/bin:$PATH" "$tree/bidi-edit" note >"$folder/said" 2>&1 </dev/null
    status=$?
}

# A user who cannot write the checkout gets the programs in their own cache, readable by nobody else. A folder of another user there is
# refused, and nothing is put into it.
check_unwritable() { # NAME
    if [ "$(id -u)" = 0 ] && ! command -v setpriv >/dev/null; then
        skip "$1" 'there is no setpriv to be another user'
        return
    fi
    chmod 755 "$folder"
    mkdir "$folder/other_home"
    [ "$(id -u)" != 0 ] || chown 65534:65534 "$folder/other_home"
    chmod -R a-w "$tree"
    chmod a+rwx "$TOLD"
    start_other
    runs "$1"
    cache=$folder/other_home/.cache/bidi_edit
    digest=$(sed -n 's/^sources //p' "$tree/dist/SOURCES")
    nothing_beside "$1" "$cache" "$digest"
    same "$1, for nobody else" "$(find "$cache" -prune -perm 700)" "$cache"
    start_other
    runs "$1, the second"
    rm -rf "$cache"
    if [ "$(id -u)" = 0 ]; then
        mkdir -m 777 "$cache"
        start_other
        same "$1, another user's folder" "$status $(cat "$folder/said")" "1 bidi-edit: dist/ cannot be unpacked in $cache: it belongs to another user"
        same "$1, nothing in it" "$(find "$cache" -mindepth 1)" ''
        rmdir "$cache"
    else
        skip "$1, another user's folder" 'only root can make one'
    fi
    start_other XDG_CACHE_HOME="$folder/other_home/own"
    same "$1, XDG_CACHE_HOME" "$status $(ls "$folder/other_home/own/bidi_edit")" "0 $digest
$digest.lock"
    check_homeless "$1"
    check_old "$1"
    same "$1, nothing in the checkout" "$([ -e "$tree/out" ] && echo out)" ''
    chmod -R u+w "$tree"
}

# Without a home that can be written, the programs are in a folder of the user's own among the temporary files.
check_homeless() { # NAME
    mkdir -m 777 "$folder/temporary"
    for home in '' /nonexistent "$tree"; do
        start_other -u HOME -u XDG_CACHE_HOME TMPDIR="$folder/temporary" ${home:+HOME="$home"}
        runs "$1, the home '${home#"$folder"/}'"
        same "$1, the home '${home#"$folder"/}': where" "$(cd "$folder/temporary" && echo *) $(find "$folder/temporary" -mindepth 1 -maxdepth 1 -perm 700 | wc -l)" \
            "bidi_edit.start.$other_user 1"
        rm -rf "$folder/temporary"/*
    done
}

# Of the folders of several checkouts, the last three stay.
check_old() { # NAME
    mkdir -p "$folder/other_home/old/bidi_edit/notes"
    for number in 1 2 3 4 5; do
        old=$(printf '%064d' "$number")
        mkdir -p "$folder/other_home/old/bidi_edit/$old/lib/bidi_edit"
        : >"$folder/other_home/old/bidi_edit/$old.lock"
        touch -d "2020-01-0$number" "$folder/other_home/old/bidi_edit/$old/lib/bidi_edit/SOURCES"
    done
    [ "$(id -u)" != 0 ] || chown -R 65534:65534 "$folder/other_home/old"
    start_other XDG_CACHE_HOME="$folder/other_home/old"
    runs "$1, among others"
    same "$1, the last three stay, and what is no such folder" "$(cd "$folder/other_home/old/bidi_edit" && printf '%s\n' * | sort | paste -s -d ' ')" \
        "$(printf '%s\n' "$(printf '%064d' 4)" "$(printf '%064d' 4).lock" "$(printf '%064d' 5)" "$(printf '%064d' 5).lock" "$digest" "$digest.lock" notes | sort | paste -s -d ' ')"
}

# A disk that has room for a part: a small file system in a name space of its own.
check_full() { # NAME
    mkdir -p "$tree/out"
    if ! unshare -m mount -t tmpfs -o size=64k none "$tree/out" 2>/dev/null; then
        skip "$1" 'no file system can be mounted here'
        return
    fi
    start
    runs "$1, on a disk with room"
    whole=$(du -s -k "$tree/out" | cut -f 1)
    rm -r "$tree/out/start"
    # the last has room for all but the host
    for size in 4 64 300 $((whole - 48)); do
        # shellcheck disable=SC2016 # of the inner shell
        unshare -m sh -c 'mount -t tmpfs -o size='"$size"'k none "$1/out" && PATH=$2:$PATH "$1/bidi-edit" note >"$3" 2>&1 </dev/null
            echo $? >>"$3"
            find "$1/out" -mindepth 1 ! -name "*.lock"' check "$tree" "$folder/bin" "$folder/said" >"$folder/left"
        same "$1, $size KB of $whole" "$(paste -s -d '|' "$folder/said")" "bidi-edit: dist/ cannot be unpacked in $tree/out: No space left on device|1"
        same "$1, $size KB: nothing is left" "$(cat "$folder/left")" ''
    done
}
