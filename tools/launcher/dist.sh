# shellcheck shell=sh
# shellcheck disable=SC2034,SC2154 # words that the scripts give and take
# The ready programs in dist/: whether they belong to these sources, and the folder that they run from. For the script bidi-edit
# and those in scripts/, tests/ and tools/. `top` is the repository.
#
# dist/SOURCES has the lines `toolchain WORDS`, `sources DIGEST`, `host DIGEST` and `program NAME SUM`.

# shellcheck source=tools/launcher/names.sh
. "$top/tools/launcher/names.sh"
# shellcheck source=tools/launcher/waiting.sh
. "$top/tools/launcher/waiting.sh"
# shellcheck source=tools/launcher/unpack.sh
. "$top/tools/launcher/unpack.sh"

# the only list of them; the last plays schedules for the tests
dist_player=player
dist_programs="bidi_edit bidi_print $dist_player"
dist_archive=bidi-edit-x86_64-linux.tar.gz

# ---- digests

# Prints these crates and the repository's crates below them, by crates.txt, whose lines are `CRATE [words]: CRATES BELOW`.
crates_below() { # CRATE..
    awk -v crates="$*" '
        !/^#/ && split($0, part, ":") == 2 { split(part[1], name, " "); below[name[1]] = part[2] }
        function visit(name,    deps, count, i) {
            if (!(name in below) || name in is_visited) return
            is_visited[name] = 1
            print name
            count = split(below[name], deps, " ")
            for (i = 1; i <= count; i++) visit(deps[i])
        }
        END { count = split(crates, wanted, " "); for (i = 1; i <= count; i++) visit(wanted[i]) }' "$top/crates.txt"
}

# Prints one digest of all that the programs are proved and built from: the lines of crates.txt for their crates and for all below
# them, and path and content of each .rt and .antt file in the folders src, specs and proofs of these crates. The toolchain reads no
# other file there, so what editors leave beside them does not count.
sources_digest() {
    # shellcheck disable=SC2086 # split into words
    below=$(crates_below $dist_programs)
    (
        cd "$top/crates" || exit
        {
            printf '%s\n' "$below" | awk 'NR == FNR { wanted[$1] = 1; next } { name = $1; sub(/:.*/, "", name) } name in wanted' - ../crates.txt | LC_ALL=C sort
            # shellcheck disable=SC2046 # names of crates have no blanks
            find $(printf '%s\n' "$below" | sed 's|.*|&/src &/specs &/proofs|') \( -name '*.rt' -o -name '*.antt' \) ! -type d -print0 2>/dev/null |
                LC_ALL=C sort -z | xargs -0 -r sha256sum
        } | sha256sum | cut -c 1-64
    )
}

# Prints the digest of the host's sources.
host_digest() {
    (cd "$top/host" && sha256sum -- *.c *.h | LC_ALL=C sort -k 2 | sha256sum | cut -c 1-64)
}

# Prints what dist/SOURCES notes.
noted() { # WORD..
    sed -n "s/^$* //p" "$top/dist/SOURCES"
}

# ---- the checks

# Whether dist/ has the program of this crate.
in_dist() { # CRATE
    case " $dist_programs " in *" $1 "*) ;; *) return 1 ;; esac
}

# Whether a file of dist/ has the sum that SHA256SUMS notes.
has_sum() { # NAME
    sum=$(cd "$top/dist" && sha256sum -- "$1" 2>/dev/null) && grep -q -x -F -e "$sum" "$top/dist/SHA256SUMS" 2>/dev/null
}

# Whether the programs are for this machine, and belong to the sources. Else sets `cause`.
suits() {
    machine=$(uname -s -m)
    [ "$machine" = 'Linux x86_64' ] || {
        cause="the programs in dist/ are for Linux on x86_64, and this is ${machine% *} on ${machine##* }"
        return 1
    }
    [ "$(sources_digest)" = "$(noted sources)" ] || {
        cause='the sources are not those that dist/ was built from'
        return 1
    }
    for name in "$dist_archive" SOURCES; do
        has_sum "$name" || {
            cause="dist/$name does not match its checksum in dist/SHA256SUMS"
            return 1
        }
    done
}

# ---- the folder that the programs run from, as an installation has it, with bin/bidi-edit and lib/bidi_edit

# Whether dist/ as it stands is unpacked there.
is_unpacked() { # FOLDER
    [ -f "$1/lib/bidi_edit/SOURCES" ] && [ "$(cat "$1/lib/bidi_edit/SOURCES")" = "$(cat "$top/dist/SOURCES")" ]
}

# Whether a start need not check further: since the unpacking, git has replaced no file of the host, and no table and no source of a
# program was written. The folders `proofs` are left out, since looking through them takes longer than everything else.
is_ready() { # FOLDER
    # shellcheck disable=SC3013 # dash, bash and busybox have it
    [ "$1/bin/bidi-edit" -nt "$top/host" ] && is_unpacked "$1" &&
        [ -z "$(cd "$top" && find crates.txt data crates/*/src crates/*/specs -newer "$1/lib/bidi_edit/SOURCES" 2>/dev/null)" ]
}

# Whether a folder can be written, or made.
can_have() { # FOLDER
    above=$1
    while [ -n "$above" ] && [ ! -e "$above" ]; do above=${above%/*}; done
    [ -d "${above:-/}" ] && [ -w "${above:-/}" ]
}

# Sets `place` to the folder: out/start, or one in the user's cache where the checkout cannot be written. Where there is no cache, or
# none can be made, it is in a folder of the user's own among the temporary files.
find_place() {
    place=$top/out/start
    ! can_have "$top/out" || return 0
    cache=${XDG_CACHE_HOME:-}
    case $cache in /*) ;; *) cache=${HOME:+$HOME/.cache} ;; esac
    if [ -n "$cache" ] && can_have "$cache/bidi_edit"; then
        place=$cache/bidi_edit/$(noted sources)
        return
    fi
    case ${TMPDIR:-} in /*) place=$TMPDIR ;; *) place=/tmp ;; esac
    place=$place/bidi_edit.start.$(id -u)/$(noted sources)
}

# Whether the place is in the checkout, or in a folder that no other user made.
is_own_place() {
    # shellcheck disable=SC3067 # dash, bash and busybox have it
    [ "$place" = "$top/out/start" ] || { [ -O "${place%/*}" ] && [ ! -L "${place%/*}" ]; }
}

# Requires the tools by which dist/ is compared with the sources and unpacked.
need_tools() {
    for tool in sha256sum awk find sort xargs tar gzip; do
        command -v "$tool" >/dev/null || {
            say_fault "there is no $tool, which a start from dist/ needs: install it (on Debian, apt install coreutils mawk findutils tar gzip)"
            return 2
        }
    done
}

# Sets `start` to the folder that the programs of dist/ run from, after unpacking them if need be. With the word `thoroughly` it looks
# at each source. Status 1: they are not for this tree or machine, as `cause` says, which is empty where there is no dist/; 2: they
# cannot be unpacked, as a line on standard error says.
find_start() { # [thoroughly]
    cause='' start=$top/out/start
    [ -f "$top/dist/SOURCES" ] || return 1
    if [ $# = 0 ] && is_ready "$start"; then return 0; fi
    find_place
    if [ $# = 0 ] && is_own_place && is_ready "$place"; then
        start=$place
        return 0
    fi
    need_tools || return
    # before the sources are read, so that what is written meanwhile is newer
    begun=$(TZ=UTC0 date +%Y%m%d%H%M.%S)
    suits || return
    prepare "$@"
}
