# shellcheck shell=sh
# shellcheck disable=SC2034,SC2154 # words that the scripts give and take
# Built programs, for scripts that run one. `top` is the repository.

# shellcheck source=tools/launcher/dist.sh
. "$top/tools/launcher/dist.sh"

# Whether a program has the stamp that the toolchain writes after a proved build. The stamp ends with the program's checksum.
is_proved() { # PROGRAM
    [ -x "$1" ] && [ -f "$1.stamp" ] || return 1
    case $(cat "$1.stamp") in *"$(sha256sum <"$1" | cut -c 1-64)") ;; *) return 1 ;; esac
}

# Whether a file or folder of a crate, or of one below it, is newer than the stamp. Not every crate has specs and proofs.
# shellcheck disable=SC2046 # names of crates have no blanks
has_newer_source() { # CRATE STAMP
    [ -n "$(cd "$top/crates" && find ../crates.txt $(crates_below "$1" | sed 's|.*|&/src &/specs &/proofs|') -newer "$2" 2>/dev/null)" ]
}

# Sets `program` to the crate's program, proved and built from these sources. It takes what an earlier `rt run` built, if nothing has
# changed since. Otherwise it takes the program in dist/, if dist/ was made from these sources. The last resort is a new `rt run`, which
# needs the toolchain and may take minutes.
find_built() { # CRATE
    program=$top/crates/$1/out/$1 cause=''
    if is_proved "$program" && ! has_newer_source "$1" "$program.stamp"; then return; fi
    if in_dist "$1" && find_start thoroughly; then
        program=$start/lib/bidi_edit/$1
        return
    fi
    # a file whose time is the moment before rt runs
    begun=$(mktemp)
    # rt runs the program, whose status and output say nothing here, once it is proved or nothing has changed
    is_run=$({ cd "$top/crates/$1" && rt run </dev/null 2>&1; } | grep -a -c "^rt: running $1;" || :)
    if [ "$is_run" != 0 ] && is_proved "$program"; then
        # rt compares contents and may have left a stamp that is older than a source
        touch -r "$begun" "$program.stamp"
        rm -f "$begun"
        return
    fi
    rm -f "$begun"
    echo "$1 was not built: see rt check${cause:+ ($cause)}" >&2
    exit 1
}
