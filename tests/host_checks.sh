# shellcheck shell=sh
# shellcheck disable=SC2034,SC2154 # words that the scripts give and take
# For the scripts that check the host. `top` is the repository. Reads the word --sanitized, sets `folder`, which is removed at the
# end and has all state, and builds the host, `built`. Exit status 77: there is no python3; 1: the host does not compile.

# shellcheck source=tests/own_state.sh
. "$top/tests/own_state.sh"

# Compiles sources, whose paths begin in host/, with --sanitized by AddressSanitizer and UBSan.
compile() { # NAME SOURCE..
    name=$1
    shift
    (
        cd "$top/host" || exit
        # shellcheck disable=SC2086 # the compiler's own options
        ${CC:-cc} -std=c11 -D_GNU_SOURCE -Wall -Wextra -Wpedantic -Wconversion -Werror -O1 -pthread \
            ${build_kind:+-g -fsanitize=address,undefined -fno-sanitize-recover=all} -o "$folder/$name" "$@"
    )
}

# Prints the host's sources without its main function.
sources() {
    (cd "$top/host" && for file in *.c; do [ "$file" = main.c ] || echo "$file"; done)
}

# Compiles a program of tests/host with sources of the host, and runs it.
try() { # NAME SOURCE..
    tried=$1
    shift
    compile "$tried" "../tests/host/$tried.c" "$@" && "$folder/$tried"
}

# Runs a function, and prints the sum of all totals that it printed, as the last line. Its status says whether nothing failed. A part that
# did not come to its totals is told, and counts as one that failed.
add_up() { # FUNCTION WORD..
    { "$@" || : >"$folder/failed"; } | tee "$folder/said"
    if [ -e "$folder/failed" ] && ! grep -q '^[0-9]* passed, [1-9][0-9]* failed' "$folder/said"; then
        echo 'FAILS a part of this check did not come to its end' | tee -a "$folder/said"
        echo '0 passed, 1 failed' >>"$folder/said"
    fi
    awk '/^[0-9]+ passed, [0-9]+ failed/ { passed += $1; failed += $3; skipped += $5 }
        END { print passed + 0 " passed, " failed + 0 " failed" (skipped ? ", " skipped " skipped" : "") }' "$folder/said"
    [ ! -e "$folder/failed" ]
}

build_kind=''
if [ "${1:-}" = --sanitized ]; then
    build_kind=sanitized
    shift
fi
command -v python3 >/dev/null || {
    echo 'skipped: there is no python3'
    exit 77
}
folder=$(mktemp -d) || exit 1
trap 'rm -rf -- "$folder"' EXIT
trap 'exit 1' HUP INT TERM
own_state "$folder"
# shellcheck disable=SC2086 # no word without a kind
sh "$top/host/build.sh" $build_kind || exit 1
built=$top/host/out/${build_kind:+$build_kind/}bidi-edit
