#!/bin/sh
# check-c.sh: runs gcc -fanalyzer, clang-tidy and cppcheck over each file of the host and of its tests. They must tell nothing. It takes
# two minutes of processor time, on all processors. A tool that is missing is skipped. It also checks that no file of the host calls one
# that docs/ARCHITECTURE.md lists above it or beside it. The last line has the totals, in which a file counts once for each tool. Exit
# status 1: a tool tells something; 77: none of them is there.
set -u

top=$(CDPATH='' cd -- "$(dirname -- "$0")/.." && pwd)
cd "$top" || exit 1
# shellcheck source=tests/report.sh
. "$top/tests/report.sh"
room=$(mktemp -d) || exit 1
trap 'rm -rf -- "$room"' EXIT
trap 'exit 1' HUP INT TERM
passed=0 failed=0 skipped=0
options='-std=c11 -D_GNU_SOURCE -Wall -Wextra -Wpedantic -Wconversion'

# Runs a tool over each file, in a process of its own: in a second file clang-tidy no longer knows that va_start begins a list. The
# line of words has FILE in the file's place.
check() { # TOOL LINE
    command -v "$1" >/dev/null || {
        skipped=$((skipped + 1))
        echo "skipped $1: it is not installed"
        return
    }
    # shellcheck disable=SC2016 # of the inner shell
    printf '%s\0' host/*.c tests/host/*.c | xargs -0 -n 1 -P "$(nproc 2>/dev/null || echo 1)" sh -c '
        told=$0/$(basename "$2")
        line=${1%FILE*}$2${1#*FILE}
        $line >"$told" 2>&1 && rm "$told"' "$room" "$2"
    for file in host/*.c tests/host/*.c; do
        told=$room/$(basename "$file")
        [ ! -e "$told" ]
        report "$1, $file" $? "$(cat "$told" 2>/dev/null)"
        rm -f "$told"
    done
}

# Prints the lines of the list of layers, the highest first.
listed_layers() {
    awk '$0 == "```layers of the host" { inside = 1; next } /^```$/ { inside = 0 } inside' docs/ARCHITECTURE.md
}

# Prints each use of a name of another file that is not below: `FILE uses NAME of FILE`. Also each file that is not listed.
wrong_uses() {
    listed_layers >"$room/layers"
    (cd host && for file in *.c; do nm -A "$room/${file%.c}.o"; done) | sed "s|^$room/\([a-z_]*\)\.o:|\1 |" | awk '
        NR == FNR { for (i = 1; i <= NF; i++) layer[$i] = FNR; next }
        NF == 4 && $3 ~ /[TDBRC]/ { home[$4] = $1 }
        NF == 3 && $2 == "U" { uses[$1, $3] = $1; name[$1, $3] = $3 }
        { files[$1] }
        END {
            for (use in uses) {
                to = home[name[use]]
                if (to != "" && to != uses[use] && layer[to] <= layer[uses[use]]) print uses[use] " uses " name[use] " of " to
            }
            for (file in files) if (!(file in layer)) print file " is not listed"
        }' "$room/layers" -
}

check_layers() {
    if ! command -v gcc >/dev/null || ! command -v nm >/dev/null; then
        skipped=$((skipped + 1))
        echo 'skipped layers: there is no gcc or no nm'
        return
    fi
    for file in host/*.c; do gcc -std=c11 -D_GNU_SOURCE -c -o "$room/$(basename "$file" .c).o" "$file"; done
    wrong=$(wrong_uses)
    [ -z "$wrong" ]
    report layers $? "$wrong"
}

check_layers
check gcc "gcc $options -Werror -O2 -fanalyzer -c -o /dev/null FILE"
check clang-tidy "clang-tidy --quiet --config-file=host/.clang-tidy --warnings-as-errors=* FILE -- $options"
check cppcheck "cppcheck --enable=warning,style,performance,portability --error-exitcode=1 --quiet --std=c11 -D_GNU_SOURCE FILE"
echo "$passed passed, $failed failed, $skipped skipped"
[ "$failed" = 0 ] || exit 1
[ "$passed" -gt 0 ] || exit 77
