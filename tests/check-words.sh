#!/bin/sh
# check-words.sh: checks that the trusted definitions listed in docs/PROMISES.md use only definitions above them in the list. The block
# ```words has all that the headline's contracts name, in at most 90 files and 7,700 lines; the block ```more words has what the other
# contracts of the world and of runs name. The last line has the totals. Exit status 1: that is not so, or a listed file is missing.
set -eu

cd "$(dirname "$0")/.."

# Prints the definition files of a block in reading order. A line of the block is a crate and names of files in its specs/.
listed_files() { # BLOCK
    awk -v start="\`\`\`$1" '$0 == start { inside = 1; next } /^```$/ { inside = 0 }
        inside { for (i = 2; i <= NF; i++) print $1 "/specs/" $i ".antt" }' docs/PROMISES.md
}

# Prints the definition file of a path, such as `bx_levels resolve.Levels`. Types of src/ (`declared`) and crates of the toolchain have
# none.
file_of_path() { # CRATE PATH
    case $2 in declared.*) return ;; esac
    [ ! -d "crates/$1" ] || echo "$1/specs/$(echo "$2" | tr . /).antt"
}

# Prints the definition files that a file imports.
imported_files() { # FILE
    sed -n 's/^ *\(ghost \|pub \)*use Rattle\.\([a-z_]*\)\.specs\.\([a-z_.]*[A-Za-z0-9]*\).*/\2 \3/p' "$1" | sort -u |
        while read -r crate path; do file_of_path "$crate" "$path"; done
}

# Prints the clauses of a function, those with these names or all.
clauses() { # FILE FUNCTION [NAMES]
    awk -v function_name="$2" -v names="${3-}" '
        $0 ~ "fn " function_name "[<(]" { inside = 1 }
        inside && /^ *\{$/ { exit }
        inside && $1 == "ensures" { taken = names == "" || index(" " names " ", " " $2 " ") }
        inside && taken
    ' "$1"
}

# Prints the definition files whose words stand in clauses of a file.
files_of_clauses() { # FILE CLAUSES
    sed -n 's/^ *ghost use Rattle\.\([a-z_]*\)\.specs\.\([a-z_.]*[A-Za-z0-9]*\)\.{\(.*\)};$/\1 \2 \3/p' "$1" |
        while read -r crate path words; do
            [ -d "crates/$crate" ] || continue
            pattern=$(echo "$words" | sed 's/, /|/g')
            ! echo "$2" | grep -qwE "$pattern" || file_of_path "$crate" "$path"
        done
}

# Prints a fault for each of these definition files that is not among those listed.
not_listed() { # WHO LISTED FILES
    for other in $3; do
        case " $2 " in
            *" $other "*) ;;
            *) echo "$1 uses $other, which is not listed above it" ;;
        esac
    done
}

# Prints all faults.
faults() {
    above=
    for file in $headline $more; do
        if [ -f "crates/$file" ]; then
            not_listed "$file" "$above" "$(imported_files "crates/$file")"
        else
            echo "$file is listed and not there"
        fi
        above="$above $file"
    done
    world=crates/bx_world/src/world.rt playing=crates/bx_world/src/playing.rt
    not_listed World::open "$headline" "$(files_of_clauses $world "$(clauses $world open)")"
    not_listed World::play "$headline" "$(files_of_clauses $playing "$(clauses $playing play 'plays headline')")"
    for source in bx_world/src/world bx_world/src/stepping bx_world/src/playing bx_world/src/laws bx_session/src/running; do
        not_listed "$source.rt" "$above" "$(imported_files "crates/$source.rt")"
    done
    [ "$files" -le 90 ] && [ "$lines" -le 7700 ] || echo "the headline's list has more than 90 files or 7,700 lines"
}

headline=$(listed_files words | tr '\n' ' ')
more=$(listed_files 'more words')
[ -n "$headline" ] || {
    echo 'nothing is listed in docs/PROMISES.md' >&2
    echo '0 passed, 1 failed'
    exit 1
}
files=$(echo "$headline" | wc -w)
# shellcheck disable=SC2086 # a list of files
lines=$(cd crates && cat $headline 2>/dev/null | wc -l)
found=$(faults)
all=$(find crates -path '*/out' -prune -o -path '*/specs/*' -name '[A-Z]*.antt' ! -name Lib.antt -print | wc -l)
echo "$files of $all files of definitions are listed for the headline, $lines lines"
[ -z "$found" ] || {
    echo "$found" >&2
    echo '0 passed, 1 failed'
    exit 1
}
echo '1 passed, 0 failed'
