#!/bin/sh
# try-mutants.sh [--all | CRATE..]: tries whether the contracts of crates refuse their mutants, the files mutants/CRATE/NAME.edit.
# It runs `rt must-fail` over a copy of the sources, with each crate's mutants in its folder must-fail, and says for each mutant:
# refused, NOT REFUSED or BAD (it cannot be applied or compiled, or was not tried). By default it tries the crates that have changed
# since all of their mutants were refused, by mutants/TRIED, and writes there those of which that is true now. A crate with mutants
# is proved once more for them, which takes minutes. Exit status 1: a mutant is not refused; 2: wrong words.
set -u

top=$(CDPATH='' cd -- "$(dirname "$0")/.." && pwd)
# shellcheck source=tools/mutants_digest.sh
. "$top/tools/mutants_digest.sh"

case ${1:-} in
--all)
    [ $# = 1 ] || { echo 'usage: scripts/try-mutants.sh [--all | CRATE..]' >&2 && exit 2; }
    crates=$(mutated_crates)
    ;;
-*) echo 'usage: scripts/try-mutants.sh [--all | CRATE..]' >&2 && exit 2 ;;
'') crates=$(changed_crates) ;;
*) crates=$* ;;
esac
for crate in $crates; do
    mutated_crates | grep -q -x -F -e "$crate" || { echo "mutants/$crate has no mutant" >&2 && exit 2; }
done
[ -n "$crates" ] || {
    echo 'no crate with mutants has changed since they were refused (mutants/TRIED); --all tries all'
    exit 0
}

room=$(mktemp -d) || exit 1
trap 'rm -rf "$room"' EXIT
trap 'exit 1' HUP INT TERM

# Copies the sources of all crates, since those that are tried stand on others, and places the mutants.
lay_out() {
    mkdir "$room/copy"
    tar -c -C "$top" --exclude=out -f - crates mutants crates.txt HANDLES | tar -x -C "$room/copy" -f - || exit 1
    for crate in $crates; do
        mkdir -p "$room/copy/crates/$crate/must-fail"
        cp "$room/copy/mutants/$crate"/*.edit "$room/copy/crates/$crate/must-fail/"
    done
}

# Prints what rt said of a mutant: refused, NOT REFUSED or BAD.
verdict_of() { # CRATE EDIT
    line=$(grep -F -e "must-fail $1/$2: " "$room/said" | tail -n 1)
    case ${line#*"must-fail $1/$2: "} in
    'refused'*) echo refused ;;
    'NOT REFUSED'*) echo 'NOT REFUSED' ;;
    *) echo BAD ;;
    esac
}

# Tells each mutant's verdict, and counts.
judge() { # CRATE
    is_refused=1
    for edit in "$top/mutants/$1"/*.edit; do
        verdict=$(verdict_of "$1" "${edit##*/}")
        echo "$verdict $1 $(basename "$edit" .edit)"
        if [ "$verdict" = refused ]; then
            passed=$((passed + 1))
        else
            failed=$((failed + 1)) is_refused=''
        fi
    done
}

# The digests are those of what is copied, whatever is edited meanwhile.
lay_out
for crate in $crates; do
    echo "$crate $(top=$room/copy && digest_of "$crate")"
done >"$room/digests"
# shellcheck disable=SC2086 # names of crates
{ cd "$room/copy" && rt must-fail $crates 2>&1; } | tee "$room/said"
passed=0 failed=0
while read -r crate digest; do
    judge "$crate"
    if [ -n "$is_refused" ]; then note_tried "$crate" "$digest"; else note_tried "$crate"; fi
done <"$room/digests"
echo "$passed passed, $failed failed"
[ "$failed" = 0 ]
