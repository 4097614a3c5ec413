# shellcheck shell=sh
# shellcheck disable=SC2154 # words that the scripts give
# Digests of crates and their mutants, for scripts/try-mutants.sh and tests/run.sh. `top` is the repository. The file mutants/TRIED
# has a line `CRATE DIGEST` for each crate all of whose mutants were refused when its digest was this one.

# Prints the crates that have mutants.
mutated_crates() {
    for edit in "$top"/mutants/*/*.edit; do
        [ ! -e "$edit" ] || basename "${edit%/*}"
    done | uniq
}

# Prints the digest over the paths and contents of a crate's sources and mutants.
digest_of() { # CRATE
    (cd "$top" && find "crates/$1/src" "crates/$1/specs" "crates/$1/proofs" "mutants/$1" -type f 2>/dev/null | LC_ALL=C sort |
        tr '\n' '\0' | xargs -0 sha256sum | sha256sum | cut -c 1-64)
}

# Prints the crates whose digest is not that of mutants/TRIED.
changed_crates() {
    mutated_crates | while read -r crate; do
        grep -q -x -F "$crate $(digest_of "$crate")" "$top/mutants/TRIED" 2>/dev/null || echo "$crate"
    done
}

# Writes a crate's line in mutants/TRIED, or takes it away where there is no DIGEST.
note_tried() { # CRATE [DIGEST]
    {
        grep -v "^$1 " "$top/mutants/TRIED" 2>/dev/null
        [ $# = 1 ] || echo "$1 $2"
    } | LC_ALL=C sort >"$top/mutants/TRIED.new"
    mv "$top/mutants/TRIED.new" "$top/mutants/TRIED"
}
