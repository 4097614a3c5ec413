# shellcheck shell=sh
# shellcheck disable=SC2154 # words that check-dist.sh sets
# What scripts take from dist/, and what scripts/prove.sh tells of it, for check-dist.sh.

# Prints the program that built.sh finds, without the tree's name. rt notes its calls.
found() { # CRATE
    rm -f "$TOLD/calls"
    # shellcheck disable=SC2016 # of the inner shell
    (cd "$tree" && PATH=$folder/bin:$PATH sh -c 'top=$1 && . "$1/tests/built.sh" && find_built "$2" && echo "${program#"$1/"}"' check "$tree" "$1") 2>/dev/null
}

check_found() { # NAME
    same "$1, from dist/" "$(found "$player")" "out/start/lib/bidi_edit/$player"
    build_all
    same "$1, built here" "$(found "$player")" "crates/$player/out/$player"
    rm -r "$tree/crates/$player/out"
    echo '// more' >>"$tree/crates/low/proofs/deep/Proof.antt"
    same "$1, a changed proof" "$(found "$player")" ''
    same "$1, a changed proof: rt is asked" "$(cat "$TOLD/calls")" run
    same "$1, a program that dist/ has not" "$(found unused)" ''
    same "$1, a program that dist/ has not: rt is asked" "$(cat "$TOLD/calls")" run
    fresh_tree
    check_measuring "$1"
}

# The scripts that measure other editors too take the ready programs. Here they go no further, since there is no Python.
check_measuring() { # NAME
    make_path python3
    for script in compare-editors time-pastes; do
        same "$1, $script.sh" "$(PATH=$folder/path sh "$tree/tools/$script.sh" 2>&1)" 'skipped: there is no python3'
    done
    echo '// more' >>"$tree/crates/low/src/main.rt"
    same "$1, of changed sources" "$(PATH=$folder/path sh "$tree/tools/time-pastes.sh" 2>&1)" \
        'skipped: the program is not built, and the sources are not those that dist/ was built from (./bidi-edit FILE builds it)'
}

check_installing() { # NAME
    (cd "$tree" && sh tools/install.sh "$folder/installed") >"$folder/said" 2>&1
    same "$1, status" "$? $(head -n 1 "$folder/said")" "0 $folder/installed/bin/bidi-edit"
    same "$1, it runs" "$("$folder/installed/bin/bidi-edit" note | paste -s -d '|')" 'host note|bidi_edit runs'
    same "$1, what it notes" "$(sed 's/ [0-9a-f]\{64\}$/ SUM/' "$folder/installed/lib/bidi_edit/kit" | paste -s -d '|')" \
        "a toolchain|version $base_version|programs of dist/|sources of dist/ SUM"
    echo '// more' >>"$tree/crates/low/src/main.rt"
    (cd "$tree" && sh tools/install.sh "$folder/elsewhere") >"$folder/said" 2>&1
    same "$1, changed sources" "$? $(grep -c 'the sources are not those that dist/ was built from' "$folder/said") $(ls "$folder/elsewhere" 2>/dev/null)" '1 1 '
    check_installing_built "$1"
}

# Makes a folder with a toolchain that cannot be run.
make_broken_kit() {
    mkdir -p "$folder/none"
    printf '#!/bin/sh\nexit 1\n' >"$folder/none/rt"
    chmod +x "$folder/none/rt"
}

# Installs what is built in crates/, with a toolchain that cannot be run, whose version was noted at the build or was not.
check_installing_built() { # NAME
    build_all
    make_broken_kit
    for note in '' 'a noted toolchain'; do
        [ -z "$note" ] || echo "$note" >"$tree/crates/bidi_edit/out/kit"
        (cd "$tree" && PATH=$folder/none:$PATH sh tools/install.sh "$folder/built") >"$folder/said" 2>&1
        same "$1, built here${note:+, $note}" "$? $(head -n 1 "$folder/said") $(sed 's/ [0-9a-f]\{64\}$/ SUM/' "$folder/built/lib/bidi_edit/kit" | paste -s -d '|')" \
            "0 $folder/built/bin/bidi-edit ${note:-unknown}|version $base_version|programs built here, the same as in dist/|sources of dist/ SUM"
    done
}

# Runs prove.sh, whose failures and last line go to `said`.
prove() {
    (cd "$tree" && PATH=$folder/bin:$PATH sh scripts/prove.sh) >"$folder/all" 2>&1
    status=$?
    grep -e '^FAILS' -e '^[0-9]* passed' "$folder/all" | sed "s/'[0-9a-f]\{64\}'/SUM/g; s/: it is [0-9a-f]*$//" >"$folder/said"
}

# scripts/prove.sh notes the programs that it proved, and fails where dist/ has others.
check_prove() { # NAME
    prove
    same "$1, all is the same" "$status $(cat "$folder/said")" '0 22 passed, 0 failed'
    same "$1, the programs are noted" "$(sed 's/ [0-9a-f]*$//' "$tree/out/proved" | paste -s -d ,)" \
        'sources,program bidi_edit,program bidi_print,program '"$player"
    make_dist
    same "$1, dist/ is made of these" "$status $(diff -r "$tree/dist" "$folder/first/dist")" '0 '
    fresh_tree
    cp "$TOLD/built/bidi_print" "$folder/kept"
    echo x >>"$TOLD/built/bidi_print"
    prove
    same "$1, another program" "$status $(sed 's/: [^:]*differ.*//; s/: cmp:.*//' "$folder/said" | paste -s -d '|')" \
        '1 FAILS bidi_print in dist/, the same as built here|21 passed, 1 failed'
    rm "$TOLD/built/bidi_print" "$tree/crates/bidi_print/out/bidi_print"
    prove
    same "$1, a program that is not left" "$status $(sed 's/, since.*//' "$folder/said" | head -n 1)" '1 FAILS bidi_print in dist/: skipped'
    mv "$folder/kept" "$TOLD/built/bidi_print"
    echo '// more' >>"$tree/crates/low/src/main.rt"
    prove
    same "$1, a source" "$status $(paste -s -d '|' "$folder/said")" \
        '1 FAILS dist/SOURCES, the digest of the sources: SUM, and not SUM|21 passed, 1 failed'
    cp "$folder/first/crates/low/src/main.rt" "$tree/crates/low/src/main.rt"
    change_byte bidi-edit-x86_64-linux.tar.gz
    prove
    same "$1, a byte of the archive" "$status $(head -n 1 "$folder/said")" '1 FAILS dist/bidi-edit-x86_64-linux.tar.gz, its sum in dist/SHA256SUMS'
    fresh_tree
    sed -i "s/^\(program $player\) ./\1 g/" "$tree/dist/SOURCES"
    prove
    same "$1, a sum" "$status $(sed 's/:.*//' "$folder/said" | paste -s -d '|')" \
        '1 FAILS dist/SOURCES, its sum in dist/SHA256SUMS|FAILS '"$player"', its sum in dist/SOURCES|20 passed, 2 failed'
    fresh_tree
    : >"$TOLD/bad"
    rm -r "$tree/dist"
    prove
    same "$1, a failed proof, no dist/" "$status $(paste -s -d '|' "$folder/said")" \
        '1 FAILS dist/: it is missing: tools/make-dist.sh makes it|7 passed, 2 failed'
    same "$1, a failed proof is not noted" "$([ -e "$tree/out/proved" ] && echo noted)" ''
}

# With another version of the toolchain, scripts/prove.sh takes another program as skipped if both have one logic; `a toolchain`, which
# built dist/, has another one than kit-1.
check_versions() { # NAME
    echo 'kit-1 logic 1a2b' >"$TOLD/version"
    prove
    same "$1, another logic" "$status $(paste -s -d '|' "$folder/said")" \
        "1 FAILS dist/SOURCES, the toolchain's logic: 'a toolchain', and not '1a2b'|21 passed, 1 failed"
    make_dist
    echo 'kit-2 logic 1a2b' >"$TOLD/version"
    prove
    same "$1, the same programs" "$status $(cat "$folder/said")" '0 22 passed, 0 failed'
    cp "$TOLD/built/bidi_print" "$folder/kept"
    echo x >>"$TOLD/built/bidi_print"
    prove
    same "$1, another program" "$status $(cat "$folder/said")" '0 21 passed, 0 failed, 1 skipped'
    same "$1, the cause" "$(sed -n 's/^skipped //p' "$folder/all")" \
        'bidi_print in dist/, the same as built here: it differs, but was built by kit-1 logic 1a2b, and this is kit-2 logic 1a2b'
    mv "$folder/kept" "$TOLD/built/bidi_print"
    rm "$TOLD/version"
}
