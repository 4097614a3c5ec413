# shellcheck shell=sh
# shellcheck disable=SC2154 # words that check-dist.sh sets
# How dist/ is made, and starts from it, for check-dist.sh.

make_dist() {
    (cd "$tree" && PATH=$folder/bin:$PATH sh tools/make-dist.sh) >"$folder/said" 2>&1
    status=$?
}

# make-dist.sh takes programs that are proved and built from the sources as they stand, here or in dist/.
check_making() { # NAME
    check_making_again "$1"
    build_all
    make_dist
    cmp "$tree/dist/bidi-edit-x86_64-linux.tar.gz" "$folder/first/dist/bidi-edit-x86_64-linux.tar.gz" >>"$folder/said" 2>&1
    same "$1, the same archive from the same programs" "$status $?" '0 0'
    same "$1, the sums" "$(cd "$tree/dist" && sha256sum -c SHA256SUMS | paste -s -d ,)" 'SOURCES: OK,bidi-edit-x86_64-linux.tar.gz: OK'
    echo '// more' >>"$tree/crates/low/proofs/deep/Proof.antt"
    make_dist
    same "$1, a newer source" "$status $(cat "$folder/said")" \
        "1 make-dist.sh: bidi_edit is not proved and built from these sources, and $other_sources"
    touch "$tree"/crates/*/out/*.stamp
    echo 'echo other' >>"$tree/crates/bidi_print/out/bidi_print"
    make_dist
    same "$1, a program that is not that of its stamp" "$status $(cat "$folder/said")" \
        "1 make-dist.sh: bidi_print is not proved and built from these sources, and $other_sources"
    same "$1, dist/ is as it was" "$(diff -r "$tree/dist" "$folder/first/dist")" ''
}

# Where nothing is built, it takes the programs of dist/ again, without the toolchain, if they are of these sources.
check_making_again() { # NAME
    other_sources='the sources are not those that dist/ was built from: scripts/prove.sh proves and builds all'
    make_dist
    same "$1, nothing is built" "$status $(diff -r "$tree/dist" "$folder/first/dist")" '0 '
    rm "$tree/crates/low/proofs/deep/Proof.antt"
    make_dist
    same "$1, nothing is built, and a changed source" "$status $(cat "$folder/said")" "1 make-dist.sh: bidi_edit is not built, and $other_sources"
    cp "$folder/first/crates/low/proofs/deep/Proof.antt" "$tree/crates/low/proofs/deep/"
    change_byte bidi-edit-x86_64-linux.tar.gz
    make_dist
    same "$1, nothing is built, and another archive" "$status $(cat "$folder/said")" \
        '1 make-dist.sh: bidi_edit is not built, and dist/bidi-edit-x86_64-linux.tar.gz does not match its checksum in dist/SHA256SUMS: scripts/prove.sh proves and builds all'
    rm -r "$tree/dist"
    make_dist
    same "$1, nothing is built, and no dist/" "$status $(cat "$folder/said")" '1 make-dist.sh: bidi_edit is not built: scripts/prove.sh proves and builds all'
    fresh_tree
}

# After a change of the host alone, dist/ is made of the new host and the old programs, in a checkout where nothing is built, with a
# toolchain that cannot be run, and a start without a compiler runs the new host.
check_host_alone() { # NAME
    make_host_source "$tree/host/main.c" other
    make_broken_kit
    (cd "$tree" && PATH=$folder/none:$PATH sh tools/make-dist.sh) >"$folder/said" 2>&1
    same "$1, status" "$? $(grep -c make-dist "$folder/said")" '0 0'
    same "$1, its programs" "$(grep -v '^host ' "$tree/dist/SOURCES")" "$(grep -v '^host ' "$folder/first/dist/SOURCES")"
    same "$1, another digest" "$(cmp -s "$tree/dist/SOURCES" "$folder/first/dist/SOURCES" || echo another)" another
    make_path cc
    start PATH="$folder/path"
    same "$1, a start without a compiler" "$status $(paste -s -d '|' "$folder/said")" '0 other note|bidi_edit runs'
    prove
    same "$1, prove.sh finds dist/ right" "$status $(cat "$folder/said")" '0 22 passed, 0 failed'
}

# Prints the times of the tables that were unpacked, by which a session knows them.
table_times() {
    stat -c '%n %y' "$tree"/out/start/share/bidi_edit/*.txt
}

# The first start unpacks, and a later one neither reads the sources nor compiles.
check_start() { # NAME
    start
    runs "$1, the first"
    nothing_beside "$1" "$tree/out" start
    same "$1, its files" "$(cd "$tree/out/start" && find . -type f | sort | sed 's|^\./||' | paste -s -d ' ')" \
        "bin/bidi-edit lib/bidi_edit/SOURCES lib/bidi_edit/bidi_edit lib/bidi_edit/bidi_print lib/bidi_edit/host lib/bidi_edit/kit \
lib/bidi_edit/$player share/bidi_edit/ArabicShaping.txt share/bidi_edit/BidiBrackets.txt share/bidi_edit/BidiMirroring.txt \
share/bidi_edit/DerivedBidiClass.txt share/bidi_edit/UnicodeData.txt"
    same "$1, the toolchain" "$(cat "$tree/out/start/lib/bidi_edit/kit")" 'a toolchain'
    same "$1, compiled here" "$(cmp -s "$tree/out/start/bin/bidi-edit" "$tree/out/start/lib/bidi_edit/host" || echo compiled)" compiled
    # a source of the same second as the start counts as newer
    touch "$tree/out/start/lib/bidi_edit/SOURCES"
    mkdir "$folder/noting"
    for tool in sha256sum cc tar; do
        # shellcheck disable=SC2016 # of the stand-in
        printf '#!/bin/sh\necho %s >>"$TOLD/tools"\n' "$tool" >"$folder/noting/$tool"
        chmod +x "$folder/noting/$tool"
    done
    start PATH="$folder/noting:$PATH"
    runs "$1, the second"
    same "$1, the second: neither sums nor compiler" "$(cat "$TOLD/tools" 2>/dev/null)" ''
    times=$(table_times)
    make_host_source "$tree/host/new.c" other
    mv "$tree/host/new.c" "$tree/host/main.c"
    start
    same "$1, another host" "$status $(head -n 1 "$folder/said")" '0 other note'
    same "$1, another host: the tables have their times" "$(table_times)" "$times"
    echo '# more' >>"$tree/data/BidiBrackets.txt"
    touch -d '1 hour' "$tree/data/BidiBrackets.txt"
    start
    same "$1, another table" "$status $(tail -n 1 "$tree/out/start/share/bidi_edit/BidiBrackets.txt")" '0 # more'
    build_all
    echo 'echo built' >"$tree/crates/bidi_edit/out/bidi_edit"
    start
    test -x "$tree/host/out/bidi-edit"
    report "$1, programs that are built here come first" $? "$(cat "$folder/said")"
    same "$1, the toolchain is not asked" "$(cat "$TOLD/calls" 2>/dev/null)" ''
    fresh_tree
    (cd "$tree" && PATH="$folder/bin:$PATH" ./bidi-edit note) >"$folder/said" 2>&1 </dev/null
    status=$?
    runs "$1, in the checkout's folder"
    same "$1, compiled there" "$(cmp -s "$tree/out/start/bin/bidi-edit" "$tree/out/start/lib/bidi_edit/host" || echo compiled)" compiled
    same "$1, nothing stays of that" "$(ls "$tree/out/start/bin")" bidi-edit
}

# Prints what --version says, in one line.
version_told() {
    PATH="$folder/bin:$PATH" "$tree/bidi-edit" --version 2>&1 </dev/null | sed 's/ [0-9a-f]\{64\}$/ SUM/' | paste -s -d '|'
}

# What --version says beside the host's words: the version of the sources, and where the programs are from.
check_version() { # NAME
    same "$1, of dist/" "$(version_told)" "host $base_version|bidi_edit runs|programs of dist/|sources of dist/ SUM"
    build_all
    # where the host finds its program when it is built in host/out
    mkdir -p "$tree/host/lib" && cp -R "$tree/out/start/lib/bidi_edit" "$tree/host/lib/"
    same "$1, built here" "$(version_told)" "host $base_version|bidi_edit runs|programs built here, the same as in dist/|sources of dist/ SUM"
    echo 'echo other' >>"$tree/crates/bidi_edit/out/bidi_edit"
    same "$1, another" "$(version_told)" "host $base_version|bidi_edit runs|programs built here|sources of dist/ SUM"
    printf '0123456789abcdef0123 1800000000 Somebody <somebody@example.org>\n' >"$tree/tools/package/commit"
    sed -i '0,/^## /s/^## .*/## 7.8.9, unreleased/' "$tree/CHANGELOG.md"
    same "$1, in a tarball" "$(version_told | cut -d '|' -f 1)" 'host 7.8.9~git20270115.01234567'
    sed -i '0,/^## /s/^## .*/## 7.8.9, 2027-01-15 (tag v7.8.9)/' "$tree/CHANGELOG.md"
    same "$1, of a release" "$(version_told | cut -d '|' -f 1)" 'host 7.8.9'
}

# A changed source is told before the first start and after it, and one that is changed back is no fault.
check_sources() { # NAME
    for file in low/src/main.rt bidi_print/specs/Lib.antt $player/proofs/deep/Proof.antt; do
        echo '// more' >>"$tree/crates/$file"
        start
        refuses "$1, $file" 'the sources are not those that dist/ was built from'
        cp "$folder/first/crates/$file" "$tree/crates/$file"
    done
    sed -i 's/^bidi_print: low/bidi_print opt_level=0: low/' "$tree/crates.txt"
    start
    refuses "$1, crates.txt" 'the sources are not those that dist/ was built from'
    cp "$folder/first/crates.txt" "$tree/crates.txt"
    echo '// more' >>"$tree/crates/unused/src/main.rt"
    echo '// more' >>"$tree/crates/low/src/main.rt~"
    start
    runs "$1, files that no program is built from"
    touch "$tree/out/start/lib/bidi_edit/SOURCES"
    echo '// more' >>"$tree/crates/low/src/main.rt"
    touch -d '1 hour' "$tree/crates/low/src/main.rt"
    start
    same "$1, after the first start" "$(head -n 1 "$folder/said")" 'bidi-edit: the sources are not those that dist/ was built from: proving and building instead'
    cp -p "$folder/first/crates/low/src/main.rt" "$tree/crates/low/src/main.rt"
    start
    runs "$1, changed back"
}

# What a start says that has to prove and build, where there is no toolchain: what to do next.
check_no_toolchain() { # NAME
    make_path
    end=', and the toolchain (rt), which would prove and build the editor, is not installed'
    echo '// more' >>"$tree/crates/low/src/main.rt"
    start PATH="$folder/path"
    same "$1, changed sources" "$status $(cat "$folder/said")" \
        "1 bidi-edit: the sources are not those that dist/ was built from$end: git status shows what was changed in crates/, and README.md names the toolchain"
    cp "$folder/first/crates/low/src/main.rt" "$tree/crates/low/src/main.rt"
    change_byte SOURCES
    start PATH="$folder/path"
    same "$1, changed bytes" "$status $(cat "$folder/said")" \
        "1 bidi-edit: dist/SOURCES does not match its checksum in dist/SHA256SUMS$end: git checkout dist brings back what was committed"
    rm -r "$tree/dist"
    start PATH="$folder/path"
    same "$1, no dist/" "$status $(cat "$folder/said")" "1 bidi-edit: dist/ is missing$end: git checkout dist brings it back"
    same "$1, nothing is left" "$([ -e "$tree/out" ] && ls "$tree/out")" ''
}

# Without a tool of the start, it says which one.
check_tools() { # NAME
    for lacking in sha256sum tar; do
        make_path "$lacking"
        start PATH="$folder/path"
        same "$1, no $lacking" "$status $(cat "$folder/said")" \
            "1 bidi-edit: there is no $lacking, which a start from dist/ needs: install it (on Debian, apt install coreutils mawk findutils tar gzip)"
    done
}

# Changes the second last byte of a file in dist/.
change_byte() { # NAME
    printf x | dd of="$tree/dist/$1" bs=1 seek="$(($(wc -c <"$tree/dist/$1") - 2))" conv=notrunc 2>/dev/null
}

# A start refuses an archive and sums that do not match.
check_sums() { # NAME
    for name in bidi-edit-x86_64-linux.tar.gz SOURCES; do
        change_byte "$name"
        start
        refuses "$1, a byte of $name" "dist/$name does not match its checksum in dist/SHA256SUMS"
        cp "$folder/first/dist/$name" "$tree/dist/$name"
    done
    sed -i 's/^\(.*  bidi-edit\)/0\1/; s/^0\(.*\).  bidi-edit/0\1  bidi-edit/' "$tree/dist/SHA256SUMS"
    start
    refuses "$1, a sum" 'dist/bidi-edit-x86_64-linux.tar.gz does not match its checksum in dist/SHA256SUMS'
    rm "$tree/dist/bidi-edit-x86_64-linux.tar.gz" "$tree/dist/SHA256SUMS"
    start
    refuses "$1, no archive" 'dist/bidi-edit-x86_64-linux.tar.gz does not match its checksum in dist/SHA256SUMS'
    rm -r "$tree/dist"
    start
    same "$1, no dist/: proofs begin" "$(head -n 1 "$folder/said" | sed 's/, only this once:.*//')" 'bidi-edit: proving and building the editor'
}

# Another machine, by a stand-in for uname, and one on which the programs cannot be executed.
check_machine() { # NAME
    mkdir "$folder/other"
    printf '#!/bin/sh\necho Linux aarch64\n' >"$folder/other/uname"
    chmod +x "$folder/other/uname"
    start PATH="$folder/other:$folder/bin:$PATH"
    refuses "$1, another" 'the programs in dist/ are for Linux on x86_64, and this is Linux on aarch64'
    printf '#!/no/such/loader\n' >"$TOLD/built/bidi_edit"
    build_all
    make_dist
    for name in $names; do rm -r "$tree/crates/$name/out"; done
    rm -rf "$tree/out"
    start
    refuses "$1, without a loader" "the programs in dist/ do not run on this machine: they need glibc 2.34 or later, and this is $(getconf GNU_LIBC_VERSION)"
    tar -xzf "$folder/first/dist/bidi-edit-x86_64-linux.tar.gz" -C "$TOLD/built" bidi_edit
}
