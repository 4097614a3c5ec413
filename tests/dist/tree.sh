# shellcheck shell=sh
# shellcheck disable=SC2154 # words that check-dist.sh sets
# The small repository for check-dist.sh, its programs and its tools.

# The stand-in for rt notes its calls. Its version is in the file `version`, if there is one. `rt ci` passes unless the file `bad` is there, and leaves the programs in `built`; no proof of a
# crate passes.
make_tools() {
    mkdir -p "$folder/bin" "$folder/home" "$TOLD"
    cat >"$folder/bin/rt" <<'END'
#!/bin/sh
if [ "$1" = version ]; then
    cat "$TOLD/version" 2>/dev/null || echo a toolchain
    exit
fi
echo "$*" >>"$TOLD/calls"
[ "$1" = ci ] || exit 1
for program in "$TOLD"/built/*; do
    name=${program##*/}
    mkdir -p "crates/$name/out"
    cp "$program" "crates/$name/out/$name"
done
if [ -e "$TOLD/bad" ]; then echo '6 passed, 1 failed' && exit 1; fi
echo '7 passed, 0 failed'
END
    chmod +x "$folder/bin/rt"
}

# Programs that are scripts. The host is in C, and prints its words and what the editor beside it prints.
make_repository() {
    mkdir -p "$folder/first/crates" "$folder/first/host" "$folder/first/data" "$folder/first/docs" "$folder/first/dist" "$folder/first/tests" "$TOLD/built"
    cp -R "$here/../bidi-edit" "$here/../NOTICE" "$here/../CHANGELOG.md" "$folder/first/"
    cp "$here/../host/build.sh" "$folder/first/host/"
    cp "$here/../data/"*.txt "$folder/first/data/"
    cp "$here/../docs/bidi_edit.1" "$here/../docs/bidi_edit-terminals.7" "$folder/first/docs/"
    cp -R "$here/../scripts" "$here/../tools" "$folder/first/"
    cp "$here/built.sh" "$here/report.sh" "$folder/first/tests/"
    printf '# a comment\nlow:\nunused: low\n' >"$folder/first/crates.txt"
    for name in $names low unused; do
        mkdir -p "$folder/first/crates/$name/src" "$folder/first/crates/$name/specs" "$folder/first/crates/$name/proofs/deep"
        for file in src/main.rt specs/Lib.antt proofs/deep/Proof.antt; do echo "// $name" >"$folder/first/crates/$name/$file"; done
    done
    for name in $names; do
        echo "$name: low" >>"$folder/first/crates.txt"
        # some bytes that no packing makes smaller, which a small disk has no room for
        { printf '#!/bin/sh\necho %s %s\nexit\n' "$name" '"$@"' && head -c 100000 /dev/urandom; } >"$TOLD/built/$name"
        chmod +x "$TOLD/built/$name"
    done
    make_host_source "$folder/first/host/main.c" host
    : >"$folder/first/host/main.h"
    # the version of sources outside a commit
    # shellcheck disable=SC2034 # of the other parts
    base_version=$(sed -n 's/^## \([0-9.]*\), unreleased$/\1~git/p; t; s/^## \([0-9.]*\), .*/\1/p' "$here/../CHANGELOG.md" | head -n 1)
    tree=$folder/first
    build_all
    (cd "$tree" && PATH=$folder/bin:$PATH sh tools/make-dist.sh >/dev/null) || echo 'dist/ is not made'
    for name in $names; do rm -r "$tree/crates/$name/out"; done
    tree=$folder/tree
}

# Makes a source of a host that prints WORD and starts the program of its own installation.
make_host_source() { # FILE WORD
    cat >"$1" <<END
#include <stdio.h>
#include <stdlib.h>
#include <string.h>
#include <unistd.h>
int main(int count, char **words) {
    char path[4096];
    ssize_t length = readlink("/proc/self/exe", path, sizeof path - 40);
    if (length < 0) return 1;
    path[length] = 0;
    char *end = strrchr(path, '/');
    if (!end) return 1;
    strcpy(end, "/../lib/bidi_edit/bidi_edit");
    printf("$2 %s\n", count > 1 ? words[1] : "");
    fflush(stdout);
    execl(path, "program", "runs", (char *)0);
    return 1;
}
END
}

# Puts the programs into the crates, with stamps, as proved builds do.
build_all() {
    for name in $names; do
        mkdir -p "$tree/crates/$name/out"
        cp "$TOLD/built/$name" "$tree/crates/$name/out/$name"
        printf 'stamp %s' "$(sha256sum <"$TOLD/built/$name" | cut -c 1-64)" >"$tree/crates/$name/out/$name.stamp"
    done
}

# A new checkout with dist/, in which nothing is built.
fresh_tree() {
    rm -rf "$tree" "$TOLD/calls" "$TOLD/bad" "$HOME/.cache"
    cp -R "$folder/first" "$tree"
}

# Starts the script bidi-edit with a FILE. Sets `status`; its lines go to `said`.
start() { # [VARIABLE=VALUE..]
    env PATH="$folder/bin:$PATH" "$@" "$tree/bidi-edit" note >"$folder/said" 2>&1 </dev/null
    status=$?
}

# Reports whether the editor ran.
runs() { # NAME
    same "$1" "$status $(paste -s -d '|' "$folder/said")" '0 host note|bidi_edit runs'
}

# Reports whether the programs of dist/ were refused with this cause, in one line, and proofs began.
refuses() { # NAME CAUSE
    same "$1, the line" "$(head -n 1 "$folder/said")" "bidi-edit: $2: proving and building instead"
    begun=$(grep -c 'proving and building the editor, only this once' "$folder/said")
    same "$1, proofs begin" "$begun $(grep -c . "$TOLD/calls" 2>/dev/null | sed 's/^[1-9].*/some/') $([ -e "$tree/out/start" ] && echo unpacked)" '1 some '
    rm -rf "$TOLD/calls" "$tree/out"
}

# Reports whether nothing is left beside the unpacked folder.
nothing_beside() { # NAME FOLDER
    same "$1, nothing beside" "$(find "$2" -mindepth 1 -maxdepth 1 ! -name '*.lock' | sed 's|.*/||' | paste -s -d ' ')" "$3"
}
