# shellcheck shell=sh
# shellcheck disable=SC2154 # words that check-package.sh sets
# How the package and the tar file are made, for check-package.sh.

# Makes a repository `source` with one commit of the sources as they stand, and the same in `tarball` without the repository. In it, the
# programs are those of dist/.
make_sources() {
    source=$folder/source
    # no release that CHANGELOG.md names is later
    commit_time=$(git -C "$top" log -1 --format='%ct +0200')
    mkdir "$source"
    (cd "$top" && git ls-files -z | tar --null -T - -cf - 2>/dev/null) | tar -xf - -C "$source"
    # after a change in host/, dist/ is made anew here, as it has to be before the change lands
    [ "$(host_digest)" = "$(noted host)" ] || sh "$source/tools/make-dist.sh" >"$folder/said" 2>&1 || cat "$folder/said"
    (
        export GIT_AUTHOR_NAME=Somebody GIT_AUTHOR_EMAIL=somebody@example.org GIT_COMMITTER_NAME=Somebody GIT_COMMITTER_EMAIL=somebody@example.org
        export GIT_AUTHOR_DATE="$commit_time" GIT_COMMITTER_DATE="$commit_time" GIT_CONFIG_GLOBAL=/dev/null
        cd "$source" && git init -q && git add -A -f && git commit -q -m 'The sources' && git archive --prefix=tarball/ HEAD | tar -xf - -C "$folder"
    )
    digest=$(git -C "$source" rev-parse HEAD | cut -c 1-8) day=$(date -u -d "@${commit_time% *}" +%Y%m%d)
}

# Makes both files. Its messages go to `said`, its status to `status`.
make_files() { # SOURCE FOLDER [VARIABLE=VALUE..]
    from=$1 to=$2
    shift 2
    mkdir -p "$to"
    env "$@" sh "$from/tools/make-deb.sh" "$to" >"$folder/said" 2>&1
    status=$?
}

# Makes the files that are tried, and sets `deb`, `tar` and `version`, which CHANGELOG.md and the commit give.
make_first() {
    make_files "$source" "$folder/first"
    report 'making, status' "$status" "$(cat "$folder/said")"
    version=$(sed -n 's/^## \([0-9.]*\), unreleased$/\1~git'"$day.$digest"'/p; t end; s/^## \([0-9.]*\), .*/\1/p; t end; d; :end; q' "$source/CHANGELOG.md")
    deb=$folder/first/bidi-edit_$version-1_amd64.deb tar=$folder/first/bidi-edit_${version}_amd64.tar.gz
    same 'making, the names' "$(cd "$folder/first" && echo *)" "${deb##*/} ${tar##*/}"
    mkdir "$folder/unpacked" "$folder/tree"
    dpkg-deb -x "$deb" "$folder/unpacked"
    tar -C "$folder/tree" -xzf "$tar"
}

# Whether both files have the bytes of the first ones.
same_bytes() { # NAME FOLDER
    same "$1" "$status $(cd "$2" && sha256sum -- * | paste -s -d ' ')" "0 $(cd "$folder/first" && sha256sum -- * | paste -s -d ' ')"
}

# One commit gives the same bytes in any folder, at any time, in any place of the world and under any umask, from a clone and from a
# tarball, with and without a compiler.
check_twice() { # NAME
    git clone -q "$source" "$folder/another folder"
    (umask 077 && make_files "$folder/another folder" "$folder/second" TZ=Asia/Jerusalem LC_ALL=C && exit "$status")
    status=$?
    same_bytes "$1, a clone in another folder" "$folder/second"
    git clone -q --config core.autocrlf=true "$source" "$folder/with CR"
    make_files "$folder/with CR" "$folder/lines"
    same_bytes "$1, a clone with core.autocrlf" "$folder/lines"
    make_files "$folder/tarball" "$folder/third" CC=no-compiler
    same_bytes "$1, a tarball, and no compiler" "$folder/third"
    if has_tool "$1, another day" faketime; then
        make_files "$source" "$folder/fourth" faketime '2031-05-05 12:00:00'
        same_bytes "$1, another day" "$folder/fourth"
    fi
    echo >>"$folder/another folder/README.md"
    make_files "$folder/another folder" "$folder/changed"
    same "$1, a changed file" "$status $(cd "$folder/changed" && echo *.deb)" "0 bidi-edit_$version.changed-1_amd64.deb"
}
