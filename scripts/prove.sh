#!/bin/sh
# prove.sh [--anew]: proves and builds all crates by `rt ci`, and then compares: dist/ must be of these sources, each program in dist/
# must be byte for byte the one that was just built, and NOTICE must name what is linked. If another version of the toolchain built
# dist/, a program that differs counts as skipped. With --anew it proves what was proved on this machine before, too. After a run of
# `rt ci` without failure it notes the programs in out/proved, for make-dist.sh. The last line is 'N passed, M failed' for all of it,
# and with ', K skipped' what could not be compared. Exit status 1: something failed.
set -u

top=$(CDPATH='' cd -- "$(dirname -- "$0")/.." && pwd)
cd "$top" || exit 1
case "$#:${1:-}" in
0: | 1:--anew) ;;
*)
    echo 'usage: prove.sh [--anew]' >&2
    exit 2
    ;;
esac
# shellcheck source=tests/report.sh
. "$top/tests/report.sh"
# shellcheck source=tools/launcher/dist.sh
. "$top/tools/launcher/dist.sh"
room=$(mktemp -d) || exit 1
trap 'rm -rf -- "$room"' EXIT
trap 'exit 1' HUP INT TERM
passed=0 failed=0 skipped=0

sum_of() { # FILE
    sha256sum -- "$1" 2>/dev/null | cut -c 1-64
}

skip() { # NAME CAUSE
    skipped=$((skipped + 1))
    printf '%s\n' "skipped $1: $2"
}

# Runs rt ci, and sets `status` and `numbers`, which its last line has. That line is shown after a name, so that one line alone has
# the totals.
run_ci() { # [--anew]
    { rt ci "$@" 2>&1 && echo 0 >"$room/status" || echo "$?" >"$room/status"; } | tee "$room/said" | sed -u -e 's/^[0-9][0-9]* passed, /rt ci: &/'
    status=$(cat "$room/status")
    numbers=$(sed -n 's/^\([0-9][0-9]*\) passed, \([0-9][0-9]*\) failed.*/\1 \2/p' "$room/said" | tail -n 1)
}

# Proves all crates and adds the numbers. A toolchain that refuses the word --anew keeps no proofs, so that `rt ci` is the same there.
prove() { # [--anew]
    run_ci "$@"
    if [ $# != 0 ] && [ "$status" = 2 ] && [ -z "$numbers" ]; then run_ci; fi
    [ -z "$numbers" ] || passed=$((passed + ${numbers% *})) failed=$((failed + ${numbers#* }))
    if [ -z "$numbers" ] || { [ "$status" != 0 ] && [ "${numbers#* }" = 0 ]; }; then report 'rt ci' 1 "it ended with status $status"; fi
}

# Notes the programs in the form of dist/SOURCES.
note_proved() {
    {
        echo "sources $sources"
        for name in $dist_programs; do echo "program $name $(sum_of "crates/$name/out/$name")"; done
    } >"$room/proved"
    mkdir -p out && mv -f -- "$room/proved" out/proved
}

# Prints what a version of the toolchain, such as `kit-2 logic 1a2b`, says of its logic. Versions with one logic may still build other bytes.
logic_of() { # VERSION
    printf '%s\n' "${1#*logic }"
}

# Compares a program of the archive with the one that rt ci left.
compare() { # NAME
    [ -f "crates/$1/out/$1" ] || {
        report "$1 in dist/" 1 "skipped, since rt ci left no crates/$1/out/$1: it leaves none where the disk is nearly full"
        return
    }
    told=$(cmp -- "$room/files/$1" "crates/$1/out/$1" 2>&1)
    status=$?
    if [ "$status" = 0 ] || [ "$(noted toolchain)" = "$(rt version)" ]; then
        report "$1 in dist/, the same as built here" "$status" "$told"
    else
        skip "$1 in dist/, the same as built here" "it differs, but was built by $(noted toolchain), and this is $(rt version)"
    fi
    same "$1, its sum in dist/SOURCES" "$(noted program "$1")" "$(sum_of "$room/files/$1")"
}

# Compares dist/ with the sources and the toolchain, and its programs with those built here.
compare_all() {
    [ -f dist/SOURCES ] || {
        report 'dist/' 1 'it is missing: tools/make-dist.sh makes it'
        return
    }
    for name in "$dist_archive" SOURCES; do
        has_sum "$name"
        report "dist/$name, its sum in dist/SHA256SUMS" $? "it is $(sum_of "dist/$name")"
    done
    same 'dist/SOURCES, the digest of the sources' "$(noted sources)" "$(sources_digest)"
    same "dist/SOURCES, the digest of the host's sources" "$(noted host)" "$(host_digest)"
    same "dist/SOURCES, the toolchain's logic" "$(logic_of "$(noted toolchain)")" "$(logic_of "$(rt version)")"
    mkdir "$room/files"
    told=$(tar -xzof "dist/$dist_archive" -C "$room/files" 2>&1)
    report 'the archive, unpacked' $? "$told"
    # shellcheck disable=SC2086 # split into words
    same 'the archive, its files' "$(ls "$room/files")" "$(printf '%s\n' $dist_programs host kit | LC_ALL=C sort)"
    same 'the archive, the toolchain' "$(cat "$room/files/kit" 2>&1)" "$(noted toolchain)"
    for name in $dist_programs; do compare "$name"; done
}

# Compares NOTICE with the toolchain's records of what is linked, but for the toolchain's own version.
compare_notice() {
    rt doc >/dev/null 2>&1 || return 0
    told=$(sh tools/make-notice.sh "$room/notice" 2>&1 && grep -v '^Toolchain: ' NOTICE | diff - "$room/notice" | grep '^[<>]' | grep -v '^> Toolchain: ')
    same "NOTICE, by the toolchain's records (tools/make-notice.sh writes it)" "$told" ''
}

sources=$(sources_digest)
prove "$@"
same 'the sources, unchanged meanwhile' "$(sources_digest)" "$sources"
[ "$failed" != 0 ] || note_proved
compare_all
compare_notice
[ "$failed" = 0 ] || echo 'where dist/ is older than the sources, tools/make-dist.sh makes it anew of what is proved'
told="$passed passed, $failed failed"
[ "$skipped" = 0 ] || told="$told, $skipped skipped"
echo "$told"
[ "$failed" = 0 ]
