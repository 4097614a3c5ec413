#!/bin/sh
# make-dist.sh: makes dist/ anew, the ready programs that a fresh checkout starts, with the host compiled from host/ as it stands. It
# takes the programs that are proved and built here from the sources as they stand: by scripts/prove.sh, which notes them in
# out/proved, or by `rt run`, whose stamp stands beside each. Where these are not there, it takes the programs of dist/ again, if the
# digest of what they were proved from is that of the sources; so a change of the host alone needs no toolchain and no proof. The
# same programs and the same host make the same archive, byte for byte. Exit status 1: the programs are neither proved here nor of
# these sources in dist/, or the host cannot be compiled; dist/ is then as it was.
set -eu
umask 022
export LC_ALL=C

top=$(CDPATH='' cd -- "$(dirname -- "$0")/.." && pwd)
# shellcheck source=tests/built.sh
. "$top/tests/built.sh"
room=$(mktemp -d)
trap 'rm -rf -- "$room"' EXIT
trap 'exit 1' HUP INT TERM

refuse() { # CAUSE
    printf 'make-dist.sh: %s\n' "$1" >&2
    exit 1
}

sum_of() { # FILE
    sha256sum <"$1" | cut -c 1-64
}

# Whether scripts/prove.sh proved this program from these sources.
is_noted() { # NAME
    grep -q -x -F -e "sources $sources" "$top/out/proved" 2>/dev/null &&
        grep -q -x -F -e "program $1 $(sum_of "$top/crates/$1/out/$1")" "$top/out/proved"
}

# Takes the programs that are proved and built here, and the toolchain's version. Else sets `lack`.
take_built() {
    for name in $dist_programs; do
        built=$top/crates/$name/out/$name
        lack="$name is not built"
        [ -x "$built" ] || return
        lack="$name is not proved and built from these sources"
        is_noted "$name" || { is_proved "$built" && ! has_newer_source "$name" "$built.stamp"; } || return
        cp -- "$built" "$room/files/$name"
    done
    command -v rt >/dev/null || refuse 'there is no rt, whose version is noted'
    rt version >"$room/files/kit"
}

# Takes the programs of dist/ again, with the version of the toolchain that built them. Else sets `cause`, which is empty where there
# is no dist/.
take_again() {
    cause=''
    [ -f "$top/dist/SOURCES" ] && suits || return
    tar -xzof "$top/dist/$dist_archive" -C "$room/files" || refuse "dist/$dist_archive cannot be unpacked"
    for name in $dist_programs; do
        [ "$(sum_of "$room/files/$name")" = "$(noted program "$name")" ] || refuse "$name in dist/ is not the program that dist/SOURCES notes"
    done
}

# Compiles the host. It is not linked statically: the C library would then load what the system's list of users needs, which may
# not fit it, and the programs need a C library of the system's too.
make_host() {
    sh "$top/host/build.sh" into "$room/host" || refuse 'the host cannot be compiled'
    strip --remove-section=.comment --remove-section=.note -o "$room/files/host" "$room/host/bidi-edit"
}

# Prints SOURCES; dist.sh tells its form.
list_sources() {
    echo "toolchain $(cat "$room/files/kit")"
    echo "sources $sources"
    echo "host $host"
    for name in $dist_programs; do echo "program $name $(sum_of "$room/files/$name")"; done
}

sources=$(sources_digest) host=$(host_digest)
mkdir "$room/files" "$room/host" "$room/dist"
if ! take_built && ! take_again; then refuse "$lack${cause:+, and $cause}: scripts/prove.sh proves and builds all"; fi
make_host
chmod 755 "$room"/files/*
chmod 644 "$room/files/kit"
# shellcheck disable=SC2046 # names without blanks
tar -C "$room/files" --format=ustar --owner=root:0 --group=root:0 --mtime=@0 -cf - $(ls "$room/files") | gzip -9n >"$room/dist/$dist_archive"
list_sources >"$room/dist/SOURCES"
(cd "$room/dist" && sha256sum -- SOURCES "$dist_archive" >SHA256SUMS)
[ "$(sources_digest) $(host_digest)" = "$sources $host" ] || refuse 'a source was changed meanwhile'
mkdir -p -- "$top/dist"
cp -- "$room"/dist/* "$top/dist/"
ls -l "$top/dist"
