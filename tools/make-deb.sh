#!/bin/sh
# make-deb.sh [FOLDER]: makes bidi-edit_VERSION-1_amd64.deb and bidi-edit_VERSION_amd64.tar.gz, with the same tree, for users without
# the toolchain, in FOLDER (by default out/ at the top of the repository). It takes the programs and the host of dist/, if these belong
# to the sources, and so needs no compiler; else programs that are built and proved in crates/, and a host that it compiles with cc. It
# works in a clone and in a tarball of `git archive`. One commit gives the same bytes, in any folder and at any time: all times are those
# of the commit, or SOURCE_DATE_EPOCH. Beyond a plain Debian it needs nothing. tests/check-package.sh tries what it makes.
#
# Exit status 1: the programs are not proved, or the host cannot be compiled; 77: there is no dpkg-deb.
set -eu
umask 022
export LC_ALL=C

top=$(CDPATH='' cd -- "$(dirname -- "$0")/.." && pwd)
# shellcheck source=tests/built.sh
. "$top/tests/built.sh"
# shellcheck source=tools/package/tree.sh
. "$top/tools/package/tree.sh"
folder=$(mktemp -d)
trap 'rm -rf -- "$folder"' EXIT
trap 'exit 1' HUP INT TERM

refuse() { # CAUSE
    printf 'make-deb.sh: %s\n' "$1" >&2
    exit 1
}

# ---- what is packaged

# Requires that the programs built in crates/ are proved.
need_proved() {
    for name in bidi_edit bidi_print; do
        built=$top/crates/$name/out/$name
        if ! [ -x "$built" ] || ! [ -f "$built.stamp" ]; then refuse "${cause:+$cause, and }$built is not built and proved: tools/launcher/proving/prove.sh . $name does it"; fi
        is_proved "$built" || refuse "${cause:+$cause, and }$built is not what its stamp says: rt run in crates/$name builds it anew"
    done
}

# Compiles the host, without what only a debugger needs.
compile_host() {
    sh "$top/host/build.sh" into "$folder/compiled" || refuse 'the host cannot be compiled'
    host=$folder/compiled/bidi-edit
    ! command -v strip >/dev/null || strip --remove-section=.comment --remove-section=.note "$host"
}

# Takes the programs of dist/, as take_ready does, without the folder that they run from. Status 1: they do not belong to the sources, as
# `cause` says.
take_archive() {
    cause=''
    [ -f "$top/dist/SOURCES" ] && suits || return
    start=$folder/start programs='bidi_edit bidi_print'
    mkdir -p "$start/lib/bidi_edit"
    tar -xzof "$top/dist/$dist_archive" -C "$start/lib/bidi_edit" || refuse "dist/$dist_archive cannot be unpacked"
}

# Takes the programs. The host of dist/ has the same bytes on every machine, if it is of the sources in host/.
find_programs() {
    take_archive || { need_proved && take_built; }
    host=$start/lib/bidi_edit/host
    if [ -z "$start" ] || [ "$(host_digest)" != "$(noted host)" ]; then compile_host; fi
}

# ---- the package

# Prints the newest version of the C library that the programs require.
libc_version() { # PROGRAM..
    grep -a -h -o 'GLIBC_[0-9][0-9.]*' "$@" | sed 's/GLIBC_//' | sort -u -V | tail -n 1
}

# Prints the size of a tree in KB, as dpkg counts it, whatever the file system.
size_of() { # FOLDER
    find "$1" -type f -printf '%s\n' -o -printf '1024\n' | awk '{ sum += int(($1 + 1023) / 1024) } END { print sum }'
}

# Writes the package's description, and the sums of its files.
make_control() {
    cat >"$package/DEBIAN/control" <<END
Package: bidi-edit
Version: $version-1
Architecture: amd64
Maintainer: $author
Installed-Size: $(size_of "$package/usr")
Depends: libc6 (>= $(libc_version "$package"/usr/bin/bidi-edit "$package"/usr/lib/bidi_edit/bidi_*))
Suggests: unicode-data
Section: editors
Priority: optional
Description: terminal editor for Hebrew, Arabic and Latin text
 A full-screen editor of plain text for the terminal. It shows mixed Hebrew,
 Arabic and Latin text in the order of the Unicode Bidirectional Algorithm,
 each row by itself, with Arabic letters joined. That its screen shows the text
 is proved.
 .
 It needs Linux on a 64-bit x86 processor and a mounted /proc.
END
    (cd "$package" && find usr -type f -print0 | sort -z | xargs -0 md5sum) >"$package/DEBIAN/md5sums"
}

# Prints an entry of Debian's changelog.
tell_package() { # VERSION DATE
    printf 'bidi-edit (%s-1) unstable; urgency=low\n\n  * Version %s, as changelog.gz describes it.\n\n -- %s  %s\n\n' "$1" "$1" "$author" \
        "$(TZ=UTC0 date -R -d "$2")"
}

# Prints Debian's changelog: this package, and before it the releases that CHANGELOG.md names with their days.
list_packages() {
    tell_package "$version" "@$SOURCE_DATE_EPOCH"
    sed -n 's/^## \([0-9.]*\), \([0-9-]*\).*/\1 \2/p' "$top/CHANGELOG.md" | while read -r release day; do
        [ "$release" = "$version" ] || [ -z "$day" ] || tell_package "$release" "$day"
    done
}

# Writes the package's copyright and changelogs.
make_documents() {
    documents=$package/usr/share/doc/bidi-edit
    awk -v source="the repository bidi_edit${commit:+, commit $commit}" -f "$top/tools/package/copyright.awk" "$top/NOTICE" >"$documents/copyright"
    gzip -9n <"$top/CHANGELOG.md" >"$documents/changelog.gz"
    list_packages | gzip -9n >"$documents/changelog.Debian.gz"
}

# Makes the package. Its tree is that of install.sh, with the manual compressed and the scripts of shells where Debian has them.
make_package() {
    package=$folder/package
    mkdir -p "$package/DEBIAN" "$package/usr/share/lintian/overrides"
    cp -R "$folder/tree/." "$package/usr/"
    gzip -9n "$package/usr/share/man/man1/bidi_edit.1" "$package/usr/share/man/man7/bidi_edit-terminals.7"
    rm "$package/usr/share/man/man1/bidi-edit.1"
    mv "$package/usr/share/man/man1/bidi_edit.1.gz" "$package/usr/share/man/man1/bidi-edit.1.gz"
    ln -s bidi-edit.1.gz "$package/usr/share/man/man1/bidi_edit.1.gz"
    mv "$package/usr/share/zsh/site-functions" "$package/usr/share/zsh/vendor-completions"
    cp "$top/tools/package/lintian-overrides" "$package/usr/share/lintian/overrides/bidi-edit"
    make_documents
    make_control
    cp "$top/tools/package/postinst" "$top/tools/package/prerm" "$package/DEBIAN/"
    chmod -R u=rwX,go=rX "$package"
    chmod 755 "$package/DEBIAN/postinst" "$package/DEBIAN/prerm"
    find "$package" -exec touch -h -d "@$SOURCE_DATE_EPOCH" {} +
    # the same compression, however many processors there are
    DPKG_DEB_THREADS_MAX=1 dpkg-deb --root-owner-group -Zxz --build "$package" "$target/bidi-edit_$version-1_amd64.deb" >/dev/null
}

# Makes the tar file with the tree of /usr, to be unpacked anywhere.
make_tar() {
    mkdir "$folder/tar"
    mv "$folder/tree" "$folder/tar/bidi-edit-$version"
    tar -C "$folder/tar" --format=gnu --mtime="@$SOURCE_DATE_EPOCH" --owner=root:0 --group=root:0 --numeric-owner --sort=name -cf - "bidi-edit-$version" |
        gzip -9n >"$target/bidi-edit_${version}_amd64.tar.gz"
}

command -v dpkg-deb >/dev/null || {
    echo 'skipped: there is no dpkg-deb'
    exit 77
}
find_programs
find_version
author=${author:-bidi_edit maintainers <root@localhost>}
# outside a commit, the time of the sources' last entry of changes
SOURCE_DATE_EPOCH=${SOURCE_DATE_EPOCH:-${seconds:-$(date -r "$top/CHANGELOG.md" +%s)}}
export SOURCE_DATE_EPOCH
target=${1:-$top/out}
mkdir -p "$target" "$folder/tree"
fill_tree "$folder/tree"
chmod -R u=rwX,go=rX "$folder/tree"
make_package
make_tar
ls -l "$target/bidi-edit_$version-1_amd64.deb" "$target/bidi-edit_${version}_amd64.tar.gz"
