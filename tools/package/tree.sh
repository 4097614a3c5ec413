# shellcheck shell=sh
# shellcheck disable=SC2034,SC2154 # words that the scripts give and take
# The files of an installation, for install.sh and make-deb.sh. `top` is the repository. A script first names the programs with
# take_ready or take_built, and then fills a folder with fill_tree. It defines `refuse CAUSE` itself.

# shellcheck source=tools/launcher/dist.sh
. "$top/tools/launcher/dist.sh"
# shellcheck source=tools/launcher/version.sh
. "$top/tools/launcher/version.sh"

# Whether this program is built in crates/.
is_built() { # NAME
    [ -x "$top/crates/$1/out/$1" ]
}

# Sets `programs` to those built in crates/, with the printing program if it is built, and `host` to the host, compiled where a source
# is newer. `start` stays empty.
take_built() {
    host=$top/host/out/bidi-edit
    sh "$top/host/build.sh" || refuse "$(shown "$host") is not built"
    programs=''
    for name in bidi_edit bidi_print; do
        ! is_built "$name" || programs="$programs $name"
    done
    start=''
}

# The same, to those of dist/ and the host compiled from host/, and `start` to their folder. Status 1: they do not belong to the
# sources, as `cause` says.
take_ready() {
    find_start thoroughly || return
    programs='bidi_edit bidi_print' host=$start/bin/bidi-edit
}

# The path of a program that was taken.
path_of() { # NAME
    if [ -n "$start" ]; then echo "$start/lib/bidi_edit/$1"; else echo "$top/crates/$1/out/$1"; fi
}

# Copies a file into the tree with these permissions, whatever its source's and the umask are.
put() { # MODE SOURCE PATH
    mkdir -p -- "$tree/${3%/*}"
    cp -- "$2" "$tree/$3"
    chmod "$1" "$tree/$3"
}

# Puts a page of the manual there, with the version and the commit's day in its first line.
put_page() { # NAME SECTION
    mkdir -p -- "$tree/share/man/man$2"
    day=${seconds:+$(TZ=UTC0 date -d "@$seconds" +%Y-%m-%d)}
    sed "1s/^\(.TH [A-Z_-]* $2\) \([^ ]*\) \"[^\"]*\"/\1 ${day:-\2} \"bidi_edit $version\"/" "$top/docs/$1.$2" >"$tree/share/man/man$2/$1.$2" ||
        refuse "the manual cannot be copied"
    chmod 644 "$tree/share/man/man$2/$1.$2"
}

# Puts the manual there, its main page under both names.
put_manual() {
    put_page bidi_edit 1
    echo '.so man1/bidi_edit.1' >"$tree/share/man/man1/bidi-edit.1"
    put_page bidi_edit-terminals 7
}

# Prints the toolchain's version, as it was noted when the programs were built.
kit_of() {
    if [ -z "$start" ] && rt version 2>/dev/null; then return; fi
    kit=$(path_of bidi_edit)
    cat "${kit%/*}/kit" 2>/dev/null || echo unknown
}

# Puts there what --version says: in the first line the toolchain, then the editor's version and where the programs are from.
put_kit() {
    { kit_of && echo "version $version" && tell_programs "$start"; } >"$tree/lib/bidi_edit/kit"
    chmod 644 "$tree/lib/bidi_edit/kit"
}

# Puts the files there by which shells complete options, and the entry for desktops.
put_helps() {
    for pair in bash:bash-completion/completions/bidi-edit zsh:zsh/site-functions/_bidi-edit fish:fish/vendor_completions.d/bidi-edit.fish; do
        file=share/${pair#*:}
        mkdir -p -- "$tree/${file%/*}"
        sh "$top/tools/package/completions.sh" "${pair%%:*}" "$tree/bin/bidi-edit" >"$tree/$file"
        chmod 644 "$tree/$file"
    done
    put 644 "$top/tools/package/bidi-edit.desktop" share/applications/bidi-edit.desktop
}

# Fills a folder.
fill_tree() { # FOLDER
    tree=$1
    find_version
    for program in $programs; do put 755 "$(path_of "$program")" "lib/bidi_edit/$program"; done
    put 755 "$host" bin/bidi-edit
    for table in DerivedBidiClass BidiBrackets BidiMirroring ArabicShaping UnicodeData; do put 644 "$top/data/$table.txt" "share/bidi_edit/$table.txt"; done
    put_manual
    put_kit
    put_helps
    put 644 "$top/NOTICE" share/doc/bidi-edit/NOTICE
    sh "$top/tools/make-sbom.sh" "$tree" >"$tree/share/doc/bidi-edit/bidi-edit.spdx.json"
}
