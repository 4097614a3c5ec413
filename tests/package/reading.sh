# shellcheck shell=sh
# shellcheck disable=SC2154 # words that check-package.sh sets
# What is in the package and the tar file, for check-package.sh.

check_lintian() { # NAME
    has_tool "$1" lintian || return 0
    same "$1" "$(lintian --allow-root --pedantic "$deb" 2>&1)" ''
}

# The version that the first line of a page of the manual has.
version_of_page() { # PAGE
    sed -n '1s/.*"bidi_edit \([^"]*\)".*/\1/p' "$1"
}

# A page of the manual, by two readers of manuals; its version and its day; and whether the other page refers to it.
check_page() { # NAME PAGE SECTION OTHER
    page=$folder/tree/bidi-edit-$version/share/man/man$3/$2.$3
    ! has_tool "$1, man" man || same "$1, man" "$(man --warnings -l "$page" 2>&1 >/dev/null)" ''
    ! has_tool "$1, mandoc" mandoc || same "$1, mandoc" "$(mandoc -T lint "$page" 2>&1)" ''
    same "$1, its version in the sources" "$(version_of_page "$top/docs/$2.$3")" "${version%"$day.$digest"}"
    same "$1, its version" "$(version_of_page "$page")" "$version"
    same "$1, its day" "$(sed -n "1s/^.TH [A-Z_-]* $3 \([^ ]*\) .*/\1/p" "$page")" "$(date -u -d "$day" +%Y-%m-%d)"
    same "$1, in the other page" "$(sed -n '/^.SH SEE ALSO/,$p' "$top/docs/$4" | grep -o -x "\.BR $2 ($3),")" ".BR $2 ($3),"
}

# The pages of the manual, the host's version, and how the manual is found.
check_manual() { # NAME
    check_page "$1" bidi_edit 1 bidi_edit-terminals.7
    check_page "$1, terminals" bidi_edit-terminals 7 bidi_edit.1
    manual=$folder/tree/bidi-edit-$version/share/man/man1/bidi_edit.1
    same "$1, in the package" "$(gzip -dc "$folder/unpacked/usr/share/man/man7/bidi_edit-terminals.7.gz")" "$(cat "$folder/tree/bidi-edit-$version/share/man/man7/bidi_edit-terminals.7")"
    same "$1, the version in host/command_line.h" "$(sed -n 's/^#define EDITOR_VERSION "\(.*\)"$/\1/p' "$top/host/command_line.h")" "${version%"$day.$digest"}"
    has_tool "$1, apropos" mandb && has_tool "$1, apropos" apropos || return 0
    mkdir -p "$folder/manuals/man1"
    cp "$manual" "$folder/manuals/man1/bidi-edit.1"
    mandb -q -c "$folder/manuals"
    for word in Hebrew Arabic bidirectional; do
        same "$1, apropos $word" "$(apropos -M "$folder/manuals" "$word" 2>&1 | sed 's/ .*//')" bidi-edit
    done
}

# Both have the same files, of the same bytes, but for what Debian compresses, links and adds.
check_files() { # NAME
    tree=$folder/tree/bidi-edit-$version
    same "$1, in both" "$(cd "$tree" && find . -type f ! -path './share/man/*' ! -path './share/zsh/*' -exec sha256sum {} + | sort -k 2)" \
        "$(cd "$folder/unpacked/usr" && find . -type f ! -path './share/man/*' ! -path './share/zsh/*' ! -path '*/lintian/*' ! -name copyright ! -name 'changelog*' -exec sha256sum {} + | sort -k 2)"
    same "$1, the package's documents" "$(cd "$folder/unpacked/usr/share/doc/bidi-edit" && echo *)" 'NOTICE bidi-edit.spdx.json changelog.Debian.gz changelog.gz copyright'
    same "$1, the changes" "$(gzip -dc "$folder/unpacked/usr/share/doc/bidi-edit/changelog.gz")" "$(cat "$top/CHANGELOG.md")"
    same "$1, the owners" "$(dpkg-deb -c "$deb" | awk '{ print $2 }' | sort -u)" root/root
    same "$1, the times" "$(dpkg-deb -c "$deb" | awk '{ print $4, $5 }' | sort -u)" "$(date -d "@${commit_time% *}" '+%Y-%m-%d %H:%M')"
    same "$1, the modes" "$(cd "$folder/unpacked" && find . ! -type l ! -perm 755 ! -perm 644)" ''
    for name in bidi_edit bidi_print; do
        same "$1, $name is that of dist/" "$(sha256sum <"$folder/unpacked/usr/lib/bidi_edit/$name" | cut -c 1-64)" "$(noted program "$name")"
    done
}

# The list of parts, by the rules of SPDX and by the crates that are linked.
check_parts() { # NAME
    has_tool "$1" python3 || return 0
    python3 -B "$here/package/parts.py" "$folder/unpacked/usr" "$top" >"$folder/said" 2>&1
    report "$1" $? "$(cat "$folder/said")"
    ! has_tool "$1, by pyspdxtools" pyspdxtools || {
        pyspdxtools -i "$folder/unpacked/usr/share/doc/bidi-edit/bidi-edit.spdx.json" >"$folder/said" 2>&1
        report "$1, by pyspdxtools" $? "$(cat "$folder/said")"
    }
}

# NOTICE is what the toolchain's records give, whatever the toolchain's version; and both it and the package's copyright have each text.
check_notice() { # NAME
    copyright=$folder/unpacked/usr/share/doc/bidi-edit/copyright
    for words in 'UNICODE LICENSE V3' 'Permission is hereby granted, free of charge, to any' 'Unicode-3.0' 'No license has been chosen'; do
        grep -q -e "$words" "$copyright"
        report "$1, copyright has: $words" $? ''
    done
    same "$1, a line for each crate with a license" "$(sed -n 's/^ \([a-z0-9_]*\)[^:]*: \(Expat\|Unicode\).*/\1/p' "$copyright" | paste -s -d ' ')" \
        "$(awk '/^Crate:/ { name = $2 } /^License:/ && !/NOASSERTION/ && name { print name; name = "" }' "$top/NOTICE" | paste -s -d ' ')"
    if ! rt version >/dev/null 2>&1; then
        skip "$1, made anew" 'there is no toolchain'
        return
    fi
    has_tool "$1, made anew" python3 || return 0
    sh "$top/tools/make-notice.sh" "$folder/notice" >"$folder/said" 2>&1
    same "$1, made anew (tools/make-notice.sh writes it)" "$? $(grep -v '^Toolchain: ' "$top/NOTICE" | diff - "$folder/notice" | grep '^[<>]' | grep -v '^> Toolchain: ')" '0 '
}
