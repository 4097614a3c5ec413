# shellcheck shell=sh
# shellcheck disable=SC2034,SC2154 # words that the scripts give and take
# The version of the sources, for scripts that install, package or tell it. `top` is the repository.

# Sets `commit` to the digest of the checkout's commit, `seconds` to its time and `author` to its author. In a tarball that `git archive`
# made, tools/package/commit has them. They are empty where neither is there.
read_commit() {
    read -r commit seconds author <"$top/tools/package/commit"
    case $commit in
    '$'*)
        commit='' seconds='' author=''
        [ -e "$top/.git" ] && command -v git >/dev/null || return 0
        read -r commit seconds author <<END
$(git -C "$top" log -1 --format='%H %ct %an <%ae>' 2>/dev/null)
END
        ;;
    esac
}

# Whether a tracked file differs from the commit.
is_changed() {
    [ -e "$top/.git" ] && ! git -C "$top" diff --quiet HEAD -- 2>/dev/null
}

# Prints what --version says of the programs: whether they are those of dist/, and the digest of the sources of dist/. For dist.sh's
# words. START is the folder that dist/ is unpacked to, or empty.
tell_programs() { # START
    told='of dist/'
    if [ -z "$1" ]; then
        told='built here'
        [ "$(sha256sum <"$top/crates/bidi_edit/out/bidi_edit" | cut -c 1-64)" != "$(noted program bidi_edit 2>/dev/null)" ] || told='built here, the same as in dist/'
    fi
    echo "programs $told"
    [ ! -f "$top/dist/SOURCES" ] || echo "sources of dist/ $(noted sources)"
}

# Sets `version`, with what read_commit sets. The first heading of CHANGELOG.md is `## VERSION, DATE (tag NAME)` in the commit that
# releases VERSION. In all others it is `## VERSION, unreleased`: then the version is VERSION~git with the commit's day and digest, and
# with the word `changed` if a file differs from the commit. It is before VERSION in the order of packages.
find_version() {
    heading=$(grep -m 1 '^## ' "$top/CHANGELOG.md")
    version=${heading#'## '}
    version=${version%%,*}
    read_commit
    case $heading in *,\ unreleased) ;; *) return 0 ;; esac
    version=$version~git
    [ -n "$commit" ] || return 0
    version=$version$(TZ=UTC0 date -d "@$seconds" +%Y%m%d).$(printf '%.8s' "$commit")
    ! is_changed || version=$version.changed
}
