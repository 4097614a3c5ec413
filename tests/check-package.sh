#!/bin/sh
# check-package.sh [NAME..]: makes the Debian package and the tar file twice, in several folders, and tries both: equal bytes, lintian
# and two readers of manuals, what is in them, the list of parts (SPDX), NOTICE, and how three shells complete options. It installs the package by dpkg into a folder, uses
# it there in tmux as an ordinary user, with and without HOME, removes it, and looks for what is left; the tree of the tar file is used
# too. `chroot`, which only its NAME selects, does the same in a fresh Debian, which debootstrap fetches in a minute. Checks without
# their tool are skipped. The last line has the totals. Exit status 1: a check failed; 77: there is no dpkg-deb or no git.
set -u

here=$(CDPATH='' cd -- "$(dirname -- "$0")" && pwd)
top=${here%/*}
# shellcheck source=tests/report.sh
. "$here/report.sh"
# shellcheck source=tools/launcher/dist.sh
. "$top/tools/launcher/dist.sh"
for tool in dpkg-deb git; do
    command -v "$tool" >/dev/null || {
        echo "nothing was checked: there is no $tool"
        exit 77
    }
done
folder=$(mktemp -d) || exit 1
socket=package$$
passed=0 failed=0 skipped=0
umask 022
export LC_ALL=C.UTF-8 HOME="$folder/home"
unset SOURCE_DATE_EPOCH XDG_STATE_HOME XDG_CACHE_HOME XDG_CONFIG_HOME TMUX
PATH=$PATH:/usr/sbin:/sbin

clean_up() {
    tmux -L "$socket" kill-server 2>/dev/null
    ! command -v clean_root >/dev/null || clean_root
    rm -rf -- "$folder"
}
trap clean_up EXIT
trap 'exit 1' HUP INT TERM

skip() { # NAME CAUSE
    skipped=$((skipped + 1))
    echo "skipped $1: $2"
}

# Whether a tool of the checks is installed.
has_tool() { # NAME TOOL
    ! command -v "$2" >/dev/null || return 0
    skip "$1" "there is no $2"
    return 1
}

for part in making reading completing using chroot; do
    # shellcheck source=/dev/null
    . "$here/package/$part.sh"
done

run() { # NAME FUNCTION
    case " ${wanted:-$1} " in *" $1 "*) "$2" "$1" ;; esac
}

wanted=$*
chmod 755 "$folder"
mkdir "$HOME"
make_sources
make_first
run twice check_twice
run lintian check_lintian
run manual check_manual
run files check_files
run parts check_parts
run notice check_notice
run completions check_completions
run desktop check_desktop
run dpkg check_dpkg
run tar check_tar
case " $wanted " in *' chroot '*) check_chroot chroot ;; esac
echo "$passed passed, $failed failed, $skipped skipped"
[ "$failed" = 0 ]
