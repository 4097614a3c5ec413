#!/bin/sh
# check-dist.sh [NAME..]: checks how dist/ is made, unpacked and compared, in a small repository with a stand-in for rt and programs
# that are scripts: starts from dist/, changed sources, archives and sums, two starts at once, checkouts that cannot be written, full
# disks, no compiler, other machines, installing, and what scripts/prove.sh tells. It also checks that the host in dist/ is of the
# sources in host/. A NAME selects the checks of that name. It needs cc and takes half a minute. The last line has the totals. Exit status 1: a check failed.
set -u

here=$(CDPATH='' cd -- "$(dirname -- "$0")" && pwd)
# shellcheck source=tests/report.sh
. "$here/report.sh"
top=${here%/*}
# shellcheck source=tools/launcher/dist.sh
. "$top/tools/launcher/dist.sh"
folder=$(mktemp -d) || exit 1
socket=dist$$
trap 'tmux -L "$socket" kill-server 2>/dev/null; chmod -R u+w "$folder"; rm -rf -- "$folder"' EXIT
trap 'exit 1' HUP INT TERM
passed=0 failed=0 skipped=0
# shellcheck disable=SC2034 # of the parts
tree=$folder/tree names=$dist_programs player=$dist_player
export LC_ALL=C HOME="$folder/home" TOLD="$folder/told"
unset XDG_STATE_HOME XDG_CONFIG_HOME XDG_CACHE_HOME TMUX
umask 022

skip() { # NAME CAUSE
    skipped=$((skipped + 1))
    echo "skipped $1: $2"
}

for part in tree starts places waiting proofs; do
    # shellcheck source=/dev/null
    . "$here/dist/$part.sh"
done

# Runs the checks of a name, if that is wanted, in a repository of their own.
run() { # NAME FUNCTION
    case " ${wanted:-$1} " in *" $1 "*) ;; *) return 0 ;; esac
    fresh_tree
    "$2" "$1"
}

# The repository's own dist/, whose host is for machines without a compiler: a change of host/ makes it anew, without a proof.
check_own() { # NAME
    same "$1 dist/, its host is of the sources in host/ (tools/make-dist.sh makes it anew)" "$(noted host)" "$(host_digest)"
}

wanted=$*
make_tools
make_repository
run making check_making
run host check_host_alone
run own check_own
run start check_start
run version check_version
run sources check_sources
run sums check_sums
run machine check_machine
run compiler check_compiler
run toolchain check_no_toolchain
run tools check_tools
run waiting check_waiting
run together check_together
run killed check_killed
run unwritable check_unwritable
run full check_full
run found check_found
run installing check_installing
run prove check_prove
run versions check_versions
echo "$passed passed, $failed failed, $skipped skipped"
[ "$failed" = 0 ]
