#!/bin/sh
# check-saves.sh [--quick]: checks how the host saves FILE, by tests/host/save_driver.c in the program's place: another program changes
# FILE meanwhile; files, links, owners and disks of all kinds; and each call of a save is killed, or fails. FILE must have its old or
# its new bytes, complete, with its owner and permissions; a link must stay a link; only the draft of a killed save may be left beside
# it; and nobody else may read the draft. All this is checked for saves that replace FILE and for saves that overwrite it, where FILE
# may be torn as long as the backup, in a folder of its own or beside FILE, has the whole new text. `--quick` kills no calls, which take
# some minutes. It needs a C compiler, python3 and strace; some checks need root. It prints the number of checks of each kind, and in
# the last line the totals. Exit status 1: a check failed; 77: python3 or strace is missing.
set -u

export LC_ALL=C.UTF-8
top=$(CDPATH='' cd -- "$(dirname "$0")/.." && pwd)
quick=''
if [ "${1:-}" = --quick ]; then
    quick=1
    shift
fi
if ! command -v strace >/dev/null 2>&1 && [ "$(id -u)" = 0 ]; then
    apt-get install -y -q strace >/dev/null 2>&1 || { apt-get update -q >/dev/null 2>&1 && apt-get install -y -q strace >/dev/null 2>&1; }
fi
if ! strace -o /dev/null true 2>/dev/null; then
    echo "skipped: there is no strace that may trace"
    exit 77
fi
# shellcheck source=tests/host_checks.sh
. "$top/tests/host_checks.sh"
# Counted by scenes.sh: points, those with a failure, failures and skipped checks, and the points of this kind.
# shellcheck disable=SC2034 # of scenes.sh
points=0 faulty=0 failures=0 skipped=0 kind='' kind_points=0
# shellcheck disable=SC2034 # of the parts
place=$folder/place
# The session's folder, with the backup.
own=$folder/own
# shellcheck disable=SC2034 # of the parts
backup=$own/mark
program='' mounted=''

clean_up() {
    [ -z "$program" ] || kill -s KILL "$program" 2>/dev/null
    [ -z "$mounted" ] || umount "$mounted"
    rm -rf -- "$folder"
}

trap clean_up EXIT
# shellcheck disable=SC2046 # names without blanks
compile driver ../tests/host/save_driver.c $(sources) || exit 1
# other users can reach the files, whose own permissions then decide
chmod 755 "$folder"
# Runs a command as another user, who is in no group of the files: a number that no user of the system should have.
cat >"$folder/as_other" <<'END'
#!/bin/sh
exec setpriv --reuid 54322 --regid 54322 --clear-groups "$@"
END
chmod 755 "$folder"/*
umask 022

for part in scenes kinds changes owners; do
    # shellcheck source=/dev/null
    . "$top/tests/saves/$part.sh"
done

# Has save_points.py kill each call of a save, and have it fail.
check_points() {
    begin_kind 'each call killed, or failing'
    compile faulty.so -shared -fPIC ../tests/host/faulty_calls.c -ldl || exit 1
    python3 -B "$top/tests/host/save_points.py" "$folder/driver" "$folder/faulty.so" | tee "$folder/said"
    # shellcheck disable=SC2046 # split into words
    set -- $(tail -n 1 "$folder/said" | tr -d ,)
    # shellcheck disable=SC2034 # of scenes.sh
    points=$((points + $1 + $3)) kind_points=$(($1 + $3)) faulty=$((faulty + $3)) failures=$((failures + $3))
}

check_changes
check_changes_in_place
check_drafts
check_paths
check_losses
check_names
check_owners
check_disks
[ -n "$quick" ] || check_points
end_kind
echo "$((points - faulty)) passed, $failures failed, $skipped skipped"
[ "$failures" = 0 ]
