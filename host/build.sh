#!/bin/sh
# build.sh [sanitized | into FOLDER]: compiles the host to out/bidi-edit, or to FOLDER/bidi-edit, with $CC, by default cc, where a
# source is newer. With the word `sanitized` it compiles out/sanitized/bidi-edit with AddressSanitizer and UBSan. Exit status 1: it
# does not compile, or there is no compiler.
set -eu

here=$(CDPATH='' cd -- "$(dirname -- "$0")" && pwd)
kind='' written=$here out=$here/out
case $#:${1:-} in
0:) ;;
1:sanitized) kind=$1 out=$here/out/$1 ;;
2:into) written=$2 out=$2 ;;
*)
    echo 'usage: build.sh [sanitized | into FOLDER]' >&2
    exit 2
    ;;
esac
program=$out/bidi-edit

if [ -x "$program" ] && [ -z "$(find "$here" -maxdepth 1 \( -name '*.c' -o -name '*.h' -o -name build.sh \) -newer "$program")" ]; then
    # newer than the folder too, by which a start sees that nothing is to be done
    touch -c "$program" 2>/dev/null || :
    exit 0
fi
compiler=${CC:-cc}
# the variable may have options after the compiler's name
command -v "${compiler%% *}" >/dev/null || {
    echo "bidi-edit: there is no C compiler ${compiler%% *}: install one (on Debian, apt install gcc libc6-dev)" >&2
    exit 1
}
set -- -std=c11 -D_GNU_SOURCE -Wall -Wextra -Wpedantic -Wconversion -Werror -O2 -fstack-protector-strong -fPIE -pipe -pthread
case $kind in
'') set -- "$@" -D_FORTIFY_SOURCE=2 ;;
sanitized) set -- "$@" -g -fno-omit-frame-pointer -fsanitize=address,undefined -fno-sanitize-recover=all ;;
esac
# names.sh quotes the name
{ mkdir -p "$out" && true >"$program.$$"; } 2>/dev/null || {
    # shellcheck source=tools/launcher/names.sh
    . "$here/../tools/launcher/names.sh"
    echo "bidi-edit: the host is not built, and cannot be built here, since nothing can be written in $(shown "$written"): build it in your own copy" >&2
    exit 1
}
# the compiler runs in another folder
out=$(CDPATH='' cd -- "$out" && pwd)
program=$out/bidi-edit
objects=$(mktemp -d "$out/objects.XXXXXX")
trap 'rm -rf -- "$objects" "$program.$$"' EXIT
trap 'exit 1' HUP INT TERM
cd -- "$objects"
# on all processors
# shellcheck disable=SC2086 # the compiler's own options
printf '%s\0' "$here"/*.c | xargs -0 -n 3 -P "$(nproc 2>/dev/null || echo 1)" $compiler "$@" -c || exit 1
# shellcheck disable=SC2086 # the compiler's own options
$compiler "$@" -pie -Wl,-z,relro,-z,now -o "$program.$$" ./*.o || exit 1
# a start meanwhile finds the old program or the new one
mv -f -- "$program.$$" "$program"
