#!/bin/sh
# check-refusals.sh [SESSIONS]: runs the built programs with one memory growth (an allocation: a call of malloc and the like)
# refused: the first, the second and so on, until a run needs no more. It is not part of `rt ci`. The last lines count the runs by
# kind. Exit status 1: a run does something that no refusal may cause, or a required kind did not occur; 77: nothing failed and
# something could not run.
#
# A library in C, which tests/refusals/loaded.sh builds, is loaded into each program. It refuses the growth, gives the program
# its input one byte a read, and reports how many bytes were read at the refusal.
#
# 1. Scenes by crates/player, each step by step and by one call, unchanged and with a byte that ends no key after each key and
#    each size. A run must answer as the scene does without a refusal, or be one of these, and player must report the
#    step:
#    - the file is not opened, or the program itself runs out of memory;
#    - no memory for a key: all else is as with a byte that ends no key in the key's place;
#    - no memory for the painting: if a byte follows that ends no key, all else is as without the refusal, since that byte
#      paints. Otherwise text, place, stored bytes and the changed flag are as without it, the bytes queued before stay, and if
#      a later painting succeeds, the screen is right at the end;
#    - no memory for the line: all else is as with nothing sent in that step;
#    - no memory in the terminal: each later window and each Read of at least a byte reports it again, and all else is the same;
#    - no memory for the answers of a play: all is as without steps;
#    - no memory for a Save: all else is as with a failing call of the store;
#    - no memory for the text at the scene's end: it is `?`, and all else is the same.
#    So a run with two refusals, or with one that has any other effect, fails the check.
# 2. Worked scenes: one run of each must give exactly the answer in tests/refusals/scenes.sh.
# 3. player with a class file: it answers as without a refusal, or reports that memory ran out, after some of the answers or none.
# 4. Twenty of the recorded sessions in SESSIONS (see sessions.sh) by bidi_edit. A run must print, leave and end as the session
#    does without a refusal, or be one of these, where K is the last byte read before the refusal:
#    - before the first byte: status 1, `out of memory` alone, nothing on the screen, and an unchanged FILE;
#    - a dropped key: all is as with a byte that ends no key in K's place;
#    - a failed save: all is as with renames refused after K, or with the first rename refused if the store's growth was refused
#      before the first byte;
#    - a painting put off (owed, as docs/ARCHITECTURE.md says): status, fault and FILE are as without the refusal, and K sends
#      nothing. With Repaint typed after K and the same growth refused, all is as in the session with Repaint and without a
#      refusal, except for the bytes that K sends.
set -eu
export LC_ALL=C

top=$(cd "$(dirname "$0")/.." && pwd)
# shellcheck source=tests/sessions.sh
. "$top/tests/sessions.sh"
# shellcheck source=tests/refusals/loaded.sh
. "$top/tests/refusals/loaded.sh"
# shellcheck source=tests/refusals/scenes.sh
. "$top/tests/refusals/scenes.sh"
# shellcheck source=tests/refusals/runs.sh
. "$top/tests/refusals/runs.sh"

player=$top/crates/player/out/player
editor=$top/crates/bidi_edit/out/bidi_edit
given=$(readlink -f "${1:-$top/tests/data/sessions.tar.gz}" || :)
scratch=$(mktemp -d)
trap 'rm -rf "$scratch"' EXIT
trap 'exit 1' HUP INT TERM
cd "$scratch"
failed=0 skipped=0
# a line for each run that does what it may: its kind
: >kinds

skip() { # WORDS
    echo "skipped: $1"
    skipped=$((skipped + 1))
}

fail() { # WORDS
    echo "FAILS $1"
    failed=$((failed + 1))
}

# Requires that each kind of run occurred.
want_kinds() { # KIND..
    for kind; do
        grep -q -x -F "$kind" kinds || fail "no run was '$kind'"
    done
}

if ! build_refuse; then
    echo 'skipped: there is no cc that makes a library to load'
    exit 77
fi
if [ -x "$player" ]; then
    check_all_scenes
    check_all_worked
    want_kinds 'scene: the program has no memory' 'scene: not opened' 'scene: Edit' 'scene: Paint' 'scene: Line' 'scene: Screen' \
        'scene: failed save' 'scene: no answers of a play' 'scene: nothing refused'
    check_tables
    want_kinds 'tables: out of memory' 'tables: nothing refused'
else
    skip 'the scenes and the tables, since crates/player is not built (cd crates/player && rt run)'
fi
if ! [ -e "$given" ]; then
    skip 'the sessions, since none are given (tests/check-refusals.sh SESSIONS)'
elif [ -x "$editor" ]; then
    check_sessions "$given"
    want_kinds 'session: out of memory at opening' 'session: a dropped key' 'session: a painting put off' 'session: a failed save' \
        'session: nothing refused'
else
    skip 'the sessions, since crates/bidi_edit is not built (cd crates/bidi_edit && rt run)'
fi

sort kinds | uniq -c
echo "$(wc -l <kinds) runs as they may be, $failed failures"
[ "$failed" = 0 ] || exit 1
[ "$skipped" = 0 ] || exit 77
