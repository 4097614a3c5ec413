#!/bin/sh
# check-build.sh [toolchain]: tests how the first start proves and builds, under dash and bash: order, parallel crates, progress on a terminal and
# elsewhere, Ctrl-C and continuing, a failing proof, a killed start. The cases are in tests/first_start, as those of tests/play. They use a small
# repository of four crates with a command in place of rt; with the word `toolchain` the real rt, for Ctrl-C and continuing only, which takes some
# minutes on a busy machine. It is not part of `rt ci`. The last line has the totals. Exit status 1: a check failed; 77: no python3 has pyte.
set -u

top=$(CDPATH='' cd -- "$(dirname "$0")/.." && pwd)
if [ "${1:-}" = toolchain ]; then
    exec sh "$top/tests/check-play.sh" --lanes 1 "$top/tests/first_start/toolchain.play"
fi
exec sh "$top/tests/check-play.sh" --lanes 4 "$top/tests/first_start/build.play"
