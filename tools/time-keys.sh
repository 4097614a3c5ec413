#!/bin/sh
# time-keys.sh [--windows] [TEXT [BYTES]]: measures the cost of keys in one paragraph of BYTES bytes, by default 1,000,000, of
# TEXT: hebrew, arabic, ascii or mixed; the default is all four. With --windows it measures a letter at the beginning of a line
# in windows of several sizes, in a text of BYTES bytes in lines of some 110 characters. The built program reads its keys from a
# file, in a window of 24x80 without --windows: first keys that move to a place, and those that the key erases or undoes, then
# 200 of the key or none. Five runs of each alternate. A figure is the difference of the least user and system time with and
# without the keys, divided by 200, in milliseconds. Letters make words, inside a word of the text or at the text's end; End and
# Home alternate. The last figure is the program's peak memory, in MB, with letters typed at the paragraph's beginning. It is
# not part of `rt ci`. Exit status 1: a run does not end by Quit; 77: the program is not built or there is no python3.
set -eu

top=$(cd "$(dirname "$0")/.." && pwd)
# shellcheck source=tests/own_folder.sh
. "$top/tests/own_folder.sh"

python3 "$top/tools/time_keys.py" "$editor" "$top/data" "$@"
