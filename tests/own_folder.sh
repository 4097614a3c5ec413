# shellcheck shell=sh
# shellcheck disable=SC2034,SC2154 # words that the scripts give and take
# For scripts that run the built editor by Python, in a folder of their own, which is removed at the end. `top` is the repository.
# Sets `editor`, the program's path, and `folder`, where the script is from then on. Exit status 77: there is no python3; 1: the
# program is not built.

# shellcheck source=tests/own_state.sh
. "$top/tests/own_state.sh"
# shellcheck source=tests/built.sh
. "$top/tests/built.sh"
find_built bidi_edit
editor=$program
if ! command -v python3 >/dev/null 2>&1; then
    echo 'skipped: there is no python3'
    exit 77
fi
folder=$(mktemp -d)
trap 'rm -rf "$folder"' EXIT
trap 'exit 1' HUP INT TERM
own_state "$folder"
cd "$folder" || exit 1
