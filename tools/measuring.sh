# shellcheck shell=sh
# shellcheck disable=SC2034,SC2154 # words that the scripts give and take
# For scripts that measure editors beside this one. `top` is the repository, `peers` has the other editors. Sets `editor` to what
# starts this editor: the script bidi-edit where it is built in crates/, else the host of the ready programs; sets `found` to this
# editor and the peers that are installed, and `folder` to a folder of their own, with a HOME, which is removed at the end. Exit status
# 77: the editor is neither built nor in dist/, or there is no python3.

# shellcheck source=tools/launcher/dist.sh
. "$top/tools/launcher/dist.sh"

editor=$top/bidi-edit
if ! [ -x "$top/crates/bidi_edit/out/bidi_edit" ]; then
    find_start thoroughly || {
        echo "skipped: the program is not built${cause:+, and $cause} (./bidi-edit FILE builds it)"
        exit 77
    }
    editor=$start/bin/bidi-edit
fi
command -v python3 >/dev/null 2>&1 || {
    echo 'skipped: there is no python3'
    exit 77
}
found=bidi_edit
for peer in $peers; do
    if command -v "$peer" >/dev/null 2>&1; then found="$found $peer"; fi
done

folder=$(mktemp -d)
trap 'rm -rf "$folder"' EXIT
trap 'exit 1' HUP INT TERM
# the user's configuration and sessions are not used
export HOME="$folder/home" TERM=xterm
unset XDG_STATE_HOME XDG_CONFIG_HOME XDG_DATA_HOME XDG_CACHE_HOME TMUX STY VIMINIT EXINIT
