# shellcheck shell=sh
# shellcheck disable=SC2154 # top is set by the script that reads this file
# Refusals before the first build, of arguments that are wrong in any case. For the script bidi-edit, which sets `top`.

# shellcheck source=tools/launcher/names.sh
. "$top/tools/launcher/names.sh"

# The usage of host/command_line.c, with the line about printing.
usage='usage: bidi-edit [--direction auto|ltr|rtl] [--line N | +N] [--tab N] [FILE | -]
       bidi-edit --recover [[--to OTHER] FILE] | --forget [--yes] [FILE]
       bidi-edit --print FILE [--cols N] [--marks]'

# Prints the cause and the usage without its last line, as the host does.
refuse_words() { # CAUSE
    printf 'bidi-edit: %s\n%s\n' "$1" "${usage%
*}" >&2
    exit 2
}

# The help of an editor that is not built yet.
tell_usage() {
    printf '%s\nCtrl-S saves, Ctrl-Q quits, F1 shows the main keys. The manual: man -l %s\n' "$usage" "$(shown "$top/docs/bidi_edit.1")"
    exit 0
}

# Refuses a start that has to prove and build, as `cause` says, without the toolchain.
need_toolchain() {
    command -v rt >/dev/null && return
    case $cause in
    '') cause='dist/ is missing' advice='git checkout dist brings it back' ;;
    *checksum*) advice='git checkout dist brings back what was committed' ;;
    'the sources are'*) advice="git status shows what was changed in crates/, and README.md names the toolchain" ;;
    *) advice='README.md names it' ;;
    esac
    printf 'bidi-edit: %s, and the toolchain (rt), which would prove and build the editor, is not installed: %s\n' "$cause" "$advice" >&2
    exit 1
}

# Refuses words with several FILEs, and a FILE that is a folder. The host judges all else.
check_words() { # WORD..
    while [ $# -gt 0 ]; do
        case $1 in
        -h | --help) tell_usage ;;
        --version | --print | --recover | --forget) return ;;
        --direction | --line | --tab | --to)
            [ $# -gt 1 ] || refuse_words "$1 needs a value"
            shift
            ;;
        --)
            shift
            break
            ;;
        -?* | +*) ;;
        *) break ;;
        esac
        shift
    done
    [ $# != 0 ] || return
    [ $# = 1 ] || refuse_words 'only one FILE can be given, after the options'
    [ -n "$1" ] || refuse_words 'the name of FILE is empty'
    [ ! -d "$1" ] || {
        printf 'bidi-edit: %s is a folder: name a file in it\n' "$(shown "$1")" >&2
        exit 1
    }
}
