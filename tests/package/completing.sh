# shellcheck shell=sh
# shellcheck disable=SC2154 # words that check-package.sh sets
# The completion of words in three shells, and the entry for desktops, for check-package.sh.

# Prints the options that the host takes, among all words of its sources that look like options: it refuses others as unknown.
taken_options() {
    grep -h -o '"--\{0,1\}[a-z][a-z-]*"' "$top"/host/*.c | tr -d '"' | sort -u | while read -r option; do
        for words in "$option --help" "--print file $option"; do
            # shellcheck disable=SC2086 # split into words
            told=$("$editor" $words 2>&1 </dev/null)
            case $told in
            *"unknown option $option"* | *"does not take $option"* | *"$option ".*) ;;
            *)
                echo "$option"
                break
                ;;
            esac
        done
    done
}

# Prints the options that the manual's synopsis names.
manual_options() {
    sed -n '/^.SH SYNOPSIS/,/^.SH DESCRIPTION/p' "$top/docs/bidi_edit.1" | sed 's/\\-/-/g' | grep -o -e '--[a-z][a-z-]*' -e ' -[a-z] ' | tr -d ' ' | sort -u
}

# Whether a shell's file names an option, in its own way.
names_option() { # FILE OPTION
    case $1 in
    *.fish) case $2 in --*) grep -q -e " -l ${2#--} " "$1" ;; *) grep -q -e " -s ${2#-} " "$1" ;; esac ;;
    *) grep -q -w -e "$2" "$1" ;;
    esac
}

# Each option is in all three files: those of the manual's synopsis, and those that the host takes, but for what it takes in silence
# since other editors have it.
check_options() { # NAME
    ignored=' -f -w -nw --nofork --wait '
    for option in $({ manual_options && taken_options; } | sort -u); do
        case $ignored in *" $option "*) continue ;; esac
        missing=''
        for file in "$bash_file" "$zsh_file" "$fish_file"; do names_option "$file" "$option" || missing="$missing ${file##*/}"; done
        same "$1, files without $option (the host's help has to name it)" "$missing" ''
    done
}

# Prints what bash completes after these words, as bash cuts them.
bash_completes() { # WORD..
    bash -c 'file=$1; shift
        source "$file"
        COMP_WORDS=(bidi-edit "$@") COMP_CWORD=$#
        _bidi_edit 2>/dev/null
        printf "%s\n" "${COMPREPLY[@]}"' bash "$bash_file" "$@" | sort | paste -s -d ' '
}

check_bash() { # NAME
    has_tool "$1" bash || return 0
    same "$1, options" "$(bash_completes --no-)" '--no-clipboard --no-indent --no-joining --no-mouse --no-options'
    same "$1, a value" "$(bash_completes --direction l)" ltr
    same "$1, a value after =" "$(bash_completes --direction = r)" rtl
    same "$1, a value after = alone" "$(bash_completes --direction =)" 'auto ltr rtl'
    same "$1, a number" "$(bash_completes --line '')" ''
    same "$1, of printing" "$(bash_completes --print file --m)" --marks
    same "$1, not of printing" "$(bash_completes --print file --fo)" ''
    mkdir "$folder/files"
    : >"$folder/files/letter.txt"
    same "$1, a file" "$(bash_completes "$folder/files/l")" "$folder/files/letter.txt"
}

check_fish() { # NAME
    has_tool "$1" fish || return 0
    for case in '--no-|--no-clipboard --no-indent --no-joining --no-mouse --no-options' '--direction |auto ltr rtl' '--print file --m|--marks' '--print file --fo|'; do
        found=$(fish --no-config -c "source '$fish_file'; complete -C 'bidi-edit ${case%|*}'" 2>&1 | cut -f 1 | sort | paste -s -d ' ')
        same "$1, ${case%|*}" "$found" "${case#*|}"
    done
}

# A shell in a terminal, in which words are typed and completed.
check_zsh() { # NAME
    has_tool "$1" zsh && has_tool "$1" tmux || return 0
    tmux -u -L "$socket" -f /dev/null new-session -d -s person -x 100 -y 30 zsh -f -i
    type_keys "fpath=('${zsh_file%/*}' \$fpath); autoload -Uz compinit; compinit -D -u; PS1='at '; clear; print READY" Enter
    wait_for has_line READY
    type_keys 'bidi-edit --no-' Tab
    wait_for has_line 'Keeps what is copied in the editor' && has_line --no-mouse
    report "$1, options" $? "$(tmux -L "$socket" capture-pane -p -t person)"
    type_keys C-u
    type_keys 'bidi-edit --print file --mar' Tab
    wait_for has_line '--print file --marks'
    report "$1, of printing" $? "$(tmux -L "$socket" capture-pane -p -t person)"
    type_keys C-u
    type_keys 'bidi-edit --direction rt' Tab
    wait_for has_line '--direction rtl'
    report "$1, a value" $? "$(tmux -L "$socket" capture-pane -p -t person)"
    tmux -L "$socket" kill-session -t person
}

# The three files, and the same in the package where Debian's shells look for them.
check_completions() { # NAME
    tree=$folder/tree/bidi-edit-$version editor=$folder/tree/bidi-edit-$version/bin/bidi-edit
    bash_file=$tree/share/bash-completion/completions/bidi-edit
    zsh_file=$tree/share/zsh/site-functions/_bidi-edit fish_file=$tree/share/fish/vendor_completions.d/bidi-edit.fish
    same "$1, in the package" "$(cat "$folder/unpacked/usr/share/bash-completion/completions/bidi-edit" \
        "$folder/unpacked/usr/share/zsh/vendor-completions/_bidi-edit" "$folder/unpacked/usr/share/fish/vendor_completions.d/bidi-edit.fish")" \
        "$(cat "$bash_file" "$zsh_file" "$fish_file")"
    check_options "$1"
    check_bash "$1, bash"
    check_fish "$1, fish"
    check_zsh "$1, zsh"
}

# The entry by which a desktop opens a text in a terminal.
check_desktop() { # NAME
    entry=$folder/unpacked/usr/share/applications/bidi-edit.desktop
    ! has_tool "$1" desktop-file-validate || same "$1" "$(desktop-file-validate "$entry" 2>&1)" ''
    for line in Terminal=true 'Exec=bidi-edit %f' 'MimeType=text/plain;'; do
        grep -q -x -F -e "$line" "$entry"
        report "$1, $line" $? 'it is missing'
    done
}
