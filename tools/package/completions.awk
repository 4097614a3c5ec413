# Writes the file by which a shell completes the editor's options, from the lines of options.awk. The variable `shell` is bash, zsh or
# fish. completions.sh runs it.

function quoted(text) {
    gsub(/'/, "'\\''", text)
    return "'" text "'"
}

# A text inside the brackets of an entry for zsh.
function in_brackets(text) {
    gsub(/\\|\[|\]|:/, "\\\\&", text)
    return text
}

BEGIN { FS = "\t" }
{
    count++
    name[count] = $1
    value[count] = $2
    place[count] = $3
    meaning[count] = $4
}

# ---- bash

# The options that are taken in a place, with blanks.
function options_of(wanted,    i, all) {
    for (i = 1; i <= count; i++) if (place[i] == wanted || place[i] == "both") all = all (all == "" ? "" : " ") name[i]
    return all
}

function write_bash(    i) {
    print "# completes the words of bidi-edit in bash\n_bidi_edit() {"
    print "    local now=${COMP_WORDS[COMP_CWORD]} before=${COMP_WORDS[COMP_CWORD - 1]} word"
    print "    # a value behind = is a word of its own\n    if [ \"$now\" = = ]; then now=''; fi"
    print "    if [ \"$before\" = = ]; then before=${COMP_WORDS[COMP_CWORD - 2]}; fi\n    COMPREPLY=()"
    print "    case $before in"
    for (i = 1; i <= count; i++) {
        if (value[i] ~ /^[a-z]/) print "    " name[i] ")\n        mapfile -t COMPREPLY < <(compgen -W " quoted(value[i]) " -- \"$now\")\n        return\n        ;;"
        else if (value[i] == "N") print "    " name[i] ") return ;;"
    }
    print "    esac\n    case $now in -*) ;; *)\n        compopt -o filenames\n        mapfile -t COMPREPLY < <(compgen -f -- \"$now\")\n        return\n        ;;\n    esac"
    print "    for word in \"${COMP_WORDS[@]:1:COMP_CWORD-1}\"; do\n        case $word in --print)"
    print "            mapfile -t COMPREPLY < <(compgen -W " quoted(options_of("print")) " -- \"$now\")\n            return\n            ;;\n        esac\n    done"
    print "    mapfile -t COMPREPLY < <(compgen -W " quoted(options_of("edit")) " -- \"$now\")\n}\ncomplete -F _bidi_edit bidi-edit"
}

# ---- zsh

function write_zsh_options(wanted,    i, entry) {
    for (i = 1; i <= count; i++) {
        if (place[i] != wanted && place[i] != "both") continue
        entry = name[i] (value[i] != "" ? "=" : "") (meaning[i] != "" ? "[" in_brackets(meaning[i]) "]" : "")
        if (value[i] ~ /^[a-z]/) entry = entry ":value:(" value[i] ")"
        else if (value[i] == "N") entry = entry ":number:"
        else if (value[i] != "") entry = entry ":file:_files"
        print "        " quoted(entry) " \\"
    }
    print "        '*:file:_files'"
}

function write_zsh() {
    print "#compdef bidi-edit\n# completes the words of bidi-edit in zsh\nif (( ${words[(I)--print]} )); then\n    _arguments \\"
    # known, and not offered again
    print "        '!--print' \\"
    write_zsh_options("print")
    print "else\n    _arguments \\"
    write_zsh_options("edit")
    print "fi"
}

# ---- fish

function write_fish(    i, line) {
    print "# completes the words of bidi-edit in fish"
    for (i = 1; i <= count; i++) {
        line = "complete -c bidi-edit " (name[i] ~ /^--/ ? "-l " substr(name[i], 3) : "-s " substr(name[i], 2))
        if (place[i] == "print") line = line " -n '__fish_contains_opt print'"
        if (place[i] == "edit") line = line " -n 'not __fish_contains_opt print'"
        if (value[i] ~ /^[a-z]/) line = line " -x -a " quoted(value[i])
        else if (value[i] == "N") line = line " -x"
        else if (value[i] != "") line = line " -r -F"
        if (meaning[i] != "") line = line " -d " quoted_for_fish(meaning[i])
        print line
    }
}

# fish knows backslashes in single quotes.
function quoted_for_fish(text) {
    gsub(/\\|'/, "\\\\&", text)
    return "'" text "'"
}

END {
    if (shell == "bash") write_bash()
    if (shell == "zsh") write_zsh()
    if (shell == "fish") write_fish()
}
