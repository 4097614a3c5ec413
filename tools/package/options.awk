# Prints a line for each option of the editor: its name, its value, where it is taken, and what it does, between tabs. The value is
# empty, words that may stand there, or a name in capitals: N for a number, another for a file. It is taken for `edit`, `print` or `both`.
# The input is what `bidi-edit --help` and then `bidi-edit --print` print, and then the manual, which says what an option does.
# completions.sh runs it.

# Takes the options of a line, whose words are parted by blanks and punctuation; a word after an option may be its value.
function take_options(line, place,    words, number, i, name) {
    gsub(/[][(),;:]/, " ", line)
    gsub(/ \| /, " ", line)
    number = split(line, words, " ")
    for (i = 1; i <= number; i++) {
        if (words[i] !~ /^-(-[a-z][a-z-]*|[a-z])$/) continue
        name = words[i]
        if (!(name in places)) names[++count] = name
        if (!(name in places) || places[name] == place) places[name] = place
        else places[name] = "both"
        if (is_usage && i < number && words[i + 1] ~ /^([A-Z]+|[a-z]+\|[a-z|]+)$/ && !(name in values) && words[i + 1] != "FILE") values[name] = words[i + 1]
    }
}

# The text of a line of the manual, without the commands of its format.
function plain(line,    is_joined) {
    is_joined = line ~ /^\.[BIR][BIR] /
    if (line ~ /^\.(B|I|BR|RB|BI|IB|IR|RI) /) sub(/^\.[BIR]+ /, "", line)
    if (is_joined) gsub(/" | "|"/, "\001", line)
    if (is_joined) gsub(/ /, "", line)
    gsub(/\001/, " ", line)
    gsub(/\\-/, "-", line)
    gsub(/\\f[A-Z]/, "", line)
    gsub(/"/, "", line)
    gsub(/  +/, " ", line)
    return line
}

# Keeps the first sentence, or what it says before a colon, for the options of an entry that have none yet.
function end_entry(    i, number, words) {
    if (match(text, /[.:;]( |$)|, or /)) text = substr(text, 1, RSTART - 1)
    number = split(entry, words, " ")
    for (i = 1; i <= number; i++) if (text != "" && !(words[i] in meaning)) meaning[words[i]] = text
    entry = text = ""
}

# Takes the options of an entry's head.
function begin_entry(head,    i, number, words) {
    number = split(head, words, /[ ,|[]+/)
    for (i = 1; i <= number; i++) if (words[i] ~ /^-/) entry = entry " " words[i]
    if (entry == "") entry = "-"
}

FNR == 1 { file++ }
file == 1 && /^$/ { is_told = 1 }
file == 1 && !is_told {
    is_usage = /^(usage:|  )/
    take_options($0, is_usage && /--print/ ? "print" : "edit")
}
file == 2 && FNR > 1 { is_usage = 1; take_options($0, "print") }
file == 3 && /^\.(TP|PP|SH|SS)/ { end_entry(); is_head = /^\.TP/; next }
file == 3 && is_head { begin_entry(plain($0)); is_head = 0; next }
file == 3 && entry != "" { text = text (text == "" ? "" : " ") plain($0) }
END {
    end_entry()
    for (i = split("-h --help --version", words, " "); i >= 1; i--) if (!(words[i] in places)) {
        names[++count] = words[i]
        places[words[i]] = "edit"
    }
    places["--print"] = "edit"
    for (i = 1; i <= count; i++) {
        gsub(/\|/, " ", values[names[i]])
        print names[i] "\t" values[names[i]] "\t" places[names[i]] "\t" meaning[names[i]]
    }
}
