# Reads the plan, and the logs and results of crates in `room`, and writes one line: the current crate, its proved functions, the
# minutes from `begun` to `now` and the estimated minutes left. With `ended` the line is about that crate, the `number`th to end.
# Times are in seconds. `kept` lists the running crates, each with the number of functions whose proofs are already stored.
# `whole` is the estimate of the beginning, for which `asks` is `whole`; `cores` is the number of processors.

BEGIN {
    n = split(kept, word, " ")
    for (i = 1; i < n; i += 2) kept_of[word[i]] = word[i + 1]
}

# Reads the last count in a crate's log: `proved` of `functions`. The log is updated now and then, but each proof is stored at
# once.
function read_log(name,    file, line, word) {
    file = room "/" name ".log"
    proved = functions = 0
    while ((getline line < file) > 0) {
        split(line, word, " ")
        if (line ~ /^so far: [0-9]+ of [0-9]+ functions/) { proved = word[3]; functions = word[5] }
        if (line ~ /^logic=proved functions=/) { sub(/.*=/, "", word[2]); proved = functions = word[2] }
    }
    close(file)
    if (kept_of[name] > proved + 0) proved = kept_of[name]
    if (proved > functions + 0) proved = functions
}

function exists(file,    line, found) {
    found = (getline line < file) >= 0
    close(file)
    return found
}

# A number and a noun in the singular, which gets its plural.
function many(count, what) {
    return count " " what (count == 1 ? "" : "s")
}

# A line of the plan: a crate, its estimated seconds, and those of the longest chain that it begins. `part` is the share of its
# functions that are proved; `now_at` is the first crate that is being proved, `beside` the others.
{
    crates++
    seconds = $2
    if (exists(room "/" $1 ".ended")) {
        done++
        next
    }
    part = 0
    if (exists(room "/" $1 ".log")) {
        read_log($1)
        if (functions) part = proved / functions
        if (now_at == "") { now_at = $1; counted = functions ? ": " proved " of " many(functions, "function") " proved" : "" }
        else beside = beside (beside == "" ? "; beside it " : ", ") $1
    }
    left += seconds * (1 - part)
    if ($3 - seconds * part > longest) longest = $3 - seconds * part
}

# The estimated time left: of the longest chain, whose crates get most processors (so it takes 0.7 of its time with one job each),
# or of all work on all processors (which stand idle a sixth of the time, so it takes 1.2 of that).
function to_go() {
    left = left / cores * 1.2
    return longest * 0.7 > left ? longest * 0.7 : left
}

END {
    # the measured pace gains weight over time: it begins as if a fifth of all had gone as estimated
    rest = to_go()
    passed = now - begun
    if (whole == "") whole = rest
    pace = (passed + whole / 5) / (whole - rest + whole / 5)
    minutes = int(rest * pace / 60 + 0.999)
    if (ended != "") {
        read_log(ended)
        now_at = ended
        counted = functions ? ": " many(functions, "function") " proved" : ": proved before"
        beside = ""
    } else number = done + 1
    if (asks == "whole") print rest
    else printf "crate %d of %d, %s%s; %s so far, about %d to go%s\n", number, crates, now_at, counted, many(int(passed / 60), "minute"), minutes, beside
}
