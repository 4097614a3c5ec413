# What the time of a crate's build went to, for time-first-start.sh; crates.awk reads what this writes. Given are `crate`, its times
# `begun` and `ended` in seconds of the epoch, the `processor` time of all its processes in seconds, and `top`, the repository.
#
# The first file has a line for each copy of the prover that was seen: its crate, and the seconds at which it began and was last
# seen. The second has one for each module that the crate has stored, by time: the second of that, and its file's name.
#
# Written is, in seconds of processor time, `PART CRATE SECONDS` for each part: `head`, before the first proof; `proofs`; `other`,
# modules between proofs that are of none; `end`, behind the last proof; `build`, after the last module. Then `function CRATE
# SECONDS NAME` for each function and file of lemmas, and `proved CRATE NOW ALL`, numbers of functions.
#
# The prover checks a crate alone, or by copies of itself side by side, and stores each module once it is checked. So a module
# took the time since the same process stored another. Which process that was is not stored: it is taken for one that is at
# the same function, else for the one between two functions that stored last. These times by the clock are then shortened or
# lengthened alike, so that their sum is the processor time. So one function's time is an estimate, and the sum is not.

FILENAME == ARGV[1] {
    if ($1 == crate) {
        copies++
        from[copies] = last[copies] = $2
        to[copies] = $3
        is_free[copies] = 1
    }
    next
}

# A function has a module `.Proof`, and if it is compiled a module `.Code`; `.TheImpl.` is in those of a whole `impl`. `begun` is
# the crate's start: modules from before are of an earlier build.
{
    name = $2
    sub(/\.oantt$/, "", name)
    sub("^Rattle-" crate "-?", "", name)
    if (name !~ /\.TheImpl\./ && match(name, /\.(Proof|Code)$/)) is_function[substr(name, 1, RSTART - 1)] = 1
    if (name !~ /\.TheImpl\./ && name ~ /\.Proof$/) { functions++; if ($1 >= begun) anew++ }
    if ($1 >= begun) { modules++; at[modules] = $1; named[modules] = name }
}

function is_file(path,    line, found) {
    found = (getline line < path) >= 0
    close(path)
    return found
}

# Returns the function, or the file of lemmas, that a module belongs to, or nothing: of a name the part after its first 7 letters,
# `proofs.`. A function's first module, which has its very name, waits for what is loaded, and belongs to none.
function owner(module,    path) {
    if (module !~ /^proofs\./ || module in is_function) return ""
    for (path = module; match(path, /\.[^.]*$/); path = substr(path, 1, RSTART - 1))
        if (path in is_function) return substr(path, 8)
    path = substr(module, 8)
    gsub(/\./, "/", path)
    path = "proofs/" path ".antt"
    return is_file(top "/crates/" crate "/" path) ? path : ""
}

# Returns the process that most likely stored a module of `of` at this time. 0 is the prover itself, which waits for its copies.
function process(time, of,    i, best) {
    for (i = 1; i <= copies; i++) {
        # a copy is looked for once a second, so it may have lived longer than it was seen: a second, and half a one for the looking
        if (from[i] > time || to[i] + 1.5 < time) continue
        if (of != "" && works_at[i] == of) return i
        if (!best || is_free[i] > is_free[best] || (is_free[i] == is_free[best] && last[i] > last[best])) best = i
    }
    return best + 0
}

# `last[who]` is when the process `who` last stored a module, `latest` when any did; `works_at[who]` is that module's owner, and
# `is_free[who]` says that it was a function's last one, Met or TheLink. `spent[of]` are the owner's seconds by the clock.
END {
    latest = begun
    for (i = 1; i <= modules; i++) {
        of = owner(named[i])
        who = process(at[i], of)
        took = at[i] - (who ? last[who] : latest)
        if (of != "") { spent[of] += took; part["proofs"] += took; part["other"] += part["end"]; part["end"] = 0 }
        else if (is_begun) part["end"] += took
        else part["head"] += took
        if (named[i] ~ /^proofs/) is_begun = 1
        clock += took
        last[who] = latest = at[i]
        works_at[who] = of
        is_free[who] = named[i] ~ /\.(Met|TheLink)$/
    }
    if (ended > latest) { part["build"] = ended - latest; clock += part["build"] }
    share = clock ? processor / clock : 0
    for (of in part) printf "%s %s %.2f\n", of, crate, part[of] * share
    for (of in spent) printf "function %s %.2f %s\n", crate, spent[of] * share, of
    print "proved", crate, anew + 0, functions + 0
}
