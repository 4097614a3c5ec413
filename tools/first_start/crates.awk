# The table of time-first-start.sh. Reads three files: crates.txt, whose lines are `CRATE [words]: CRATES BELOW`; a line for each
# crate that was built, with its name, start, end, jobs (how many processors its proof might use) and processor time; and what
# functions.awk wrote of each. Writes a line for each crate, in the order of their starts, the longest chain of crates that
# waited for one another, and the functions of each crate that took a second and more. `cores` is the number of processors.

FILENAME == ARGV[1] {
    sub(/#.*/, "")
    if (match($0, /^[a-z0-9_]+/)) {
        name = substr($0, 1, RLENGTH)
        sub(/^[^:]*:/, "")
        uses[name] = $0
    }
    next
}

FILENAME == ARGV[2] {
    crates++
    crate[crates] = $1
    from[$1] = $2
    to[$1] = $3
    jobs[$1] = $4
    processor[$1] = $5
    if (crates == 1 || $2 < begun) begun = $2
    if ($3 > ended) ended = $3
    next
}

$1 == "proved" { proved[$2] = $3 " of " $4 }

# `long` has the lines of a crate's functions of a second and more, `short` the seconds of its others, `shorts` their number.
$1 == "function" {
    if ($3 >= 1) long[$2] = long[$2] sprintf("    %7.1f %s\n", $3, $4)
    else { short[$2] += $3; shorts[$2]++ }
}

$1 ~ /^(head|proofs|other|end|build)$/ { part[$2, $1] = $3 }

# Returns the seconds of the longest chain of crates that ends with this one, and notes in `before` the crate before it in that.
function chain(name,    n, i, below, longest) {
    if (name in chains) return chains[name]
    n = split(uses[name], below, " ")
    for (i = 1; i <= n; i++)
        if (below[i] in from && chain(below[i]) > longest) { longest = chain(below[i]); before[name] = below[i] }
    return chains[name] = to[name] - from[name] + longest
}

# Sorts the crates by their starts, and then by their ends.
function sort(    i, k, name) {
    for (i = 2; i <= crates; i++) {
        name = crate[i]
        for (k = i - 1; k > 0 && (from[crate[k]] > from[name] || (from[crate[k]] == from[name] && to[crate[k]] > to[name])); k--)
            crate[k + 1] = crate[k]
        crate[k + 1] = name
    }
}

function tell_crates(    i, k, name, parts, word) {
    print "Seconds by the clock from the first start; jobs, how many processors its proof might use; seconds of processor time: of all, before the first proof, of the"
    print "proofs, of other modules, behind the last proof, and of the build; functions that were proved now, of all."
    parts = split("head proofs other end build", word, " ")
    printf "%-12s %5s %5s %4s %7s", "crate", "start", "end", "jobs", "all"
    for (k = 1; k <= parts; k++) printf " %7s", word[k]
    print " functions"
    for (i = 1; i <= crates; i++) {
        name = crate[i]
        sum += processor[name]
        printf "%-12s %5d %5d %4d %7.1f", name, from[name] - begun, to[name] - begun, jobs[name], processor[name]
        for (k = 1; k <= parts; k++) printf " %7.1f", part[name, word[k]]
        print " " proved[name]
    }
    printf "all: %.1f seconds of processor time, %d by the clock", sum, ended - begun
    if (ended > begun) printf ", %.2f of %d processors", sum / (ended - begun), cores
    print ""
}

function tell_chain(    i, name, top, text) {
    for (i = 1; i <= crates; i++) if (chain(crate[i]) > chain(top)) top = crate[i]
    for (name = top; name != ""; name = before[name]) {
        text = name " " to[name] - from[name] (text == "" ? "" : ", " text)
        whole += processor[name]
    }
    printf "longest chain of crates: %s: %d seconds by the clock, %.1f of processor time\n", text, chain(top), whole
}

END {
    sort()
    tell_crates()
    tell_chain()
    print "Functions and files of lemmas that took a second of processor time and more, by estimate, a rough one where jobs are several:"
    for (i = 1; i <= crates; i++) {
        name = crate[i]
        printf "  %s\n%s", name, long[name]
        if (shorts[name]) printf "    %7.1f in %d others\n", short[name], shorts[name]
    }
}
