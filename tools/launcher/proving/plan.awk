# Reads crates.txt, and then `wc -l` lines for the sources under crates/. Writes a line for each crate that `programs` need: its
# name, its estimated proving time, the time of the longest chain of crates that starts with it, and the crates it depends on.
# Crates with longer chains come first.
#
# Times are seconds of processor time, as measured on a machine with four processors. The more crates there are below a crate,
# the more is loaded for it, and the longer a line takes. Given are `programs`, and `already`, the crates that are built, both
# with blanks between.

FILENAME == ARGV[1] {
    sub(/#.*/, "")
    if (match($0, /^[a-z0-9_]+/) == 0) next
    name = substr($0, 1, RLENGTH)
    sub(/^[^:]*:/, "")
    uses[name] = $0
    next
}

match($2, /crates\/[a-z0-9_]+\/src\//) {
    name = substr($2, RSTART + 7, RLENGTH - 12)
    lines[name] += $1
}

# Adds a crate and its dependencies to the plan.
function want(name,    n, i, used) {
    if (name in wanted) return
    wanted[name] = 1
    below[name] = ""
    n = split(uses[name], used, " ")
    for (i = 1; i <= n; i++)
        if (used[i] in uses) {
            want(used[i])
            below[name] = below[name] " " used[i]
            above[used[i]] = above[used[i]] " " name
        }
}

# Returns the seconds of the longest chain of crates that starts with one: each uses the one before it.
function chain(name,    n, i, users, longest) {
    if (name in chains) return chains[name]
    n = split(above[name], users, " ")
    for (i = 1; i <= n; i++)
        if (chain(users[i]) > longest) longest = chain(users[i])
    return chains[name] = seconds(name) + longest
}

# Adds the crates below `name` to `lower[top]`, the number of crates below `top`. Each counts once (`counted`).
function count_below(top, name,    n, i, used) {
    n = split(below[name], used, " ")
    for (i = 1; i <= n; i++) {
        if ((top, used[i]) in counted) continue
        counted[top, used[i]] = 1
        lower[top]++
        count_below(top, used[i])
    }
}

# Returns the estimated seconds of a crate; for one that is built rt only looks whether something has changed.
function seconds(name) {
    if (name in built) return 2
    if (!(name in lower)) { lower[name] = 0; count_below(name, name) }
    return int(15 + 4 * lower[name] + (0.12 + 0.008 * lower[name]) * lines[name])
}

END {
    n = split(programs, names, " ")
    for (i = 1; i <= n; i++) {
        if (!(names[i] in uses)) exit
        want(names[i])
    }
    n = split(already, names, " ")
    for (i = 1; i <= n; i++) built[names[i]] = 1
    for (name in wanted) print name, seconds(name), chain(name) below[name] | "sort -k3,3nr -k1,1"
}
