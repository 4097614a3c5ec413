# Prints the kind of each refused run of a scene, or its fault. The first file has the answers of the scene's variants without a
# refusal (see `variants` in scenes.sh), and the second the runs (see loaded.sh); `steps` and `way` are the scene's. An answer
# begins with a letter for each step and has more fields, all as crates/player/src/main.rt tells; here field 2 has the shown
# flags, 3 the text, 7 the queued bytes. answer[1] is that of the scene itself; with `count` steps, answer[1 + k] that with step k
# replaced by a byte that ends no key, or by sending nothing, answer[1 + count + k] that of the steps before k, answer[1 + 2 *
# count + c] that with call c of the store failing.
BEGIN { count = split(steps, step, " ") }
NR == FNR { answer[FNR] = $0; next }
# a line with another letter for step k
function put(line, k, letter) { return substr(line, 1, k - 1) letter substr(line, k + 1) }
function field(line, number,  part) { split(line, part, "\t"); return part[number] }
# a line with a field replaced
function with_field(line, number, value,  part, count, k, made) {
    count = split(line, part, "\t")
    part[number] = value
    for (k = 1; k <= count; k++) made = made (k > 1 ? OFS : "") part[k]
    return made
}
# a line without the shown flags and the queued bytes
function left(line) { return with_field(with_field(line, 2, ""), 7, "") }
# whether the painting of step k is put off to the next step: after k the terminal shows the previous picture, or none
function is_painted_next(line, k,  shown, digit) {
    shown = field(line, 2)
    digit = substr(shown, k, 1)
    if (way == "step" && digit != "0" && digit != substr(shown, k - 1, 1)) return 0
    if (way == "step") line = with_field(line, 2, put(shown, k, substr(field(answer[1], 2), k, 1)))
    return line == put(answer[1], k, "P")
}
# whether a painting succeeds after step k: of a byte or a told size
function is_painted_later(line, k,  j) {
    for (j = k + 1; j <= count; j++) if (step[j] ~ /^[BT]/ && substr(line, j, 1) ~ /[oe]/) return 1
    return 0
}
# whether the terminal shows the picture last painted at the end
function last_shown(line,  shown) {
    shown = field(line, 2)
    return substr(shown, length(shown))
}
# whether only the painting of step k failed
function is_put_off(line, k,  before) {
    if (step[k + 1] == "B00") return is_painted_next(line, k)
    before = field(answer[1 + count + k], 7)
    return left(line) == left(put(answer[1], k, "P")) \
        && (way == "play" || before == "-" || index(field(line, 7), before) == 1) \
        && (!is_painted_later(line, k) || last_shown(line) == last_shown(answer[1]))
}
# whether the terminal failed at step k, and from then on at each window and each Read of a byte or more
function has_failed_for_good(line, k,  wanted, shown, j) {
    wanted = field(answer[1], 1)
    shown = field(answer[1], 2)
    for (j = k; j <= count; j++) {
        if (step[j] ~ /^(W|R[1-9])/) wanted = put(wanted, j, "M")
        if (way == "step") shown = put(shown, j, "0")
    }
    if (way == "play") shown = "0"
    return line == with_field(with_field(answer[1], 1, wanted), 2, shown)
}
# whether all is as with a failing call of the store; in step k, if not 0, the save tells that by itself
function is_failed_save(line, k,  call, found) {
    for (call = 1; call <= 12; call++) {
        found = answer[1 + 2 * count + call]
        if (line == (k ? put(found, k, "f") : found)) return 1
    }
    return 0
}
# the kind of the run in the fields $1 to $5, whose answer is `line`
function kind_of(line,  letters, k, letter) {
    if ($3 == "") return "FAILS it ended by a signal or not at all"
    if ($2 == 1 && line == "" && $4 ~ /^player: (.*: )?out of memory$/) return "scene: the program has no memory"
    if ($2 != 0 || $4 != "") return "FAILS status " $2 ", " $4
    if (line == "refused: out of memory") return "scene: not opened"
    if (line == answer[1]) return $3 == -1 ? "scene: nothing refused" : "scene: the same"
    if ($3 == -1) return "FAILS without a refusal it is another answer"
    letters = field(line, 1)
    k = match(letters, /[EPLMNf]/)
    letter = substr(letters, k, 1)
    if (k == 0 && line == with_field(answer[1], 3, "?")) return "scene: the text is not told"
    if (k == 0 && way == "play" && is_failed_save(line, 0)) return "scene: failed save"
    if (letter == "f" && is_failed_save(line, k)) return "scene: failed save"
    if (letter == "E" && line == put(answer[1 + k], k, "E")) return "scene: Edit"
    if (letter == "L" && line == put(answer[1 + k], k, "L")) return "scene: Line"
    if (letter == "P" && is_put_off(line, k)) return "scene: Paint"
    if (letter == "M" && has_failed_for_good(line, k)) return "scene: Screen"
    if (letter == "N" && line == "N" answer[2 + count]) return "scene: no answers of a play"
    return "FAILS none of the answers that may be"
}
{
    line = $5
    for (k = 6; k <= NF; k++) line = line OFS $k
    kind = kind_of(line)
    print kind (kind ~ /^FAILS/ ? ": growth " $1 ": " line : "")
}
