# shellcheck shell=sh
# shellcheck disable=SC2154 # variables that check-refusals.sh sets
# The scenes and the tables of check-refusals.sh. crates/player/src/main.rt tells what the fields of a scene and of its
# answer are, and what the steps do. FILE is in hexadecimal; a WAY is `step`, `play` or `alone`. A growth is one allocation of memory.
# `sweep` in loaded.sh refuses one growth after another, and tells what the fields of a line of `runs` are.

# Plays scenes without refusals.
play() {
    timeout 60 "$player" "$top"/crates/player/data/classes.txt "$top"/crates/player/data/brackets.txt \
        "$top"/crates/player/data/mirroring.txt
}

# Plays the scene in the file `scene` with each growth refused in turn.
sweep_scene() {
    sweep scene "$player" "$top"/crates/player/data/classes.txt "$top"/crates/player/data/brackets.txt \
        "$top"/crates/player/data/mirroring.txt
}

# Prints a scene as a line.
scene_of() { # ROWS COLS FILE STEPS WAY
    printf 'scene\tscene\tauto\t%s\t%s\t-\t%s\t%s\t%s\n' "$@"
}

# Prints the variants of a scene that its refused runs are compared with: itself; for each step, itself with a byte that ends no
# key, or with nothing sent, in its place; for each step, the scene before it; and itself with each call of the store failing:
# twelve, more than it makes.
variants() {
    awk -F '\t' -v OFS='\t' '
        { head = $1 OFS $2 OFS $3 OFS $4 OFS $5; file = $7; way = $9; count = split($8, step, " ") }
        # prints the scene up to step `to`, with `instead` in place of step `from` (0: none), and with `call` of the store failing (-: none)
        function with(call, from, to, instead,  words, k) {
            words = ""
            for (k = 1; k <= to; k++) words = words (k > 1 ? " " : "") (k == from ? instead : step[k])
            print head, call, file, (words == "" ? "-" : words), way
        }
        END {
            with("-", 0, count)
            for (k = 1; k <= count; k++) with("-", k, count, step[k] ~ /^B/ ? "B00" : step[k] ~ /^S/ ? "S0" : step[k])
            for (k = 1; k <= count; k++) with("-", 0, k - 1)
            for (call = 1; call <= 12; call++) with(call, 0, count)
        }'
}

# Prints the kind of each run in `runs`, from the answers of the variants in `answers`, or its fault.
judge() { # STEPS WAY
    awk -F '\t' -v OFS='\t' -v steps="$1" -v way="$2" -f "$top/tests/refusals/judge.awk" answers runs
}

# Runs a scene with each growth refused, step by step and by one call.
check_scene() { # NAME ROWS COLS FILE STEPS
    for way in step play; do
        scene_of "$2" "$3" "$4" "$5" "$way" >scene
        variants <scene | play >answers
        sweep_scene
        judge "$5" "$way" >judged
        count_kinds "$1, $way" <judged
    done
}

# Checks a scene, and the same with a byte that ends no key after each key and each size.
check_scenes() { # NAME ROWS COLS FILE STEPS
    check_scene "$@"
    check_scene "$1, idle bytes" "$2" "$3" "$4" "$(idle_behind_keys "$5")"
}

# Prints steps with a byte that ends no key after each step that may paint: a size, and each byte that ends a key or a
# sequence.
idle_behind_keys() { # STEPS
    printf '%s\n' "$1" | awk '{
        for (k = 1; k <= NF; k++) {
            printf "%s%s", (k > 1 ? " " : ""), $k
            if ($k == "B1b" || $k == "Bcc") is_open = 1
            else if ($k ~ /^B/ && is_open && $k != "B5b" && $k !~ /^B3[0-9]$/) is_open = 0
            if ($k ~ /^[BT]/ && !is_open) printf " B00"
        }
        print ""
    }'
}

# Plays a scene with each growth refused, and requires one run with exactly the answer WANTED. If BEFORE is given, it must be the
# answer of the run with the growth before.
check_worked() { # NAME ROWS COLS FILE STEPS WAY WANTED [BEFORE]
    scene_of "$2" "$3" "$4" "$5" "$6" >scene
    sweep_scene
    wanted=$(printf '%b' "$7")
    found=$(cut -f 5- runs | awk -v wanted="$wanted" -v before="${8:-}" '
        $0 == wanted && (before == "" || last == before) { n++ } { last = $0 } END { print n + 0 }')
    if [ "$found" -gt 0 ]; then
        echo "worked: $1" >>kinds
    else
        fail "$1: no run answers $wanted"
    fi
    # runs that ended by a signal or not at all, that report two refusals, or that failed by anything but a want of memory
    awk -F '\t' '
        { letters = $5; refusals = letters ~ /^refused: / ? 0 : gsub(/[EPLNf]/, "", letters) }
        $3 == "" || refusals > 1 { print; next }
        ($2 != 0 || $4 != "") && !($2 == 1 && $4 ~ /^player: (.*: )?out of memory$/) { print }
    ' runs >odd
    [ ! -s odd ] || fail "$1: $(head -n 1 odd)"
}

# Bytes of sequences are those of crates/bx_keys/specs/Keys.antt: B1b B5b B38 B32 B7e is CSI 82~, which undoes an undo group.
check_all_scenes() {
    # all is sent and read
    rest='S1000 R1000'
    check_scenes 'quit' 1 5 6162 "B11 $rest"
    check_scenes 'windows and sizes' 4 20 6162 'S38 R11 W2,5 R27 T4,20 T2,5 S1000 R1000'
    check_scenes 'a save between CR LF' 3 10 610d0a62 "B1b B5b B46 B1b B5b B33 B7e B13 $rest"
    check_scenes 'a mark, undo and redo' 2 10 65 "B1b B5b B46 Bcc B81 B7f B1a B19 $rest"
    check_scenes 'changes' 1 5 6162 "B78 B1b B5b B46 B7f B1b B5b B43 $rest"
    check_scenes 'a selection replaced' 2 10 616263 "B1b B5b B38 B31 B7e B06 B78 $rest"
    check_scenes 'a run undone and redone' 1 5 61 "B78 B79 B1b B5b B38 B32 B7e B1b B5b B38 B33 B7e $rest"
    check_scenes 'a paste' 3 10 610d0a "B1b B5b B39 B30 B7e B78 B0a B1b B5b B39 B31 B7e $rest"
    check_scenes 'a line gone to' 2 20 610a62 "B1b B5b B38 B34 B7e B32 B0a $rest"
    check_scenes 'a region in an isolate' 2 20 616263 "B1b B5b B37 B32 B7e B06 B1b B5b B38 B36 B7e B69 $rest"
    check_scenes 'a character by its code' 2 20 6162 "B1b B5b B38 B36 B7e B75 B35 B64 B0a $rest"
    check_scenes 'matches replaced' 2 50 6220622062 "B1b B5b B38 B35 B7e B62 B0a B78 B0a B0a B1b B5b B38 B35 B7e $rest"
    check_scenes 'what stands at the cursor' 2 30 6162 "B1b B5b B38 B37 B7e B06 $rest"
    check_scenes 'down' 3 4 310a320a33 "B1b B5b B42 B1b B5b B42 $rest"
}

# The worked scenes: after a refusal, which key or byte paints what is owed, and what an answer has then.
check_all_worked() {
    # the painting at opening, and the bytes that show `xyab` in its place
    opening=1b5b306d1b5b324a1b5b313b314861621b5b313b3148
    changes=1b5b313b3148787961621b5b313b3348
    check_worked 'a byte without a key takes no memory' 1 5 6162 'S1000 B00 pending B78 pending' alone \
        'ooE\t- -' 'refused: out of memory'
    check_worked 'the next key paints what is owed' 1 5 6162 'S1000 B78 pending B79 pending place text' alone \
        "oPo\\t- $changes 2 78796162"
    check_worked 'a key makes the screen right' 1 5 6162 'S1000 R1000 B78 shown B79 S1000 R1000 shown rows=1;3:xyab_ text' step \
        'ooPooo\t1 1 1 78796162'
    told='S1000 R1000 W1,5 T1,5 B00 S1000 R1000'
    check_worked 'a byte without a key paints for a told size' 1 5 6162 "$told" step "oooPooo\\t0100001\\t6162\\t-\\t0\\t0\\t$opening$opening"
    check_worked 'a byte without a key paints for a told size, by a play' 1 5 6162 "$told" play 'oooPooo\t1\t6162\t-\t0\t0\t-'
    # Mark, Copy and Cut, and the bytes that turn the status row into "line copied"
    mark=1b5b37327e copy=1b5b37337e cut=1b5b37347e
    copied=1b5b323b37486c696e651b5b323b313248636f706965641b5b313b3148
    check_worked 'a cut without memory leaves mark and what was cut last' 2 20 6162 \
        "S1000 R1000 B$mark B06 S1000 R1000 B$cut pending place mark held text B$cut S1000 R1000 place mark held rows=1;1:b|*_1:1 text" step \
        'ooooooooooooooEooooooo\t- 1 0 - 6162 0 - 61 1 62'
    check_worked 'a copy counts where its painting has no memory' 2 20 6162 "S1000 B$copy pending held B00 pending" alone \
        "oooooPo\\t- 6162 $copied"
    # GoTo, and the bytes that add "line:" to the status row
    check_worked 'a question counts where its painting has no memory' 2 30 6162 'S1000 B1b5b38347e pending B00 pending' alone \
        'oooooPo\t- 1b5b323b37486c696e653a1b5b313b3148'
    # Find and Delete
    find=1b5b37307e delete=1b5b337e
    check_worked 'a letter of a search without memory' 2 30 6162 \
        "S1000 B$find S1000 B62 pending place query seek text B62 place seek" alone 'oooooooEo\t- 0 - begun 6162 1 typed'
    check_worked 'a shorter query without memory' 2 30 6162 "S1000 B${find}62 S1000 B$delete pending place query seek" alone \
        'oooooooooooE\t- 1 62 typed'
    # Replace, b, x in its place, and the end of a line at the match
    check_worked 'a match replaced without memory' 2 60 61626162 \
        'S1000 B1b5b38357e620a780a S1000 B0a pending text place seek B0a text place seek' alone \
        'oooooooooooEo\t- 61626162 1 replacing 61786162 3 replacing'
    # the terminal reads five bytes at a time (R5), and then all (R1000), in windows of 1x4 and 1x5
    check_worked 'the terminal without memory' 1 5 6162 'S1000 R5 R5 W1,4 R1000 R1000 W1,5 shown' step 'oMMMMoM\t0'
}

# ---- tables

# Reads a class file with each growth refused, and asks for three characters.
check_tables() {
    printf '# @missing: 0041..0042; Right_To_Left\n0041 ; L\n' >classes
    : >none
    printf 'class\t0041\nclass\t0042\nclass\t0043\n' >asked
    sweep asked "$player" classes none none
    awk -F '\t' '
        $3 == "" { print "FAILS it ended by a signal or not at all"; next }
        $5 == "U+0041 L|U+0042 R|U+0043 L" && $4 == "" { print ($3 == -1 ? "tables: nothing refused" : "tables: the same"); next }
        index("U+0041 L|U+0042 R|U+0043 L", $5) == 1 && $4 ~ /^player: (.*: )?out of memory$/ { print "tables: out of memory"; next }
        { print "FAILS growth " $1 ": " $4 " " $5 }
    ' runs >judged
    count_kinds 'the tables' <judged
}

