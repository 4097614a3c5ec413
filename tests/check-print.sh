#!/bin/sh
# check-print.sh [ROWS]: prints texts with bidi_print and compares the lines byte by byte: with the rows of ROWS, and with the
# output of fribidi for random paragraphs. The latter may differ in wrapped paragraphs, since fribidi wraps after reordering.
# ROWS is a file of rows from an independent source, maybe packed by gzip, made with the tables of crates/bidi_print/data; by
# default tests/data/rows.tsv.gz. A line has the text as UTF-8 in hexadecimal, the direction, the columns, the row's number, two
# ignored fields, and the glyphs from left to right as BYTES:COLUMNS, with an n after a negative one. The last line has the
# totals: a text and the comparison with fribidi count as one each. Exit status 1: a forbidden difference.
set -eu
export LC_ALL=C

top=$(cd "$(dirname "$0")/.." && pwd)
crate=$top/crates/bidi_print
# shellcheck source=tests/built.sh
. "$top/tests/built.sh"
passed=0 failed=0 skipped=0

# Adds the numbers of a comparison.
count_compared() {
    passed=$((passed + agreed)) failed=$((failed + differing))
}

# Prints a file with the tables of the crate's data.
print_file() { # FILE WORD..
    file=$1
    shift
    "$program" --classes "$crate/data/classes.txt" --brackets "$crate/data/brackets.txt" --mirroring "$crate/data/mirroring.txt" \
        "$@" "$file"
}

# ---- rows from an independent source

# Writes for each text of ROWS the files NUMBER.text, and NUMBER.marks and NUMBER.plain, its lines with and without marks in
# brackets; prints a line of number, direction and columns. Texts with a byte 00 are passed over, which not every awk writes. A new
# text begins where the first three fields change.
write_cases() { # ROWS
    awk -F '\t' -v folder="$scratch" '
        function bytes(hex,    text, i) {
            text = ""
            for (i = 1; i < length(hex); i += 2)
                text = text character[tolower(substr(hex, i, 2))]
            return text
        }
        function line(glyphs, with_marks,    parts, part, count, i, text) {
            text = ""
            count = split(glyphs, parts, " ")
            for (i = 1; i <= count; i++) {
                split(parts[i], part, ":")
                if (part[2] !~ /n$/)
                    text = text bytes(part[1])
                else if (with_marks)
                    text = text "[" bytes(part[1]) "]"
            }
            sub(/ +$/, "", text)
            return text
        }
        function write(kind, text) {
            printf "%s%s", separator, text >(folder "/" number "." kind)
        }
        BEGIN {
            for (i = 1; i < 256; i++)
                character[sprintf("%02x", i)] = sprintf("%c", i)
        }
        /^#/ || $1 ~ /^(..)*00/ { next }
        ($1 FS $2 FS $3) != text_key {
            text_key = $1 FS $2 FS $3
            number++
            separator = ""
            write("text", bytes($1))
            print number, $2, $3
        }
        {
            write("marks", line($7, 1))
            write("plain", line($7, 0))
            separator = "\n"
        }
    ' "$1"
}

# Compares the printed lines of each text with its rows.
compare_rows() { # ROWS
    gzip -dcf -- "$1" >"$scratch/rows"
    write_cases "$scratch/rows" >"$scratch/cases"
    agreed=0 differing=0
    while read -r number base columns; do
        print_file "$scratch/$number.text" --cols "$columns" --direction "$base" --marks >"$scratch/marks"
        print_file "$scratch/$number.text" --cols "$columns" --direction "$base" >"$scratch/plain"
        if cmp -s "$scratch/marks" "$scratch/$number.marks" && cmp -s "$scratch/plain" "$scratch/$number.plain"; then
            agreed=$((agreed + 1))
        else
            differing=$((differing + 1))
            echo "text $number differs, direction $base in $columns columns"
        fi
    done <"$scratch/cases"
    echo "rows from elsewhere: $agreed of $((agreed + differing)) texts agree"
    # none is a fault too
    [ "$agreed" -gt 0 ] || differing=$((differing + 1))
    count_compared
}

# ---- fribidi

# Prints random paragraphs, each after a line @NUMBER. No lam comes before an alef: fribidi joins them to one character.
random_text() { # COUNT
    awk -v count="$1" '
        # the same numbers in any awk
        function random() {
            state = state * 16807 % 2147483647
            return state / 2147483647
        }
        BEGIN {
            state = 7
            words = "שלום עולם דג בּוֹקֶר 17 3.50 -4 50% a+b abc Hello, x=1 (אב) (ab) [ג] <ד> \"ה\" ספר, יום. בית! " \
                "كتاب قلم درس. مدرسة، ١٢٣ ٤,٥ عربي (شمس) {ab} a/b ב/ג 1-2 שָׁנָה é o̧ www.il $5 5₪ . ? ! - : ;"
            total = split(words, word, " ")
            for (number = 1; number <= count; number++) {
                print "@" number
                text = ""
                most = random() < 0.5 ? 9 : 60
                for (left = int(random() * most); left > 0; left--) {
                    text = text word[1 + int(random() * total)]
                    if (random() < 0.9) text = text " "
                }
                print text
            }
        }
    '
}

# Replaces fribidi's joined forms (from U+FE80 on), which are in the order of the letters (from U+0621 on), by the letters, and
# removes blanks at the ends of lines.
plain_letters() {
    awk '
        function utf8(code) {
            if (code < 2048)
                return sprintf("%c%c", 192 + int(code / 64), 128 + code % 64)
            return sprintf("%c%c%c", 224 + int(code / 4096), 128 + int(code / 64) % 64, 128 + code % 64)
        }
        BEGIN {
            # the number of forms of each letter from 0621 on, without 063B to 0640
            forms = "122224242444442222444444444444444224"
            letter = 1569
            form = 65152
            for (i = 1; i <= length(forms); i++) {
                for (k = substr(forms, i, 1); k > 0; k--)
                    letters[utf8(form++)] = utf8(letter)
                letter = letter == 1594 ? 1601 : letter + 1
            }
        }
        {
            for (joined in letters)
                if (index($0, joined)) gsub(joined, letters[joined])
            sub(/ +$/, "")
            print
        }
    '
}

# Compares paragraph by paragraph, each after its line @NUMBER. One with several lines was wrapped. The comparison fails, too,
# where no wrapped one differs or none is alike, since then it compares something else.
compare_paragraphs() { # OURS THEIRS
    awk '
        FNR == 1 { file++ }
        /^@[0-9]+$/ {
            number = substr($0, 2) + 0
            if (file == 1) total++
            next
        }
        file == 1 { ours[number] = ours[number] $0 "\n"; lines[number]++ }
        file == 2 { theirs[number] = theirs[number] $0 "\n" }
        END {
            for (number = 1; number <= total; number++) {
                if (lines[number] > 1) wrapped++
                if (ours[number] == theirs[number]) { alike++; continue }
                if (lines[number] > 1) { wrapped_apart++; continue }
                printf "paragraph %d differs:\n%s%s", number, ours[number], theirs[number]
                others++
            }
            printf "beside fribidi: %d of %d paragraphs are alike; of %d that are wrapped %d differ, and %d others\n", \
                alike, total, wrapped, wrapped_apart, others
            exit others > 0 || wrapped_apart == 0 || alike == 0
        }
    ' "$1" "$2"
}

# Compares 3,000 random paragraphs, in rows of 80 columns, which bidi_print has by default.
compare_fribidi() {
    random_text 3000 >"$scratch/text"
    "$program" --classes "$tables/DerivedBidiClass.txt" --brackets "$tables/BidiBrackets.txt" --mirroring "$tables/BidiMirroring.txt" \
        "$scratch/text" >"$scratch/ours"
    fribidi --width 80 --reordernsm --clean "$scratch/text" | plain_letters >"$scratch/theirs"
    if compare_paragraphs "$scratch/ours" "$scratch/theirs"; then passed=$((passed + 1)); else failed=$((failed + 1)); fi
}

rows=${1:-$top/tests/data/rows.tsv.gz}
tables=$crate/../../data
scratch=$(mktemp -d)
trap 'rm -rf "$scratch"' EXIT
trap 'exit 130' INT
trap 'exit 143' TERM
find_built bidi_print
compare_rows "$rows"
if command -v fribidi >/dev/null; then
    compare_fribidi
else
    echo 'skipped: the comparison with fribidi, which is not there (apt-get install libfribidi-bin)'
    skipped=1
fi
echo "$passed passed, $failed failed, $skipped skipped"
[ "$failed" = 0 ]
