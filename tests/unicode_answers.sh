# shellcheck shell=sh
# unicode_answers.sh: what Unicode's five files say of each code, by awk, for check-data.sh and check-unicode-data.sh.

# Prints a line for each of the 1,114,112 codes: the code, class, bracket, mirror, joining type, and the isolated, initial, medial
# and final form, all codes in decimal. A data line takes precedence over @missing, and a later line over an earlier one of its
# kind; without any the class is L. @missing has classes by their long names, as Unicode's file does.
answers() { # CLASSES BRACKETS MIRRORING JOINING CHARACTERS
    awk -F';' '
        function number(code,  i, n) {
            n = 0
            for (i = 1; i <= length(code); i++) n = n * 16 + index("123456789ABCDEF", toupper(substr(code, i, 1)))
            return n
        }
        BEGIN {
            count = split("<isolated> <initial> <medial> <final>", tag, " ")
            for (i = 1; i <= count; i++) kind[tag[i]] = i
        }
        FNR == 1 { file += 1 }
        { sub(/\r$/, ""); missing = 0 }
        file == 1 && sub(/^[ \t]*#[ \t]*@missing:/, "") { missing = 1 }
        { sub(/#.*/, "") }
        file == 5 {
            if (split($6, word, " ") == 2 && word[1] in kind) form[kind[word[1]], number(word[2])] = number($1)
            next
        }
        { gsub(/[ \t]/, "") }
        $0 == "" { next }
        { parts = split($1, ends, "[.][.]"); first = number(ends[1]); last = number(ends[parts]) }
        file == 1 && missing { for (code = first; code <= last; code++) missed[code] = $2; next }
        file == 1 { for (code = first; code <= last; code++) class[code] = $2; next }
        file == 2 { bracket[first] = $3 number($2); next }
        file == 3 { mirror[first] = number($2); next }
        { joining[first] = $3 }
        END {
            short["Left_To_Right"] = "L"; short["Right_To_Left"] = "R"; short["Arabic_Letter"] = "AL"
            short["European_Terminator"] = "ET"; short["Boundary_Neutral"] = "BN"; short["Other_Neutral"] = "ON"
            for (code = 0; code <= 1114111; code++) {
                found = code in class ? class[code] : code in missed ? missed[code] : "L"
                print code, (found in short ? short[found] : found), bracket[code], mirror[code], joining[code],
                    form[1, code] "," form[2, code] "," form[3, code] "," form[4, code]
            }
        }
    ' "$@"
}

# Turns these lines into the answers of player to lines of class, for the characters among the codes. A character without a joining type of its
# own is of type T if it is a direction mark, a nonspacing mark, a formatting character or a boundary neutral that is not a control,
# else of type U. R, L and D count as U where there is no form. Type U is not printed.
told() {
    awk -F'[ ]' '
        BEGIN {
            split("LRE RLE LRO RLO PDF LRI RLI FSI PDI NSM", classes, " ")
            for (i in classes) passed[classes[i]] = 1
            split("61C 200E 200F", marks, " ")
            for (i in marks) mark[marks[i]] = 1
            count = split("isolated initial medial final", name, " ")
            side["o"] = "opener"; side["c"] = "closer"
        }
        function is_control(code) { return code < 32 || code >= 127 && code < 160 || code == 8232 || code == 8233 }
        function is_transparent() { return $2 in passed || $2 == "BN" && !is_control($1) || sprintf("%X", $1) in mark }
        function character(code) { return sprintf("U+%04X", code) }
        $1 >= 55296 && $1 <= 57343 { next } # surrogates are no characters
        {
            line = character($1) " " $2
            if ($3 != "") line = line ", " side[substr($3, 1, 1)] " of " character(substr($3, 2))
            if ($4 != "") line = line ", mirrored as " character($4)
            joining = $5 != "" ? $5 : is_transparent() ? "T" : "U"
            if ($6 == ",,," && joining ~ /[RLD]/) joining = "U"
            if (joining != "U") line = line ", of joining type " joining
            split($6, form, ",")
            for (i = 1; i <= count; i++) if (form[i] != "") line = line ", " name[i] " " character(form[i])
            print line
        }
    '
}
