# shellcheck shell=sh
# shellcheck disable=SC2154 # variables shared with other parts
# The checks in one terminal. Uses window.sh and kinds.sh. A picture is named KIND-WHAT.

# Counts a check that this terminal cannot take, and says why.
skip() { # NAME WHY
    skipped=$((skipped + 1))
    echo "skipped $1: $2"
}

# Texts, with rows as they are to be seen. A terminal that reorders by itself shows `text` as these; another one shows `rows` so.
write_texts() {
    printf 'abc שלום def\none עברית two (שתיים) 12\n' >"$room/files/text"
    printf 'abc םולש def\none תירבע two (םייתש) 12\n' >"$room/files/rows"
    printf 'abcd\n' >"$room/opened"
    # in Arabic, Persian with a joiner, and Urdu: the text, its letters in the order of the screen, from right to left in 60 columns,
    # and their forms in this order by Unicode's joining types
    printf 'السلام abc كتاب\nمی\342\200\214خواهم ہے (باب) 12\n' >"$room/files/letters"
    printf '%45sباتك abc مالسلا\n%41s12 (باب) ےہ مهاوخی\342\200\214م\n' '' '' >"$room/files/apart"
    printf '%45sﺏﺎﺘﻛ abc ﻡﺎﻠﺴﻟﺍ\n%41s12 (ﺏﺎﺑ) ﮯﮨ ﻢﻫﺍﻮﺧﯽ\342\200\214ﻣ\n' '' '' >"$room/files/joined"
    for rows in joined apart; do
        sed "s/$(printf '\342\200\214')//" "$room/files/$rows" >"$room/files/$rows-without-joiner"
    done
}

# All checks of one kind of terminal.
check_terminal() { # KIND
    if ! command -v "$(program_of "$1")" >/dev/null; then
        skip "$1" "there is no $(program_of "$1")"
        return
    fi
    if ! open_terminal "$1"; then
        report "$1, its start" 1 "no window with a shell: $(tail -n 1 "$room/said")"
        close_terminal
        return
    fi
    case $1 in
    qterminal)
        check_hint "$1"
        check_changes "$1"
        # which has 60 columns and 10 rows
        xdotool windowsize "$window" 618 268
        sleep 0.5
        check_mouse "$1"
        ;;
    alacritty_tmux) check_mouse_in_tmux "$1" ;;
    alacritty_screen) check_mouse_in_screen "$1" ;;
    foot | *_set) check_mouse "$1" ;;
    *)
        [ "$1" != kitty ] || check_hint "$1"
        check_rows "$1"
        check_joined "$1"
        check_mark "$1"
        ! draws_clusters "$1" || check_clusters "$1"
        check_keys "$1"
        check_changes "$1"
        check_lines "$1"
        ! sends_control "$1" || check_control_keys "$1"
        ! sends_words "$1" || check_erased_words "$1"
        check_title "$1"
        check_mouse "$1"
        ;;
    esac
    close_terminal
}

# Starts the editor with this FILE, or words and a FILE, and keeps its first picture under this name.
open_editor() { # FILE PICTURE
    give "'$top/bidi-edit' $1 2>../errors"
    wait_for is_raw
    wait_for has_status
    # for what the terminal still draws
    sleep 0.5
    take_picture "$2"
}

# Half a second in which the editor takes the last keys, with a save, before it is left.
let_save() { sleep 0.5; }

# Leaves the editor, and waits for the shell.
leave_editor() { # NAME
    press ctrl+q
    wait_for has_obeyed
    report "$1, its end" $? 'the editor goes on'
}

# Reports whether two pictures are equal.
same_picture() { # NAME PICTURE PICTURE
    same "$1" "$(different "$2" "$3") different pixels" '0 different pixels'
}

# Reports whether two pictures differ.
other_picture() { # NAME PICTURE PICTURE
    [ "$(different "$2" "$3")" != 0 ]
    report "$1" $? 'no pixel is different'
}

# Compares the editor's picture with the picture of `cat` on the text if the terminal reorders, else on the rows in visual order.
# The other picture must differ, which shows that the comparison can fail.
check_rows() { # KIND
    if reorders "$1"; then right=text wrong=rows; else right=rows wrong=text; fi
    order 'clear; cat text text'
    take_picture "$1-twice"
    order 'clear; cat text'
    take_picture "$1-before"
    open_editor text "$1-editor"
    ! prints_screen "$1" || check_text "$1"
    leave_editor "$1, rows"
    take_picture "$1-after"
    order 'cat text'
    take_picture "$1-again"
    # the editor's status row, and its cursor
    last="printf '\033[10;1H- 1:1\033[1;1H'"
    order "clear; cat $right; $last"
    take_picture "$1-right"
    order "clear; cat $wrong; $last"
    take_picture "$1-wrong"
    same_picture "$1, the editor's rows" "$1-editor" "$1-right"
    other_picture "$1, rows in the other order" "$1-editor" "$1-wrong"
    same_picture "$1, the shell's rows afterwards" "$1-before" "$1-after"
    same_picture "$1, more of them" "$1-twice" "$1-again"
}

# Compares the editor's picture of joined letters, and with --no-joining, with the picture of `cat` on their forms and on the
# letters, in a terminal that was asked not to reorder. The two must differ unless the terminal joins letters by itself.
check_joined() { # KIND
    order clear
    open_editor letters "$1-joined"
    leave_editor "$1, joined letters"
    open_editor '--no-joining letters' "$1-apart"
    leave_editor "$1, letters apart"
    for rows in joined apart; do
        wanted=$rows
        keeps_joiners "$1" || wanted=$rows-without-joiner
        # the cursor is in the last column, where the first row, from right to left, begins
        order "clear; printf '$(reordering_off "$1")'; cat $wanted; printf '\033[10;1H- 1:1\033[1;60H'"
        take_picture "$1-$rows-right"
        count=$(different "$1-$rows" "$1-$rows-right")
        [ "$count" -le "$(loose_pixels "$1")" ]
        report "$1, letters $rows" $? "$count different pixels"
    done
    order "printf '$(reordering_on "$1")'"
    joins "$1" || other_picture "$1, letters joined or apart" "$1-joined" "$1-apart"
}

# A mark on the letter in the last column stays there, or is not shown. A terminal that takes it for a character of its own wraps
# it onto the next row, in the place of a letter that the editor does not paint, since it has not changed; Ctrl-L brings the letter
# back.
check_mark() { # KIND
    # 59 columns, and a dot below the last letter: another letter before them fills the row
    printf '%58se\314\243\nnext\n' '' | tr ' ' a >"$room/files/typed"
    open_editor typed "$1-mark"
    press X
    take_picture "$1-mark-typed"
    press ctrl+l
    take_picture "$1-mark-anew"
    press ctrl+s
    leave_editor "$1, a mark in the last column"
    if wraps_marks "$1"; then
        other_picture "$1, a mark wraps onto the next row" "$1-mark-typed" "$1-mark-anew"
    else
        same_picture "$1, no mark wraps onto the next row" "$1-mark-typed" "$1-mark-anew"
    fi
}

# Moves a cluster that the terminal may draw in more columns than the editor counts, and presses Ctrl-L. The picture must then
# equal that of the saved file, opened anew.
check_clusters() { # KIND
    # a family, and a hand with the tone of a skin
    printf 'abcdefgh \360\237\221\250\342\200\215\360\237\221\251\342\200\215\360\237\221\247\n' >"$room/files/typed"
    printf 'abcdefgh \360\237\221\215\360\237\217\275\n' >>"$room/files/typed"
    open_editor typed "$1-clusters"
    press X Delete Delete Delete Delete Delete Home Down Y Delete Delete Delete Delete Delete Home Up ctrl+s Right Left
    take_picture "$1-clusters-typed"
    press ctrl+l
    take_picture "$1-clusters-anew"
    leave_editor "$1, clusters"
    same "$1, clusters, the saved file" "$(tr -d '\200-\377' <"$room/files/typed" | paste -s -d '|')" 'Xfgh |Yfgh '
    open_editor typed "$1-clusters-opened"
    leave_editor "$1, clusters, opened again"
    echo "    before Ctrl-L $(different "$1-clusters-typed" "$1-clusters-anew") pixels differ"
    same_picture "$1, clusters after Ctrl-L" "$1-clusters-anew" "$1-clusters-opened"
    other_picture "$1, clusters before they move" "$1-clusters" "$1-clusters-opened"
}

# Has the terminal print its screen.
check_text() { # KIND
    rm -f "$room/read"
    printf '\033[i' >"$(cat "$room/tty")"
    wait_for test -s "$room/read"
    same "$1, the screen's text" "$(sed -e 's/[[:space:]]*$//' -e 2q "$room/read")" "$(cat "$room/files/rows")"
}

# End, Home, Delete and Right, each followed by what shows it.
check_keys() { # KIND
    cp "$room/opened" "$room/files/typed"
    open_editor typed "$1-keys"
    press End e Home Delete Right X ctrl+s
    let_save
    leave_editor "$1, keys"
    same "$1, keys" "$(cat "$room/files/typed")" bXcde
}

# The checks that type into a file and look at what is saved.
check_changes() { # KIND
    check_runs "$1"
    check_questions "$1"
    check_replacing "$1"
    ! sends_shift "$1" || check_selecting "$1"
    ! sends_control_shift "$1" || check_selected_words "$1"
    check_paste "$1"
}

# Words that are taken back and made again, and letters erased in a row that come back at once. A last letter is taken back, so
# that the text is the saved one and the editor ends without a question.
check_runs() { # KIND
    printf 'ab\n' >"$room/files/typed"
    open_editor typed "$1-runs"
    press End space o n e space t w o ctrl+z ctrl+z ctrl+y X BackSpace BackSpace BackSpace ctrl+z ctrl+s Y ctrl+z
    let_save
    leave_editor "$1, runs"
    same "$1, runs" "$(cat "$room/files/typed")" 'ab one X'
}

# A line that Ctrl-G goes to, a character by its name and one by its code that Ctrl-K puts in, each followed by what shows it, and
# what Ctrl-T tells, which changes the last row alone.
check_questions() { # KIND
    printf 'ab\ncd\nef\n' >"$room/files/typed"
    open_editor typed "$1-questions"
    press ctrl+g 2 Return X ctrl+k l ctrl+k u 5 d 0 Return Y ctrl+s ctrl+g 3 Return
    take_picture "$1-questions-before"
    press ctrl+t
    take_picture "$1-questions-told"
    leave_editor "$1, questions"
    same "$1, questions" "$(paste -s -d '|' "$room/files/typed")" "$(printf 'ab|X\342\200\216\327\220Ycd|ef')"
    other_picture "$1, what is told" "$1-questions-before" "$1-questions-told"
}

# A match that Enter replaces after F4, and all after it, which Ctrl-\ replaces and Ctrl-Z takes back, each followed by what shows
# it.
check_replacing() { # KIND
    printf 'one two two two\n' >"$room/files/typed"
    open_editor typed "$1-replacing"
    press F4 t w Return x
    take_picture "$1-replacing-asked"
    press Return Return
    take_picture "$1-replacing-shown"
    press ctrl+backslash ctrl+z Y ctrl+s
    let_save
    leave_editor "$1, replacing"
    same "$1, replacing" "$(cat "$room/files/typed")" 'one xo Ytwo two'
    other_picture "$1, a match is shown" "$1-replacing-asked" "$1-replacing-shown"
}

# Selections with Shift that letters, Delete, a move without Shift and Escape end, each followed by what shows it.
check_selecting() { # KIND
    printf 'abcd efgh\nijkl mnop\nqrst\n' >"$room/files/typed"
    open_editor typed "$1-selecting"
    press End shift+Left shift+Left X shift+Home Y Down Home shift+Down Delete shift+Right shift+Right Right Z shift+Up V
    wanted=YUVt
    if sends_shift_end "$1"; then
        wanted=YVUW
        press shift+End W
    fi
    press shift+Left Escape
    # a key right after an Escape would belong to it
    sleep 0.3
    press U ctrl+s
    let_save
    leave_editor "$1, selecting"
    same "$1, selecting" "$(cat "$room/files/typed")" "$wanted"
}

# Selections with Ctrl and Shift, by words and to the text's ends.
check_selected_words() { # KIND
    printf 'one two three\nfour five\nsix\n' >"$room/files/typed"
    open_editor typed "$1-selected-words"
    press End ctrl+shift+Home T Down Home ctrl+shift+Right X space End ctrl+shift+Left Y Down Home ctrl+shift+End V ctrl+s
    let_save
    leave_editor "$1, selected words"
    same "$1, selected words" "$(paste -s -d '|' "$room/files/typed")" 'T|X Y|V'
}

# A paste takes the place of a selection and has the line ends of the text; a second one is taken back at once.
check_paste() { # KIND
    if ! command -v xclip >/dev/null; then
        skip "$1, a paste" 'there is no xclip'
        return
    fi
    for selection in primary clipboard; do printf 'x y\nz' | xclip -selection "$selection" >/dev/null 2>&1; done
    printf 'ab\r\ncd\r\n' >"$room/files/typed"
    open_editor typed "$1-paste"
    press End shift+Home
    for _ in one two; do
        press shift+Insert
        # until it is pasted
        sleep 0.5
    done
    press ctrl+z ctrl+s
    let_save
    leave_editor "$1, a paste"
    same "$1, a paste" "$(od -An -c "$room/files/typed" | tr -d ' \n')" 'xy\r\nz\r\ncd\r\n'
}

# A column that is kept through a short row, a point erased, a new line with CR LF, F3 twice, and Escape in a search, each followed
# by what shows it.
check_lines() { # KIND
    # the last line has a letter with two points
    printf 'abcd\r\nx\r\nabcd e\327\251\326\270\327\201\r\n' >"$room/files/typed"
    open_editor typed "$1-lines"
    press End Down Down Y End BackSpace Z Return W
    press F3 b Return F3 V F3 U ctrl+w d Escape
    # a key right after an Escape would belong to it
    sleep 0.3
    press T ctrl+s
    let_save
    leave_editor "$1, lines"
    same "$1, lines" "$(od -An -c "$room/files/typed" | tr -d ' \n')" \
        "$(printf 'aUTbcd\r\nx\r\naVbcdY e\327\251\326\270Z\r\nW\r\n' | od -An -c | tr -d ' \n')"
}

# Words erased by Backspace with Ctrl and with Alt, and by Delete with Ctrl.
check_erased_words() { # KIND
    printf 'one two three four\n' >"$room/files/typed"
    open_editor typed "$1-words"
    press End ctrl+BackSpace alt+BackSpace Home ctrl+Delete X ctrl+s
    let_save
    leave_editor "$1, words erased"
    same "$1, words erased" "$(cat "$room/files/typed")" 'Xtwo '
}

# Moves by words, a mark, a cut, a put, a search by F3, the text's ends, and a mark that Escape takes off, so that the line is
# copied, each followed by what shows it.
check_control_keys() { # KIND
    printf 'ab cd\n' >"$room/files/typed"
    open_editor typed "$1-control"
    press ctrl+Right ctrl+space ctrl+Right ctrl+x ctrl+Left ctrl+v
    press F3 b Return X ctrl+End Y ctrl+Home Z ctrl+space Right Escape
    # a key right after an Escape would belong to it
    sleep 0.3
    press ctrl+c ctrl+End ctrl+v ctrl+s
    let_save
    leave_editor "$1, keys with Control"
    same "$1, keys with Control" "$(paste -s -d '|' "$room/files/typed")" 'ZcdaXb |YZcdaXb '
}

# The editor's title is there meanwhile only where the terminal gives the old one back; the shell's is there afterwards.
check_title() { # KIND
    order "printf '\033]2;before\007'"
    wait_for has_title '*before*' || report "$1, a title of before" 1 "$(title)"
    open_editor text "$1-title"
    if keeps_title "$1"; then
        wait_for has_title '*^S save ^Q quit*'
        report "$1, title" $? "$(title)"
    else
        has_title '*before*'
        report "$1, title" $? "$(title)"
    fi
    leave_editor "$1, title"
    wait_for has_title '*before*'
    report "$1, title at the end" $? "$(title)"
}

# The first start in a terminal that mirrors words, unless it is set not to, says so in the last row, until a key is pressed.
check_hint() { # KIND
    # of an earlier start under its variables
    rm -f "$HOME"/.local/state/bidi_edit/hint-*
    open_editor text "$1-hint"
    press Right Left
    take_picture "$1-no-hint"
    other_picture "$1, the hint" "$1-hint" "$1-no-hint"
    leave_editor "$1, the hint"
    open_editor text "$1-later"
    same_picture "$1, no hint later" "$1-later" "$1-no-hint"
    leave_editor "$1, no hint later"
}
