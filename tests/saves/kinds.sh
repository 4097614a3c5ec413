# shellcheck shell=sh
# shellcheck disable=SC2034,SC2154 # variables shared with other parts
# Files beside FILE, kinds of places, and what a rename would lose. Uses scenes.sh and changes.sh.

# ---- files beside FILE, and kinds of places

# Checks the last answer.
says() { # CAUSE
    tail -n 1 "$folder/out" | grep -q -e "^$1" || fails "the answer is '$(tail -n 1 "$folder/out")', and not '$1'"
}

# Saves once, and checks the state of FILE.
check_save() { # NAME STATE COMMAND..
    begin_point "$1"
    wanted_state=$2
    shift 2
    edit "$@" <"$folder/orders" >"$folder/out" 2>/dev/null
    if [ "$wanted_state" = new ]; then says saved; elif tail -n 1 "$folder/out" | grep -q -x saved; then fails 'it is said to be saved'; fi
    same "FILE" "$(state)" "$wanted_state"
}

# Other files of the names that backups have do not stop saves.
check_drafts() {
    begin_kind 'what is beside FILE'
    for way in beside itself; do
        prepare plain
        for number in '' 1 2 3 4 5 6 7 8; do
            echo "$number" >"$kept.bx$number"
        done
        ln -s nowhere "$kept.bx9"
        before=$(names)
        check_save "ten files of others, $way" new env
        same "what is there" "$(names)" "$before"
        same "a file's bytes" "$(cat "$kept.bx7")" 7
    done
    way=beside

    prepare plain
    ln "$kept" "$place/links/second"
    check_save 'two names' new env
    same "the other name's file" "$(stat -c %i "$place/links/second")" "$(stat -c %i "$kept")"
    same "what is there" "$(names)" 'links text'
}

# A name has 255 bytes at most. A backup adds three, and has a shorter name where they are too many.
check_names() {
    begin_kind 'long names'
    for way in beside itself; do
        for bytes in 252 255; do
            prepare plain
            long=$place/$(printf "%0${bytes}d" 7)
            mv "$kept" "$long"
            file=$long kept=$long
            check_save "$bytes bytes, $way" new env
            same "what is there" "$(names | wc -w)" 2
        done
    done
    way=beside
}

# A save uses what is open, since a path may lead elsewhere the second time. It resolves FILE's path never and that of the folder once,
# to see that it still leads there; and looks at FILE's name in the open folder at its beginning and before the exchange.
check_paths() {
    begin_kind 'paths'
    prepare plain
    check_save 'resolved in a save' new strace -f -o "$folder/log" -e trace=%file
    saver=$(sed -n 's/ .*renameat2.*//p' "$folder/log" | head -n 1)
    # what readlink tells is no path that it resolves
    grep -e "^$saver " "$folder/log" | grep -v readlink >"$folder/said"
    same "how often FILE's path is resolved" "$(grep -c -F -e "\"$file\"" "$folder/said")" 0
    same "how often the folder's path is resolved" "$(grep -c -F -e "\"$place\"" "$folder/said")" 1
    same "how often FILE's name is looked at" "$(grep -v -F -e renameat2 "$folder/said" | grep -c -F -e '"text"')" 2
    same "how often FILE's name is exchanged" "$(grep -F -e renameat2 "$folder/said" | grep -c -F -e '"text"')" 1
}

# ---- what a rename would lose

# Gives a file with one name a second one, during a session.
check_second_name() {
    begin_point 'a second name'
    prepare plain
    open_session env
    ln "$kept" "$place/links/second"
    save_all
    same "FILE after the first save" "$(state)" old
    save_all over
    same "FILE after the second save" "$(state)" new
    same "the other name's file" "$(stat -c %i "$place/links/second")" "$(stat -c %i "$kept")"
    check_place
    check_nothing_left
    rm "$place/links/second"
    save_all
    same "FILE with one name again" "$(state)" new
    close_session
}

# Prints FILE's access list.
list_of() {
    getfacl -c -p "$kept" 2>/dev/null
}

# Gives one user what FILE's group may not do. Its permissions then seem to be the group's.
give_list() {
    setfacl -m u:54322:rw "$kept" 2>/dev/null && list_of | grep -q '^group::---'
}

# FILE gets an access list during a session, or has one at its start (`itself`). A rename would lose it.
check_access_list() {
    begin_point 'an access list, during a session'
    prepare secret
    if ! command -v getfacl >/dev/null || ! give_list; then
        skip 'an access list: there is no setfacl, or the disk takes none'
        return
    fi
    prepare secret
    open_session env
    give_list
    list=$(list_of)
    save_all
    same "FILE after the first save" "$(state)" old
    save_all over
    same "FILE after the second save" "$(state)" new
    same "the access list" "$(list_of)" "$list"
    # without the list, its permissions are nobody's
    rm "$kept"
    save_all
    same "FILE that was made again" "$(state)" new
    same "the mode of FILE that was made again" "$(stat -c %a "$kept")" 600
    check_nothing_left
    close_session

    way=itself
    begin_point 'an access list at the start'
    prepare secret
    give_list
    list=$(list_of)
    open_session env
    save_all
    same "FILE" "$(state)" new
    same "the access list" "$(list_of)" "$list"
    check_nothing_left
    close_session
    way=beside
}

# A file that is gone is made again with its mode.
check_modes_made_again() {
    for mode_of_before in 755 600; do
        begin_point "a file of mode $mode_of_before that is gone"
        prepare plain
        mode=$mode_of_before
        chmod "$mode" "$kept"
        open_session env
        rm "$kept"
        save_all
        same "FILE" "$(state)" new
        check_place
        check_nothing_left
        close_session
    done
}

# Exchanges FILE, or its folder, for a link into a folder where no such file is. Nothing may be made there.
check_made_elsewhere() {
    begin_point 'a link to nowhere in place of FILE'
    prepare plain
    mkdir "$place/links/closed"
    open_session env
    rm "$kept"
    ln -s links/closed/new "$kept"
    save_all
    same "FILE after the first save" "$(state)" none
    save_all over
    same "FILE after the second save" "$(state)" new
    same "whether FILE is a link" "$(stat -c %F "$kept")" 'regular file'
    same "what is in the folder of the link" "$(ls -A "$place/links/closed")" ''
    check_place
    close_session

    begin_point 'a link in place of the folder of FILE'
    prepare plain
    mkdir "$place/inner" "$place/links/closed"
    mv "$kept" "$place/inner/text"
    file=$place/inner/text kept=$place/inner/text
    open_session env
    mv "$place/inner" "$place/gone"
    ln -s links/closed "$place/inner"
    save_all
    save_all
    save_all
    same "what is in the folder of the link" "$(ls -A "$place/links/closed")" ''
    kept=$place/gone/text
    same "FILE" "$(state)" old
    close_session
}

# The limit of a file's size, in blocks of 512 bytes or of 1,024, below the bytes of the text.
check_limit() {
    prepare long
    check_save 'a limit of the size of files' old sh -c 'trap "" XFSZ; ulimit -f 60; exec "$@"' sh
    says 'file too large'
    check_nothing_left
}

check_losses() {
    begin_kind 'what a rename would lose'
    check_second_name
    check_access_list
    check_modes_made_again
    check_made_elsewhere
    check_limit
}
