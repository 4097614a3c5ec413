# shellcheck shell=sh
# shellcheck disable=SC2034,SC2154 # variables shared with other parts
# Sessions in which another program changes FILE before or during a save. Uses scenes.sh and kinds.sh. A first save then fails,
# and the second goes through.

# ---- drivers that go on while something happens

# Starts the driver, with a pipe for its orders at descriptor 3, and waits until FILE is open. Sets `program`, its process.
open_session() { # COMMAND..
    rm -f "$folder/pipe"
    mkfifo "$folder/pipe"
    : >"$folder/out"
    edit "$@" <"$folder/pipe" >"$folder/out" 2>/dev/null &
    program=$!
    exec 3>"$folder/pipe"
    wait_for_more 0
}

# Waits for more output than SIZE bytes, a minute at most.
wait_for_more() { # SIZE
    for _ in $(seq 1200); do
        [ "$(stat -c %s "$folder/out")" -le "$1" ] || return 0
        sleep 0.05
    done
    fails 'the driver answers nothing more'
}

# Has the driver save the new text, with the word `over` over the change that was told, and waits for its answer.
save_all() { # [over]
    before=$(stat -c %s "$folder/out")
    sed "s/^save /${1:-save} /" "$folder/orders" >&3
    wait_for_more "$before"
}

close_session() {
    exec 3>&-
    wait "$program"
    same "the status" $? 0
    program=''
}

# ---- a change by another program

change_in_place() { cat "$folder/theirs" >"$kept"; }
change_by_rename() {
    cat "$folder/theirs" >"$place/links/other"
    chmod 640 "$place/links/other"
    mv "$place/links/other" "$kept"
}
# A change with the same size and the same modification time.
change_unseen() {
    touch -r "$kept" "$folder/time"
    printf 'ab\nCD\nef\n' >"$kept"
    touch -r "$folder/time" "$kept"
    cp "$kept" "$folder/theirs"
}

# Another program changes FILE, by a function CHANGE, after it was opened.
check_foreign() { # NAME SCENE CHANGE
    begin_point "$1"
    prepare "$2"
    printf 'theirs\n' >"$folder/theirs"
    open_session env
    "$3"
    save_all
    says 'file changed on disk'
    same "FILE after the first save" "$(state)" theirs
    save_all
    same "FILE after the second save" "$(state)" theirs
    save_all over
    same "FILE after the save over it" "$(state)" new
    check_place
    check_nothing_left
    close_session
}

# FILE is changed after a first save. The second fails, and one over the change replaces it.
check_between_saves() {
    begin_point 'between two saves'
    prepare plain
    open_session env
    save_all
    same "FILE after the first save" "$(state)" new
    change_in_place
    save_all
    same "FILE after the second save" "$(state)" theirs
    save_all over
    same "FILE after the third save" "$(state)" new
    close_session
}

# Runs a command while a save waits a second and a half before it syncs the draft.
save_and_meanwhile() { # COMMAND..
    open_session strace -f -o "$folder/log" -e trace=fsync,fdatasync -e inject=fsync,fdatasync:delay_enter=1500000:when=1
    before=$(stat -c %s "$folder/out")
    cat "$folder/orders" >&3
    sleep 0.7
    "$@"
    wait_for_more "$before"
}

# FILE is changed while its new text is in the draft.
check_amid_save() {
    begin_point 'amid a save'
    prepare plain
    save_and_meanwhile change_in_place
    same "FILE after the first save" "$(state)" theirs
    save_all over
    same "FILE after the second save" "$(state)" new
    check_nothing_left
    close_session
}

exchange_folder() {
    mv "$place/inner" "$place/gone"
    ln -s elsewhere "$place/inner"
}

# Replaces the folder by a link to one where FILE has another name. No save goes there, nor to the folder that was opened and has
# another name now; once that has its name again, saves go on.
check_exchanged() {
    begin_point "a folder of the path that is a link by now, $way"
    prepare plain
    mkdir "$place/inner" "$place/elsewhere"
    mv "$kept" "$place/inner/text"
    file=$place/inner/text kept=$place/inner/text
    ln "$kept" "$place/elsewhere/text"
    save_and_meanwhile exchange_folder
    kept=$place/gone/text
    for number in first second; do
        same "FILE after the $number save" "$(state)" old
        same "what has FILE's path after the $number save" "$(cat "$file")" "$(cat "$folder/old")"
        [ "$number" = second ] || save_all
    done
    says 'folder gone'
    check_no_backup
    rm "$place/inner"
    mv "$place/gone" "$place/inner"
    kept=$place/inner/text
    # it has other names, which counts as a change
    save_all
    save_all over
    same "FILE after the last save" "$(state)" new
    close_session
}

# The link that was opened leads to another file. A save says so, and one over that, and later ones, go into the file that was opened.
check_retargeted() {
    begin_point 'a link that leads elsewhere by now'
    prepare linked
    open_session env
    cp -p "$kept" "$place/links/other"
    ln -sf other "$file"
    save_all
    says 'file changed on disk'
    same "the new target after the first save" "$(cat "$place/links/other")" "$(cat "$folder/old")"
    save_all over
    save_all
    same "the new target after the second save" "$(cat "$place/links/other")" "$(cat "$folder/old")"
    same "FILE" "$(state)" new
    close_session
}

# A removed file is made again with its old attributes.
check_vanished() {
    begin_point 'a file that is gone'
    prepare secret
    open_session env
    rm "$kept"
    save_all
    same "FILE" "$(state)" new
    check_place
    check_nothing_left
    close_session
}

# Checks saves into FILE itself: most of what check_changes checks, and two cases of the backup.
check_changes_in_place() {
    begin_kind 'changed by another program, in place'
    way=in_place
    check_foreign 'written in place' plain change_in_place
    check_foreign 'replaced' plain change_by_rename
    check_foreign 'written in place, with the old size and time' plain change_unseen
    check_foreign 'written behind a link' linked change_in_place
    check_between_saves
    check_amid_save
    check_no_backup
    check_exchanged
    check_vanished
    check_no_backup
    check_gone_when_torn
    check_backup_of_before
    way=beside
}

# Tears FILE by a save whose last calls fail, so that its old text cannot be put back, and removes it. The next save creates it by a rename,
# and removes the backup.
check_gone_when_torn() {
    begin_point 'a file that was torn and is gone'
    prepare plain
    # the first three syncs are of the backup's draft, of the record of steps and of their folder, the fourth is of FILE
    open_session strace -f -o "$folder/log" -e trace=fsync -e inject=fsync:error=EIO:when=4+
    save_all
    grep -q INJECTED "$folder/log" || fails "the call was not met"
    [ -e "$backup" ] || fails "the backup is not there"
    rm "$kept"
    save_all
    same "FILE after the second save" "$(state)" new
    check_no_backup
    check_place
    check_nothing_left
    close_session
}

# A backup from an earlier session stays until a save of this session succeeds.
check_backup_of_before() {
    begin_point 'a backup that is there at the start'
    prepare plain
    echo 'of before' >"$backup"
    edit strace -f -o "$folder/log" -e trace=ftruncate -e inject=ftruncate:error=EIO <"$folder/orders" >"$folder/out" 2>/dev/null
    says 'disk error'
    same "FILE" "$(state)" old
    cmp -s "$backup" "$folder/new" || fails "the backup has not all of the new text"
    check_save 'the same, and a save that goes through' new env
    check_no_backup
    check_nothing_left
}

# A command has put something else in FILE's place, which no save replaces.
check_no_file() { # NAME COMMAND..
    begin_point "$1"
    shift
    prepare plain
    open_session env
    rm "$kept"
    "$@" "$kept"
    kind_before=$(stat -c %F "$kept")
    save_all
    says 'not a plain file'
    save_all
    same "what FILE is" "$(stat -c %F "$kept")" "$kind_before"
    check_nothing_left
    close_session
}

check_changes() {
    begin_kind 'changed by another program'
    check_foreign 'written in place' plain change_in_place
    check_foreign 'replaced' plain change_by_rename
    check_foreign 'written in place, with the old size and time' plain change_unseen
    check_foreign 'written behind a link' linked change_in_place
    check_foreign 'made where none was' made change_in_place
    check_foreign 'made behind a link' dangling change_in_place
    check_between_saves
    check_amid_save
    check_exchanged
    check_retargeted
    check_vanished
    check_no_file 'a folder by now' mkdir
    check_no_file 'a pipe by now' mkfifo
}
