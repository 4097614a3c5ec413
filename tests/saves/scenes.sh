# shellcheck shell=sh
# shellcheck disable=SC2034,SC2154 # variables shared with other parts
# Counts of checks, the scenes of a save, and runs of the driver, for check-saves.sh, which sets `folder`, `place` (the scene's folder,
# with FILE) and `own` (the session's folder).
#
# A point is one checked run: `point` is its name, `kind` that of the checks that it belongs to.

# ---- counts

# Begins the checks of a kind, and tells the number of those of the kind before.
begin_kind() { # NAME
    end_kind
    kind=$1 kind_points=0
}

end_kind() {
    [ -z "$kind" ] || echo "$kind: $kind_points points"
}

fails() { # WHAT
    failures=$((failures + 1))
    [ -n "$is_faulty" ] || faulty=$((faulty + 1))
    is_faulty=1
    echo "FAILS $kind, $point: $1"
}

begin_point() { # NAME
    point=$1 is_faulty=''
    points=$((points + 1))
    kind_points=$((kind_points + 1))
}

# Fails if two texts differ.
same() { # WHAT FOUND WANTED
    [ "$2" = "$3" ] || fails "$1 is '$2', and not '$3'"
}

skip() { # WHY
    skipped=$((skipped + 1))
    echo "skipped $kind, $1"
}

is_root() {
    [ "$(id -u)" = 0 ]
}

# ---- the scenes of a save

printf 'ab\ncd\nef\n' >"$folder/lines"
printf 'xab\nycd\nzef\n' >"$folder/edited"
# larger than the buffer of a save
head -c 800000 /dev/zero | tr '\0' a >"$folder/rest"
printf 'theirs\n' >"$folder/theirs"
# what the driver is told to do
echo "save $folder/new" >"$folder/orders"
# The kind of save, `beside`, `in_place` (with the backup in the session's folder) or `itself` (with the backup beside FILE); whether FILE
# is opened though it cannot be saved.
way=beside force=''

# Makes a file with FILE's old bytes.
put_old() { # PATH MODE
    cat "$folder/old" >"$1"
    chmod "$2" "$1"
}

# Makes a scene's files: `file` is the program's argument, `kept` the file it leads to, and `mode` and `owner` are expected after
# each save; `others` are the names in the scene's folder, but for a FILE that is made. The files `old` and `new` in `folder` are
# FILE's bytes before and after the save. Users and groups are numbers that no user of the system should have. The scenes: plain: FILE
# alone; long: more text; secret: for its owner alone; linked: by a link; made: there is no FILE; dangling: a link to no FILE; owned:
# another user's.
prepare() { # SCENE
    scene=$1
    cp "$folder/lines" "$folder/old"
    cp "$folder/edited" "$folder/new"
    rm -rf "$place" "$own"
    mkdir -m 755 "$place" "$place/links"
    mkdir -m 700 "$own"
    file=$place/text kept=$place/text mode=640 owner=$(id -u):$(id -g) others='links text'
    case $scene in
    plain) put_old "$kept" 640 ;;
    long)
        for text in old new; do cat "$folder/rest" >>"$folder/$text"; done
        put_old "$kept" 640
        ;;
    secret)
        mode=600
        put_old "$kept" 600
        ;;
    linked)
        file=$place/links/link mode=604
        put_old "$kept" 604
        ln -s ../text "$file"
        ;;
    made)
        mode=644 others=links
        ;;
    dangling)
        file=$place/links/link mode=644 others=links
        ln -s second "$file"
        ln -s ../text "$place/links/second"
        ;;
    owned)
        mode=660 owner=54321:54323
        put_old "$kept" 660
        chown "$owner" "$kept"
        ;;
    esac
    backup=$own/mark
    [ "$way" != itself ] || backup=$kept.bx
}

# Prints the state of FILE: old, new, theirs, none, or torn.
state() {
    [ -e "$kept" ] || { echo none && return; }
    for bytes in old new theirs; do
        if cmp -s "$kept" "$folder/$bytes"; then
            echo "$bytes"
            return
        fi
    done
    echo torn
}

# Checks everything that no save may change.
check_place() {
    [ ! -e "$kept" ] || same "the owner" "$(stat -c %u:%g "$kept")" "$owner"
    [ ! -e "$kept" ] || same "the mode" "$(stat -c %a "$kept")" "$mode"
    case $scene in
    linked) same "the link" "$(readlink "$file")" ../text ;;
    dangling) same "the links" "$(readlink "$file") $(readlink "$place/links/second")" 'second ../text' ;;
    esac
}

# Checks that the backup is gone; its draft, with `.bx` after its name, does not count.
check_no_backup() {
    [ ! -e "$backup" ] || fails "the backup is left"
}

# Prints the names in the scene's folder.
names() {
    find "$place" -mindepth 1 -maxdepth 1 -printf '%f\n' | sort | paste -s -d ' '
}

# Checks that only the scene's own files are left, with FILE if it exists.
check_nothing_left() {
    wanted=$others
    case "$others " in
    *' text '*) ;;
    *) [ ! -e "$kept" ] || wanted="$others text" ;;
    esac
    same "what is there" "$(names)" "$wanted"
}

# Runs the driver under the given command: strace, a change of user, or `env` for none. One that hangs ends after half a minute.
edit() { # COMMAND..
    set -- "$@" "$folder/driver"
    case $way in
    in_place) set -- "$@" --backup "$own" ;;
    itself) set -- "$@" --itself ;;
    esac
    timeout 30 "$@" ${force:+--force} "$file"
}
