# shellcheck shell=sh
# shellcheck disable=SC2154 # words that check-package.sh sets
# The package in a fresh Debian, for check-package.sh.

# Unmounts what was mounted in the root.
clean_root() {
    [ -d "$folder/debian" ] || return 0
    for each in dev/pts dev proc; do umount "$folder/debian/$each" 2>/dev/null; done
}

# Makes a root folder with a fresh Debian and an ordinary user `person`.
make_root() {
    root=$folder/debian
    timeout 500 debootstrap --variant=minbase "${DEBIAN_RELEASE:-bookworm}" "$root" >"$folder/said" 2>&1 || return
    mount -t proc proc "$root/proc" && mount --bind /dev "$root/dev" && mount -t devpts devpts "$root/dev/pts" || return
    chroot "$root" useradd --create-home --uid 1234 person
}

# Lists all files of the root but those that dpkg and the kernel keep.
files_of_root() {
    (cd "$root" && find . \( -path ./proc -o -path ./dev -o -path ./var/lib/dpkg -o -path ./var/log -o -path ./var/cache \) -prune -o -print | sort)
}

# Installs the package in a fresh Debian, uses it as an ordinary user with and without HOME, and removes it: nothing may stay.
check_chroot() { # NAME
    has_tool "$1" debootstrap || return 0
    if [ "$(id -u)" != 0 ]; then skip "$1" 'only root can make one'; return; fi
    make_root || { skip "$1" "there is no fresh Debian: $(tail -n 1 "$folder/said")"; return; }
    files_of_root >"$folder/before"
    cp "$deb" "$root/bidi-edit.deb"
    chroot "$root" dpkg --install /bidi-edit.deb >"$folder/said" 2>&1
    report "$1, installed" $? "$(cat "$folder/said")"
    rm "$root/bidi-edit.deb"
    same "$1, as editor" "$(chroot "$root" readlink -f /usr/bin/editor)" /usr/bin/bidi-edit
    room=$root/home/person
    use "$1, with HOME" "chroot --userspec=1234:1234 '$root' env -i HOME=/home/person TERM=\$TERM LANG=C.UTF-8 bidi-edit /home/person/note"
    same "$1, with HOME: what is said" "$(cat "$room/errors")" ''
    use "$1, without HOME" "chroot --userspec=1234:1234 '$root' env -i TERM=\$TERM LANG=C.UTF-8 bidi-edit /home/person/note"
    rm -rf "$room/note" "$room/errors" "$room/status" "$room/.local"
    chroot "$root" dpkg --purge bidi-edit >"$folder/said" 2>&1
    report "$1, removed" $? "$(cat "$folder/said")"
    files_of_root >"$folder/after"
    same "$1, nothing stays" "$(diff "$folder/before" "$folder/after")" ''
    same "$1, no process stays" "$(processes_of "$root")" ''
    clean_root
}
