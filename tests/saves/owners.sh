# shellcheck shell=sh
# shellcheck disable=SC2034,SC2154 # variables shared with other parts
# Files of other users, and full disks. Uses scenes.sh and kinds.sh. 54322 is the user of `as_other`, who edits, and the group of
# this user alone; 54323 is a group without this user.

# ---- files of other users

# The set-ID bits stay only if both owner and group stay. Where they must go, a whole text and an empty one are saved: the system
# clears the bits of a file that is written to, so only a save that writes nothing shows that the editor leaves them off.
check_set_ids() {
    prepare secret
    chown -R 54322:54322 "$place"
    chmod 6751 "$kept"
    owner=54322:54322 mode=6751
    check_save 'an own file that runs as its owner' new "$folder/as_other"
    check_place

    for kind_of_text in whole empty; do
        prepare secret
        [ "$kind_of_text" = whole ] || empty_texts
        chown -R 54322:54322 "$place"
        chgrp 54323 "$kept"
        chmod 6775 "$kept"
        owner=54322:54322 mode=755
        check_save "a $kind_of_text file that runs in a group that is not the user's" new "$folder/as_other"
        check_place

        prepare secret
        [ "$kind_of_text" = whole ] || empty_texts
        chown 54322 "$place"
        chmod 6755 "$kept"
        owner=54322:54322 mode=755
        force=1
        check_save "a $kind_of_text file that runs as another user" new "$folder/as_other"
        force=''
        check_place
    done
}

# Has an empty text be saved over one of a letter.
empty_texts() {
    printf x >"$folder/old"
    : >"$folder/new"
    put_old "$kept" 600
}

# Saves by root, and of files with another owner or group: whose FILE is afterwards, and who may do what with it.
check_owners() {
    begin_kind 'other users'
    if ! is_root; then
        skip 'who is not root cannot be another user'
        return
    fi
    if ! as_another_user "$folder/driver"; then
        skip "another user has no access to $folder"
        return
    fi
    prepare owned
    chmod 4751 "$kept"
    mode=4751
    check_save 'root keeps owner, group and all permissions' new env
    check_place

    # an own file, in a group to which its owner does not belong
    prepare secret
    chown -R 54322:54322 "$place"
    chgrp 54323 "$kept"
    chmod 664 "$kept"
    owner=54322:54322 mode=644
    check_save "a group that is not the user's gets what all others have" new "$folder/as_other"
    check_place

    prepare secret
    chown 54322 "$place"
    chmod 646 "$kept"
    owner=54322:54322 mode=666
    check_save "another user's file in an own folder" new "$folder/as_other"
    check_place

    check_set_ids

    prepare plain
    chmod 666 "$kept"
    check_save 'a folder that may not be written' old "$folder/as_other"
    says 'not permitted'
    check_nothing_left

    prepare plain
    chmod 666 "$kept"
    chmod 1777 "$place"
    check_save "another user's file in a folder like /tmp" old "$folder/as_other"
    check_nothing_left

    way=in_place
    prepare plain
    chmod 666 "$kept"
    chown 54322 "$own"
    mode=666
    check_save "another user's file, in place" new "$folder/as_other"
    check_place
    check_no_backup
    check_nothing_left

    prepare plain
    chmod 644 "$kept"
    chown 54322 "$own"
    check_save "another user's file that may not be written, in place" old "$folder/as_other"
    check_no_backup
    check_nothing_left
    way=beside
}

# ---- full disks

# Saves to a disk that is read-only or full, and to a file that is mounted by itself.
check_disks() {
    begin_kind 'disks that take no text'
    mkdir -m 755 "$folder/disk"
    if ! mount -t tmpfs -o size=64k tmpfs "$folder/disk" 2>/dev/null; then
        skip 'no disk may be mounted'
        return
    fi
    mounted=$folder/disk
    prepare plain
    file=$folder/disk/text kept=$folder/disk/text
    put_old "$kept" 640
    mount -o remount,ro "$folder/disk"
    force=1
    check_save 'read-only' old env
    says 'read-only disk'
    force=''
    mount -o remount,rw "$folder/disk"
    check_save 'no longer read-only' new env

    head -c 40000 /dev/zero | tr '\0' a >"$folder/old"
    head -c 40001 /dev/zero | tr '\0' b >"$folder/new"
    cp "$folder/old" "$kept"
    check_save '40,000 bytes more on a disk of 64 KiB' old env
    same "what is there" "$(ls -A "$folder/disk")" text
    says 'no space'
    way=in_place
    head -c 70000 /dev/zero | tr '\0' b >"$folder/new"
    check_save '70,000 bytes on a disk of 64 KiB, in place' old env
    says 'no space'
    check_no_backup
    way=beside
    umount "$folder/disk" && mounted=''

    prepare plain
    mount --bind "$kept" "$kept" && mounted=$kept
    check_save 'a file that is mounted by itself' new env
    check_nothing_left
    put_old "$kept" 640
    way=in_place
    check_save 'a file that is mounted by itself, in place' new env
    check_no_backup
    check_nothing_left
    way=beside
    umount "$kept" && mounted=''
}
