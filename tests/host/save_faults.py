#!/usr/bin/env python3
"""save_faults.py [--old DATA] DRIVER: what other programs do to FILE and its folder while it is opened and saved.

DRIVER is save_driver, built from save_driver.c, which plays the program's side of a save. With --old it is the program bidi_edit, which
saves by itself, and DATA is the folder of Unicode's tables: most checks fail there. Some checks need root, strace, setfacl or mount,
and are left out without. CHECKS in the environment names the ones to be run. Exit status 1: one failed.
"""
import fcntl
import os
import shutil
import subprocess
import sys
import tempfile

import save_names
import save_paths
from checks import Report, Skipped, needs, try_case
from save_scene import OTHER, Place, is_old, mode_of, open_file, read, set_list, slow, top, wait_until_late, write


# ---- FILE is exchanged

def link_in_place(check, place):
    """FILE becomes a link to another's file: no save follows it."""
    write(place.note, "old\n")
    secret = write(f"{place.folder}/secret", "secret\n", 0o600)
    editor = open_file(place.note)
    os.remove(place.note)
    os.symlink("secret", place.note)
    check.same("the first save", editor.save("new\n"), "file changed on disk")
    check.same("the save that is told to go over it", editor.over("new\n"), "saved")
    check.same("the other file", read(secret), "secret\n")
    check.same("whether FILE is a link", os.path.islink(place.note), False)
    check.same("FILE", read(place.note), "new\n")
    editor.end()


def link_behind_a_link(check, place):
    """FILE was opened by a link, and what that led to becomes a link."""
    os.mkdir(f"{place.folder}/in")
    real = write(f"{place.folder}/in/real", "old\n")
    secret = write(f"{place.folder}/secret", "secret\n", 0o600)
    os.symlink("in/real", place.note)
    editor = open_file(place.note)
    os.remove(real)
    os.symlink("../secret", real)
    editor.save("new\n")
    editor.over("new\n")
    check.same("the other file", read(secret), "secret\n")
    check.same("FILE's link", os.readlink(place.note), "in/real")
    check.same("FILE", read(real), "new\n")
    editor.end()


def link_led_elsewhere(check, place):
    """FILE was opened by a link, which leads to another's file by now."""
    write(f"{place.folder}/real", "old\n")
    secret = write(f"{place.folder}/secret", "secret\n", 0o600)
    os.symlink("real", place.note)
    editor = open_file(place.note)
    os.remove(place.note)
    os.symlink("secret", place.note)
    check.same("the first save", editor.save("new\n"), "file changed on disk")
    check.same("the save that is told to go over it", editor.over("new\n"), "saved")
    check.same("the other file", read(secret), "secret\n")
    check.same("the first file", read(f"{place.folder}/real"), "new\n")
    editor.end()


@needs("strace")
def both_save(check, place):
    """Two editors save at the same time, the exchange of one is late: exactly one has saved."""
    write(place.note, "old\n")
    late = "rename" if is_old else "renameat2"
    first, second = open_file(place.note, under=slow(late, 3)), open_file(place.note)
    first.start_save("first\n")
    wait_until_late(first.process)
    said = {"second\n": second.save("second\n"), "first\n": first.end_save()}
    check.same("what is said", sorted(said.values()), ["file changed on disk", "saved"])
    check.same("what is said of FILE's text", said.get(read(place.note)), "saved")
    check.same("what is there", os.listdir(place.folder), ["note"])
    first.end()
    second.end()


@needs("strace")
def replaced_meanwhile(check, place):
    """Another program renames a file to FILE right before the exchange."""
    write(place.note, "old\n")
    editor = open_file(place.note, under=slow("rename" if is_old else "renameat2", 3))
    editor.start_save("new\n")
    wait_until_late(editor.process)
    os.rename(write(f"{place.folder}/theirs", "theirs\n"), place.note)
    check.same("the save", editor.end_save(), "file changed on disk")
    check.same("FILE", read(place.note), "theirs\n")
    check.same("what is there", os.listdir(place.folder), ["note"])
    check.same("the save that is told to go over it", editor.over("new\n"), "saved")
    check.same("FILE after the second save", read(place.note), "new\n")
    editor.end()


@needs("strace")
def made_meanwhile(check, place):
    """Another program makes FILE, which was not there, right before it is put there."""
    editor = open_file(place.note, under=slow("rename" if is_old else "linkat", 3))
    editor.start_save("new\n")
    wait_until_late(editor.process)
    write(place.note, "theirs\n")
    check.same("the save", editor.end_save(), "file changed on disk")
    check.same("FILE", read(place.note), "theirs\n")
    check.same("the save that is told to go over it", editor.over("new\n"), "saved")
    editor.end()


@needs("strace")
def written_after_the_exchange(check, place):
    """Another program writes the new FILE right after the exchange: the next save tells of it."""
    write(place.note, "old\n")
    editor = open_file(place.note, under=slow("unlinkat", 3))
    editor.start_save("new\n")
    wait_until_late(editor.process)
    write(place.note, "theirs\n")
    check.same("the save", editor.end_save(), "saved")
    check.same("the second save", editor.save("newer\n"), "file changed on disk")
    check.same("FILE", read(place.note), "theirs\n")
    check.same("the save that is told to go over it", editor.over("newer\n"), "saved")
    editor.end()


# ---- FILE is written in place

def in_place(place, **others):
    """An editor whose saves overwrite FILE, with the backup in a folder of its own."""
    own = f"{place.folder}/own"
    os.mkdir(own)
    write(place.note, "old\n")
    return open_file(place.note, "--backup", own, **others)


@needs("strace")
def written_before_it_is_opened(check, place):
    """Another program writes FILE after the last look at it, before the save opens it for writing."""
    # the backup gets its name between the two
    editor = in_place(place, under=slow("/^renameat2?$", 3))
    editor.start_save("new\n")
    wait_until_late(editor.process)
    write(place.note, "theirs\n")
    check.same("the save", editor.end_save(), "file changed on disk")
    check.same("FILE", read(place.note), "theirs\n")
    check.same("the save that is told to go over it", editor.over("new\n"), "saved")
    check.same("FILE after the second save", read(place.note), "new\n")
    editor.end()


@needs("strace")
def written_while_it_is_synced(check, place):
    """Another program writes FILE once the save has filled it, while the disk takes it: the next save tells of it."""
    # the first three are of the backup, of the record of steps, and of their folder
    editor = in_place(place, under=slow("fsync", 3, which=":when=4"))
    editor.start_save("new\n")
    wait_until_late(editor.process)
    write(place.note, "theirs\n")
    check.same("the save", editor.end_save(), "saved")
    check.same("the second save", editor.save("newer\n"), "file changed on disk")
    check.same("FILE", read(place.note), "theirs\n")
    check.same("the save that is told to go over it", editor.over("newer\n"), "saved")
    check.same("FILE after the third save", read(place.note), "newer\n")
    editor.end()


def save_both(check, place, first, second):
    """Two editors that have opened FILE save, while the first one's ftruncate is late: one has saved, and the other says that FILE changed."""
    first.start_save("first\n")
    wait_until_late(first.process)
    said = {"second\n": second.save("second\n"), "first\n": first.end_save()}
    check.same("what is said", sorted(said.values()), ["file changed on disk", "saved"])
    check.same("what is said of FILE's text", said.get(read(place.note)), "saved")
    first.end()
    second.end()


@needs("strace")
def both_save_in_place(check, place):
    """Two editors overwrite FILE at the same time."""
    write(place.note, "old\n")
    for way in "--backup", "--itself":
        owns = [tempfile.mkdtemp(dir=place.folder) for _ in range(2)] if way == "--backup" else [None, None]
        editors = [open_file(place.note, way, *([own] if own else []), under=slow("ftruncate", 3) if at == 0 else ()) for at, own in enumerate(owns)]
        save_both(check, place, *editors)


@needs("root", "strace")
def both_save_where_no_folder_is_read(check, place):
    """The same in a folder that they cannot read, and so cannot lock."""
    write(place.note, "old\n", 0o666)
    os.mkdir(f"{place.folder}/owns", 0o777)
    os.chmod(f"{place.folder}/owns", 0o777)
    other = ["setpriv", "--reuid", str(OTHER), "--regid", str(OTHER), "--clear-groups"]
    owns = [tempfile.mkdtemp(dir=f"{place.folder}/owns") for _ in range(2)]
    for own in owns:
        os.chown(own, OTHER, OTHER)
    os.chmod(place.folder, 0o711)
    first = open_file(place.note, "--backup", owns[0], under=slow("ftruncate", 3, *other))
    save_both(check, place, first, open_file(place.note, "--backup", owns[1], under=other))


def locked_by_another(check, place):
    """Another program keeps FILE or its folder locked: nothing is written until it does not."""
    for way in (), ("--itself",):
        write(place.note, "old\n")
        editor = open_file(place.note, *way)
        lock = os.open(place.note if way else place.folder, os.O_RDONLY)
        fcntl.flock(lock, fcntl.LOCK_EX)
        check.same("the save", editor.save("new\n"), "not permitted")
        check.same("FILE", read(place.note), "old\n")
        check.same("what is there", os.listdir(place.folder), ["note"])
        os.close(lock)
        check.same("the next save", editor.save("new\n"), "saved")
        check.same("FILE after it", read(place.note), "new\n")
        editor.end()


@needs("strace")
def failing_syncs(check, place):
    """A save whose sync fails is told as failed, by any error; the next one, in which it fails again, does not take FILE for another's."""
    # of the new file and its folder; of the backup, of the record of steps, of their folder and of FILE
    for words, syncs in ((), 2), (("--backup", f"{place.folder}/own"), 4):
        os.makedirs(f"{place.folder}/own", exist_ok=True)
        before = sorted(os.listdir(place.folder))
        for at in range(1, syncs + 1):
            for error, cause in ("EIO", "disk error"), ("EROFS", "read-only disk"), ("ENOSPC", "no space"):
                write(place.note, "old\n")
                under = ["strace", "-f", "-qq", "-o", "/dev/null", "-e", "trace=fsync", "-e", f"inject=fsync:error={error}:when={at}"]
                editor = open_file(place.note, *words, under=under)
                what = f"with {error} at sync {at} of {syncs}"
                check.same(f"the save {what}", editor.save("new\n"), cause)
                check.same(f"FILE {what}", read(place.note), "old\n")
                check.same(f"what is there {what}", sorted({*os.listdir(place.folder)} - {"note"}), [name for name in before if name != "note"])
                check.same(f"the next save {what}", editor.save("newer\n"), cause)
                editor.end()


@needs("root", "mount")
def linked_on_overlay(check, place):
    """An overlay copies a file with two names as it is opened for writing: that is no change by another program."""
    for name in "lower", "upper", "work", "merged":
        os.mkdir(f"{place.folder}/{name}")
    write(f"{place.folder}/lower/note", "old\n")
    os.link(f"{place.folder}/lower/note", f"{place.folder}/lower/other")
    layers = ",".join(f"{layer}dir={place.folder}/{name}" for layer, name in (("lower", "lower"), ("upper", "upper"), ("work", "work")))
    if subprocess.run(["mount", "-t", "overlay", "overlay", "-o", layers, f"{place.folder}/merged"], capture_output=True).returncode != 0:
        raise Skipped("no overlay can be mounted")
    try:
        editor = open_file(f"{place.folder}/merged/note", "--itself")
        check.same("the first save", editor.save("new\n"), "saved")
        check.same("FILE", read(f"{place.folder}/merged/note"), "new\n")
        check.same("the second save", editor.save("newer\n"), "saved")
        write(f"{place.folder}/merged/note", "theirs\n")
        check.same("the save after a change", editor.save("new\n"), "file changed on disk")
        editor.end()
    finally:
        subprocess.run(["umount", f"{place.folder}/merged"], check=True)


@needs("root", "mount")
def full_in_place(check, place):
    """The disk is full while FILE is overwritten: FILE has its old text again, and the editor knows it."""
    disk = f"{place.folder}/disk"
    os.mkdir(disk)
    os.mkdir(f"{place.folder}/own")
    subprocess.run(["mount", "-t", "tmpfs", "-o", "size=64k", "tmpfs", disk], check=True)
    try:
        write(f"{disk}/note", "old\n")
        editor = open_file(f"{disk}/note", "--backup", f"{place.folder}/own")
        check.same("the save", editor.save("new\n" * 20000), "no space")
        check.same("FILE", read(f"{disk}/note"), "old\n")
        check.same("the backup", os.listdir(f"{place.folder}/own"), [])
        check.same("whether FILE is torn", editor.ask("torn"), "-")
        check.same("a later save", editor.save("new\n"), "saved")
        check.same("FILE after it", read(f"{disk}/note"), "new\n")
        editor.end()
    finally:
        subprocess.run(["umount", disk], check=True)


@needs("root", "mount")
def full_twice(check, place):
    """The old text, which is mostly a hole, finds no room either: FILE is empty, the backup has the new text, and a later save goes through."""
    disk, own = f"{place.folder}/disk", f"{place.folder}/own"
    os.mkdir(disk)
    os.mkdir(own)
    subprocess.run(["mount", "-t", "tmpfs", "-o", "size=64k", "tmpfs", disk], check=True)
    try:
        write(f"{disk}/note", "old\n")
        os.truncate(f"{disk}/note", 100000)
        editor = open_file(f"{disk}/note", "--backup", own)
        check.same("the save", editor.save("new\n" * 20000), "no space")
        check.same("FILE", read(f"{disk}/note"), "")
        check.same("the backup", read(f"{own}/mark") == "new\n" * 20000, True)
        check.same("whether FILE is torn", editor.ask("torn"), "=")
        check.same("a later save", editor.save("newer\n"), "saved")
        check.same("FILE after it", read(f"{disk}/note"), "newer\n")
        check.same("what is left", os.listdir(own), [])
        editor.end()
    finally:
        subprocess.run(["umount", disk], check=True)


# ---- rights

def rights_of_other(path):
    """Whether the other user may read a file."""
    return subprocess.run(["setpriv", "--reuid", str(OTHER), "--regid", str(OTHER), "--clear-groups", "cat", path], capture_output=True).returncode == 0


@needs("setfacl")
def list_on_file(check, place):
    """FILE gets an access list once the editor has opened it, which counts as a change: no save turns it into rights of the group."""
    write(place.note, "old\n", 0o640)
    editor = open_file(place.note)
    set_list(place.note, "-m", f"u:{OTHER}:rw")
    check.same("the save", editor.save("new\n"), "file changed on disk")
    check.same("the save that is told to go over it", editor.over("new\n"), "saved")
    check.same("FILE", read(place.note), "new\n")
    said = subprocess.run(["getfacl", "-c", "-p", place.note], capture_output=True, text=True).stdout
    check.same("the list", f"user:{OTHER}:rw-" in said and "group::r--" in said, True)
    editor.end()


@needs("setfacl")
def list_and_gone(check, place):
    """A FILE with an access list is gone: what its mode says of the group was the list's mask."""
    write(place.note, "old\n", 0o600)
    editor = open_file(place.note)
    set_list(place.note, "-m", f"u:{OTHER}:rw")
    editor.save("new\n")
    os.remove(place.note)
    check.same("the save", editor.save("new\n"), "saved")
    check.same("the mode", oct(mode_of(place.note)), oct(0o600))
    editor.end()


@needs("setfacl", "strace")
def list_amid_save(check, place):
    """FILE gets an access list right before the exchange."""
    write(place.note, "old\n", 0o660)
    editor = open_file(place.note, under=slow("rename" if is_old else "renameat2", 3))
    editor.start_save("new\n")
    wait_until_late(editor.process)
    set_list(place.note, "-m", f"u:{OTHER}:rw")
    check.same("the save", editor.end_save(), "file changed on disk")
    check.same("FILE", read(place.note), "old\n")
    check.same("the save that is told to go over it", editor.over("new\n"), "saved")
    said = subprocess.run(["getfacl", "-c", "-p", place.note], capture_output=True, text=True).stdout
    check.same("the list", f"user:{OTHER}:rw-" in said, True)
    editor.end()


@needs("setfacl", "root")
def default_list(check, place):
    """FILE's folder is given a list for new files while the editor runs: nobody gets rights by a save."""
    write(place.note, "old\n", 0o640)
    editor = open_file(place.note)
    set_list(place.folder, "-d", "-m", f"u:{OTHER}:rwx")
    check.same("the save", editor.save("new\n"), "saved")
    check.same("whether the other reads FILE", rights_of_other(place.note), False)
    os.remove(place.note)
    check.same("the save of a FILE that is gone", editor.save("new\n"), "saved")
    check.same("whether the other reads the new FILE", rights_of_other(place.note), False)
    check.same("the mode", oct(mode_of(place.note)), oct(0o640))
    editor.end()


@needs("setfacl", "root")
def default_list_and_gone(check, place):
    """The folder has a list for new files: neither a FILE that is gone, of which its session knows the mode, nor a copy gets rights by it."""
    set_list(place.folder, "-d", "-m", f"u:{OTHER}:rwx")
    editor = open_file(place.note, "--mode", "640")
    check.same("the save", editor.save("new\n"), "saved")
    check.same("FILE", read(place.note), "new\n")
    check.same("the copy", editor.ask(f"make {place.note}"), "saved")
    check.same("a second copy", editor.ask(f"make {place.note}"), "disk error")
    for path in place.note, f"{place.note}.copy":
        check.same("whether the other reads it", rights_of_other(path), False)
        check.same("the mode", oct(mode_of(path)), oct(0o640))
        check.same("its text", read(path), "new\n")
    editor.end()


@needs("setfacl", "root", "strace")
def default_list_amid_save(check, place):
    """The folder is given the list after the save has begun."""
    write(place.note, "old\n", 0o640)
    editor = open_file(place.note, under=slow("fsync", 3))
    set_list(place.folder, "-d", "-m", f"u:{OTHER}:rwx")
    editor.start_save("new\n")
    wait_until_late(editor.process)
    readable = [name for name in os.listdir(place.folder) if rights_of_other(f"{place.folder}/{name}")]
    check.same("what the other reads meanwhile", readable, [])
    editor.end_save()
    check.same("whether the other reads FILE", rights_of_other(place.note), False)
    editor.end()


@needs("root", "strace")
def draft_is_closed(check, place):
    """Nobody but the owner reads the draft, also where all may read FILE."""
    write(place.note, "old\n", 0o644)
    editor = open_file(place.note, under=slow("fsync", 3))
    editor.start_save("new\n")
    wait_until_late(editor.process)
    others = [name for name in os.listdir(place.folder) if name != "note"]
    check.same("what is there meanwhile, and is readable", [name for name in others if rights_of_other(f"{place.folder}/{name}")], [])
    editor.end_save()
    editor.end()


# ---- names of others

def ten_names(check, place):
    """Files of others with the names of drafts stop no save, and stay."""
    write(place.note, "old\n")
    for end in "", *range(1, 10):
        write(f"{place.note}.bx{end}", "theirs\n")
    before = sorted(os.listdir(place.folder))
    editor = open_file(place.note)
    check.same("the save", editor.save("new\n"), "saved")
    check.same("FILE", read(place.note), "new\n")
    os.link(place.note, f"{place.folder}/other")
    editor.save("newer\n")
    check.same("the save into the file itself", editor.over("newer\n"), "saved")
    check.same("FILE after it", read(place.note), "newer\n")
    os.remove(f"{place.folder}/other")
    check.same("what is there", sorted(os.listdir(place.folder)), before)
    check.same("what the others have", {read(f"{place.note}.bx{end}") for end in ("", *range(1, 10))}, {"theirs\n"})
    editor.end()


CASES = [
    link_in_place, link_behind_a_link, link_led_elsewhere, both_save, replaced_meanwhile, made_meanwhile, list_on_file, list_and_gone,
    list_amid_save, default_list, default_list_and_gone, default_list_amid_save, draft_is_closed, ten_names, *save_paths.CASES,
]
# of saves into FILE itself, and of the opening, which the old program leaves to others
NEW_CASES = [
    written_after_the_exchange, written_before_it_is_opened, written_while_it_is_synced, both_save_in_place, both_save_where_no_folder_is_read,
    locked_by_another, failing_syncs, linked_on_overlay, full_in_place, full_twice, *save_names.CASES, *save_paths.NEW_CASES,
]


def main():
    # strace and the search for leaks exclude one another
    os.environ.setdefault("ASAN_OPTIONS", "detect_leaks=0")
    wanted, report = os.environ.get("CHECKS", "").split(), Report()
    for case in CASES + ([] if is_old else NEW_CASES):
        if not wanted or case.__name__ in wanted:
            try_case(report, case, Place())
    shutil.rmtree(top, ignore_errors=True)
    return report.end()


if __name__ == "__main__":
    sys.exit(main())
