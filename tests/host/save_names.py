"""Saves over the change that was told, and saves under a new name, for save_faults.py."""
import os
import subprocess

from checks import needs
from save_scene import mode_of, open_file, read, slow, wait_until_late, write


def told_each_time(check, place):
    """Another program's change is overwritten only by a save that is told to, and only the change that was told."""
    write(place.note, "old\n")
    editor = open_file(place.note)
    write(place.note, "theirs\n")
    for number in range(3):
        check.same(f"save {number}", editor.save("new\n"), "file changed on disk")
    check.same("FILE", read(place.note), "theirs\n")
    write(place.note, "theirs again\n")
    check.same("over a newer change", editor.over("new\n"), "file changed on disk")
    check.same("FILE still", read(place.note), "theirs again\n")
    check.same("over that one", editor.over("new\n"), "saved")
    check.same("FILE then", read(place.note), "new\n")
    check.same("the next save", editor.save("newer\n"), "saved")
    write(place.note, "theirs\n")
    check.same("told before it is asked for", editor.over("new\n"), "file changed on disk")
    os.remove(place.note)
    check.same("where FILE is gone", editor.save("new\n"), "saved")
    editor.end()


def over_without_room(check, place):
    """A save over a change that fails leaves the change to be told again."""
    write(place.note, "old\n")
    editor = open_file(place.note)
    write(place.note, "theirs\n")
    check.same("the save", editor.save("new\n"), "file changed on disk")
    os.rename(place.folder, f"{place.folder}.away")
    check.same("over it, without its folder", editor.over("new\n"), "folder gone")
    os.rename(f"{place.folder}.away", place.folder)
    check.same("the next save", editor.save("new\n"), "file changed on disk")
    check.same("over it", editor.over("new\n"), "saved")
    editor.end()


def new_names(check, place):
    """A new file is made where the name leads to, and later saves go there. Others get no more rights to it than they had."""
    write(place.note, "old\n", 0o640)
    os.mkdir(f"{place.folder}/in")
    os.symlink("in", f"{place.folder}/link")
    editor = open_file(place.note, cwd=f"{place.folder}/in")
    for name, path in (("a", "in/a"), ("../b", "b"), (f"{place.folder}/link/c", "in/c"), ("-d", "in/-d"), ("\u05d0 \u05d1'", "in/\u05d0 \u05d1'")):
        check.same(f"{name}: the save", editor.save_as(name, "new\n"), "saved")
        check.same(f"{name}: the new file", (read(f"{place.folder}/{path}"), mode_of(f"{place.folder}/{path}") & 0o37), ("new\n", 0))
        check.same(f"{name}: FILE now", editor.ask("file"), f"{place.folder}/{path}")
        check.same(f"{name}: the next save", editor.save(f"newer {name}\n"), "saved")
        check.same(f"{name}: the new file then", read(f"{place.folder}/{path}"), f"newer {name}\n")
    write(f"{place.folder}/in/\u05d0 \u05d1'", "theirs\n")
    check.same("a change of the new file", editor.save("new\n"), "file changed on disk")
    check.same("FILE", read(place.note), "old\n")
    check.same("what is there", sorted(os.listdir(place.folder)), ["b", "in", "link", "note"])
    editor.end()


def home(check, place):
    """~/ is the home folder; the byte order mark goes with the text."""
    write(place.note, "\ufeffold\n")
    os.mkdir(f"{place.folder}/home")
    before, os.environ["HOME"] = os.environ["HOME"], f"{place.folder}/home"
    editor = open_file(place.note)
    os.environ["HOME"] = before
    check.same("the save", editor.save_as("~/a", "new\n"), "saved")
    check.same("the new file", read(f"{place.folder}/home/a"), "\ufeffnew\n")
    editor.end()


def bad_names(check, place):
    """Nothing that is there is overwritten, and a name that cannot be made is refused; saves go where they went."""
    write(place.note, "old\n")
    write(f"{place.folder}/taken", "theirs\n")
    os.mkdir(f"{place.folder}/folder")
    os.mkfifo(f"{place.folder}/pipe")
    os.symlink("nowhere", f"{place.folder}/link")
    before = sorted(os.listdir(place.folder))
    editor = open_file(place.note, cwd=place.folder)
    for name in ("taken", "note", "./note", "folder", "folder/", "pipe", "link", "/dev/null", "/dev/stdin", "/", ".", ".."):
        check.same(name, editor.save_as(name, "new\n"), "file exists")
    for name, cause in (("none/a", "folder gone"), ("taken/a", "folder gone"), ("none/", "folder gone"), ("x" * 256, "not permitted"), ("x/" * 2100, "file exists")):
        check.same(name[:20], editor.save_as(name, "new\n"), cause)
    check.same("what is there", sorted(os.listdir(place.folder)), before)
    check.same("what others have", read(f"{place.folder}/taken"), "theirs\n")
    check.same("FILE now", editor.ask("file"), place.note)
    check.same("the next save", editor.save("new\n"), "saved")
    check.same("FILE", read(place.note), "new\n")
    editor.end()


@needs("strace")
def taken_meanwhile(check, place):
    """A link, a file or a folder is put at the name right before the new file is, or its folder is taken away."""
    makers = {"link": lambda path: os.symlink("note", path), "file": lambda path: write(path, "theirs\n"), "folder": os.mkdir}
    for name, make in makers.items():
        write(place.note, "old\n")
        editor = open_file(place.note, under=slow("linkat", 3), cwd=place.folder)
        editor.tell(f"as {write(f'{place.folder}.text', 'new' + chr(10))} {name}")
        wait_until_late(editor.process)
        make(f"{place.folder}/{name}")
        check.same(f"a {name}", editor.end_save(), "file exists")
        check.same(f"FILE beside a {name}", (read(place.note), editor.ask("file")), ("old\n", place.note))
        editor.end()
    os.mkdir(f"{place.folder}/in")
    editor = open_file(place.note, under=slow("linkat", 3), cwd=place.folder)
    editor.tell(f"as {place.folder}.text in/new")
    wait_until_late(editor.process)
    os.rmdir(f"{place.folder}/in")
    check.same("a folder that is taken away", editor.end_save(), "folder gone")
    editor.end()
    check.same("what is there", sorted(os.listdir(place.folder)), ["file", "folder", "link", "note"])


@needs("root", "mount")
def full_disk(check, place):
    """Without room for all of the text no new file is made, and saves go where they went."""
    disk = f"{place.folder}/disk"
    os.mkdir(disk)
    write(place.note, "old\n")
    subprocess.run(["mount", "-t", "tmpfs", "-o", "size=64k", "tmpfs", disk], check=True)
    try:
        editor = open_file(place.note)
        check.same("the save", editor.save_as(f"{disk}/new", "new\n" * 20000), "no space")
        check.same("what is there", os.listdir(disk), [])
        check.same("the next save", editor.save("new\n"), "saved")
        check.same("FILE", read(place.note), "new\n")
        editor.end()
    finally:
        subprocess.run(["umount", disk], check=True)


CASES = [told_each_time, over_without_room, new_names, home, bad_names, taken_meanwhile, full_disk]
