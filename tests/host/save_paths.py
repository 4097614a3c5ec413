"""Cases of where FILE's path leads, for save_faults.py: its folder and disk, what may hang, and what is refused at the opening."""
import os
import re
import shutil
import signal
import stat
import subprocess
import sys
import tempfile
import time

from checks import Skipped, needs
from save_scene import LIMIT, OTHER, driver, is_old, mode_of, open_file, own_name, read, set_list, slow, wait_until_late, words_of_old, write

here = os.path.dirname(os.path.abspath(__file__))


# ---- folders

def exchange_for_ever(inner, theirs, away):
    """Exchanges FILE's folder with another one again and again, so that a save meets it at any moment."""
    while True:
        os.rename(inner, away)
        os.rename(theirs, inner)
        time.sleep(0.0005)
        os.rename(inner, theirs)
        os.rename(away, inner)
        time.sleep(0.0005)


@needs("root")
def folder_exchanged_and_back(check, place):
    """FILE's folder is exchanged for another's and back, again and again: nothing of the other's gets into it."""
    inner, theirs, away = f"{place.folder}/inner", f"{place.folder}/theirs", f"{place.folder}/away"
    for at in range(12):
        for folder, owner in (inner, 0), (theirs, OTHER):
            shutil.rmtree(folder, ignore_errors=True)
            os.mkdir(folder, 0o755)
            write(f"{folder}/note", "old\n" if folder == inner else "theirs\n", 0o666)
            os.chown(folder, owner, owner)
            os.chown(f"{folder}/note", owner, owner)
        editor = open_file(f"{inner}/note")
        switch = os.fork()
        if switch == 0:
            try:
                exchange_for_ever(inner, theirs, away)
            finally:
                os._exit(1)  # an exception of the child is not the case's
        for text in "a\n", "b\n", "c\n":
            editor.save(text)
        os.kill(switch, signal.SIGKILL)
        os.waitpid(switch, 0)
        folders = [folder for folder in (inner, theirs, away) if os.path.exists(folder)]
        for folder in folders:
            owner = os.stat(folder).st_uid
            for name in os.listdir(folder):
                check.same(f"the owner of {name} in the folder of {owner}", os.stat(f"{folder}/{name}").st_uid, owner)
                check.same("what is in a folder", name, "note")
        editor.end()
        for folder in folders:
            shutil.rmtree(folder)


def folder_is_a_link(check, place):
    """FILE's folder becomes a link to another folder."""
    os.mkdir(f"{place.folder}/inner")
    os.mkdir(f"{place.folder}/theirs")
    write(f"{place.folder}/inner/note", "old\n")
    editor = open_file(f"{place.folder}/inner/note")
    os.rename(f"{place.folder}/inner", f"{place.folder}/away")
    os.symlink("theirs", f"{place.folder}/inner")
    for _ in range(3):
        check.same("the save", editor.save("new\n"), "folder gone")
    check.same("what is in the other folder", os.listdir(f"{place.folder}/theirs"), [])
    check.same("what is in FILE's folder", os.listdir(f"{place.folder}/away"), ["note"])
    check.same("FILE", read(f"{place.folder}/away/note"), "old\n")
    os.remove(f"{place.folder}/inner")
    os.rename(f"{place.folder}/away", f"{place.folder}/inner")
    check.same("the save once the folder is back", editor.save("new\n"), "saved")
    check.same("FILE at last", read(f"{place.folder}/inner/note"), "new\n")
    editor.end()


def folder_made_again(check, place):
    """FILE's folder is removed, and made again: the save goes there."""
    inner = f"{place.folder}/inner"
    os.mkdir(inner)
    write(f"{inner}/note", "old\n", 0o600)
    editor = open_file(f"{inner}/note")
    shutil.rmtree(inner)
    check.same("the save without a folder", editor.save("new\n"), "folder gone")
    os.mkdir(inner)
    check.same("the save", editor.save("new\n"), "saved")
    check.same("FILE", read(f"{inner}/note"), "new\n")
    check.same("the mode", oct(mode_of(f"{inner}/note")), oct(0o600))
    check.same("a later save", editor.save("newer\n"), "saved")
    check.same("FILE after it", read(f"{inner}/note"), "newer\n")
    editor.end()


def folder_renamed(check, place):
    """FILE's folder has another name: it is told, and the save goes on once the name is back."""
    inner, other = f"{place.folder}/inner", f"{place.folder}/other"
    os.mkdir(inner)
    write(f"{inner}/note", "old\n")
    editor = open_file("note", cwd=inner)
    os.rename(inner, other)
    check.same("the save", editor.save("new\n"), "folder gone")
    check.same("what is there", os.listdir(other), ["note"])
    os.rename(other, inner)
    check.same("the save once it is back", editor.save("new\n"), "saved")
    check.same("FILE", read(f"{inner}/note"), "new\n")
    editor.end()


@needs("root", "mount")
def disk_unmounted(check, place):
    """FILE's disk is unmounted: nothing gets into the folder under it."""
    disk = f"{place.folder}/disk"
    os.mkdir(disk)
    subprocess.run(["mount", "-t", "tmpfs", "tmpfs", disk], check=True)
    write(f"{disk}/note", "old\n")
    editor = open_file(f"{disk}/note")
    is_gone = subprocess.run(["umount", disk], capture_output=True).returncode == 0
    if not is_gone:
        check.same("the save to the disk that stays", editor.save("new\n"), "saved")
        check.same("FILE", read(f"{disk}/note"), "new\n")
        subprocess.run(["umount", "-l", disk], check=True)
    answers = [editor.save("newer\n") for _ in range(3)]
    check.same("saves to the disk that is gone", answers, ["folder gone"] * 3)
    check.same("what is in the folder under the disk", os.listdir(disk), [])
    editor.end()


# ---- FILE that holds up

@needs("strace")
def pipe_at_opening(check, place):
    """FILE becomes a pipe right before it is opened: it is refused, and nothing waits."""
    write(place.note, "old\n")
    words = words_of_old("note") if is_old else [driver, "note"]
    process = subprocess.Popen([*slow("openat", 2, "-P", "note"), *words], cwd=place.folder, stdin=subprocess.PIPE, stdout=subprocess.PIPE,
                               stderr=subprocess.DEVNULL, text=True)
    wait_until_late(process, own_name)
    os.remove(place.note)
    os.mkfifo(place.note)
    try:
        said, _ = process.communicate(timeout=LIMIT)
    except subprocess.TimeoutExpired:
        said = "it hangs"
        # lets it go on
        os.close(os.open(place.note, os.O_WRONLY | os.O_NONBLOCK))
        process.communicate()
    check.same("what is said", said.strip(), "note is a device, pipe or socket, not a plain file: write its content to a file, and edit that")


def pipe_at_save(check, place):
    """FILE becomes a pipe, for a save into the file itself too."""
    for is_linked in False, True:
        write(place.note, "old\n")
        if is_linked:
            os.link(place.note, f"{place.folder}/other")
        editor = open_file(place.note)
        os.remove(place.note)
        os.mkfifo(place.note)
        check.same("the save", editor.save("new\n"), "not a plain file")
        check.same("whether it is a pipe", stat.S_ISFIFO(os.lstat(place.note).st_mode), True)
        os.remove(place.note)
        check.same("the save once it is gone", editor.save("new\n"), "saved")
        editor.end()
        os.remove(place.note)


def end_by(process, number):
    """Whether a process ends by a signal."""
    process.send_signal(number)
    try:
        process.wait(LIMIT)
        return True
    except subprocess.TimeoutExpired:
        process.kill()
        return False


@needs("root", "mount")
def stalled_disk(check, place):
    """A disk does not answer at the start, from one of its calls on: the usual signals end it."""
    if is_old:
        check.same("whether the start can be tried", False, True)
        return
    for call in "lookup", "getattr", "open", "getxattr", "listxattr", "statfs":
        for number in signal.SIGINT, signal.SIGTERM:
            folder = tempfile.mkdtemp(dir=place.folder)
            disk = subprocess.Popen([sys.executable, f"{here}/stalled_disk.py", folder, call], stdin=subprocess.PIPE, stdout=subprocess.PIPE)
            check.same("the disk", disk.stdout.readline(), b"ready\n")
            process = subprocess.Popen([driver, f"{folder}/note"], stdin=subprocess.PIPE, stdout=subprocess.PIPE,
                                       preexec_fn=lambda: signal.signal(signal.SIGINT, signal.SIG_DFL))
            time.sleep(0.3)
            check.same(f"whether it waits for {call}", process.poll(), None)
            check.same(f"whether a signal ends the wait for {call}", end_by(process, number), True)
            for at in disk, process:
                at.communicate()


@needs("root", "mount")
def stalled_at_save(check, place):
    """A disk does not answer during a save: the host is not held up, and the save's child holds nobody else."""
    if is_old:
        raise Skipped("the old program saves by itself")
    disk = subprocess.Popen([sys.executable, f"{here}/stalled_disk.py", place.folder, "create"], stdin=subprocess.PIPE, stdout=subprocess.PIPE)
    check.same("the disk", disk.stdout.readline(), b"ready\n")
    process = subprocess.Popen([driver, place.note], stdin=subprocess.PIPE, stdout=subprocess.PIPE, text=True)
    check.same("the opening", process.stdout.readline(), f"opened {place.note}\n")
    process.stdin.write("begin\n")
    process.stdin.flush()
    time.sleep(0.5)
    check.same("whether a signal ends the host", end_by(process, signal.SIGTERM), True)
    # the save's child waits as long as the disk does
    try:
        process.communicate(timeout=LIMIT)
        is_free = True
    except subprocess.TimeoutExpired:
        is_free = False
    check.same("whether the host's pipes are free", is_free, True)
    disk.communicate()


# ---- the opening

def opened_as(place, path, *words, cwd=None):
    """The first line about a FILE."""
    editor = open_file(path, *words, cwd=cwd or place.folder)
    editor.end()
    return editor.opened


def make_odd_files(folder):
    """Makes what `refusals` opens."""
    write(f"{folder}/plain", "text\n")
    os.mkdir(f"{folder}/inner")
    os.mkfifo(f"{folder}/pipe")
    for link, to in ("circle", "circle"), ("one", "two"), ("two", "one"), ("nowhere", "none/x"), ("slash", "none/"), ("handed", "/dev/stdin"), \
            ("to_folder", "inner"), ("to_pipe", "pipe"), ("below", "plain/x"), (b"bytes", b"\xff"), (b"in_bytes", b"\xff/new"):
        os.symlink(to, os.path.join(folder.encode(), link) if isinstance(link, bytes) else f"{folder}/{link}")
    os.mkdir(folder.encode() + b"/\xff")


NOT_PLAIN = "is a device, pipe or socket, not a plain file: write its content to a file, and edit that"
HANDED = "is standard input, not a file: write the input to a file, and edit that"
OPENED = "is a descriptor that the caller opened, not a file: write its content to a file, and edit that"
REFUSED = {
    "inner": "inner is a folder: name a file in it",
    "inner/": "inner/ is a folder: name a file in it",
    ".": ". is a folder: name a file in it",
    "/": "/ is a folder: name a file in it",
    "to_folder": "to_folder is a folder: name a file in it",
    "plain/": "plain/ ends in a slash, so it names a folder: name a file",
    "none/": "none/ ends in a slash, so it names a folder: name a file",
    "/dev/stdin": f"/dev/stdin {HANDED}",
    "/proc/self/fd/0": f"/proc/self/fd/0 {HANDED}",
    "handed": f"handed {HANDED}",
    "/dev/stdout": f"/dev/stdout {OPENED}",
    "/dev/fd/63": f"/dev/fd/63 {OPENED}",
    "pipe": f"pipe {NOT_PLAIN}",
    "to_pipe": f"to_pipe {NOT_PLAIN}",
    "/dev/null": f"/dev/null {NOT_PLAIN}",
    "circle": "circle is a link in a circle of links: ls -l shows where it points",
    "one": "one is a link in a circle of links: ls -l shows where it points",
    "nowhere": "nowhere is a broken link: ls -l shows where it points",
    "slash": "slash is a broken link: ls -l shows where it points",
    "below": "below is a broken link: ls -l shows where it points",
    "bytes": "bytes is a link to a name that is not UTF-8: rename that file with mv",
    "in_bytes": "in_bytes is a link to a name that is not UTF-8: rename that file with mv",
    "plain/x": "plain is not a folder: name a file in a folder",
    "none/x": "the folder none does not exist: mkdir -p none creates it",
    "a" * 256: f"the name {'a' * 256} is too long for its disk: choose a shorter one",
    "plain/y/x": "the folder plain/y cannot exist, since its path leads through a file: name a file in a folder",
}


def refusals(check, place):
    """What is no plain file, or has no folder, is refused with cause and remedy."""
    make_odd_files(place.folder)
    opened = {"plain": "plain", "inner/../plain": "plain", "none": "none", "a" * 255: "a" * 255}
    for path, wanted in {**REFUSED, **{path: f"opened {place.folder}/{name}" for path, name in opened.items()}}.items():
        check.same(f"what is said of {path[:20]}", opened_as(place, path), wanted)


def many_links(check, place):
    """Forty links are followed, and not more."""
    write(f"{place.folder}/note", "text\n")
    os.symlink("note", f"{place.folder}/link1")
    for number in range(2, 42):
        os.symlink(f"link{number - 1}", f"{place.folder}/link{number}")
    check.same("forty links", opened_as(place, "link40"), f"opened {place.note}")
    check.same("more", opened_as(place, "link41"), "link41 is a link in a circle of links: ls -l shows where it points")


def lost_folder(check, place):
    """A FILE whose folder is gone is named as it was, also from a working folder that is gone."""
    check.same("a folder that is gone", opened_as(place, "gone/deep/note", "--lost", "--force"), f"opened {place.folder}/gone/deep/note")
    os.mkdir(f"{place.folder}/gone")
    script = f"cd {place.folder}/gone && rmdir {place.folder}/gone && {driver} --force note </dev/null"
    said = subprocess.run(["sh", "-c", script], capture_output=True, text=True).stdout.strip()
    check.same("a working folder that is gone", said, f"opened {place.folder}/gone/note")


def leftovers(check, place):
    """A start names what killed saves left, and nothing else."""
    write(place.note, "text\n")
    for name in "note.bx", "note.bx3", "note.a1b2c3d4.bx", "note.A1b2c3d4.bx", "note.a1b2c3d.bx", "other.a1b2c3d4.bx", "note.a1b2c3d4.bx1", "note.txt.bx":
        write(f"{place.folder}/{name}", "left")
    said, names = opened_as(place, "note").rsplit(": ", 1)
    check.same("what is said", said, f"opened {place.note}: possibly left by an interrupted save; check, and remove what you do not need")
    check.same("the names", sorted(names.split()), ["note.a1b2c3d4.bx", "note.bx", "note.bx3"])


@needs("setfacl")
def lists_of_folder(check, place):
    """A folder with a list of its own gives none to new files; one with a list for new files does."""
    write(place.note, "text\n")
    set_list(place.folder, "-m", f"u:{OTHER}:rx")
    check.same("with a list of its own", open_file(place.note).ask("facts"), "")
    set_list(place.folder, "-d", "-m", f"u:{OTHER}:rx")
    check.same("with a list for new files", open_file(place.note).ask("facts"), "is in a folder that gives new files an access list")


@needs("strace")
def paths_once(check, place):
    """A save resolves no path twice, and none but its folder's."""
    log = f"{place.folder}/log"
    os.mkdir(f"{place.folder}/in")
    path = write(f"{place.folder}/in/note", "old\n")
    editor = open_file(path, under=["strace", "-f", "-qq", "-o", log, "-e", "trace=%file,prctl"])
    check.same("the save", editor.save("new\n"), "saved")
    editor.end()
    # what readlink tells is no path that it resolves
    lines = [line for line in read(log).split('PR_SET_NAME, "bidi-saver"')[1].split("\n") if "readlink(" not in line]
    paths = [word for line in lines for word in re.findall(r'"([^"]*/[^"]*)"', line) if not re.match(r"/(proc/self|dev/null|tmp/.*/text)", word)]
    check.same("the paths", paths, [f"{place.folder}/in"])


CASES = [
    folder_exchanged_and_back, folder_is_a_link, folder_made_again, folder_renamed, disk_unmounted, pipe_at_opening, pipe_at_save, stalled_disk,
    stalled_at_save,
]
# of the opening, which the old program leaves to others
NEW_CASES = [refusals, many_links, lost_folder, leftovers, lists_of_folder, paths_once]
