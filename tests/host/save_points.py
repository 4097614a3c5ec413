#!/usr/bin/env python3
"""save_points.py DRIVER LIBRARY: interrupts saves at each of their calls. DRIVER is save_driver, LIBRARY is faulty_calls.c as a library.

Each call of a save is killed before and after it, and fails with ENOSPC, EIO and EPERM, in scenes of all kinds: FILE must have its old
or its new text, whole, or a beginning of the new one while the backup has all of it; what is told must be so; nothing but the draft of a
killed save may be left, closed to others; and a later save goes through. The same with file systems that lack calls. Each of the cases
below is tried at each call, which is a point. Prints a line for each point that failed, and the totals. Exit status 1: one failed.
"""
import errno
import os
import re
import shutil
import stat
import subprocess
import sys
import tempfile

from checks import Check, Fault, Report, play

driver, library = os.path.abspath(sys.argv[1]), os.path.abspath(sys.argv[2])
top = tempfile.mkdtemp()
os.chmod(top, 0o755)
OLD, NEW = "ab\ncd\nef\n", "xab\nycd\nzef\n" + "a" * 300000
DRAFT = re.compile(r"note\.[a-z0-9]{8}\.bx")
SYNCS = "fsync", "syncfs"
LEAST = 1000
LIMIT = 60
# scenes to be checked alone, as plain/beside/ or made/beside/tmpfile
ONLY = os.environ.get("ONLY", "").split(",") if os.environ.get("ONLY") else []
new_text = f"{top}/new"


def write(path, text, mode=0o640):
    with open(path, "w") as out:
        out.write(text)
    os.chmod(path, mode)


def read(path):
    try:
        with open(path) as text:
            return text.read()
    except FileNotFoundError:
        return None


class Scene:
    """FILE and what is around it. `way`: beside, backup (in a folder of its own) or itself (the backup beside FILE). `lacks` are calls
    that the file system lacks."""

    def __init__(self, name, way, lacks):
        self.name, self.way, self.lacks = name, way, lacks
        self.folder, self.own = f"{top}/place", f"{top}/own"
        for folder in self.folder, self.own:
            shutil.rmtree(folder, ignore_errors=True)
            os.mkdir(folder, 0o755)
        self.kept, self.file = f"{self.folder}/note", f"{self.folder}/note"
        self.old, self.mode, self.owner = OLD, 0o640, (os.geteuid(), os.getegid())
        getattr(self, f"make_{name}")()
        self.names = set(os.listdir(self.folder)) | {"note"}

    def make_plain(self):
        write(self.kept, self.old)

    def make_secret(self):
        self.mode = 0o600
        write(self.kept, self.old, 0o600)

    def make_linked(self):
        write(self.kept, self.old)
        self.file = f"{self.folder}/link"
        os.symlink("note", self.file)

    def make_made(self):
        self.old, self.mode = None, 0o644

    def make_dangling(self):
        self.old, self.mode = None, 0o644
        self.file = f"{self.folder}/link"
        os.symlink("second", self.file)
        os.symlink("note", f"{self.folder}/second")

    def make_beset(self):
        write(self.kept, self.old)
        for end in "", *range(1, 10):
            write(f"{self.kept}.bx{end}", "theirs")

    def make_owned(self):
        self.mode, self.owner = 0o660, (54321, 54323)
        write(self.kept, self.old, 0o660)
        os.chown(self.kept, *self.owner)

    def make_doubled(self):
        write(self.kept, self.old)
        os.link(self.kept, f"{self.folder}/other")

    def words(self):
        return {"beside": [], "backup": ["--backup", self.own], "itself": ["--itself"]}[self.way]

    def is_in_place(self):
        return self.old is not None and (self.way != "beside" or self.name == "doubled")

    # ---- what is there

    def state(self):
        text = read(self.kept)
        return "none" if text is None else "old" if text == self.old else "new" if text == NEW else "torn" if NEW.startswith(text) else "lost"

    def before(self):
        return "none" if self.old is None else "old"

    def backup(self):
        """The text of the backup."""
        if self.way == "backup":
            return read(f"{self.own}/mark")
        for name in sorted(set(os.listdir(self.folder)) - self.names):
            return read(f"{self.folder}/{name}")
        return None

    def check_whole(self, check, answer, may_be_new=False):
        """After a save that was interrupted, or told to have failed."""
        state = self.state()
        if state == "torn":
            check.same("whether a torn FILE is written in place", self.is_in_place(), True)
            check.same("whether the backup of a torn FILE has the text", self.backup() == NEW, True)
        elif state != "new" or answer == "told":
            if not ((self.is_in_place() or may_be_new) and state == "new"):
                check.same("FILE", state, self.before())

    def check_place(self, check):
        """What no save may change, whatever became of the text: FILE's mode and owner, its links, its other name, and others' files."""
        if os.path.lexists(self.kept):
            found = os.lstat(self.kept)
            check.same("the mode", oct(stat.S_IMODE(found.st_mode)), oct(self.mode))
            check.same("the owner", (found.st_uid, found.st_gid), self.owner)
        if self.name == "linked":
            check.same("the link", os.readlink(self.file), "note")
        if self.name == "dangling":
            check.same("the link", os.readlink(self.file), "second")
        if self.name == "doubled":
            check.same("the other name", read(f"{self.folder}/other") == read(self.kept), True)
        if self.name == "beset":
            check.same("the others' files", {read(f"{self.kept}.bx{end}") for end in ("", *range(1, 10))}, {"theirs"})

    def left(self):
        return sorted(set(os.listdir(self.folder)) - self.names)

    def check_left_by_kill(self, check):
        """At most one draft is left, which may have two names: the old text, or a beginning of the new one, closed to others."""
        left = self.left()
        check.same("the number of drafts", len({os.lstat(f"{self.folder}/{name}").st_ino for name in left}) <= 1, True)
        for name in left:
            text, mode = read(f"{self.folder}/{name}"), stat.S_IMODE(os.lstat(f"{self.folder}/{name}").st_mode)
            is_own_name = DRAFT.fullmatch(name) or (self.is_in_place() and name.startswith("note.bx"))
            check.same(f"whether {name} is a draft's name", bool(is_own_name), True)
            check.same("whether the draft has a beginning", text == self.old or NEW.startswith(text), True)
            check.same("what the draft lets others do", oct(mode & ~self.mode), oct(0))

    def clear(self):
        for name in self.left():
            os.remove(f"{self.folder}/{name}")

    def check_nothing_left(self, check):
        check.same("what is left", self.left(), [])
        check.same("what is left of the backup", [name for name in os.listdir(self.own) if name == "mark"], [])


def save(check, scene, saves, at=0, error=0):
    """Saves so often, with a fault at this call of the first one. Returns the answers and the calls."""
    log = f"{top}/log"
    if os.path.exists(log):
        os.remove(log)
    variables = {**os.environ, "LD_PRELOAD": library, "FAULT_LOG": log, "FAULT_AT": str(at), "FAULT_ERROR": str(error), "LACKS": scene.lacks}
    lines = f"save {new_text}\n" + f"over {new_text}\n" * (saves - 1)
    try:
        said = subprocess.run([driver, *scene.words(), scene.file], input=lines, env=variables, capture_output=True, text=True, timeout=LIMIT).stdout
    except subprocess.TimeoutExpired as fault:
        raise Fault("it hangs") from fault
    answers = [line for line in said.splitlines() if not line.startswith("opened ")]
    check.same("the number of answers", len(answers), saves)
    return answers, (read(log) or "").split("\n")[:-1]


def usual(check, scene):
    """A save that nothing interrupts. Returns its calls."""
    answers, calls = save(check, scene, 1)
    check.same("the answer", answers, ["saved"])
    check.same("FILE", scene.state(), "new")
    scene.check_place(check)
    scene.check_nothing_left(check)
    return calls


def killed(check, scene, number, is_after):
    """A save is killed at one call, or after it: no text is lost, and one that was told to be saved is in FILE."""
    answers, calls = save(check, scene, 1, number, -1 if is_after else 0)
    check.same("whether the call was met", "FAULT" in calls, True)
    scene.check_whole(check, "killed")
    if answers == ["saved"]:
        check.same("FILE, told to be saved,", scene.state(), "new")
    scene.check_place(check)
    if scene.state() != "torn":
        scene.check_left_by_kill(check)


def saved_after_kill(check, scene, number):
    """A save is killed at one call, and later ones go through."""
    answers, _ = save(check, scene, 3, number)
    check.same("the last answer", answers[-1:], ["saved"])
    check.same("FILE", scene.state(), "new")


def failing(check, scene, number, call, error):
    """One call of a save fails: what is told is so, and nothing is left but what could not be removed."""
    answers, calls = save(check, scene, 1, number, error)
    check.same("whether the call was met", "FAULT" in calls, True)
    if answers == ["saved"]:
        check.same("FILE, told to be saved,", scene.state(), "new")
    else:
        # a rename cannot be undone
        scene.check_whole(check, "told", call in SYNCS and "exchange" in scene.lacks)
    check.same("whether a sync or lock that fails is told", call in (*SYNCS, "flock") and answers == ["saved"], False)
    if scene.way == "itself" and scene.state() != scene.before() and answers != ["saved"]:
        check.same("the cause", answers, ["file incomplete"])
    # what cannot be removed stays
    if call == "unlinkat" or scene.state() == "torn" or (answers != ["saved"] and scene.state() == "new"):
        scene.names |= set(scene.left())
    else:
        check.same("what is left", scene.left(), [])
    # what is not permitted, or is not known, makes a new file of a file with two names, or of one with another's rights
    is_lost_right = call in ("fgetxattr", "getxattr", "fchown", "faccessat") and answers == ["saved"]
    if not is_lost_right:
        scene.check_place(check)


def saved_after_failure(check, scene, number, call, error):
    """One call fails, and two more saves come after it: the last has gone through, and FILE counts as another's at most once."""
    answers, _ = save(check, scene, 3, number, error)
    check.same("the last answer", answers[-1:], ["saved"])
    check.same("whether a save after a fault says that FILE is another's", answers[1:].count("file changed on disk") <= 1, True)
    check.same("FILE", scene.state(), "new")
    if call != "unlinkat":
        scene.check_nothing_left(check)


class Points:
    """The points of a scene of this name, way and file system."""

    def __init__(self, report, *scene):
        self.report, self.scene = report, scene

    def try_point(self, what, case, *words):
        """Tries a case in a scene made anew, and reports it where it failed. Returns what it returns."""
        scene = Scene(*self.scene)
        check = Check(f"{scene.name}, {scene.way}{', without ' + scene.lacks if scene.lacks else ''}, {what}")
        found = play(case, check, scene, *words)
        self.report.count(check.name, check.wrong())
        return found

    def try_all(self):
        """Calls before the first answer count, and those after the last one do not: the driver reads them."""
        for number, call in enumerate(self.try_point("not interrupted", usual) or [], 1):
            at = f"at {call} ({number})"
            self.try_point(f"killed {at}", killed, number, False)
            self.try_point(f"killed after {call} ({number})", killed, number, True)
            self.try_point(f"killed {at}, and saves after it", saved_after_kill, number)
            for error in errno.ENOSPC, errno.EIO, errno.EROFS if call in SYNCS else errno.EPERM:
                self.try_point(f"{errno.errorcode[error]} {at}", failing, number, call, error)
            self.try_point(f"EIO {at}, and saves after it", saved_after_failure, number, call, errno.EIO)


def scenes():
    """The scenes: their names, ways, and what their file systems lack."""
    names = ["plain", "secret", "linked", "made", "dangling", "beset", "doubled"]
    if os.geteuid() == 0:
        names.append("owned")
    for name in names:
        yield name, "beside", ""
    for name in "plain", "made", "doubled", "linked":
        yield name, "backup", ""
    for name in "plain", "doubled", "beset":
        yield name, "itself", ""
    for lacks in "tmpfile", "tmpfile exchange noreplace", "tmpfile exchange noreplace link sync lock", "exchange lists statx", "proc":
        for name in "plain", "made":
            yield name, "beside", lacks
        yield "plain", "itself", lacks


def main():
    write(new_text, NEW)
    report = Report()
    for scene in scenes():
        if not ONLY or "/".join(scene) in ONLY:
            Points(report, *scene).try_all()
    shutil.rmtree(top)
    status = report.end()
    return 1 if sum(report.counts.values()) < LEAST and not ONLY else status


if __name__ == "__main__":
    sys.exit(main())
