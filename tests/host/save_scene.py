"""The scene of save_faults.py and save_paths.py: editors that have opened FILE, files, and calls that are late.

It reads the words of the command line, which save_faults.py describes.
"""
import os
import re
import stat
import subprocess
import sys
import tempfile
import time

OTHER = 54322
LIMIT = 60  # seconds: only what hangs takes so long

is_old = sys.argv[1:2] == ["--old"]
tables = sys.argv[2] if is_old else ""
driver = os.path.abspath(sys.argv[-1])
top = tempfile.mkdtemp()
os.chmod(top, 0o755)


class Editor:
    """A driver that has opened FILE."""

    def __init__(self, path, *words, under=(), cwd=None):
        self.process = subprocess.Popen([*under, driver, *words, path], stdin=subprocess.PIPE, stdout=subprocess.PIPE, text=True, bufsize=1, cwd=cwd)
        self.opened = self.hear()

    def hear(self):
        return self.process.stdout.readline().rstrip("\n")

    def tell(self, line):
        self.process.stdin.write(line + "\n")
        self.process.stdin.flush()

    def ask(self, line):
        self.tell(line)
        return self.hear()

    def save(self, text):
        """Saves a text, and gives the answer."""
        return self.ask(f"save {write(new_name(), text)}")

    def over(self, text):
        """The same, over the change that was told last."""
        return self.ask(f"over {write(new_name(), text)}")

    def save_as(self, name, text):
        """The same, under a new name."""
        return self.ask(f"as {write(new_name(), text)} {name}")

    def start_save(self, text):
        self.tell(f"save {write(new_name(), text)}")

    def end_save(self):
        return self.hear()

    def end(self):
        self.process.stdin.close()
        try:
            self.process.wait(LIMIT)
        except subprocess.TimeoutExpired:
            self.process.kill()
        self.process.stdout.close()


def words_of_old(path):
    return [driver, "--rows", "3", "--cols", "70", "--classes", f"{tables}/DerivedBidiClass.txt", "--brackets", f"{tables}/BidiBrackets.txt",
            "--mirroring", f"{tables}/BidiMirroring.txt", path]


class OldEditor(Editor):
    """The program that saves by itself, whose screen tells what came of it. A text is typed after Ctrl-X (CSI 74 ~), which cuts the line."""

    def __init__(self, path, *_words, under=(), cwd=None):
        self.process = subprocess.Popen([*under, *words_of_old(path)], stdin=subprocess.PIPE, stdout=subprocess.PIPE, stderr=subprocess.DEVNULL,
                                        cwd=cwd)
        os.set_blocking(self.process.stdout.fileno(), False)
        self.text = None
        self.wait_for(b"1:1")

    def wait_for(self, *words):
        """Reads the screen until one of the words is there. Where blanks stood, the painter moves the cursor."""
        held, end = b"", time.monotonic() + LIMIT
        while time.monotonic() < end:
            held += self.process.stdout.read() or b""
            plain = re.sub(rb"\x1b\[[0-9]*;[0-9]*H", b" ", held)
            for word in words:
                if word in plain:
                    return word.decode()
            time.sleep(0.02)
        return "no answer"

    def press(self, keys):
        self.process.stdin.write(keys)
        self.process.stdin.flush()

    def start_save(self, text):
        if text != self.text:
            self.press(b"\x1b[1;5H\x1b[74~" + text.replace("\n", "\r").encode())
            self.wait_for(b"* ")
        self.text = text
        self.press(b"\x13")

    def end_save(self):
        causes = [b"file changed on disk", b"folder gone", b"not permitted", b"disk error", b"not a plain file", b"file cut off", b"file incomplete"]
        return self.wait_for(*causes, b" saved").strip()

    def save(self, text):
        self.start_save(text)
        return self.end_save()

    def over(self, text):
        if text != self.text:
            return self.save(text)
        self.press(b"y")
        return self.end_save()


def open_file(path, *words, **others):
    return (OldEditor if is_old else Editor)(path, *words, **others)


names = 0


def new_name():
    global names
    names += 1
    return f"{top}/text{names}"


def write(path, text, mode=None):
    with open(path, "w") as out:
        out.write(text)
    if mode is not None:
        os.chmod(path, mode)
    return path


def read(path):
    try:
        with open(path) as text:
            return text.read()
    except OSError as error:
        return type(error).__name__


def mode_of(path):
    return stat.S_IMODE(os.lstat(path).st_mode)


def below(process):
    """The processes that a process started, and those that they did."""
    with open(f"/proc/{process}/task/{process}/children") as told:
        for child in told.read().split():
            yield child
            yield from below(child)


def is_late(tracer, wanted):
    """Whether strace, the process `tracer`, holds one of this name."""
    try:
        for process in below(tracer):
            with open(f"/proc/{process}/stat") as told:
                name, rest = told.read().split(" (", 1)[1].rsplit(") ", 1)
            if name == wanted and rest[0] == "t":
                return True
    except OSError:
        pass
    return False


own_name = os.path.basename(driver)[:15]


def wait_until_late(tracer, name=own_name if is_old else "bidi-saver"):
    """Waits until the slow call of a process has begun: strace holds it for so many looks in a row."""
    row, end = 0, time.monotonic() + LIMIT
    while row < 8 and time.monotonic() < end:
        row = row + 1 if is_late(tracer.pid, name) else 0
        time.sleep(0.01)


class Place:
    """A case's own folder, and FILE in it."""

    def __init__(self):
        self.folder = tempfile.mkdtemp(dir=top)
        os.chmod(self.folder, 0o755)
        self.note = f"{self.folder}/note"


def slow(call, seconds, *more, which=""):
    """Words that run a command whose CALL takes so long; WHICH is `:when=N` for the one of this number, from 1, alone."""
    return ["strace", "-f", "-qq", "-o", "/dev/null", "-e", f"trace={call}", "-e", f"inject={call}:delay_enter={int(seconds * 1e6)}{which}", *more]


def set_list(path, *words):
    subprocess.run(["setfacl", *words, path], check=True)
