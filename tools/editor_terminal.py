"""A program on a terminal of its own, for compare_editors.py: its input, the time of its screens, and its cost."""

import fcntl
import os
import pty
import select
import signal
import struct
import termios
import time

ROWS, COLUMNS = 24, 80
QUIET = 0.03  # seconds without a byte after which a screen counts as settled
PAUSE = 0.3  # the same where output is discarded: longer, since no time is measured there
# A terminal's query at the start, which emacs sends, and the answer of a plain xterm, for which emacs waits.
QUESTIONS, ANSWER = (b'\x1b[>0c', b'\x1b[>c'), b'\x1b[>0;95;0c'


class Late(Exception):
    """A screen that was too late."""


def processes_of(session):
    """The process numbers of a session, whose leader is the program on the terminal."""
    found = []
    for name in filter(str.isdigit, os.listdir('/proc')):
        try:
            with open(f'/proc/{name}/stat', 'rb') as file:
                fields = file.read().rpartition(b')')[2].split()
        except OSError:
            continue
        # after the name in parentheses: state, parent, group, session
        if int(fields[3]) == session:
            found.append(int(name))
    return found


def thread_seconds(path):
    """The processor time of a thread or process in seconds: from nanoseconds if the system counts them, else from ticks."""
    try:
        with open(f'{path}/schedstat') as file:
            return int(file.read().split()[0]) / 1e9
    except OSError:
        with open(f'{path}/stat', 'rb') as file:
            fields = file.read().rpartition(b')')[2].split()
        # user and system time, in ticks
        return (int(fields[11]) + int(fields[12])) / os.sysconf('SC_CLK_TCK')


def processor_seconds(process):
    """The processor time of a process with all of its threads; 0 if it is gone."""
    folder = f'/proc/{process}/task'
    try:
        return sum(thread_seconds(f'{folder}/{thread}') for thread in os.listdir(folder))
    except OSError:
        return 0


def peak_bytes(process):
    """The peak memory of a process in bytes; 0 if it is gone."""
    try:
        with open(f'/proc/{process}/status') as file:
            return sum(1024 * int(line.split()[1]) for line in file if line.startswith('VmHWM:'))
    except OSError:
        return 0


class Terminal:
    """A program started on a terminal as a session leader; `with` ends it.

    `line` is the terminal's end here, which does not block; `is_reaped` says that the program's end was taken by `end`.
    """

    def __init__(self, words, folder):
        self.started = time.perf_counter()
        self.process, self.line = pty.fork()
        if self.process == 0:
            try:
                fcntl.ioctl(0, termios.TIOCSWINSZ, struct.pack('HHHH', ROWS, COLUMNS, 0, 0))
                os.chdir(folder)
                os.execvp(words[0], words)
            finally:
                os._exit(127)
        os.set_blocking(self.line, False)
        self.is_over = self.is_reaped = False

    def __enter__(self):
        return self

    def __exit__(self, *_):
        for process in processes_of(self.process):
            try:
                os.kill(process, signal.SIGKILL)
            except ProcessLookupError:
                pass
        os.close(self.line)
        if not self.is_reaped:
            os.waitpid(self.process, 0)

    def send(self, keys):
        """Sends keys, in one write if the terminal takes them all."""
        while keys:
            select.select([], [self.line], [])
            keys = keys[os.write(self.line, keys):]

    def read(self, seconds):
        """The first output within `seconds`; empty if there is none or the program has ended."""
        if not select.select([self.line], [], [], seconds)[0]:
            return b''
        try:
            part = os.read(self.line, 1 << 16)
        except OSError:
            self.is_over = True
            return b''
        if any(question in part for question in QUESTIONS):
            os.write(self.line, ANSWER)
        return part

    def await_screen(self, wanted=b'', quiet=QUIET, limit=60):
        """The time of a screen's last byte: after the wanted bytes, before `quiet` seconds without any; `Late` after `limit`.

        So a longer `quiet` makes no screen later.
        """
        end = time.perf_counter() + limit
        seen, last, is_there = b'', None, False
        while True:
            # until the wanted bytes are there, limit and end are looked at five times a second
            part = self.read(quiet if is_there else 0.2)
            now = time.perf_counter()
            if part:
                last = now
                # of what was seen only an end can begin the wanted bytes
                seen = seen[-len(wanted):] + part if wanted else part
                is_there = is_there or wanted in seen
            elif is_there:
                return last
            if now > end or self.is_over:
                raise Late

    def do(self, keys, wanted=b'', quiet=QUIET, limit=60):
        """Sends keys, and returns the seconds until the last byte of their screen."""
        before = time.perf_counter()
        self.send(keys)
        return self.await_screen(wanted, quiet, limit) - before

    def discard(self, pause=PAUSE):
        """Discards output until `pause` seconds pass without any."""
        while self.read(pause):
            pass

    def processor_seconds(self):
        """The processor time so far of all live processes."""
        return sum(processor_seconds(process) for process in processes_of(self.process))

    def peak_bytes(self):
        """The sum of the peak memories of all live processes."""
        return sum(peak_bytes(process) for process in processes_of(self.process))

    def end(self, keys, limit=60):
        """Sends the keys that quit, and returns the processor time of the whole run, with processes that ended earlier."""
        self.send(keys)
        end = time.perf_counter() + limit
        while time.perf_counter() < end:
            self.read(0.02)  # a program whose output is not read does not end
            process, _, usage = os.wait4(self.process, os.WNOHANG)
            if process:
                self.is_reaped = True
                return usage.ru_utime + usage.ru_stime
        raise Late
