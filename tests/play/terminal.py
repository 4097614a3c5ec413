"""A pseudo-terminal, and the job that runs on it as a shell runs one: in a session of its own, in the foreground."""
import contextlib, ctypes, errno, fcntl, os, pty, select, signal, struct, termios, time
from screen import Screen

# Seconds that only a hang takes, also on a busy machine.
HANG = 60 * float(os.environ.get('PLAY_PATIENCE', '1'))
# What other terminals and multiplexers set, and sessions must not see.
FOREIGN = ('TMUX', 'STY', 'VTE_VERSION', 'KONSOLE_VERSION', 'MLTERM', 'KITTY_WINDOW_ID', 'TERM_PROGRAM', 'INSIDE_EMACS', 'COLUMNS', 'LINES')


def become_reaper():
    """Orphans of a case become children of this process, so that their end is seen."""
    ctypes.CDLL(None).prctl(36, 1, 0, 0, 0)  # PR_SET_CHILD_SUBREAPER


def marked(mark):
    """The live processes with this variable: their name, state and parent, by number."""
    found = {}
    for name in filter(str.isdigit, os.listdir('/proc')):
        try:
            with open(f'/proc/{name}/environ', 'rb') as file:
                if mark not in file.read().split(b'\0'):
                    continue
            with open(f'/proc/{name}/stat', 'rb') as file:
                text = file.read()
        except OSError:
            continue
        fields = text.rpartition(b')')[2].split()
        if fields[0] not in (b'Z', b'X'):
            found[int(name)] = (text.split(b'(', 1)[1].rpartition(b')')[0].decode(), fields[0].decode(), int(fields[1]))
    return found


def reap(keep):
    """Reaps orphans that have ended, but not the process `keep`."""
    while True:
        try:
            info = os.waitid(os.P_ALL, 0, os.WEXITED | os.WNOHANG | os.WNOWAIT)
        except ChildProcessError:
            return
        if info is None or info.si_pid == keep:
            return
        os.waitpid(info.si_pid, 0)


def lead(words, env, slave, ends):
    """The session's leader: starts the job, puts it into the foreground again when it was stopped and continued, and tells its status.
    `ends` are ends of pipes: to tell each status, to wait for the test's end, and to tell the job's number."""
    tell, held, job_tell = ends
    os.setsid()
    fcntl.ioctl(slave, termios.TIOCSCTTY, 0)
    signal.signal(signal.SIGTTOU, signal.SIG_IGN)
    job = os.fork()
    if job == 0:
        os.setpgid(0, 0)
        os.tcsetpgrp(slave, os.getpid())
        for number in (signal.SIGTTOU, signal.SIGHUP, signal.SIGINT, signal.SIGPIPE, signal.SIGXFSZ):
            signal.signal(number, signal.SIG_DFL)
        for file in range(3):
            os.dup2(slave, file)
        os.closerange(3, 256)
        os.execvpe(words[0], words, env)
    signal.signal(signal.SIGHUP, signal.SIG_IGN)  # after the fork: else a HUP before exec would be lost
    os.write(job_tell, struct.pack('i', job))
    while True:
        _, status = os.waitpid(job, os.WUNTRACED)
        os.write(tell, struct.pack('i', status))
        if not os.WIFSTOPPED(status):
            break
        os.tcsetpgrp(slave, os.getpgrp())
        os.tcsetpgrp(slave, job)
    os.tcsetpgrp(slave, os.getpgrp())
    # a session whose leader has ended has no terminal any more, so this one waits until `hold` is closed
    os.read(held, 1)


class Terminal:
    """A job on a terminal of its own. `screen` is what it shows, `output` all bytes that it was sent, `status` the job's exit status, or 128
    and a signal's number; None as long as it runs."""
    count = 0  # of terminals in this process, for marks

    def __init__(self, words, rows, columns, variables, folder):
        Terminal.count += 1
        self.mark = f'PLAY_RUN={os.getpid()}.{Terminal.count}'.encode()
        env = {name: value for name, value in os.environ.items() if name not in FOREIGN}
        env.update(TERM='xterm-256color', XTERM_VERSION='XTerm(379)', PLAY_RUN=self.mark.decode().partition('=')[2])
        env.update(variables)
        self.master, self.slave = pty.openpty()
        settings = termios.tcgetattr(self.slave)
        settings[6][termios.VERASE] = b'\x7f'
        termios.tcsetattr(self.slave, termios.TCSANOW, settings)
        self.settings = termios.tcgetattr(self.slave)
        self.screen = Screen(columns or 80, rows or 24)
        fcntl.ioctl(self.slave, termios.TIOCSWINSZ, struct.pack('HHHH', rows, columns, 0, 0))
        self.output, self.status, self.is_read = b'', None, True
        self.told, tell = os.pipe()
        held, self.hold = os.pipe()
        job_told, job_tell = os.pipe()
        self.leader = os.fork()
        if self.leader == 0:
            try:
                os.chdir(folder)
                # also the ends of other terminals: their leaders wait until all of those are closed
                for file in set(range(3, 256)) - {self.slave, tell, held, job_tell}:
                    with contextlib.suppress(OSError):
                        os.close(file)
                lead(words, env, self.slave, (tell, held, job_tell))
            finally:
                os._exit(0)
        for file in (tell, held, job_tell):
            os.close(file)
        os.set_blocking(self.master, False)
        self.job = struct.unpack('i', os.read(job_told, 4))[0]
        os.close(job_told)

    def resize(self, rows, columns):
        self.screen.resize(rows, columns)
        fcntl.ioctl(self.slave, termios.TIOCSWINSZ, struct.pack('HHHH', rows, columns, 0, 0))

    def type(self, keys, patience=HANG):
        """Types bytes, and reads meanwhile what is shown. Returns whether all were taken; it gives up where none are for some seconds."""
        end = time.monotonic() + patience
        while keys and self.master >= 0:
            try:
                keys = keys[os.write(self.master, keys):]
                end = time.monotonic() + patience
            except BlockingIOError:
                self.pump(0.01)
            if time.monotonic() > end:
                return False
        return True

    def pump(self, seconds):
        """Reads what comes within some seconds, or returns once something has come."""
        files = ([self.master] if self.is_read else []) + ([self.told] if self.status is None else [])
        for file in select.select(files, [], [], seconds)[0]:
            if file == self.told:
                self.take_status()
                continue
            try:
                read = os.read(self.master, 1 << 16)
            except BlockingIOError:
                continue
            except OSError as fault:  # nobody has the terminal any more
                if fault.errno != errno.EIO:
                    raise
                self.is_read = False
                continue
            self.output += read
            self.screen.feed(read)

    def take_status(self):
        said = os.read(self.told, 4)
        status = struct.unpack('i', said)[0] if said else 0
        if os.WIFSIGNALED(status):
            self.status = 128 + os.WTERMSIG(status)
        elif os.WIFEXITED(status):
            self.status = os.WEXITSTATUS(status)

    def hang_up(self):
        """Closes the terminal, as its window's end does."""
        self.is_read = False
        os.close(self.master)
        self.master = -1

    def processes(self):
        reap(self.leader)
        return {process: facts for process, facts in marked(self.mark).items() if process != self.leader}

    def named(self, name):
        """The number of the process with this name, of those the one whose parent is none of them; 0 without one."""
        found = {process: parent for process, (comm, _, parent) in self.processes().items() if comm == name}
        return next((process for process, parent in found.items() if parent not in found), 0)

    def next_line(self):
        """What a shell would read next, once a line was typed: whether the terminal gives just that line."""
        os.write(self.master, b'a line\n')
        os.set_blocking(self.slave, False)
        end = time.monotonic() + HANG
        got = b''
        while b'a line\n' not in got and time.monotonic() < end:
            try:
                got += os.read(self.slave, 1 << 16)
            except BlockingIOError:
                self.pump(0.01)
        return got

    def kill_all(self):
        """Kills all processes at once: each is stopped first, so that none sees the end of another, and children go first, since the
        system continues a stopped group whose parent ends."""
        for number in (signal.SIGSTOP, signal.SIGKILL):
            found = self.processes()

            def depth(process):
                return 1 + depth(found[process][2]) if process in found else 0
            for process in sorted(found, key=depth, reverse=True):
                with contextlib.suppress(ProcessLookupError):
                    os.kill(process, number)

    def close(self):
        """Kills what is left, and ends the session's leader."""
        self.kill_all()
        os.close(self.hold)
        os.waitpid(self.leader, 0)
        for file in (self.told, self.master, self.slave):
            if file >= 0:
                os.close(file)
        reap(0)
