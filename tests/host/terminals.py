"""Runs a command on a terminal of its own, as a shell does: in a job of its own, in the foreground of a session."""
import ctypes, fcntl, os, pty, select, signal, struct, termios, time

HANG = 60  # seconds of a wait for something that comes: only what hangs takes so long, even on a busy machine


def become_reaper():
    """Orphans of the tests become children of this process, so that their end is seen."""
    ctypes.CDLL(None).prctl(36, 1, 0, 0, 0)  # PR_SET_CHILD_SUBREAPER


def marked(mark):
    """The live processes with this mark in their environment: their name, state and parent, by number."""
    found = {}
    for name in filter(str.isdigit, os.listdir('/proc')):
        try:
            with open(f'/proc/{name}/environ', 'rb') as file:
                if mark not in file.read().split(b'\0'):
                    continue
            with open(f'/proc/{name}/stat', 'rb') as file:
                text = file.read()
        except OSError:
            continue
        fields = text.rpartition(b')')[2].split()
        if fields[0] not in (b'Z', b'X'):
            found[int(name)] = (text.split(b'(')[1].rpartition(b')')[0].decode(), fields[0].decode(), int(fields[1]))
    return found


def reap(keep):
    """Reaps orphans that have ended, but not the process `keep`."""
    while True:
        try:
            info = os.waitid(os.P_ALL, 0, os.WEXITED | os.WNOHANG | os.WNOWAIT)
        except ChildProcessError:
            return
        if info is None or info.si_pid == keep:
            return
        os.waitpid(info.si_pid, 0)


def lead(words, env, slave, ends):
    """The session's leader: starts the job, puts it into the foreground again after each stop, and tells its status.

    `ends` are ends of pipes: to tell each status of the job, to wait for the test's end, and to tell the job's number.
    """
    tell, held, job_tell = ends
    os.setsid()
    fcntl.ioctl(slave, termios.TIOCSCTTY, 0)
    signal.signal(signal.SIGTTOU, signal.SIG_IGN)
    job = os.fork()
    if job == 0:
        os.setpgid(0, 0)
        os.tcsetpgrp(slave, os.getpid())
        for number in (signal.SIGTTOU, signal.SIGHUP, signal.SIGINT, signal.SIGPIPE, signal.SIGXFSZ):
            signal.signal(number, signal.SIG_DFL)
        for file in range(3):
            os.dup2(slave, file)
        os.closerange(3, 64)  # those of the test, which has fewer
        os.execvpe(words[0], words, env)
    signal.signal(signal.SIGHUP, signal.SIG_IGN)  # after the fork: else a HUP before exec would be lost
    os.write(job_tell, struct.pack('i', job))
    while True:
        _, status = os.waitpid(job, os.WUNTRACED)
        os.write(tell, struct.pack('i', status))
        if not os.WIFSTOPPED(status):
            break
        os.tcsetpgrp(slave, os.getpgrp())
        os.tcsetpgrp(slave, job)
    os.tcsetpgrp(slave, os.getpgrp())
    # a session whose leader has ended has no terminal any more, so this one waits until `hold` is closed
    os.read(held, 1)


class Run:
    """A command on a terminal of its own, whose erase character is `erase`. `variables` are added to its environment.

    `master` and `slave` are the two ends of the terminal, `settings` its settings before the command. `leader` is the session's
    leader, `job` its only job, `mark` a variable that all processes of the run have. `output` is what was read of the terminal,
    which is not read where `is_read` is False. `told` is the pipe of statuses, `hold` the one by which the leader waits. `status`
    is the job's, as waitpid gives it, None before its end.
    """
    count = 0  # of runs in this process, for marks

    def __init__(self, words, rows=24, columns=80, erase=b'\x08', **variables):
        Run.count += 1
        self.mark = f'HOST_RUN={os.getpid()}.{Run.count}'.encode()
        env = dict(os.environ, TERM='xterm-256color', XTERM_VERSION='XTerm(379)', HOST_RUN=self.mark.decode().partition('=')[2])
        for name in ('TMUX', 'STY', 'VTE_VERSION', 'KONSOLE_VERSION', 'MLTERM', 'KITTY_WINDOW_ID', 'TERM_PROGRAM', 'INSIDE_EMACS'):
            env.pop(name, None)
        env.update(variables)
        self.master, self.slave = pty.openpty()
        settings = termios.tcgetattr(self.slave)
        settings[6][termios.VERASE] = erase
        termios.tcsetattr(self.slave, termios.TCSANOW, settings)
        self.settings = termios.tcgetattr(self.slave)
        self.resize(rows, columns)
        self.told, tell = os.pipe()
        held, self.hold = os.pipe()
        job_told, job_tell = os.pipe()
        self.leader = os.fork()
        if self.leader == 0:
            try:
                for file in (self.master, self.told, self.hold, job_told):
                    os.close(file)
                lead(words, env, self.slave, (tell, held, job_tell))
            finally:
                os._exit(0)
        for file in (tell, held, job_tell):
            os.close(file)
        self.job = struct.unpack('i', os.read(job_told, 4))[0]
        os.close(job_told)
        self.output, self.status, self.is_read = b'', None, True

    def resize(self, rows, columns):
        fcntl.ioctl(self.slave, termios.TIOCSWINSZ, struct.pack('HHHH', rows, columns, 0, 0))

    def type(self, keys):
        os.write(self.master, keys)

    def take_status(self):
        """Takes a status that the session's leader tells."""
        said = os.read(self.told, 4)
        status = struct.unpack('i', said)[0] if said else 0
        if not os.WIFSTOPPED(status):
            self.status = status

    def pump(self, seconds, until=None):
        """Reads for some seconds, or until the bytes come or, without any, the job ends. Returns whether that came."""
        end = time.perf_counter() + seconds
        while True:
            if self.status is not None if until is None else until in self.output:
                return True
            left = end - time.perf_counter()
            if left <= 0:
                return False
            files = ([self.master] if self.is_read else []) + ([self.told] if self.status is None else [])
            for file in select.select(files, [], [], left)[0]:
                if file == self.master:
                    try:
                        self.output += os.read(self.master, 1 << 16)
                    except OSError:  # nobody has the terminal any more
                        self.is_read = False
                else:
                    self.take_status()

    def pump_any(self, seconds, choices):
        """Reads for some seconds, or until one of these byte strings comes. Returns whether one came."""
        end = time.perf_counter() + seconds
        while not any(until in self.output for until in choices):
            if time.perf_counter() > end:
                return False
            self.rest(0.02)
        return True

    def waits(self, is_so):
        """Reads until this is so. Returns whether it came."""
        end = time.perf_counter() + HANG
        while not is_so():
            if time.perf_counter() > end:
                return False
            self.rest(0.01)
        return True

    def rest(self, seconds):
        """Reads for some seconds: no program writes these bytes."""
        self.pump(seconds, b'\0\0\0')

    def drain(self):
        """Reads what is there."""
        while self.is_read and select.select([self.master], [], [], 0)[0]:
            self.output += os.read(self.master, 1 << 16)

    def hang_up(self):
        """Closes the terminal, as its window's end does."""
        self.is_read = False
        os.close(self.master)
        self.master = -1

    def processes(self):
        return marked(self.mark)

    def child(self, name):
        """The number of a child of the job whose name begins so; 0 without one."""
        for process, (comm, _, parent) in marked(self.mark).items():
            if comm.startswith(name) and parent == self.job:
                return process
        return 0

    def left(self, seconds):
        """Waits this many seconds at most until no process of the run is left. Returns those that are left."""
        end = time.perf_counter() + seconds
        while True:
            reap(self.leader)
            there = marked(self.mark)
            if not there or time.perf_counter() > end:
                return there
            self.drain()
            time.sleep(0.01)

    def is_restored(self):
        """Whether the terminal's settings are those from before the command."""
        return termios.tcgetattr(self.slave) == self.settings

    def close(self):
        """Kills what is left, and ends the session's leader."""
        for process in marked(self.mark):
            try:
                os.kill(process, signal.SIGKILL)
            except ProcessLookupError:
                pass
        os.close(self.hold)
        os.waitpid(self.leader, 0)
        for file in (self.told, self.master, self.slave):
            if file >= 0:
                os.close(file)
        reap(0)
