"""Where a case plays: its own folders and home, the program that the host starts, its terminals, and what stays of its sessions."""
import glob, os, re, shutil, subprocess, time
from notation import Fault
from terminal import HANG, Terminal

HERE = os.path.dirname(os.path.abspath(__file__))
TOP = os.path.dirname(os.path.dirname(HERE))
# The names of processes that a case calls by what they do.
NAMES = {'host': 'bidi-edit', 'program': 'bidi_edit', 'watcher': 'bidi-watcher', 'keeper': 'bidi-keeper', 'saver': 'bidi-saver'}
# A user who is in no group, and whom no system should have.
OTHER = 61001
# Programs for tests in the place of the editor, and the variables that have their ways.
STAND_INS = {'stand-in': ('../host/program.py', 'STAND_IN'), 'typist': ('../host/typist.py', 'TYPIST')}
TABLES = {'classes': 'DerivedBidiClass', 'brackets': 'BidiBrackets', 'mirroring': 'BidiMirroring', 'joining': 'ArabicShaping', 'characters': 'UnicodeData'}
PRINTER = '#!/bin/sh\nprintf "printed"\nprintf " <%s>" "$@"\necho\nshift $(($# - 1))\ncat "$1"\n'
ANOTHER_USER = '''#!/bin/sh
[ "$(id -u)" = 0 ] || exec "$@"
exec setpriv --reuid 61001 --regid 61001 --clear-groups "$@"
'''


def put_script(path, text):
    with open(path, 'w', encoding='utf-8') as file:
        file.write(text)
    os.chmod(path, 0o755)


def install(folder, host, programs):
    """Makes an installation for the editor and for each stand-in, and a folder of commands for cases."""
    os.mkdir(f'{folder}/commands')
    shutil.copytree(f'{TOP}/data', f'{folder}/data')
    put_script(f'{folder}/commands/as-another-user', ANOTHER_USER)
    for kind in ('editor', *STAND_INS):
        lib = f'{folder}/{kind}/lib/bidi_edit'
        for name in ('bin', 'lib/bidi_edit', 'share'):
            os.makedirs(f'{folder}/{kind}/{name}')
        shutil.copy2(host, f'{folder}/{kind}/bin/bidi-edit')
        os.symlink(f'{folder}/data', f'{folder}/{kind}/share/bidi_edit')
        with open(f'{lib}/kit', 'w', encoding='utf-8') as kit:
            kit.write('toolchain a kit\n' if kind == 'editor' else 'a kit\n')
        if kind == 'editor':
            for name in ('bidi_edit', 'bidi_print'):
                shutil.copy2(f'{programs}/{name}', f'{lib}/{name}')
        else:
            shutil.copy2(f'{HERE}/{STAND_INS[kind][0]}', f'{lib}/bidi_edit')
            put_script(f'{lib}/bidi_print', PRINTER)


class Scene:
    """`files` is the working folder, `home` has the sessions, `temporary` must be empty after each of them."""

    def __init__(self, installed, folder):
        self.installed, self.folder = installed, folder
        self.files, self.home, self.temporary = f'{folder}/files', f'{folder}/home', f'{folder}/temporary'
        for path in (folder, self.files, self.home, self.temporary, f'{folder}/run'):
            os.mkdir(path)
            os.chmod(path, 0o755)
        os.chmod(f'{folder}/run', 0o700)
        self.size, self.kind, self.ways = (24, 80), 'editor', {}
        self.terminals, self.name, self.starts, self.kept = {}, 'first', 0, 0
        self.mounted, self.servers, self.again, self.is_other = [], [], None, False

    def be_other(self):
        """From here on another user, who is not root, starts all, and has the folders."""
        self.is_other = True
        for path in (self.files, self.home, self.temporary, f'{self.folder}/run'):
            for folder, folders, names in os.walk(path):
                for name in ('.', *names):
                    os.chown(os.path.join(folder, name), OTHER, OTHER, follow_symlinks=False)

    def words(self, line, is_tester=False):
        """The words that run a shell's line as the user of the case, or as the one who runs the test."""
        return ([f'{self.installed}/commands/as-another-user'] if self.is_other and not is_tester else []) + ['sh', '-c', line]

    def variables(self):
        path = f'{self.installed}/commands:{self.installed}/{self.kind}/bin:{os.environ["PATH"]}'
        here = self.terminals.get(self.name)
        more = {'TTY': os.ttyname(here.slave)} if here and not here.is_closed else {}
        sessions = self.sessions()
        if len(sessions) == 1:
            more['SESSION'] = sessions[0]
        return {'PROGRAM': f'{self.installed}/editor/lib/bidi_edit/bidi_edit', 'TABLES': ' '.join(self.tables()), **more, 'HOME': self.home, 'TMPDIR': self.temporary, 'XDG_RUNTIME_DIR': f'{self.folder}/run', 'PATH': path, 'LC_ALL': 'C.UTF-8', 'TOP': TOP,
                'PYTHONDONTWRITEBYTECODE': '1', **self.ways}

    # ---- terminals

    def terminal(self):
        if self.name not in self.terminals:
            raise Fault('a session', 'there is none: it needs `start`')
        return self.terminals[self.name]

    def start(self, line):
        """Starts a shell's line in a new terminal; its standard error goes to a file."""
        if self.name in self.terminals and not self.terminals[self.name].is_closed:
            raise Fault('a start', 'the session before goes on: it needs `ends`')
        self.starts += 1
        errors = f'{self.folder}/errors{self.starts}'
        # a single command becomes the job itself, so that no shell tells its end
        line = line if re.search('[;|&]|^exec ', line) else re.sub(r'^((?:\w+=\S* )*)', r'\1exec ', line)
        with open(errors, 'wb'):
            os.chmod(errors, 0o666)
        terminal = Terminal(self.words(f"exec 2>'{errors}'\n{line}"), *self.size, self.variables(), self.files)
        terminal.errors, terminal.is_closed = errors, False
        terminal.screen.feed(b'as before\r\n')
        self.terminals[self.name], self.kept = terminal, 0

    def output_length(self):
        return sum(len(terminal.output) for terminal in self.terminals.values())

    def pump(self, seconds):
        """Reads what all terminals show."""
        for terminal in self.terminals.values():
            if not terminal.is_closed:
                terminal.pump(seconds)
                seconds = 0
        if seconds:
            time.sleep(seconds)

    def wait(self, probe, wanted):
        """Waits until `probe` says that something is so: it returns that, and what is seen. The time in which that has to come begins anew with
        each output, up to ten times: only what hangs takes so long."""
        begun = end = time.monotonic()
        turn, shown = begun + 0.2, -1
        while True:
            is_so, seen = probe()
            if is_so:
                return
            if self.output_length() != shown:
                end, shown = min(time.monotonic(), begun + 9 * HANG) + HANG, self.output_length()
            if time.monotonic() > end:
                raise Fault(wanted, seen)
            if self.again and time.monotonic() > turn:
                self.again()
                turn = time.monotonic() + 0.2
            self.pump(0.02)

    def find(self, name):
        """Waits for a process of the terminal, by its name."""
        found = 0

        def probe():
            nonlocal found
            found = self.terminal().named(NAMES.get(name, name))
            return found != 0, f'there are {self.names()}'
        self.wait(probe, f'a process: {name}')
        return found

    @staticmethod
    def state_of(process):
        """As in /proc: T is stopped."""
        with open(f'/proc/{process}/stat', encoding='utf-8', errors='replace') as facts:
            return facts.read().rpartition(')')[2].split()[0]

    def names(self):
        return sorted(comm for comm, _, _ in self.terminal().processes().values())

    # ---- commands

    def run(self, line, is_tester=False, seconds=HANG):
        """Runs a shell's line without a terminal. Returns its status, standard output and standard error."""
        env = {name: value for name, value in os.environ.items() if name not in ('TMUX', 'STY', 'COLUMNS', 'LINES')}
        env.update({'TERM': 'xterm-256color', **self.variables()})
        try:
            done = subprocess.run(['setsid', '-w', *self.words(line, is_tester)], cwd=self.files, env=env, stdin=subprocess.DEVNULL, capture_output=True, timeout=seconds)
        except subprocess.TimeoutExpired as late:
            raise Fault(f'an end of: {line}', f'{late.stdout!r} {late.stderr!r}') from None
        return done.returncode, done.stdout.decode('utf-8', 'backslashreplace'), done.stderr.decode('utf-8', 'backslashreplace')

    def tables(self):
        return [word for option, table in TABLES.items() for word in (f'--{option}', f'{self.installed}/data/{table}.txt')]

    def paint_alone(self, rows, columns, name, keys):
        """The bytes that the editor paints without the host, of a copy of a file."""
        copy = f'{self.folder}/alone'
        if os.path.exists(self.path(name)):
            shutil.copy(self.path(name), copy)
        words = [f'{self.installed}/editor/lib/bidi_edit/bidi_edit', '--rows', str(rows), '--cols', str(columns), *self.tables(), '--name', 'note', copy]
        done = subprocess.run(words, input=keys, capture_output=True, check=False, timeout=HANG)
        if os.path.exists(copy):
            os.unlink(copy)
        return done.stdout

    # ---- what stays

    def path(self, name):
        return os.path.join(self.files, name)

    def bytes_at(self, name):
        """The bytes of a file; None without one."""
        try:
            with open(self.path(name), 'rb') as file:
                return file.read()
        except FileNotFoundError:
            return None

    def sessions(self):
        return sorted(glob.glob(f'{self.home}/.local/state/bidi_edit/[0-9]*'))

    def journal(self):
        """The keys that the only session has kept, without the notice of no number with which they begin."""
        for session in self.sessions():
            return (self.bytes_at(f'{session}/journal') or b'').removeprefix(b'\x1b[>0~')
        return b''

    def noted(self, end):
        """What the stand-in noted of its last start: the bytes of the file FILE.frames, or of FILE.words."""
        found = [path for path in glob.glob(f'{self.files}/**/*', recursive=True) if path.endswith(end)]
        return self.bytes_at(max(found, key=os.path.getmtime)) if found else b''

    # ---- the end

    def close(self):
        """Ends all that is left. Returns the names of sessions that went on."""
        left = [f'the session of the terminal {name}' for name, terminal in self.terminals.items() if not terminal.is_closed and terminal.status is None]
        for terminal in self.terminals.values():
            if not terminal.is_closed:
                terminal.close()
        for server in self.servers:
            if server.poll() is None:
                server.communicate('end\n', timeout=HANG)
        for path in reversed(self.mounted):
            subprocess.run(['umount', path], check=False)
        return left
