"""The scene of keeping_points.py and user.py: a folder and a home for each, starts of the host in terminals, and what is typed and asked."""
import glob, os, shutil, signal, subprocess, time
from checks import Fault, lasting_folder
from terminals import HANG, Run, become_reaper

HERE = os.path.dirname(os.path.abspath(__file__))
QUIT, SAVE = b'\x11', b'\x13'
CHOICE = b'[r]ecover, [d]elete for good, [l]ater? '


def install(folder, host):
    """Puts the host and the program where an installation has them; returns the host's path."""
    for name in ('bin', 'lib/bidi_edit', 'share'):
        os.makedirs(f'{folder}/{name}')
    shutil.copy2(host, f'{folder}/bin/bidi-edit')
    shutil.copy2(f'{HERE}/typist.py', f'{folder}/lib/bidi_edit/bidi_edit')
    with open(f'{folder}/lib/bidi_edit/kit', 'w') as file:
        file.write('some kit\n')
    # a copy, since another user may have no access to this checkout
    shutil.copytree(f'{HERE}/../../data', f'{folder}/share/bidi_edit')
    return f'{folder}/bin/bidi-edit'


def begin(host):
    """Readies this process for cases. Returns a new folder, and the path of this host in an installation there."""
    become_reaper()
    for number in signal.SIGPIPE, signal.SIGXFSZ, signal.SIGINT:  # python ignores or handles them until exec
        signal.signal(number, signal.SIG_DFL)
    folder = lasting_folder('keeping')
    return folder, install(f'{folder}/tree', host)


class Started:
    """A start of the host in a terminal of its own; its standard output and error go to files."""

    def __init__(self, place, words, variables):
        self.place = place
        place.count += 1
        self.out_path, self.err_path = f'{place.top}/out{place.count}', f'{place.top}/err{place.count}'
        line = f'cd "$0" && exec "$@" >{self.out_path} 2>{self.err_path}'
        self.run = Run(['sh', '-c', line, place.files, place.host, *words], **place.variables(variables))

    def out(self):
        return open(self.out_path, encoding='utf-8').read()

    def err(self):
        return open(self.err_path, encoding='utf-8').read()

    def sees(self, text):
        """Waits for a text in the terminal, and forgets all before it."""
        if not self.run.pump(HANG, text):
            raise Fault('not seen', text, self.run.output[-500:], self.out(), self.err())
        self.run.output = self.run.output.partition(text)[2]
        return self

    def answers(self, question, answer):
        """Types an answer, and Enter, once the question is shown. Bytes are typed as they are."""
        self.sees(question)
        time.sleep(0.05)  # what is typed before the question is shown is dropped
        self.run.type(answer if isinstance(answer, bytes) else answer.encode() + b'\n')
        return self

    def type(self, keys):
        """Types keys."""
        self.run.type(keys)
        return self

    def ends(self, status):
        """Waits for the end, and compares the status: an exit status, or less than 0 a signal's number."""
        if not self.run.pump(HANG):
            raise Fault('goes on', self.run.output[-300:])
        self.run.drain()
        found = -os.WTERMSIG(self.run.status) if os.WIFSIGNALED(self.run.status) else os.WEXITSTATUS(self.run.status)
        if found != status:
            raise Fault(f'status {found}, and not {status}', self.out(), self.err(), self.run.output[-300:])
        if left := self.run.left(HANG):
            raise Fault('processes are left', left)
        self.run.close()
        return self

    def kill(self):
        """Kills the host."""
        os.kill(self.run.job, signal.SIGKILL)
        return self.ends(-signal.SIGKILL)


class Place:
    """The folder of a case: `files` has FILEs, `home` the sessions."""

    def __init__(self, host, top):
        self.host, self.top, self.files, self.count = host, top, f'{top}/files', 0
        for name in ('', '/home', '/tmp', '/files'):
            os.mkdir(top + name, 0o700)

    def variables(self, more=None):
        """The environment of a start, with these variables."""
        variables = {'HOME': f'{self.top}/home', 'TMPDIR': f'{self.top}/tmp', 'TYPIST': ''}
        for name, value in (more or {}).items():
            variables[name] = value
        return variables

    def start(self, *words, **variables):
        """A start in a terminal, with these words."""
        return Started(self, words, variables)

    def edit(self, *words, **variables):
        """A start that comes to edit, and whose text is shown."""
        return self.start(*words, **variables).sees(b'text <')

    def tells(self, *words, redirection='', **variables):
        """A start without a terminal: its status, standard output and error."""
        done = subprocess.run(['setsid', '-w', 'sh', '-c', f'exec "$@" {redirection}', 'sh', self.host, *words], cwd=self.files, stdin=subprocess.DEVNULL, capture_output=True,
                              env={**os.environ, 'TERM': 'xterm', **self.variables(variables)}, timeout=HANG)
        return done.returncode, done.stdout.decode(), done.stderr.decode()

    def path(self, name):
        """The path of a file of `files`."""
        return f'{self.files}/{name}'

    def put(self, name, text, mode=0o644):
        """Writes a file of `files`."""
        with open(self.path(name), 'wb') as file:
            file.write(text)
        os.chmod(self.path(name), mode)

    def text(self, name):
        """The bytes of a file of `files`."""
        with open(self.path(name), 'rb') as file:
            return file.read()

    def sessions(self):
        return sorted(glob.glob(f'{self.top}/home/.local/state/bidi_edit/[0-9]*'))


def recovers(check, place, name, text, **variables):
    """Looks whether the session of FILE has this text, by storing it elsewhere."""
    found = place.tells('--recover', '--to', 'o', name, **variables)
    check.holds(f'the text of {name} is stored', found[0] == 0, found)
    if found[0] == 0:
        check.same(f'the stored text of {name}', place.text('o'), text)
        os.unlink(place.path('o'))
