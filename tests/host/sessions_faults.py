"""sessions_faults.py HOST [NAME..]: checks from outside that a running session is kept whatever is done to FILE, and that it is found
again. HOST is an installed bidi-edit, or the host alone, which gets typist.py in place of the program. Exit status 1: a case
failed."""
import glob, os, re, shutil, signal, subprocess, sys, termios, threading, time
HERE = os.path.dirname(os.path.abspath(__file__))
sys.path.insert(0, HERE)
import about
from checks import Fault, Report, Skipped, lasting_folder, needs, try_case
from terminals import HANG, Run, become_reaper

QUIT = b'\x11'
SECONDS = 2.5  # in which the host looks after the session
SHOWN = re.compile(rb'text <|1:1')  # by typist.py, or by the program
NOTICE = re.compile(rb'\x1b\[24;\d+Hcopy|notice [1-5]')


def installed(host, folder):
    """The path of an installed host."""
    if os.path.isdir(f'{os.path.dirname(host)}/../lib/bidi_edit'):
        return host
    os.makedirs(f'{folder}/bin')
    os.makedirs(f'{folder}/lib/bidi_edit')
    os.makedirs(f'{folder}/share')
    shutil.copy2(host, f'{folder}/bin/bidi-edit')
    shutil.copy2(f'{HERE}/typist.py', f'{folder}/lib/bidi_edit/bidi_edit')
    os.symlink(f'{HERE}/../../data', f'{folder}/share/bidi_edit')
    return f'{folder}/bin/bidi-edit'


def wait_for(test):
    """Waits until a test gives something, and returns that."""
    end = time.monotonic() + HANG
    while True:
        found = test()
        if found or time.monotonic() > end:
            return found
        time.sleep(0.05)


class Editor:
    """A start of the host in a terminal of its own, with standard error in a file."""

    def __init__(self, place, words, folder, variables):
        place.count += 1
        place.editors.append(self)
        self.place, self.err_path, self.has_ended = place, f'{place.top}/err{place.count}', False
        line = f'cd "$0" && exec "$@" 2>{self.err_path}'
        self.run = Run(['sh', '-c', line, folder, place.host, *words], **{**place.variables, **variables})

    def err(self):
        with open(self.err_path, encoding='utf-8') as file:
            return file.read()

    def is_editing(self):
        """Whether the terminal gives each key, and the text is shown."""
        self.run.rest(0.05)
        return not termios.tcgetattr(self.run.slave)[3] & termios.ICANON and SHOWN.search(self.run.output)

    def types(self, keys):
        """Types, and waits until something is painted and the screen rests."""
        seen = len(self.run.output)
        self.run.type(keys)
        self.run.waits(lambda: len(self.run.output) > seen)
        seen = None
        while seen != len(self.run.output):
            seen = len(self.run.output)
            self.run.rest(0.5)
        return self

    def is_told_of_other(self):
        """Waits for the question about another window, and refuses."""
        if not self.run.pump(HANG, b'open in another window'):
            raise Fault('not told of another window', self.run.output)
        self.run.rest(1)
        self.run.type(b'\x04')
        return self.ends()

    def hangs_up(self):
        os.kill(self.run.job, signal.SIGHUP)
        return self.ends()

    def ends(self):
        if not self.run.pump(HANG):
            raise Fault('goes on', self.run.output[-300:])
        self.run.left(HANG)
        self.close()
        return self

    def close(self):
        if not self.has_ended:
            self.run.close()
        self.has_ended = True


class Place:
    """The folder of a case: `files` has FILEs; `state` the sessions."""

    def __init__(self, host, top):
        self.host, self.top, self.files, self.count, self.editors = host, top, f'{top}/files', 0, []
        self.is_stand_in = not os.path.exists(f'{os.path.dirname(host)}/../lib/bidi_edit/bidi_print')
        self.variables = {'HOME': f'{top}/home', 'TMPDIR': f'{top}/tmp', 'XDG_STATE_HOME': f'{top}/state',
                          'BIDI_EDIT_DATA': os.path.realpath(f'{HERE}/../../data'), 'TYPIST': ''}
        for name in ('', '/home', '/tmp', '/files', '/state'):
            os.mkdir(top + name, 0o700)

    def put(self, name, text='text\n'):
        with open(f'{self.files}/{name}', 'w') as file:
            file.write(text)

    def start(self, *words, folder=None, **variables):
        return Editor(self, words, folder or self.files, variables)

    def edit(self, *words, **more):
        """A start whose session is complete."""
        started = self.start(*words, **more)
        if not wait_for(started.is_editing):
            raise Fault('no text is shown', started.err(), started.run.output[-300:])
        if not wait_for(lambda: self.parts('about')):
            raise Fault('no session is complete', started.run.output[-300:])
        return started

    def parts(self, name):
        return glob.glob(f'{self.variables["XDG_STATE_HOME"]}/bidi_edit/2*/{name}')

    def tells(self, *words):
        done = subprocess.run([self.host, *words], cwd=self.files, env={**os.environ, **self.variables}, stdin=subprocess.DEVNULL,
                              capture_output=True, timeout=300, text=True)
        return done.returncode, done.stdout + done.stderr

    def stores(self, file):
        """Stores the text of a session elsewhere. Returns the text."""
        other = f'{self.top}/other'
        if os.path.exists(other):
            os.remove(other)
        status, said = self.tells('--recover', '--to', other, file)
        if status != 0:
            raise Fault('the text is not stored', status, said)
        with open(other) as stored:
            return stored.read()

    def close(self):
        """Ends what a case left."""
        for editor in reversed(self.editors):
            editor.close()


def recovers(check, place, file, text):
    """Looks whether the session of FILE has this text."""
    check.same(f'the text of {os.path.basename(file)}', place.stores(file), text)


def foreign_folders(check, place):
    """An old folder of the user's, whose name begins with a digit, is nobody's session."""
    folder = f'{place.top}/state/bidi_edit/2026-taxes'
    os.makedirs(folder, 0o700)
    os.chmod(os.path.dirname(folder), 0o700)
    with open(f'{folder}/papers', 'w') as file:
        file.write('x')
    os.utime(folder, (1e9, 1e9))
    place.put('a')
    place.edit('a').types(QUIT).ends()
    check.holds('the papers are there', os.path.exists(f'{folder}/papers'))


def hard_links(check, place):
    """The session of a FILE with two names is found by both."""
    place.put('a')
    names = f'{place.files}/a', f'{place.files}/b'
    os.link(*names)
    for one, other in (names, names[::-1]):
        first = place.edit(one).types(b'abc')
        place.start(other).is_told_of_other()
        first.hangs_up()
        recovers(check, place, other, 'abctext\n')
        place.tells('--forget', '--yes', one)
        check.same('sessions', place.parts('about'), [])


def growing_file(check, place):
    """A program appends to FILE all the time while the editor starts."""
    place.put('a', '')
    is_over = threading.Event()

    def append():
        with open(f'{place.files}/a', 'a') as file:
            while not is_over.wait(0.0005):
                print('line', file=file, flush=True)

    writer = threading.Thread(target=append)
    writer.start()
    try:
        time.sleep(0.2)
        editor = place.start('a')
        check.holds('the text is shown', wait_for(editor.is_editing), editor.run.output)
        editor.run.rest(1)
    finally:
        is_over.set()
        writer.join()
    editor.types(b'abc').run.rest(SECONDS)
    check.holds('the session is kept', b'not kept' not in editor.run.output, editor.run.output)
    editor.hangs_up()
    check.holds('what is told', 'unsaved text is kept' in editor.err(), editor.err())
    text = place.stores('a')
    check.holds('the text', re.fullmatch('abc(line\n)+', text), text)


@needs('root', 'mount')
def full_disk(check, place):
    """The notice that nothing is kept comes again after keys that hid it."""
    disk = f'{place.top}/disk'
    os.mkdir(disk)
    if subprocess.run(['mount', '-t', 'tmpfs', '-o', 'size=256k', 'none', disk], check=False).returncode != 0:
        raise Skipped('no small disk can be mounted')
    try:
        place.variables['XDG_STATE_HOME'] = disk
        place.put('a')
        # the stand-in says that its journal is lost, as the program finds it
        editor = place.edit('a', TYPIST='lost').types(b'abc')
        with open(f'{disk}/other', 'wb', buffering=0) as file:
            try:
                while file.write(bytes(4096)):
                    pass
            except OSError:
                pass
        # more than the journal's last block takes; the stand-in does not bear that
        end = time.monotonic() + 100
        while not NOTICE.search(editor.run.output) and time.monotonic() < end:
            if not place.is_stand_in:
                editor.types(b'\x1b[C\x1b[D' * 100)
            editor.run.rest(0.5)
        check.holds('the notice', NOTICE.search(editor.run.output), editor.run.output[-500:])
        editor.types(b'x')
        editor.run.output = b''
        for _ in range(8):
            editor.types(b'y').run.rest(0.7)
        check.holds('the notice comes again', NOTICE.search(editor.run.output), editor.run.output[-500:])
        os.remove(f'{disk}/other')
        editor.run.rest(2 * SECONDS)
        editor.hangs_up()
    finally:
        subprocess.run(['umount', '-l', disk], check=True)


def renamed_folder(check, place):
    """FILE's folder is renamed while it is edited."""
    os.mkdir(f'{place.files}/one')
    place.put('one/a')
    editor = place.edit('one/a').types(b'abc')
    os.rename(f'{place.files}/one', f'{place.files}/two')
    editor.hangs_up()
    recovers(check, place, 'two/a', 'abctext\n')


def renamed_folder_and_kill(check, place):
    """The same, and the host is killed."""
    os.mkdir(f'{place.files}/one')
    place.put('one/a')
    editor = place.edit('one/a').types(b'abc')
    os.rename(f'{place.files}/one', f'{place.files}/two')
    os.kill(editor.run.job, signal.SIGKILL)
    editor.ends()
    recovers(check, place, 'two/a', 'abctext\n')


def saved_and_renamed(check, place):
    """A save gives FILE another inode; then its folder is renamed, and the host killed."""
    os.mkdir(f'{place.files}/one')
    place.put('one/a')
    editor = place.edit('one/a').types(b'abc\x13').types(b'd')
    inode = str(os.stat(f'{place.files}/one/a').st_ino)
    check.holds('the new file is noted', wait_for(lambda: about.facts(os.path.dirname(place.parts('about')[0]))['file'].split()[1] == inode))
    os.rename(f'{place.files}/one', f'{place.files}/two')
    os.kill(editor.run.job, signal.SIGKILL)
    editor.ends()
    recovers(check, place, 'two/a', 'abcdtext\n')


def gone_folder(check, place):
    """The working folder, with FILE in it, is removed. The command that is told at the end finds the session from another folder."""
    os.mkdir(f'{place.files}/one')
    place.put('one/a')
    editor = place.edit('a', folder=f'{place.files}/one').types(b'abc')
    shutil.rmtree(f'{place.files}/one')
    editor.hangs_up()
    told = re.search(r'bidi-edit --recover (\S+) restores it', editor.err())
    if not told:
        raise Fault('no command is told', editor.err())
    recovers(check, place, told.group(1), 'abctext\n')


@needs('root', 'chattr')
def refused_removal(check, place):
    """A session that cannot be removed stays whole, and that is told."""
    place.put('a')
    place.edit('a').types(b'abc').hangs_up()
    folder = f'{place.top}/state/bidi_edit'
    if subprocess.run(['chattr', '+i', folder], check=False, capture_output=True).returncode != 0:
        raise Skipped('no folder can be made immutable')
    try:
        said = place.tells('--forget', '--yes', 'a')[1]
    finally:
        subprocess.run(['chattr', '-i', folder], check=True)
    check.holds('what is told', 'is deleted' not in said, said)
    recovers(check, place, 'a', 'abctext\n')


CASES = (foreign_folders, hard_links, growing_file, full_disk, renamed_folder, renamed_folder_and_kill, saved_and_renamed, gone_folder,
         refused_removal)


def main():
    names = sys.argv[2:]
    become_reaper()
    for number in (signal.SIGPIPE, signal.SIGXFSZ):
        signal.signal(number, signal.SIG_DFL)
    folder = lasting_folder('sessions')
    report = Report()
    try:
        host = installed(os.path.abspath(sys.argv[1]), f'{folder}/tree')
        for case in CASES:
            if not names or case.__name__ in names:
                place = Place(host, f'{folder}/{case.__name__}')
                try_case(report, case, place)
                place.close()
    finally:
        shutil.rmtree(folder, ignore_errors=True)
    return report.end()


sys.exit(main())
