"""keeping_points.py HOST LIBRARY: interrupts a save under a new name at each call of the two children of the host that see to it: the saver,
which makes the file, and the keeper, which notes it in the session. LIBRARY is faulty_calls.c as a library.

At each call the child is killed, or its host, or all of the job, before the call and after it; or the call fails. Then the session is recovered
by both names: nothing that was typed is lost, no file is overwritten, and what is there has all of its text. A case is a call. Exit status
1: a case failed.
"""
import errno, glob, os, shutil, signal, sys, time
HERE = os.path.dirname(os.path.abspath(__file__))
sys.path.insert(0, HERE)
from checks import Fault, Report, share, try_case
from keeping_scene import CHOICE, QUIT, SAVE, Place, begin, recovers
from terminals import HANG

OVER, AS, ENTER = b'\x17', b'\x0f', b'\r'
OLD, NEW, LATER = b'text\n', b'abctext\n', b'abcdtext\n'
CHILDREN = 'bidi-saver', 'bidi-keeper'
# what the file system of the new file lacks
DISKS = '', 'tmpfile', 'tmpfile noreplace'
KILLS = {'killed before it': 0, 'killed after it': -1}
ERRORS = errno.ENOSPC, errno.EIO, errno.EROFS


class Point:
    """A save of `a.txt` as `b`, with a fault at a call of a child, from 1; 0 for none. `whom` is killed where the error says so."""

    def __init__(self, place, library, child, disk, number=0, error=0, whom=''):
        self.place, self.log = place, f'{place.top}/calls'
        place.put('a.txt', OLD)
        self.started = place.edit('a.txt', LD_PRELOAD=library, LACKS=disk, FAULT_LOG=self.log, FAULT_IN=child, FAULT_AT=str(number),
                                  FAULT_ERROR=str(error), FAULT_WHOM=whom).type(b'abc').sees(b'<abctext|> *')
        self.started.type(AS + b'b' + ENTER)

    def calls(self):
        try:
            with open(self.log) as log:
                return log.read().split('\n')[:-1]
        except FileNotFoundError:
            return []

    def is_saved(self):
        """Whether the save is told to have succeeded; Fault where nothing is told."""
        if not self.started.run.pump_any(HANG, (b'saved', b'failed: ')):
            raise Fault('nothing is told of the save', self.started.run.output[-300:])
        return b'saved' in self.started.run.output

    def wait_for(self, word):
        """Waits until the library has noted this."""
        end = time.monotonic() + HANG
        while word not in self.calls():
            if time.monotonic() > end:
                raise Fault(f'no {word}', self.calls())
            time.sleep(0.01)

    def text(self, name):
        return self.place.text(name) if os.path.lexists(self.place.path(name)) else None

    def recovered(self, name):
        """The text that a recovery by this name stores; None where it finds none."""
        status = self.place.tells('--recover', '--to', 'o', name)[0]
        text = self.text('o')
        if text is not None:
            os.unlink(self.place.path('o'))
        return text if status == 0 else None

    def look(self, check, what, wanted, may_leave_draft):
        """Nothing is lost, and nothing overwritten. `wanted` are the texts that may have been typed."""
        made, by_old, by_new = self.text('b'), self.recovered('a.txt'), self.recovered('b')
        check.same(f'a.txt, {what}', self.text('a.txt'), OLD)
        check.holds(f'b, {what}', made in (None, NEW), made)
        for name, text in ('a.txt', by_old), ('b', by_new):
            check.holds(f'the text recovered by {name}, {what}', text in (None, *wanted), text)
        if made is None:
            check.holds(f'a recovery by a.txt, where b is not there, {what}', by_old in wanted, by_old)
        else:
            check.holds(f'a recovery by b, where b is there, {what}', by_new in wanted or (NEW in wanted and not self.place.sessions()), by_new)
        drafts = {os.path.basename(path) for path in glob.glob(self.place.path('b.????????.bx'))} if may_leave_draft else set()
        check.same(f'what else is there, {what}', sorted(set(os.listdir(self.place.files)) - drafts - {'a.txt', 'a.txt.words', 'b'}), [])


def killed(check, point, what, child):
    """Host or job are killed at the call. The keeper's program may have been told already that all is saved."""
    point.started.ends(-signal.SIGKILL)
    check.holds(f'the call is met, {what}', 'FAULT' in point.calls(), point.calls())
    point.look(check, what, (NEW,), True)


def went_on(check, point, what, may_leave_draft):
    """The child was killed, or its call failed: the host goes on, more is typed, and then the host is killed."""
    point.is_saved()
    point.wait_for('FAULT')
    point.started.type(b'd').sees(b'<abcdtext|> *').kill()
    point.look(check, what, (LATER,), may_leave_draft)


def saved_later(check, point, what):
    """A call failed, and more saves come: the last goes through, under the new name, and no session is left. A file whose facts could not be
    read after it was made counts as another program's once."""
    is_saved = point.is_saved()
    point.wait_for('FAULT')
    point.started.type(b'd').sees(b'<abcdtext|> *').type(SAVE if is_saved else AS + b'b' + ENTER)
    point.started.run.pump_any(HANG, (b'- saved', b'failed: 7'))
    if b'failed: 7' in point.started.run.output:
        point.started.type(OVER)
    point.started.sees(b'- saved').type(QUIT).ends(0)
    check.same(f'b, saved later, {what}', point.text('b'), LATER)
    check.same(f'a.txt, saved later, {what}', point.text('a.txt'), OLD)
    check.same(f'sessions, saved later, {what}', point.place.sessions(), [])


def no_name(check, scene):
    """A text without a name is saved under one, and all is killed before a call of the saver: it is recovered by that name, or without one."""
    for number in range(1, 1000):
        place = Place(scene.host, f'{scene.folder}/{number}')
        started = place.edit(LD_PRELOAD=scene.library, FAULT_LOG=f'{place.top}/calls', FAULT_AT=str(number), FAULT_ERROR='0', FAULT_WHOM='all')
        started.type(b'abc').sees(b'*').type(AS + b'n' + ENTER)
        started.run.waits(lambda: b'- saved' in started.run.output or started.run.status is not None)
        if started.run.status is None:  # there is no such call
            started.kill()
            check.holds('the number of calls', number > 20, number)
            return
        started.ends(-signal.SIGKILL)
        if os.path.lexists(place.path('n')):
            check.same(f'the file, killed at call {number}', place.text('n'), b'abc')
            recovers(check, place, 'n', b'abc')
        else:
            place.start().answers(CHOICE, 'r').sees(b'text <abc> *').kill()


def torn_before(check, scene):
    """The saver is killed when it has emptied FILE, which has two names. Then the text gets a new name, and FILE gets what it was saved to:
    at once, or by hand, where there is no session."""
    for words in (['a.txt'], ['-n', '--force', 'a.txt']):
        place = Place(scene.host, f'{scene.folder}/{len(words)}')
        place.put('a.txt', OLD)
        os.link(place.path('a.txt'), place.path('other'))
        variables = {'LD_PRELOAD': scene.library, 'FAULT_LOG': f'{place.top}/calls', 'FAULT_CALL': 'ftruncate', 'FAULT_ERROR': '-1'}
        started = place.edit(*words, **variables).type(b'abc' + SAVE).sees(b'failed: ')
        check.same('FILE when the saver was killed', place.text('a.txt'), b'')
        started.type(b'd').sees(b'*').type(AS + b'b' + ENTER).sees(b'- saved').type(b'e' + SAVE).sees(b'<abcdetext|> - saved').type(QUIT).ends(0)
        check.same('the new file', place.text('b'), b'abcdetext\n')
        check.same('sessions', place.sessions(), [])
        backup = 'a.txt.bx' if len(words) > 1 else 'a.txt'
        check.same('FILE, or its backup', place.text(backup), NEW)
        told = 'bidi-edit: a save of a.txt was interrupted, and its text cannot be restored: the whole text is in a.txt.bx\n'
        check.same('whether the backup is told', told in started.err(), len(words) > 1)


class Scene:
    """The points of a call: each is played in a folder of its own."""

    def __init__(self, host, library, folder):
        self.host, self.library, self.folder, self.count = host, library, folder, 0

    def point(self, *words):
        self.count += 1
        return Point(Place(self.host, f'{self.folder}/{self.count}'), self.library, *words)


def case_of(child, disk, number, call):
    """The case of a call."""
    def case(check, scene):
        for kill, error in KILLS.items():
            for whom in 'host', 'all':
                killed(check, scene.point(child, disk, number, error, whom), f'{whom} {kill}', child)
        went_on(check, scene.point(child, disk, number, 0), 'the child killed before it', True)
        for error in ERRORS:  # what cannot be removed stays
            went_on(check, scene.point(child, disk, number, error), errno.errorcode[error], call == 'unlinkat')
        saved_later(check, scene.point(child, disk, number, errno.EIO), 'EIO')
    case.__name__ = f'{child}, {call} ({number})' + (f', without {disk}' if disk else '')
    return case


SINGLES = {case.__name__: case for case in (no_name, torn_before)}


def calls_of(scene, child, disk):
    """The calls of a child in a save that nothing interrupts."""
    point = scene.point(child, disk)
    if not point.is_saved():
        raise Fault('a save without a fault fails', point.started.run.output[-300:])
    if child == 'bidi-keeper':
        point.wait_for('PAUSE')
    point.started.type(QUIT).ends(0)
    return [call for call in point.calls() if call != 'PAUSE']


def worker(host, library, names):
    """Tries these cases, each in a folder of its own. A name is CHILD:DISK:NUMBER:CALL, or one of SINGLES."""
    folder, installed = begin(host)
    report = Report()
    try:
        for at, name in enumerate(names):
            child, disk, number, call = name.split(':') if ':' in name else ('', '', '0', '')
            os.mkdir(f'{folder}/{at}')
            case = case_of(child, disk, int(number), call) if child else SINGLES[name]
            try_case(report, case, Scene(installed, library, f'{folder}/{at}'))
    finally:
        shutil.rmtree(folder, ignore_errors=True)


def main():
    host, library, words = os.path.abspath(sys.argv[1]), os.path.abspath(sys.argv[2]), sys.argv[3:]
    if words[:1] == ['--worker']:  # as `share` starts it
        worker(host, library, words[1:])
        return 0
    folder, installed = begin(host)
    try:
        scene = Scene(installed, library, folder)
        names = [f'{child}:{disk}:{number}:{call}' for child in CHILDREN for disk in (DISKS if child == 'bidi-saver' else DISKS[:1])
                 for number, call in enumerate(calls_of(scene, child, disk), 1)] + [*SINGLES]
    finally:
        shutil.rmtree(folder, ignore_errors=True)
    return share(os.path.abspath(__file__), [host, library], [name for name in names if not words or any(word in name for word in words)])


if __name__ == '__main__':
    sys.exit(main())
