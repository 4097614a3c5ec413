"""user.py EDITOR FOLDER: plays a user who edits while the tests run, for tests/run.sh. FOLDER, which is made, has a home with two sessions, of
an editor that was killed and of one that goes on; once they are there, also the file `ready`. After a line of standard input it looks whether
both are as before: the tests must neither list nor change nor delete them. Exit status 1: they are not."""
import os, signal, stat, sys, time
HERE = os.path.dirname(os.path.abspath(__file__))
sys.path.insert(0, HERE)
from checks import Fault, Report, try_case
from keeping_scene import Place, recovers
from terminals import HANG, become_reaper


def wait_for(what, is_so):
    """Waits until this is so."""
    end = time.monotonic() + HANG
    while not is_so():
        if time.monotonic() > end:
            raise Fault('it does not come', what)
        time.sleep(0.05)


def has_session(place, name):
    """Whether a session has all of a file: its name, its text and the keys."""
    for folder in place.sessions():
        with open(f'{folder}/about', 'rb') as about, open(f'{folder}/journal', 'rb') as journal:
            facts = about.read()
            if place.path(name).encode() in facts and b'\ntext ' in facts and b'abc' in journal.read():
                return True
    return False


def edit(place, name):
    """An editor of a file, in which some letters were typed."""
    place.put(name, b'text\n')
    started = place.start(name).sees(b'1:1').type(b'abc')
    wait_for(f'a session of {name}', lambda: has_session(place, name))
    return started


def files_of(top):
    """The mode of each path below a folder, with the bytes of a file."""
    found = {}
    for folder, folders, names in os.walk(top):
        for name in folders + names:
            path = os.path.join(folder, name)
            mode = os.lstat(path).st_mode
            text = None
            if stat.S_ISREG(mode):
                with open(path, 'rb') as file:
                    text = file.read()
            found[path] = mode, text
    return found


def user(check, place):
    """Sessions of a user stay what they are while tests run."""
    edit(place, 'killed.txt').kill()
    started = edit(place, 'open.txt')
    time.sleep(3)  # the host has looked after the session once more
    before = files_of(f'{place.top}/home/.local'), files_of(place.files)
    with open(f'{place.top}/ready', 'w'):
        pass
    sys.stdin.readline()
    check.same('the files of his sessions', files_of(f'{place.top}/home/.local'), before[0])
    check.same('his texts', files_of(place.files), before[1])
    check.holds('his editor goes on', started.run.status is None and os.path.exists(f'/proc/{started.run.job}'))
    os.kill(started.run.job, signal.SIGHUP)
    started.ends(-signal.SIGHUP)
    for name in 'killed.txt', 'open.txt':
        recovers(check, place, name, b'abctext\n')


def main():
    become_reaper()
    for number in (signal.SIGPIPE, signal.SIGXFSZ, signal.SIGINT):  # python ignores or handles them until exec
        signal.signal(number, signal.SIG_DFL)
    os.environ.pop('XDG_STATE_HOME', None)
    report = Report()
    try_case(report, user, Place(os.path.abspath(sys.argv[1]), sys.argv[2]), is_each_told=True)
    return report.end()


sys.exit(main())
