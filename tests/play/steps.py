"""What the lines of a case do: README.md lists them. What is seen is in seeing.py."""
import os, re, shlex, shutil, signal, subprocess, sys, termios, time
from notation import Fault, Step, keys_of, matches, picture_of, text_of
from scene import HERE, OTHER, STAND_INS
from seeing import SEEING
from terminal import HANG


class Skipped(Exception):
    """Why a case cannot be played on this machine."""


STEPS = []


def step(pattern):
    """A decorator: the function does a line that matches the pattern, whose groups it gets."""
    def note(function):
        STEPS.append((re.compile(pattern + r'\Z', re.S), function))
        return function
    return note


# ---- what is set up

@step(r'needs (.*)')
def needs(scene, line, words):
    for word in words.split():
        if word == 'root' and os.geteuid() != 0:
            raise Skipped('it needs root')
        if word == 'another-user':
            if scene.run(f"as-another-user test -r '{scene.installed}/editor/bin/bidi-edit' && as-another-user test -x .")[0] != 0:
                raise Skipped(f'another user cannot enter {scene.files}')
        elif word != 'root' and not shutil.which(word, path=os.environ['PATH'] + ':/usr/sbin:/sbin'):
            raise Skipped(f'there is no {word}')
        if word == 'strace' and scene.run('strace -qq -o /dev/null true')[0] != 0:
            raise Skipped('strace may not trace')


@step(r'only if (.*)')
def only_if(scene, line, words):
    """Where a shell's line fails, the case cannot be played."""
    if scene.run(words)[0] != 0:
        raise Skipped(f'this fails: {words}')


@step(r'program (\S+)(?: (\S+))?')
def program(scene, line, kind, ways):
    if kind != 'editor' and kind not in STAND_INS:
        raise SyntaxError(f'there is no program {kind}')
    scene.kind = kind
    scene.ways = {STAND_INS[kind][1]: ways or ''} if kind != 'editor' else {}


@step(r'window (\d+) (\d+)')
def window(scene, line, rows, columns):
    scene.size = int(rows), int(columns)


@step(r'user (root|other)')
def user(scene, line, name):
    """Who starts all from here on: root, or a plain user, who gets the folders and what they have; as such a user, oneself."""
    if os.geteuid() != 0 and name == 'root':
        raise Skipped('it needs root')
    scene.is_other = False
    if name == 'other' and os.geteuid() == 0:
        scene.be_other()


@step(r'terminal (\S+)')
def terminal(scene, line, name):
    scene.name = name


@step(r'file (\S+|\'[^\']*\')(?: ("(?:\\.|[^"\\])*".*))?')
def file(scene, line, name, words):
    path = scene.path(shlex.split(name)[0])
    with open(path, 'wb') as new:
        new.write(text_of(line, words or ''))
    if scene.is_other:
        os.chown(path, OTHER, OTHER)


@step(r'disk (\S+) (\S+)')
def disk(scene, line, size, name):
    """A small disk, at a folder, of a size or with options of tmpfs; `stalled`: one that stops to answer."""
    path = scene.path(name)
    os.makedirs(path, exist_ok=True)
    if size == 'stalled':
        server = subprocess.Popen([sys.executable, f'{HERE}/../host/stalled_disk.py', path, 'none'], stdin=subprocess.PIPE, stdout=subprocess.PIPE, text=True)
        if server.stdout.readline() != 'ready\n':
            raise Skipped('no disk can be mounted')
        scene.servers.append(server)
    elif subprocess.run(['mount', '-t', 'tmpfs', '-o', size if '=' in size else f'size={size}', 'none', path], capture_output=True, check=False).returncode != 0:
        raise Skipped('no small disk can be mounted')
    else:
        scene.mounted.append(path)
        if scene.is_other and 'mode=' not in size:
            os.chown(path, OTHER, OTHER)


@step(r'mount (\S+) at (\S+|\'[^\']*\')(, read-only)?')
def mount(scene, line, source, name, is_read_only):
    """Mounts a file or folder at another."""
    path = scene.path(shlex.split(name)[0])
    if subprocess.run(['mount', '--bind', scene.path(source), path], capture_output=True, check=False).returncode != 0:
        raise Skipped('nothing can be mounted')
    scene.mounted.append(path)
    if is_read_only:
        subprocess.run(['mount', '-o', 'remount,bind,ro', path], check=True)


@step(r'disk (stall|deaf|go|end)')
def tell_disk(scene, line, word):
    server = scene.servers[-1]
    server.stdin.write(word + '\n')
    server.stdin.flush()
    server.stdout.readline()


# ---- commands

@step(r'(tester |slowly )?\$ (.*)')
def command(scene, line, how, words):
    """`tester $`: as the one who runs the tests, whoever the user is. `slowly $`: half an hour at most, and not a minute."""
    status, out, err = scene.run(words, how == 'tester ', 1800 if how == 'slowly ' else HANG)
    wanted = int(line.seen.removeprefix('status ')) if line.seen else 0
    seen = f'status {status}\n' + ''.join(f'| {text}\n' for text in out.splitlines()) + ''.join(f'! {text}\n' for text in err.splitlines())
    if status != wanted:
        raise Fault(f'status {wanted}', seen)
    if line.block:
        for sign, found, name in (('|', out, 'standard output'), ('!', err, 'standard error')):
            if not matches(line.lines(sign), found):
                raise Fault(f'this {name}:\n' + '\n'.join(f'{sign} {text}' for text in line.lines(sign)), seen)


@step(r'start (silently )?(.*)')
def start(scene, line, silently, words):
    """Starts a shell's line on the terminal, and waits until that shows something or has ended."""
    scene.start(words)
    here = scene.terminal()
    if not silently:
        scene.wait(lambda: (here.status is not None or any(row not in ('', 'as before') for row in here.screen.plain_rows()), ''), 'something shown')


# ---- what the user does

@step(r'type file (\S+) as far as taken')
def type_what_is_taken(scene, line, name):
    """For a program that reads nothing: types until the terminal has taken nothing for a second."""
    scene.terminal().type(scene.bytes_at(name), 1)


@step(r'type shown digit after "(.*)" from "(.)"')
def type_shown_digit(scene, line, text, zero):
    """The digit that the screen has after a text, in a layout whose digits begin with this one, and Enter."""
    here, found = scene.terminal(), None

    def probe():
        nonlocal found
        found = re.search(re.escape(text) + r'(\d)', ''.join(here.screen.plain_rows()))
        return found is not None, here.screen.told()
    scene.wait(probe, f'a digit after {text}')
    enter(scene, (chr(ord(zero) + int(found.group(1))) + '\r').encode())


@step(r'type (?:file (\S+)|(.*))')
def type_(scene, line, name, keys):
    enter(scene, scene.bytes_at(name) if name else keys_of(keys))


def enter(scene, keys):
    if not scene.terminal().type(keys):
        raise Fault('a terminal that takes keys', 'it is full')


@step(r'paste(?: file (\S+)| (.*))')
def paste(scene, line, name, words):
    """As terminals do: between marks if they are asked for, with CR for line ends."""
    here = scene.terminal()
    text = scene.bytes_at(name) if name else text_of(line, words)
    if 2004 in here.screen.modes:
        text = b'\x1b[200~' + text.replace(b'\n', b'\r') + b'\x1b[201~'
    enter(scene, text)


def mouse(scene, *reports):
    here = scene.terminal()
    scene.wait(lambda: ({1002, 1006} <= here.screen.modes, f'modes {sorted(here.screen.modes)}'), 'reports of the mouse')
    enter(scene, b''.join(f'\x1b[<{button};{column};{row}{end}'.encode() for button, row, column, end in reports))


@step(r'click (\d+) (\d+)')
def click(scene, line, row, column):
    mouse(scene, (0, row, column, 'M'), (0, row, column, 'm'))


@step(r'drag (\d+ \d+(?: to \d+ \d+)+)')
def drag(scene, line, places):
    cells = [place.split() for place in places.split(' to ')]
    mouse(scene, (0, *cells[0], 'M'), *((32, *cell, 'M') for cell in cells[1:]), (0, *cells[-1], 'm'))


@step(r'wheel (up|down)')
def wheel(scene, line, way):
    mouse(scene, (64 if way == 'up' else 65, 1, 1, 'M'))


@step(r'resize (\d+) (\d+)')
def resize(scene, line, rows, columns):
    scene.terminal().resize(int(rows), int(columns))


@step(r'from here')
def from_here(scene, line):
    """What was written before is forgotten."""
    scene.pump(0.02)
    scene.terminal().output = b''


@step(r'resize (\d+) times')
def resize_often(scene, line, count):
    """Each size differs from the one before."""
    for number in range(1, int(count) + 1):
        scene.terminal().resize(20 + number % 9, 70 + number % 31)


@step(r'terminal takes nothing')
def take_nothing(scene, line):
    """From here on nothing is read that is written to the terminal."""
    scene.terminal().is_read = False


@step(r'rest ([\d.]+)')
def rest(scene, line, seconds):
    """Time passes: for what must not happen while nothing is typed, and never to wait for a slow machine."""
    end = time.monotonic() + float(seconds)
    while time.monotonic() < end:
        scene.pump(0.02)


@step(r'close terminal')
def close_terminal(scene, line):
    scene.terminal().hang_up()


# ---- what happens around

@step(r'kill (\S+)(?: by (\w+))?')
def kill(scene, line, name, signal_name):
    """Sends a signal to a process, to `both` host and program, or to `job`, the host's whole group."""
    number = getattr(signal, 'SIG' + (signal_name or 'KILL'))
    if name == 'job':
        os.killpg(os.getpgid(scene.find('host')), number)
        return
    for process in [scene.find(each) for each in (('host', 'program') if name == 'both' else (name,))]:
        try:
            os.kill(process, number)
        except ProcessLookupError:  # the end of one may end the other
            pass


@step(r'stop (\S+)')
def stop(scene, line, name):
    """Stops a process, or `job`: the host's whole group, as ^Z of a shell does."""
    process = scene.find('host' if name == 'job' else name)
    (os.killpg if name == 'job' else os.kill)(os.getpgid(process) if name == 'job' else process, signal.SIGSTOP)
    scene.wait(lambda: (scene.state_of(process) == 'T', scene.state_of(process)), f'{name} is stopped')


@step(r'crash')
def crash(scene, line):
    """Kills all processes of the session at once, as the machine's end does, and closes the terminal."""
    here = scene.terminal()
    here.kill_all()
    scene.wait(lambda: (here.status is not None and not here.processes(), f'{scene.names()}'), 'an end')
    here.is_closed = True
    here.close()


@step(r'inject (\S+) (\S+)(?: on (\S+))?')
def inject(scene, line, calls, what, name):
    """Has strace put a fault into these calls of the host and its children, on a file or any: `inject write error=EIO on note`."""
    host = scene.find('host')
    path = ['-P', scene.path(name)] if name else []
    scene.tracer = subprocess.Popen(['strace', '-qq', '-f', '-p', str(host), *path, '-e', f'trace={calls}', '-e', f'inject={calls}:{what}', '-o', f'{scene.folder}/trace'],
                                    stderr=subprocess.DEVNULL)

    def probe():
        with open(f'/proc/{host}/status', encoding='utf-8') as facts:
            return 'TracerPid:\t0\n' not in facts.read(), 'it is not traced'
    scene.wait(probe, 'a traced host')


@step(r'inject nothing')
def inject_nothing(scene, line):
    """The calls go on as ever."""
    scene.tracer.terminate()
    scene.tracer.wait()


@step(r'continue (\S+)')
def go_on(scene, line, name):
    process = scene.find('host' if name == 'job' else name)
    (os.killpg if name == 'job' else os.kill)(os.getpgid(process) if name == 'job' else process, signal.SIGCONT)


# ---- the end of a session

@step(r'ends(?: (\d+))?( with input left)?')
def ends(scene, line, status, is_input_left):
    """Waits for the end; then all is as before the session, and the lines below say what is told (!) and what the screen has below (|)."""
    here = scene.terminal()
    scene.wait(lambda: (here.status is not None, 'it goes on:\n' + here.screen.told()), f'an end with status {status}')
    for _ in range(3):
        here.pump(0.01)
    errors = scene.bytes_at(here.errors).decode('utf-8', 'backslashreplace')
    if status and here.status != int(status):
        raise Fault(f'status {status}', f'status {here.status}\n' + errors + here.screen.told())
    scene.wait(lambda: (not here.processes(), f'{scene.names()}'), 'no processes that stay')
    scene.wait(lambda: (not os.listdir(scene.temporary), f'{os.listdir(scene.temporary)}'), 'no temporary files that stay')
    if line.lines('!') and not matches([text for text in line.lines('!') if text], errors):
        raise Fault('this on standard error:\n' + '\n'.join(line.lines('!')), errors)
    if here.master >= 0:
        look_behind(scene, here, line, is_input_left)
    here.is_closed = True
    here.close()


def look_behind(scene, here, line, is_input_left):
    """Looks at the terminal after a session: its settings, its modes, its screen, and whether the shell's next line comes."""
    scene.wait(lambda: (termios.tcgetattr(here.slave) == here.settings, f'{termios.tcgetattr(here.slave)}'), 'the settings of the terminal as before')
    scene.wait(lambda: (not here.screen.left_behind(), f'{here.screen.left_behind()}'), 'the modes of the terminal as before')
    wanted = ['as before', *line.lines('|')]

    def probe():
        rows = [row for row in here.screen.plain_rows() if row]
        return matches(wanted, ''.join(row + '\n' for row in rows)), '\n'.join(rows)
    if not is_input_left:
        scene.wait(probe, 'this screen:\n' + '\n'.join(wanted))
        got = here.next_line()
        if got != b'a line\n':
            raise Fault("the shell's next line is what is typed then", repr(got))


# ---- a line of a case

def play_line(scene, line):
    """Does a line, and looks at what is seen then."""
    if line.words.startswith(('$ ', 'tester $ ')) or not line.seen:
        do(scene, line, line.words)
        return
    words = line.words.removesuffix(' until seen')
    do(scene, line, words)
    if words != line.words:
        scene.again = lambda: do(scene, line, words)
    try:
        look(scene, Step(line.line, line.seen, line.block))
    finally:
        scene.again = None


def look(scene, line):
    """Looks at what stands after an arrow: a line that sees, or a picture."""
    if any(pattern.match(line.words) for pattern, _ in (*STEPS, *SEEING)):
        do(scene, line, line.words)
    else:
        do(scene, Step(line.line, 'screen', [('|', row) for row in picture_of(line.words)]), 'screen')


def do(scene, line, words):
    for pattern, function in (*SEEING, *STEPS):
        match = pattern.match(words)
        if match:
            function(scene, line, *match.groups())
            return
    raise SyntaxError(f'there is no such line: {words}')
