"""What a case sees. Each waits until it is so; where it does not come, the case has failed."""
import glob, os, re, shlex, stat, termios
from notation import Fault, Row, left_sides, matches, same_text, text_of, unquoted
from screen import Screen

SEEING = []
QUOTE = r'"((?:\\.|[^"\\])*)"'
NAME = r"('[^']*'|\S+)"


def seeing(pattern):
    """A decorator as `step` in steps.py."""
    def note(function):
        SEEING.append((re.compile(pattern + r'\Z', re.S), function))
        return function
    return note


def shown(here):
    return here.screen.told()


# ---- the screen

@seeing(r'screen')
def screen(scene, line):
    """The whole screen: the last row of the picture is the window's last, and rows that are not drawn are blank."""
    here = scene.terminal()
    rows = [Row(text) for text in line.lines('|')]

    def probe():
        columns, count = here.screen.pyte.columns, here.screen.pyte.lines
        wanted = [row.text(columns) for row in rows[:-1]] + [''] * (count - len(rows)) + [rows[-1].text(columns)]
        found = here.screen.rows()
        are_same = found[:-1] == wanted[:-1] and (found[-1] == wanted[-1] or not rows[-1].has_gap and wanted[-1] in left_sides(found[-1]))
        places = [(number if number < len(rows) else count, row.cursor(columns)) for number, row in enumerate(rows, 1) if row.cursor(columns)]
        return are_same and all(here.screen.cursor() == place for place in places), shown(here)
    scene.wait(probe, 'this screen:\n' + '\n'.join('  ' + text for text in line.lines('|')))


@seeing(r'screen alone ' + NAME + ' (' + QUOTE + r'.*)')
def screen_alone(scene, line, name, keys, _):
    """The screen that the editor alone, without the host, makes of a file and of bytes as the host hands them on, in a window of this size."""
    here = scene.terminal()
    rows, columns = here.screen.pyte.lines, here.screen.pyte.columns
    alone = Screen(columns, rows)
    alone.feed(scene.paint_alone(rows, columns, name, unquoted(keys[1:-1])))
    scene.wait(lambda: (here.screen.told() == alone.told(), shown(here)), 'the screen of the editor alone:\n' + alone.told())


@seeing(r'row (\d+|last)(?: (.*))?')
def row(scene, line, number, text):
    here, wanted = scene.terminal(), Row(text or '')

    def probe():
        columns = here.screen.pyte.columns
        at = here.screen.pyte.lines if number == 'last' else int(number)
        found = here.screen.rows()[at - 1]
        is_so = found == wanted.text(columns) or number == 'last' and not wanted.has_gap and wanted.text(columns) in left_sides(found)
        return is_so and wanted.cursor(columns) in (None, here.screen.cursor()[1]), shown(here)
    scene.wait(probe, f'in row {number}: {text}')


@seeing(r'cursor (\d+) (\d+)')
def cursor(scene, line, row_, column):
    here = scene.terminal()
    scene.wait(lambda: (here.screen.cursor() == (int(row_), int(column)), shown(here)), f'the cursor at {row_} {column}')


@seeing(r'see (no )?' + QUOTE + r'(?: (\d+) times)?')
def see(scene, line, no, text, times):
    """A text in one row, or in one that goes on in the next."""
    here, wanted = scene.terminal(), same_text(unquoted(text).decode())

    def probe():
        rows = [same_text(found) for found in here.screen.plain_rows()]
        width = here.screen.pyte.columns
        whole = ''.join(found.ljust(width) for found in rows)
        if times:
            return whole.count(wanted) == int(times), shown(here)
        return (any(wanted in found for found in rows) or wanted in whole) != bool(no), shown(here)
    scene.wait(probe, f'on the screen: {"not " if no else ""}{text}')


@seeing(r'see in any terminal ' + QUOTE)
def see_in_any(scene, line, text):
    def probe():
        screens = [here.screen for here in scene.terminals.values()]
        return any(text in ' '.join(screen.plain_rows()) for screen in screens), '\n'.join(screen.told() for screen in screens)
    scene.wait(probe, f'on a screen: {text}')


@seeing(r'title (.*)')
def title(scene, line, text):
    here, wanted = scene.terminal(), text[1:-1] if text.startswith('"') else text
    scene.wait(lambda: (matches([wanted], here.screen.title + '\n'), here.screen.title), f'the title {wanted}')


@seeing(r'wrote ' + QUOTE + r' (\d+) times')
def wrote_times(scene, line, text, times):
    here, wanted = scene.terminal(), unquoted(text)
    scene.wait(lambda: (here.output.count(wanted) == int(times), repr(here.output)), f'written {times} times: {text}')


@seeing(r'(host|program) (runs|is stopped)')
def is_stopped(scene, line, name, wanted):
    """`runs` is looked at only once: what must not be stopped."""
    process = scene.find(name)
    if wanted == 'runs' and scene.state_of(process) == 'T':
        raise Fault(f'{name} runs', 'it is stopped')
    scene.wait(lambda: (wanted == 'runs' or scene.state_of(process) == 'T', scene.state_of(process)), f'{name} is stopped')


@seeing(r'over')
def over(scene, line):
    """The job has ended, though processes of it may still wait, as for a disk."""
    here = scene.terminal()
    scene.wait(lambda: (here.status is not None, 'it goes on:\n' + shown(here)), 'an end')


@seeing(r'as before')
def as_before(scene, line):
    """The terminal is as before the session, as in a stop."""
    here = scene.terminal()

    def probe():
        wrong = here.screen.left_behind() + ['the settings'] * (termios.tcgetattr(here.slave) != here.settings)
        return not wrong, ', '.join(wrong)
    scene.wait(probe, 'the terminal as before')


@seeing(r'mode (\d+) (on|off)')
def mode(scene, line, number, wanted):
    here = scene.terminal()
    scene.wait(lambda: ((int(number) in here.screen.modes) == (wanted == 'on'), f'modes that are on: {sorted(here.screen.modes)}'), f'mode {number} is {wanted}')


@seeing(r'raw')
def raw(scene, line):
    """The terminal gives each key at once."""
    here = scene.terminal()
    scene.wait(lambda: (not termios.tcgetattr(here.slave)[3] & (termios.ICANON | termios.ECHO), 'it gives lines'), 'a raw terminal')


@seeing(r'wrote ' + QUOTE + ' then ' + QUOTE)
def wrote_then(scene, line, text, later):
    """The terminal got one text before the other."""
    here, wanted, last = scene.terminal(), unquoted(text), unquoted(later)
    scene.wait(lambda: (-1 < here.output.find(wanted) < here.output.find(last), repr(here.output)), f'{text}, then {later}')


@seeing(r'bells (\d+)')
def bells(scene, line, count):
    """How often the bell rang in this session; the end of a title is no bell."""
    here = scene.terminal()

    def probe():
        found = re.sub(rb'\x1b\][^\x07\x1b]*(\x07|\x1b\\)', b'', here.output).count(b'\a')
        return found == int(count), f'{found} bells'
    scene.wait(probe, f'{count} bells')


@seeing(r'(never )?wrote ' + QUOTE)
def wrote(scene, line, never, text):
    """The bytes that the terminal got in this session, also after its end."""
    here, wanted = scene.terminal(), unquoted(text)
    if never:
        if wanted in here.output:
            raise Fault(f'never written: {text}', repr(here.output))
        return
    scene.wait(lambda: (wanted in here.output, repr(here.output)), f'written: {text}')


# ---- files

@seeing(r'(?:file )?' + NAME + r' is(?: (' + QUOTE + r'.*))?')
def file_is(scene, line, name, words, _):
    wanted, path = text_of(line, words or ''), shlex.split(name)[0]
    scene.wait(lambda: (scene.bytes_at(path) == wanted, told_bytes(scene.bytes_at(path))), f'{path} is {told_bytes(wanted)}')


@seeing(r'journal has ' + QUOTE)
def journal_has(scene, line, text):
    """Keys are in the journal of a session, maybe before sizes and notices that come when they like."""
    file_has(scene, line, '../home/.local/state/bidi_edit/*/journal', '', text)


@seeing(r'(?:file )?' + NAME + r' has (no )?' + QUOTE)
def file_has(scene, line, name, no, text):
    """A text is somewhere in a file; the name may be a pattern of a shell."""
    wanted, path = unquoted(text), shlex.split(name)[0]

    def probe():
        found = [scene.bytes_at(each) or b'' for each in glob.glob(scene.path(path))]
        return found != [] and any(wanted in each for each in found) != bool(no), told_bytes(b'\n'.join(found))
    scene.wait(probe, f'{path} has {no or ""}{text}')


@seeing(r'(?:file )?' + NAME + r' is like ' + NAME)
def file_is_like(scene, line, name, other):
    paths = [shlex.split(each)[0] for each in (name, other)]

    def probe():
        found = [scene.bytes_at(path) for path in paths]
        return found[0] == found[1] is not None, ' and '.join(map(told_bytes, found))
    scene.wait(probe, f'{name} is like {other}')


def told_bytes(found):
    text = 'not there' if found is None else repr(found.decode('utf-8', 'backslashreplace'))
    return text if len(text) < 400 else f'{text[:200]} .. {text[-200:]} ({len(found)} bytes)'


@seeing(r'no file ' + NAME)
def no_file(scene, line, name):
    path = scene.path(shlex.split(name)[0])
    scene.wait(lambda: (not os.path.lexists(path), 'it is there'), f'no file {name}')


@seeing(r'mode of ' + NAME + r' is (\d+)')
def mode_is(scene, line, name, wanted):
    path = scene.path(shlex.split(name)[0])
    scene.wait(lambda: (oct(stat.S_IMODE(os.stat(path).st_mode))[2:] == wanted, oct(stat.S_IMODE(os.stat(path).st_mode))[2:]), f'mode {wanted} of {name}')


# ---- what is kept, what the program gets, what is told

@seeing(r'sessions (\d+)')
def sessions(scene, line, count):
    scene.wait(lambda: (len(scene.sessions()) == int(count), f'{scene.sessions()}'), f'{count} sessions')


@seeing(r'whole session')
def whole_session(scene, line):
    """The session has the text that FILE had, which it gets after the first painting: from then on it can be recovered."""
    def probe():
        facts = [scene.bytes_at(f'{session}/about') or b'' for session in scene.sessions()]
        return any(b'\ntext ' in fact for fact in facts), b''.join(facts).decode('utf-8', 'replace')
    scene.wait(probe, 'a session with its text')


@seeing(r'kept (at last )?(' + QUOTE + r'.*)')
def kept(scene, line, at_last, words, _):
    """The bytes that the session's journal has more than at the last such look; those at its end."""
    wanted = text_of(line, words)

    def probe():
        found = scene.journal()[scene.kept:]
        return found.endswith(wanted) if at_last else found == wanted, told_bytes(found)
    scene.wait(probe, f'kept: {told_bytes(wanted)}')
    scene.kept = len(scene.journal())


@seeing(r'kept file (\S+)')
def kept_file(scene, line, name):
    wanted = scene.bytes_at(name)
    scene.wait(lambda: (scene.journal()[scene.kept:] == wanted, told_bytes(scene.journal()[scene.kept:])), f'kept: what {name} has')
    scene.kept = len(scene.journal())


@seeing(r'got (with rests )?(' + QUOTE + r'.*)')
def got(scene, line, with_rests, words, _):
    """What the stand-in got since its start: typed bytes as they are, sizes as CSI 8;ROWS;COLUMNSt, ` end`; a rest of 50 ms as ~."""
    wanted = text_of(line, words)

    def probe():
        found = b''
        for note in scene.noted('.frames').decode().split('\n'):
            letter, body = note[:1], bytes.fromhex(note[1:])
            if letter == 'z':
                found += b'\x1b[8;%d;%dt' % (int.from_bytes(body[:2], 'big'), int.from_bytes(body[2:], 'big'))
            found += {'b': body, 'x': b' end', 'i': b'~' if with_rests else b''}.get(letter, b'')
        return found == wanted, told_bytes(found)
    scene.wait(probe, f'what the program gets: {told_bytes(wanted)}')


@seeing(r'word (\S+)(?: (.*))?')
def word(scene, line, name, value):
    """A word that the program was started with, and the word after it. `last` is the last one."""
    def probe():
        found = scene.noted('.words').decode().split('\n')
        is_so = value == found[-1] if name == 'last' else name in found and (value is None or value == found[found.index(name) + 1])
        return is_so, ' '.join(found)
    scene.wait(probe, f'the word {name} {value or ""}')


@seeing(r'no word (\S+)')
def no_word(scene, line, name):
    scene.wait(lambda: (scene.noted('.words') != b'' and name not in scene.noted('.words').decode().split('\n'), scene.noted('.words').decode()),
               f'not the word {name}')


@seeing(r'said ' + QUOTE)
def said(scene, line, text):
    """A text on the session's standard error, also after its end."""
    errors, wanted = scene.terminal().errors, unquoted(text)
    scene.wait(lambda: (wanted in scene.bytes_at(errors), scene.bytes_at(errors).decode('utf-8', 'replace')), f'on standard error: {text}')


@seeing(r'processes(?: (.*))?')
def processes(scene, line, names):
    """The names of all processes of the session."""
    wanted = sorted((names or '').split())
    scene.wait(lambda: (scene.names() == wanted, f'{scene.names()}'), f'these processes: {wanted}')
