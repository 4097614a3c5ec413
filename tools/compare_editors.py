"""Measures common actions in several editors, and prints a table in Markdown; tools/compare-editors.sh runs it."""

import argparse
import os
import random
import shutil
import statistics
import sys
from dataclasses import dataclass
from pathlib import Path

from editor_terminal import Late, Terminal

# how often an action is made: letters one by one, pages, letters in one write, letters in the long paragraph
LETTERS, PAGES, BURST, LONG_LETTERS = 30, 20, 200, 10
LIMIT = 20  # seconds to wait for the screen of a key; `Terminal` waits a minute for others
# Seconds of quiet that end a screen, where an editor may pause in it for longer than QUIET: as it opens, opens one long paragraph,
# takes a burst of letters, saves, and goes to the end of that paragraph.
OPENING, LONG_OPENING, BURSTING, SAVING, GOING = 0.1, 0.3, 0.2, 0.5, 1

# ---- the rows of the table

OPENED, OPENED_AT_END = 'opened', 'opened at its last line'
LETTER, LETTER_AT_END = "a letter at a line's beginning", "a letter at a line's end"
MANY_LETTERS, PAGE, SAVE = f'{BURST} letters in one write', 'a page down', 'a save'
MEMORY = 'most memory, MB'
LONG_LETTER = 'a letter at the beginning of a paragraph of 1,000,000 bytes'
LONG_LETTER_AT_END = 'a letter at its end'
ALL = (
    OPENED, OPENED_AT_END, LETTER, LETTER_AT_END, MANY_LETTERS, PAGE, SAVE, MEMORY, LONG_LETTER, LONG_LETTER_AT_END
)

# ---- texts

# without the letters that are typed and sought on the screen: qof, zah and q
HEBREW = 'אבגדהוזחטיכלמנסעפצרשת'
ARABIC = 'ابتثجحخدذرزسشصضطعغفكلمنهوي'
LATIN = 'abcdefghijklmnoprstuvwxyz'


@dataclass
class Kind:
    """A kind of text, with a letter that does not occur in it."""

    name: str
    alphabets: tuple
    letter: str

    def words(self, source):
        """Yields words without end."""
        while True:
            letters = source.choice(self.alphabets)
            word = ''.join(source.choices(letters, k=source.randint(2, 8)))
            yield source.choice((word, word, word, word, f'({word})', str(source.randint(1, 9999))))


KINDS = (
    Kind('ASCII', (LATIN,), 'Q'),
    Kind('Hebrew', (HEBREW,), 'ק'),
    Kind('Arabic', (ARABIC,), 'ظ'),
    Kind('mixed', (HEBREW, ARABIC, LATIN), 'ק'),
)
# texts by which a screen is known: the 19th line of a text, its last one, and the beginning of a paragraph
SHOWN, LAST, FIRST_NUMBER = 'line-nineteen', 'last-line', '314159'


def lines_of(kind, size):
    """A text of about `size` bytes in lines of some 44 columns; the 19th and the last are fixed."""
    source = random.Random(kind.name)
    words = kind.words(source)
    lines, bytes_left = [], size
    while bytes_left > 0:
        line = next(words)
        while len(line) < 40:
            line += ' ' + next(words)
        lines.append(SHOWN if len(lines) == 18 else line)
        bytes_left -= len(lines[-1].encode()) + 1
    return '\n'.join([*lines, LAST, ''])


def paragraph_of(kind, size):
    """One paragraph of about `size` bytes that begins with a fixed number."""
    source = random.Random(kind.name)
    words = kind.words(source)
    parts, bytes_left = [], size
    while bytes_left > 0:
        parts.append(next(words))
        bytes_left -= len(parts[-1].encode()) + 1
    return ' '.join([FIRST_NUMBER, *parts]) + '\n'


# ---- editors

@dataclass
class Editor:
    """An editor's command, and the bytes of its keys."""

    name: str
    words: list  # of the command line, before a line's number and the file
    down: bytes
    row_end: bytes
    page: bytes  # a page down
    text_end: bytes  # from the beginning of the long paragraph to after its last letter
    save: bytes
    leave: bytes  # quits, and drops what is not saved
    insert: bytes = b''  # sent before letters
    append: bytes = b''  # sent before letters at a line's end
    command: bytes = b''  # ends typing
    shapes: bool = False  # whether it sends Arabic letters in their joined forms


def editors(bidi_edit, paragraph_pages):
    """The editors by name. The text ends with a line feed, so one step back from its end is after its last letter.

    bidi_edit goes there by `paragraph_pages` pages down, which are more than the paragraph has.
    """
    page = b'\x1b[6~'
    emacs = ['emacs', '-nw', '-Q', '--eval', '(setq large-file-warning-threshold nil)']
    vim = ['vim', '-N', '-u', 'NONE', '-i', 'NONE']
    control = {'down': b'\x0e', 'row_end': b'\x05', 'page': b'\x16'}
    modes = {'insert': b'i', 'append': b'a', 'command': b'\x1b', 'shapes': True}
    known = (
        Editor(
            'bidi_edit',
            [bidi_edit],
            down=b'\x1b[B',
            row_end=b'\x1b[F',
            page=page,
            text_end=page * paragraph_pages + b'\x02',
            save=b'\x13',
            leave=b'\x11',
            shapes=True,
        ),
        Editor('emacs', emacs, **control, text_end=b'\x1b>\x02', save=b'\x18\x13', leave=b'\x18\x03'),
        Editor('vim', vim, down=b'j', row_end=b'$', page=b'\x06', text_end=b'G$', save=b':w\r', leave=b':q!\r', **modes),
        Editor('nano', ['nano', '--ignorercfiles'], **control, text_end=b'\x1b/\x02', save=b'\x13', leave=b'\x18'),
        Editor('joe', ['joe'], **control, text_end=b'\x0bv\x02', save=b'\x0bd\r', leave=b'\x03'),
    )
    return {editor.name: editor for editor in known}


# ---- one editor on one text

class Figures:
    """The measurements: for each action, text and editor a list of pairs of wall time and processor time, in seconds.

    None is in place of a pair where the screen was too late.
    """

    def __init__(self):
        self.found = {}

    def note(self, what, kind, editor, pair):
        self.found.setdefault((what, kind.name, editor.name), []).append(pair)

    def is_late(self, what, kind, editor):
        """Whether one of its screens was too late."""
        return None in self.found.get((what, kind.name, editor.name), [])

    def median(self, what, kind, editor):
        """The median of each part; None if nothing was measured or a screen was too late."""
        pairs = self.found.get((what, kind, editor), [])
        if not pairs or None in pairs:
            return None
        return tuple(statistics.median(part) for part in zip(*pairs))


class Task:
    """One editor on a copy of one text."""

    def __init__(self, figures, folder, kind, editor, text):
        self.figures, self.kind, self.editor = figures, kind, editor
        self.folder = folder / 'work'
        shutil.rmtree(self.folder, ignore_errors=True)
        self.folder.mkdir()
        self.file = self.folder / 'text.txt'
        shutil.copyfile(text, self.file)

    def started(self, *words):
        """The editor on the copy, with these words before its name."""
        # HOME, as compare-editors.sh sets it: emptied, so that editors remember no cursor place and offer no interrupted session again
        home = self.folder.with_name('home')
        shutil.rmtree(home, ignore_errors=True)
        home.mkdir()
        return Terminal([*self.editor.words, *words, self.file.name], self.folder)

    def note(self, what, pair):
        self.figures.note(what, self.kind, self.editor, pair)

    def measured(self, what, terminal, count, action):
        """Notes an action's median wall time and mean processor time, or that its screen was too late."""
        terminal.discard()
        before = terminal.processor_seconds()
        try:
            seconds = [action() for _ in range(count)]
        except Late:
            self.note(what, None)
            raise
        self.note(what, (statistics.median(seconds), (terminal.processor_seconds() - before) / count))

    def opening(self, what, shown, *words):
        """Opens the text and quits."""
        with self.started(*words) as terminal:
            seconds = terminal.await_screen(shown.encode(), OPENING) - terminal.started
            terminal.discard()
            self.note(what, (seconds, terminal.end(self.editor.leave)))

    def shown_letter(self):
        """The bytes that show a typed letter; none if they are unknown."""
        if self.editor.shapes and self.kind.name == 'Arabic':
            return b''
        return self.kind.letter.encode()

    def type_letters(self, what, terminal, begin, count):
        """Types letters one by one, and stays in an editor's mode for typing."""
        letter = self.kind.letter.encode()
        terminal.send(begin)
        self.measured(what, terminal, count, lambda: terminal.do(letter, self.shown_letter(), limit=LIMIT))

    def leave_typing(self, terminal):
        """Ends an editor's mode for typing. vim waits a second after an Escape, for the rest of a key; others are sent nothing."""
        terminal.send(self.editor.command)
        terminal.discard(1.2 if self.editor.command else 0.1)

    def keys(self):
        """Measures all actions in a text of many lines."""
        editor, letter = self.editor, self.kind.letter.encode()
        with self.started() as terminal:
            terminal.await_screen(SHOWN.encode(), OPENING)
            terminal.send(editor.down * 8)
            self.type_letters(LETTER, terminal, editor.insert, LETTERS)
            self.leave_typing(terminal)
            terminal.send(editor.down)
            terminal.discard()
            terminal.send(editor.row_end)
            self.type_letters(LETTER_AT_END, terminal, editor.append, LETTERS)
            self.measured(MANY_LETTERS, terminal, 1, lambda: terminal.do(letter * BURST, self.shown_letter(), BURSTING, LIMIT))
            self.leave_typing(terminal)
            self.measured(PAGE, terminal, PAGES, lambda: terminal.do(editor.page, limit=LIMIT))
            self.save(terminal, len(letter) * (2 * LETTERS + BURST))
            self.note(MEMORY, (terminal.peak_bytes(), 0))  # bytes in place of seconds

    def save(self, terminal, added):
        """Measures a save until the screen settles, and checks the file's size."""
        wanted = self.file.stat().st_size + added
        terminal.discard()
        before = terminal.processor_seconds()
        seconds = terminal.do(self.editor.save, quiet=SAVING, limit=LIMIT)
        # a save that is not done, or letters that were lost, count as a screen that did not come
        if self.file.stat().st_size != wanted:
            raise Late
        self.note(SAVE, (seconds, terminal.processor_seconds() - before))

    def paragraph(self):
        """Measures a letter at each end of one long paragraph."""
        with self.started() as terminal:
            terminal.await_screen(FIRST_NUMBER.encode(), LONG_OPENING)
            self.type_letters(LONG_LETTER, terminal, self.editor.insert, LONG_LETTERS)
            self.leave_typing(terminal)
            # an editor that was too slow once is not measured again
            if self.figures.is_late(LONG_LETTER_AT_END, self.kind, self.editor):
                return
            try:
                terminal.do(self.editor.text_end, quiet=GOING)
            except Late:
                self.note(LONG_LETTER_AT_END, None)
                raise
            self.type_letters(LONG_LETTER_AT_END, terminal, self.editor.append, LONG_LETTERS)


# ---- the run

def say(words):
    print(words, file=sys.stderr, flush=True)


def run_task(what, task, action):
    """Runs a part, and reports a screen that is too late."""
    say(f'{what}: {task.kind.name}, {task.editor.name}')
    try:
        action()
    except Late:
        say('    a screen did not come')


def measure(found, folder, rounds, part):
    """Measures all editors on all texts, whose sizes are divided by `part`."""
    figures = Figures()
    size, long_size = 16_000_000 // part, 1_000_000 // part
    for kind in KINDS:
        (folder / f'{kind.name}.lines').write_text(lines_of(kind, size), encoding='utf-8')
        (folder / f'{kind.name}.paragraph').write_text(paragraph_of(kind, long_size), encoding='utf-8')
    for number in range(1, rounds + 1):
        for kind in KINDS:
            for editor in found:
                measure_editor(figures, folder, kind, editor, f'round {number}')
    return figures


def measure_editor(figures, folder, kind, editor, name):
    """Measures one editor on both texts of a kind; `name` is the round's."""
    lines = folder / f'{kind.name}.lines'
    last = lines.read_bytes().count(b'\n')
    task = Task(figures, folder, kind, editor, lines)
    run_task(f'{name}, opening', task, lambda: task.opening(OPENED, SHOWN))
    run_task(f'{name}, opening at the end', task, lambda: task.opening(OPENED_AT_END, LAST, f'+{last}'))
    run_task(f'{name}, keys', task, task.keys)
    task = Task(figures, folder, kind, editor, folder / f'{kind.name}.paragraph')
    run_task(f'{name}, a paragraph', task, task.paragraph)


def number(value):
    """Formats a value with two significant digits, or as a rounded integer from 100 on."""
    if value >= 100:
        return f'{float(f"{value:.3g}"):.0f}'
    return f'{value:.2g}'


def milliseconds(pair):
    """A cell of the table: wall time and processor time in milliseconds."""
    if pair is None:
        return '-'
    return f'{number(1000 * pair[0])} / {number(1000 * pair[1])}'


def megabytes(pair):
    """A cell of the table: of a pair whose first part is a number of bytes, that in megabytes."""
    return '-' if pair is None else number(pair[0] / 1e6)


def print_table(figures, found):
    """Prints the table: a row for each action and text."""
    print('| What | Text | ' + ' | '.join(editor.name for editor in found) + ' |')
    print('|---|---|' + '---|' * len(found))
    for what in ALL:
        shown = megabytes if what == MEMORY else milliseconds
        for kind in KINDS:
            cells = [shown(figures.median(what, kind.name, editor.name)) for editor in found]
            print(f'| {what} | {kind.name} | ' + ' | '.join(cells) + ' |')


def main():
    parser = argparse.ArgumentParser()
    parser.add_argument('--quick', action='store_true')
    parser.add_argument('--rounds', type=int)
    parser.add_argument('bidi_edit')
    parser.add_argument('folder', type=Path)
    parser.add_argument('editors', nargs='+')
    words = parser.parse_args()
    part = 16 if words.quick else 1
    # more pages than a paragraph of 1,000,000 bytes has in rows of 80 columns, 23 a page: some 550 of ASCII
    known = editors(words.bidi_edit, 800 // part)
    found = [known[name] for name in words.editors]
    if words.quick:
        print('Texts are a sixteenth of what the table says.')
    print(f'Load {os.getloadavg()[0]:.1f} on {os.cpu_count()} processors at the beginning.')
    figures = measure(found, words.folder, words.rounds or (1 if words.quick else 3), part)
    print(f'Load {os.getloadavg()[0]:.1f} at the end.\n')
    print_table(figures, found)


if __name__ == '__main__':
    main()
