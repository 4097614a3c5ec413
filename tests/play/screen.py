"""What a terminal shows: pyte's screen, and what pyte lacks, the alternate screen, private modes, titles that are kept, and the sequences that it
would take for others."""
import copy, re, unicodedata
import pyte
from wcwidth import wcwidth

# A control sequence, one that an end closes (titles, words to a multiplexer), any other escape, or text.
TOKEN = re.compile(r'\x1b\[([0-?]*)([ -/]*)([@-~])|\x1b([P\]X^_])(.*?)(?:\x07|\x1b\\(?!\x1b\\))|\x1b([ -/]*[0-OQ-WYZ\\`-~])|([^\x1b]+)', re.S)
# Modes of a terminal that nobody has used, but for 7 (a row that is full goes on in the next) and 25 (the cursor is shown).
FRESH = {7, 25}


class Screen:
    """`modes` are the private modes that are on, `title` the window's title."""

    def __init__(self, columns, rows):
        self.pyte = pyte.Screen(columns, rows)
        self.stream = pyte.Stream(self.pyte)
        self.rest, self.modes, self.kept_modes = b'', set(FRESH), {}
        self.title, self.kept_titles, self.first = '', [], None

    def resize(self, rows, columns):
        self.pyte.resize(rows, columns)

    def feed(self, bytes_):
        """Takes bytes; an unfinished sequence or letter waits for the next."""
        text = self.rest + bytes_
        for cut in range(4):
            try:
                text, self.rest = text[:len(text) - cut].decode(), text[len(text) - cut:] if cut else b''
                break
            except UnicodeDecodeError:
                continue
        else:
            text, self.rest = text.decode('utf-8', 'replace'), b''
        at = 0
        while at < len(text):
            token = TOKEN.match(text, at)
            if not token:
                self.rest = text[at:].encode() + self.rest
                return
            at = token.end()
            self.take(token)

    def take(self, token):
        parameters, between, final, kind, words, escape, plain = token.groups()
        if plain is not None:
            self.stream.feed(plain)
        elif final is not None:
            self.take_control(parameters, between, final)
        elif kind == ']':
            if words[:2] in ('0;', '2;'):
                self.title = words[2:]
        elif escape in ('7', '8', 'D', 'E', 'M', 'H', 'c'):
            self.stream.feed('\x1b' + escape)

    def take_control(self, parameters, between, final):
        if parameters.startswith('?') and not between:
            for mode in map(int, filter(None, parameters[1:].split(';'))):
                self.take_mode(mode, final)
        elif final == 't' and not between:
            self.take_title(parameters)
        elif final == 'r' and not parameters and not between:  # pyte takes no parameter for 0, and keeps the last row
            self.pyte.margins = None
            self.pyte.cursor_position()
        elif not between and not parameters.startswith(('>', '<', '=')) and final not in 'sn':
            self.stream.feed(f'\x1b[{parameters}{final}')

    def take_mode(self, mode, final):
        if final == 's':
            self.kept_modes[mode] = mode in self.modes
        if final == 'r':
            final = 'h' if self.kept_modes.get(mode) else 'l'
        if final not in 'hl' or (final == 'h') == (mode in self.modes):
            return
        self.modes ^= {mode}
        if mode in (6, 7, 25):
            self.stream.feed(f'\x1b[?{mode}{final}')
        if mode in (1047, 1049):
            self.swap(final == 'h')

    def take_title(self, parameters):
        if parameters.startswith('22'):
            self.kept_titles.append(self.title)
        elif parameters.startswith('23') and self.kept_titles:
            self.title = self.kept_titles.pop()

    def swap(self, is_alternate):
        """Shows the alternate screen, empty, or the first one again."""
        screen = self.pyte
        if is_alternate:
            self.modes |= {1047, 1049}
            self.first = copy.deepcopy(screen.buffer), copy.copy(screen.cursor)
            screen.erase_in_display(2)
            return
        self.modes -= {1047, 1049}
        if self.first:
            screen.buffer, screen.cursor = self.first
            screen.cursor.hidden = 25 not in self.modes
            screen.cursor.y = min(screen.cursor.y, screen.lines - 1)
            screen.dirty.update(range(screen.lines))

    def is_alternate(self):
        return 1049 in self.modes

    def cursor(self):
        """Row and column, from 1. A cursor that waits behind the last column is in it."""
        return self.pyte.cursor.y + 1, min(self.pyte.cursor.x, self.pyte.columns - 1) + 1

    def rows(self):
        """The rows, in the form of `rendered`."""
        return [rendered([(cell.data, cell.reverse) for cell in (line[x] for x in range(self.pyte.columns))])
                for line in (self.pyte.buffer[y] for y in range(self.pyte.lines))]

    def plain_rows(self):
        """The rows without marks of reverse video."""
        return [''.join(line[x].data for x in range(self.pyte.columns)).rstrip() for line in (self.pyte.buffer[y] for y in range(self.pyte.lines))]

    def told(self):
        """The rows with their numbers, and the cursor."""
        return '\n'.join([f'  {number:3} {text}' for number, text in enumerate(self.rows(), 1)] + ['  cursor %d %d' % self.cursor()])

    def left_behind(self):
        """What a session changed of the terminal and did not give back."""
        screen, left = self.pyte, sorted(self.modes ^ FRESH)
        wrong = [f'mode {mode}' for mode in left]
        if pyte.modes.IRM in screen.mode:
            wrong.append('insert mode')
        if screen.margins and screen.margins != (0, screen.lines - 1):
            wrong.append(f'a scroll region {screen.margins}')
        if screen.cursor.hidden:
            wrong.append('a hidden cursor')
        if screen.cursor.attrs.reverse:
            wrong.append('reverse video')
        return wrong


def rendered(cells):
    """Cells as a row of a picture: what is in reverse video stands between < and >; blanks at the end are left out."""
    while cells and cells[-1][0] in (' ', ''):
        cells = cells[:-1]
    text, is_reverse = '', False
    for data, reverse in cells:
        if reverse != is_reverse:
            text += '<' if reverse else '>'
            is_reverse = reverse
        text += data
    return unicodedata.normalize('NFC', text + ('>' if is_reverse else ''))


def cells_of(text):
    """The cells of a text with pairs of a character and whether it is in reverse video: marks belong to the cell before."""
    cells = []
    for character, reverse in text:
        width = wcwidth(character)
        if width == 0 and cells:
            cells[-1] = (cells[-1][0] + character, cells[-1][1])
        else:
            cells.append((character, reverse))
            cells.extend([('', reverse)] * (width - 1))
    return cells
