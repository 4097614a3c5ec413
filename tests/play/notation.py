"""Reads files of cases (README.md shows how one is written)."""
import re, unicodedata
from dataclasses import dataclass, field
from keys import bytes_of
from screen import cells_of, rendered


class Fault(Exception):
    """What is wrong in a case: what was wanted, and what was seen."""

    def __init__(self, wanted, seen=''):
        super().__init__(wanted)
        self.wanted, self.seen = wanted, seen


@dataclass
class Step:
    """A line of a case. `block` has the lines below it that begin with | or !, as pairs of that sign and the rest; `seen` is what is seen
    then, the line after an arrow."""
    line: int
    words: str
    block: list = field(default_factory=list)
    seen: str = ''

    def lines(self, sign):
        return [text for mark, text in self.block if mark == sign]


@dataclass
class Case:
    file: str
    line: int
    title: str
    steps: list


def cases_of(path):
    """The cases of a file. What stands above the first is done at the beginning of each; a case with `each` is one for each row below it."""
    above, found, steps = [], [], None
    with open(path, encoding='utf-8') as file:
        for number, text in enumerate(file.read().split('\n'), 1):
            text = text.lstrip()
            if not text or text.startswith('#'):
                continue
            if text.startswith('case '):
                steps = []
                found.append(Case(path, number, text[5:].strip(), steps))
            elif text[0] in '|!':
                rest = text[2:] if text[1:2] == ' ' else text[1:]
                (above if steps is None else steps)[-1].block.append((text[0], rest))
            else:
                words, seen = split_arrow(re.sub(r'\s\s+# .*', '', text).rstrip())
                (above if steps is None else steps).append(Step(number, words, [], seen))
    return [each for case in found for each in expanded(Case(case.file, case.line, case.title, above + case.steps))]


def split_arrow(text):
    """The parts before and after the arrow; one in quotes is none."""
    for match in re.finditer(r'"(?:\\.|[^"\\])*"| -> ', text):
        if match.group() == ' -> ':
            return text[:match.start()].rstrip(), text[match.end():]
    return text, ''


def expanded(case):
    """The cases of the rows of `each`, with their fields in the place of {NAME}; without it the case itself. `each NAME of 3` has the rows 1 to
    3. With several, all rows of one are combined with those of the others."""
    each = next((step for step in case.steps if step.words.startswith('each ')), None)
    if each is None:
        return [case]
    names, of, count = each.words[5:].partition(' of ')
    names, cases = names.split(), []
    for row in map(str, range(1, int(count) + 1)) if of else each.lines('|'):
        values = [value.strip() for value in row.split(' | ')]
        if len(values) != len(names):
            raise SyntaxError(f'{case.file}:{each.line}: {len(values)} fields, and not {len(names)}: {row}')
        fields = dict(zip(names, values))

        def filled(text):
            return re.sub(r'\{(\w+)\}', lambda match: fields.get(match.group(1), match.group()), text)

        steps = [Step(step.line, filled(step.words), [(mark, filled(text)) for mark, text in step.block], filled(step.seen))
                 for step in case.steps if step is not each]
        title = filled(case.title)
        cases += expanded(Case(case.file, case.line, title if title != case.title else f'{title} ({values[0]})', steps))
    return cases


# ---- texts and keys

ESCAPES = {'n': b'\n', 'r': b'\r', 't': b'\t', 'e': b'\x1b', '0': b'\0', '\\': b'\\', '"': b'"'}


def unquoted(text):
    """The bytes of what stands in quotes: \\n \\r \\t \\e \\0 \\\\ \\" \\xHH, and \\u{HEX} for a character."""
    def escape(match):
        if match.group(1):
            return bytes([int(match.group(1), 16)])
        return chr(int(match.group(2), 16)).encode() if match.group(2) else ESCAPES[match.group(3).decode()]
    return re.sub(rb'\\(?:x([0-9A-Fa-f]{2})|u\{([0-9A-Fa-f]+)\}|(.))', escape, text.encode(), flags=re.S)


QUOTED = r'"((?:\\.|[^"\\])*)"(?: \* (\d+))?'


def text_of(step, words):
    """The bytes that a step names: what stands in quotes, with `* N` so many times, or the lines below."""
    words = words.strip()
    if not words:
        return ''.join(line + '\n' for line in step.lines('|')).encode()
    found, at = b'', 0
    while at < len(words):
        match = re.compile(QUOTED + r'\s*').match(words, at)
        if not match:
            raise SyntaxError(f'not a text in quotes: {words[at:]}')
        found += unquoted(match.group(1)) * int(match.group(2) or 1)
        at = match.end()
    return found


def keys_of(words):
    """The bytes of keys: their names, or texts in quotes."""
    found, at = b'', 0
    while at < len(words):
        match = re.compile(QUOTED + r'\s*').match(words, at)
        if match:
            found += unquoted(match.group(1)) * int(match.group(2) or 1)
        else:
            match = re.compile(r'(\S+)\s*').match(words, at)
            found += bytes_of(match.group(1))
        at = match.end()
    return found


# ---- pictures

def picture_of(text):
    """The rows of a picture, between ` / `."""
    return text.split(' / ') if not text.endswith(' /') else (text + ' ').split(' / ')


class Row:
    """A row of a picture. What is in reverse video stands between < and >, and | before the cell of the cursor; two dots between blanks are
    as many blanks as the row has room for. A backslash takes a sign as a letter; \\u{HEX} is a character."""

    def __init__(self, text):
        self.has_gap = bool(re.search(r'(^|\s)\.\.(\s|$)', text))
        left, _, right = re.sub(r'(^|\s)\.\.(\s|$)', '\0', text, count=1).partition('\0')
        self.left, self.left_cursor = self.part(left)
        self.right, self.right_cursor = self.part(right)

    @staticmethod
    def part(text):
        """Pairs of character and reverse video, and the place of the cursor among the cells; None without one."""
        found, reverse, cursor = [], False, None
        for match in re.finditer(r'\\u\{([0-9A-Fa-f]+)\}|\\(.)|(.)', text):
            code, literal, plain = match.groups()
            if plain == '|':
                cursor = len(cells_of(found))
            elif plain and plain in '<>':
                reverse = plain == '<'
            else:
                found.append((chr(int(code, 16)) if code else literal or plain, reverse))
        return cells_of(found), cursor

    def cells(self, columns):
        return self.left + [(' ', False)] * (columns - len(self.left) - len(self.right)) + self.right if self.has_gap else self.left

    def text(self, columns):
        """The row in the form of Screen.rows."""
        return rendered(self.cells(columns))

    def cursor(self, columns):
        """The column of the cursor, from 1; None without one."""
        if self.left_cursor is not None:
            return self.left_cursor + 1
        return None if self.right_cursor is None else columns - len(self.right) + self.right_cursor + 1


def left_sides(row):
    """A status row without its right side, the file's name and the direction; a hint may stand between."""
    return row, re.sub(r' {2,}\S.*$', '', row), re.sub(r' {2,}(\S+ )?(ltr|rtl)$', '', row).rstrip()


def same_text(text):
    return unicodedata.normalize('NFC', text)


def matches(wanted, found):
    """Whether lines are as wanted: three dots stand for anything in a line, and alone for any lines."""
    pattern = ''
    for line in wanted:
        pattern += '(?:.*\n)*' if line.strip() == '...' else '.*'.join(map(re.escape, line.split('...'))) + '\n'
    return re.fullmatch(pattern, found if found.endswith('\n') or not found else found + '\n') is not None
