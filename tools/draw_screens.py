"""Draws screens as one SVG, each cell by itself, so that no viewer reorders or joins them: draw_screens.py TITLE DESCRIPTION [CAPTION CAPTURE]..

A CAPTURE is a file written by `show.sh --cells`. The screens are placed side by side while they fit. The text of each cell is an
element of its own, centred in its columns, so letters look as in a terminal that joins none. TITLE and DESCRIPTION are for users
who cannot see the picture.
"""

import re
import sys
import unicodedata
from enum import Enum
from html import escape
from pathlib import Path

# lengths in pixels
WIDTH, HEIGHT = 9, 19  # of a cell
EDGE, CAPTION = 12, 22  # around a screen, and above it
WIDEST = 720  # the picture, where two screens and more are side by side
BASELINE = 14  # of a letter, below the top of its cell
INK, PAPER, FRAME = '#1f2328', '#ffffff', '#8c959f'
FONTS = "'DejaVu Sans Mono','Noto Sans Mono','Noto Sans Hebrew','Noto Naskh Arabic',Menlo,Consolas,monospace"


def is_joined(c):
    """Whether a character shares the cell of the one before."""
    return unicodedata.category(c) in ('Mn', 'Me', 'Cf')


def columns_of(c):
    return 2 if unicodedata.east_asian_width(c) in 'WF' else 1


class Look(Enum):
    """The look of a cell."""

    PLAIN = None
    NEGATIVE = INK
    SHADED = '#c8ccd1'  # any background of its own


def look_after(parameters, look):
    """The look after an SGR sequence with these parameters (ECMA-48). Of colours only the presence of a background matters.

    7 is negative, 0, 27 and 49 end it or a background; 40 to 47, 100 to 107 and 48 set one. After 38 and 48 a colour follows, as
    5 and one number, or as 2 and three.
    """
    numbers = [int(number or 0) for number in parameters.split(';')]
    while numbers:
        number = numbers.pop(0)
        if number in (0, 27, 49):
            look = Look.PLAIN
        elif number == 7:
            look = Look.NEGATIVE
        elif number == 48 or number // 10 in (4, 10):
            look = Look.SHADED
        if number in (38, 48):
            del numbers[: 2 if numbers[:1] == [5] else 4]
    return look


def cells_of(line, look):
    """The cells of a captured line, as (column, columns, text, look), and the look after it."""
    cells, column = [], 0
    for sgr, c in re.findall(r'\x1b\[([0-9;]*)m|(.)', line):
        if not c:
            look = look_after(sgr, look)
        elif is_joined(c) and cells:
            at, count, text, own = cells[-1]
            cells[-1] = (at, count, text + c, own)
        else:
            cells.append((column, columns_of(c), c, look))
            column += columns_of(c)
    return cells, look


def rectangle(x, y, width, height, **look):
    words = ' '.join(f'{name.replace("_", "-")}="{value}"' for name, value in look.items())
    return f'<rect x="{x}" y="{y}" width="{width}" height="{height}" {words}/>'


def cell(x, y, count, text, look):
    """The elements of a cell."""
    drawn = []
    if look.value:
        drawn.append(rectangle(x, y, count * WIDTH, HEIGHT, fill=look.value))
    if text != ' ':
        colour = f' fill="{PAPER}"' if look is Look.NEGATIVE else ''
        middle = f'{x + count * WIDTH / 2:g}'
        drawn.append(f'<text x="{middle}" y="{y + BASELINE}" direction="ltr" unicode-bidi="bidi-override"{colour}>{escape(text)}</text>')
    return drawn


class Screen:
    """A captured screen with its caption."""

    def __init__(self, caption, path):
        head, *self.lines = Path(path).read_text(encoding='utf-8').split('\n')
        rows, columns, *self.cursor = map(int, head.split())
        self.caption = caption
        self.lines = self.lines[:rows]
        self.width, self.height = columns * WIDTH, rows * HEIGHT

    def drawn(self, x, y):
        """The elements of the screen, with its caption at a point."""
        elements = [f'<text x="{x}" y="{y + BASELINE}" text-anchor="start" font-weight="bold">{escape(self.caption)}</text>']
        y += CAPTION
        elements.append(rectangle(x - 2, y - 2, self.width + 4, self.height + 4, fill=PAPER, stroke=FRAME, rx=3))
        look = Look.PLAIN
        for number, line in enumerate(self.lines):
            cells, look = cells_of(line, look)
            for column, count, text, own in cells:
                elements += cell(x + column * WIDTH, y + number * HEIGHT, count, text, own)
        line, column = self.cursor
        elements.append(rectangle(x + column * WIDTH + 0.5, y + line * HEIGHT + 0.5, WIDTH - 1, HEIGHT - 1, fill='none', stroke='#cf222e'))
        return elements


def picture(title, description, screens):
    """The whole SVG."""
    elements, x, y, tallest, widest = [], EDGE, EDGE, 0, 0
    for screen in screens:
        if x > EDGE and x + screen.width + EDGE > WIDEST:
            x, y, tallest = EDGE, y + tallest + EDGE, 0
        elements += screen.drawn(x, y)
        x += screen.width + 2 * EDGE
        tallest = max(tallest, CAPTION + screen.height)
        widest = max(widest, x - EDGE)
    height = y + tallest + EDGE
    head = (
        f'<svg xmlns="http://www.w3.org/2000/svg" width="{widest}" height="{height}" viewBox="0 0 {widest} {height}" role="img" shape-rendering="crispEdges"'
        f' aria-labelledby="title description" font-family="{FONTS}" font-size="14" text-anchor="middle" fill="{INK}">'
    )
    words = [f'<title id="title">{escape(title)}</title>', f'<desc id="description">{escape(description)}</desc>']
    return '\n'.join([head, *words, rectangle(0, 0, widest, height, fill='#f6f8fa'), *elements, '</svg>', ''])


def main():
    title, description, *pairs = sys.argv[1:]
    screens = [Screen(caption, path) for caption, path in zip(pairs[::2], pairs[1::2])]
    sys.stdout.write(picture(title, description, screens))


main()
