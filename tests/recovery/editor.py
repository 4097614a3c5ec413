"""A plain model of the editor for sessions.py, without rows: its state under keys, and the text after each key."""

import copy
import re

from search import CONTROLS, Search

# as the journal has them; check-recovery.sh types Alt with an arrow key for back and forward
BYTES = {"erase": b"\x1b[94~", "delete": b"\x1b[3~", "back": b"\x02", "forward": b"\x06", "undo run": b"\x1b[82~",
         "redo run": b"\x1b[83~", "save": b"\x13", "repaint": b"\x0c", "direction": b"\x1b[9~", "find": b"\x1b[70~",
         "find back": b"\x1b[71~", "mark": b"\x1b[72~", "copy": b"\x1b[73~", "cut": b"\x1b[74~", "put": b"\x1b[75~",
         "text start": b"\x1b[78~", "text end": b"\x1b[79~", "help": b"\x1b[80~", "select": b"\x1b[81~",
         "erase word": b"\x1b[88~", "delete word": b"\x1b[89~", "paste start": b"\x1b[90~", "paste end": b"\x1b[91~",
         "find next": b"\x1b[92~", "cancel": b"\x1b[93~", "go to": b"\x1b[84~", "replace": b"\x1b[85~",
         "name": b"\x1b[86~", "tell": b"\x1b[87~"}
MOVES = ["back", "forward", "text start", "text end"]
# the characters of letters after Name, each a unit of its own; without the joiners, which are none
NAMED = dict(zip("eEoOpiIfPlra", CONTROLS))
# what ends those that are put round a region
CLOSERS = dict.fromkeys("eEoO", NAMED["p"]) | dict.fromkeys("iIf", NAMED["P"])
# letters and digits, and signs of numbers between digits
WORD = "(?:[a-z0-9\u05d0-\u061b\u061d-\u064a]|(?<=[0-9])[.,:](?=[0-9]))+"
# the letters on the keys of these letters, of those that sessions.py types: they answer for them
KEYS = dict(zip("\u05dd\u05e9\u05d1\u05d2\u0628\u0645", "oacdfl"))
# what is typed, and the kind of the next letter, which goes on with it
GOES_ON = [("word", "word"), ("word", "blanks"), ("blanks", "blanks")]


def word_before(text, place):
    """The last start of a word or line before the place, else the place."""
    starts = [0, *(m.start() for m in re.finditer(WORD, text)), *(m.end() for m in re.finditer("\n", text))]
    return max((at for at in starts if at < place), default=place)


def word_behind(text, place):
    """The first start of a word or end of a line after the place, else the place."""
    stops = [len(text), *(m.start() for m in re.finditer(WORD + "|\n", text))]
    return min((at for at in stops if at > place), default=place)


def kind_of(character):
    """How the next edit goes on after a character that is put in."""
    return "no" if character == "\n" else "blanks" if character in " \t" else "word"


class Editor(Search):
    """The editor's state, with the keys so far and the text after each."""

    def __init__(self, text):
        super().__init__()
        self.text, self.place, self.changed = text, 0, False
        # edits to undo and to redo, the latest last, each as text and place before it, and text and place after it
        self.past, self.future = [], []
        # the lengths of the past at which undo groups begin, and at which the text is the stored one
        self.groups, self.stored = set(), 0
        # what is typed: no, word, blanks, erasing, deleting, or of a paste paste (nothing yet) or pasting, or spent, where the
        # first line of a paste was all that an input line took of it
        self.typing = "no"
        # a mark that Select set is soft: fresh until the next key, and then old
        self.mark, self.soft, self.held = None, "no", ""
        # whether a whole line is held
        self.whole = False
        # a question is None, or for a line, a name or a code; what Tell told stands until the next key
        self.ask, self.answer, self.told = None, "", ""
        # the direction of all paragraphs: 0 is auto, 1 ltr, 2 rtl
        self.direction = 0
        # the bytes so far, and for each number of them that ends a key the text then
        self.keys, self.ends = b"", {0: text}

    def edit(self, text, place, goes_on=False):
        """An edit that makes this text and place; `goes_on` where it is of the undo group before it."""
        length = len(self.past)
        self.groups = {group for group in self.groups if group < length} | (set() if goes_on else {length})
        # the stored text is among the edits that are given up
        if self.stored is not None and length < self.stored:
            self.stored = None
        self.past.append((self.text, self.place, text, place))
        self.future = []
        self.now(text, place, True)

    def now(self, text, place, changed):
        """Takes a text and place; an edit and a step of the history take the mark off."""
        self.text, self.place, self.changed, self.mark, self.soft = text, place, changed, None, "no"

    def remove(self, start, end, goes_on=False):
        self.edit(self.text[:start] + self.text[end:], start, goes_on)

    def indent(self):
        """The blanks and tabs that the line begins with, those before the place."""
        line = self.text[self.text.rfind("\n", 0, self.place) + 1:self.place]
        return line[:len(line) - len(line.lstrip(" \t"))]

    def put_in(self, new, goes_on=False, is_indented=False):
        """Puts a text at the place, or in place of the selection, as an edit of the same undo group."""
        if self.is_selection():
            self.remove(*self.region())
            goes_on = True
        new += self.indent() if is_indented else ""
        self.edit(self.text[:self.place] + new + self.text[self.place:], self.place + len(new), goes_on)

    def insert(self, letter, byte=None):
        """A letter that is typed. `byte` is what Enter sends: in a text it ends a paste and indents a line, at a prompt it is a line end."""
        was, self.typing = self.typing, "no"
        is_paste = was in ("paste", "pasting", "spent") and (not byte or bool(self.ask or self.search))
        if self.ask or self.search:
            self.typing = was if is_paste else "no"
            if self.typing != "spent":
                self.answer_by(letter, is_paste) if self.ask else self.seek_by(letter, is_paste)
        elif byte:
            self.put_in(letter, False, True)
        else:
            kind = kind_of(letter)
            self.put_in(letter, was == "pasting" or (was, kind) in GOES_ON)
            self.typing = "pasting" if is_paste else kind
        self.age()
        self.typed(byte or letter.encode())

    def age(self):
        """What each key does at its end: a selection goes on only where Select comes before the next move."""
        if self.soft == "fresh":
            self.soft = "old"

    def unselect(self):
        """Takes off the mark of a selection, unless Select came just before."""
        if self.soft == "old":
            self.mark, self.soft = None, "no"

    def region(self):
        """Its two ends, the lesser one first; there is a mark."""
        return sorted((self.mark, self.place))

    def is_selection(self):
        """Whether letters are selected."""
        return self.soft != "no" and self.mark != self.place

    def typed(self, keys):
        """Notes the bytes of a key that was obeyed, and the text then."""
        self.told = ""
        self.keys += keys
        self.ends[len(self.keys)] = self.text

    def answer_by(self, letter, is_paste):
        """What a letter does in a question. A paste answers none, but goes into the answer."""
        if self.ask == "name":
            if not is_paste:
                self.answer_by_name(letter)
        elif letter == "\n" and is_paste:
            self.typing = "spent"
        elif letter == "\n":
            self.answer_by_line_end()
        elif self.ask == "line":
            if letter in "0123456789:,":
                self.type_in_line(letter)
        elif KEYS.get(letter, letter) in "0123456789abcdefABCDEF":
            self.type_in_line(KEYS.get(letter, letter))

    def answer_by_name(self, letter):
        letter = KEYS.get(letter, letter)
        if letter in NAMED:
            self.ask = None
            self.put_named(letter)
        elif letter in "u+":
            self.ask, self.spot = "code", 0
        elif letter == "\n":
            self.ask = None

    def answer_by_line_end(self):
        asked, self.ask = self.ask, None
        self.go() if asked == "line" else self.put_code()

    def go(self):
        """Goes to the line and letter of the answer, both from 1; numbers that are too large are the last."""
        if not re.search("[0-9]", self.answer):
            return
        line, letter = (re.split("[:,]", self.answer) + [""])[:2]
        lines = self.text.split("\n")
        number = min(max(int(line), 1), len(lines)) - 1 if line else self.text.count("\n", 0, self.place)
        column = min(max(int(letter or 1), 1) - 1, len(lines[number]))
        self.place = sum(len(line) + 1 for line in lines[:number]) + column

    def put_named(self, letter):
        """Puts a character in, or two round the region, as edits of one undo group; no selection gives way."""
        if letter not in CLOSERS or self.mark in (None, self.place):
            self.put_character(NAMED[letter])
            return
        start, end = self.region()
        if "\n" in self.text[start:end]:
            return
        place = start + 1 if self.place == start else end + 1
        self.edit(self.text[:end] + CLOSERS[letter] + self.text[end:], end + 1)
        self.edit(self.text[:start] + NAMED[letter] + self.text[start:], place, True)

    def put_code(self):
        """Puts in the character of the answer, unless it is none: nothing typed, a surrogate or beyond Unicode."""
        code = int(self.answer or "110000", 16)
        if code < 0xd800 or 0xdfff < code < 0x110000:
            self.put_character(chr(code))

    def put_character(self, character):
        """Puts a character in, as an edit that begins an undo group; a selection stays in the text."""
        self.edit(self.text[:self.place] + character + self.text[self.place:], self.place + 1)
        self.typing = kind_of(character)

    def answers(self, name):
        """Whether a question takes a key. Any other key but a repaint ends it first."""
        if name in ("copy", "cancel"):
            self.ask = None
        elif name == "erase" and self.ask == "code" and not self.answer:
            self.ask = "name"
        elif not (name == "repaint" or name in ("erase", "delete") and self.ask == "name" or self.is_of_line(name)):
            self.ask = None
            return False
        return True

    def word_ends(self, text, place):
        """Where the words before and after a place begin, in an input line."""
        return word_before(text, place), word_behind(text, place)

    def put_in_line(self):
        """Types what is held up to its first line end or tab in the input line."""
        for letter in re.split("[\n\t]", self.held)[0]:
            self.answer_by(letter, False) if self.ask else self.seek_by(letter, False)

    def taken(self):
        """What Copy and Cut take: the region, else the line."""
        if self.mark is not None and self.mark != self.place:
            return self.region()
        return self.text.rfind("\n", 0, self.place) + 1, self.text.find("\n", self.place) + 1 or len(self.text)

    def erase(self, name, was):
        """A selection is all that a key removes; letters removed one after another are of one undo group."""
        at = self.place
        start, end = {"erase": (at - 1, at), "delete": (at, at + 1), "erase word": (word_before(self.text, at), at),
                      "delete word": (at, word_behind(self.text, at))}[name]
        if self.is_selection():
            self.remove(*self.region())
        elif 0 <= start < end <= len(self.text):
            typing = {"erase": "erasing", "delete": "deleting"}.get(name, "no")
            # goes on with the undo group where the key before did the same
            self.remove(start, end, typing == was != "no")
            self.typing = typing

    def step_run(self, from_steps, to_steps, side):
        """Takes edits back (`side` 0, the text before one) or makes them again (2, the text after it), up to an undo group's beginning."""
        while from_steps:
            step = from_steps.pop()
            to_steps.append(step)
            self.now(step[side], step[side + 1], len(self.past) != self.stored)
            if len(self.past) in self.groups:
                break

    def move(self, name):
        """Back, Forward, TextStart and TextEnd: a letter on, or to an end of the text. The mark of a selection is taken off."""
        self.unselect()
        end = len(self.text)
        self.place = {"back": max(0, self.place - 1), "forward": min(end, self.place + 1), "text start": 0, "text end": end}[name]

    def take(self, name):
        """Copy and Cut. Where there is nothing to take, what was held stays. A copied selection stays selected."""
        start, end = self.taken()
        if start < end:
            self.held, self.whole = self.text[start:end], self.mark in (None, self.place)
        if name == "cut" or self.soft == "no":
            self.mark, self.soft = None, "no"
        if name == "cut" and start < end:
            self.remove(start, end)

    def put(self):
        """Puts what is held at the place, but a whole line over the place's line, unless a selection gives way."""
        if not self.whole or self.is_selection():
            self.put_in(self.held)
            return
        start = self.text.rfind("\n", 0, self.place) + 1
        new = self.held
        if not new.endswith("\n") and self.text[start:start + 1] not in ("", "\n"):
            new += "\n"
        self.edit(self.text[:start] + new + self.text[start:], self.place + len(new))

    def begin_question(self, name):
        if name == "go to":
            self.unselect()
        self.ask, self.answer, self.spot = "line" if name == "go to" else "name", "", 0

    def select(self):
        """Select, which comes before a move with Shift: sets a mark, or has the one that it set stay for the next key."""
        if self.mark is None:
            self.mark, self.soft = self.place, "fresh"
        elif self.soft == "old":
            self.soft = "fresh"

    def apply(self, name, was):
        """What a key does. `was` is `typing` before it."""
        if self.search and self.takes(name) or self.ask and self.answers(name):
            return
        if name in ("erase", "delete", "erase word", "delete word"):
            self.erase(name, was)
        elif name in MOVES:
            self.move(name)
        elif name == "undo run":
            self.step_run(self.past, self.future, 0)
        elif name == "redo run":
            self.step_run(self.future, self.past, 2)
        elif name == "save":
            self.changed, self.stored = False, len(self.past)
        elif name in ("find", "find back", "replace"):
            self.begin_search("replace" if name == "replace" else "find")
        elif name == "find next":
            self.find_next()
        elif name == "select":
            self.select()
        elif name == "cancel":
            self.mark, self.soft = None, "no"
        elif name == "mark":
            self.mark, self.soft = None if self.mark == self.place else self.place, "no"
        elif name in ("copy", "cut"):
            self.take(name)
        elif name in ("go to", "name"):
            self.begin_question(name)
        elif name == "direction":
            self.direction = (self.direction + 1) % 3
        elif name == "put" and self.held:
            self.put()

    def key(self, name):
        """A key of BYTES. `was` is how the key before it could go on."""
        if name in ("paste start", "paste end"):
            self.typing = "paste" if name == "paste start" else "no"
        else:
            was, self.typing = self.typing, "no"
            self.apply(name, was)
            if name == "repaint":
                self.typing = was
            elif name != "select":
                self.age()
        self.typed(BYTES[name])

    def enter(self):
        self.insert("\n", b"\x1b[95~")

    def quit(self):
        """Gives a search or question up, else asks, since the text is changed."""
        if self.search:
            self.give_up()
        self.ask = None
        self.typing = "no"
        self.age()
        self.typed(b"\x11")

    def row(self):
        """The left side of the last row: * or - (changed or not), line and letter of the place from 1, and what is asked or told."""
        lines = self.text[:self.place].split("\n")
        row = "%s %d:%d" % ("*" if self.changed else "-", len(lines), len(lines[-1]) + 1)
        if self.search:
            return f"{row} {self.prompt()}".rstrip()
        prompt = {None: self.told, "line": "line: " + self.answer, "name": "insert: i I f isolate P end l r a mark n j joiner e E o O p u code", "code": "insert: U+" + self.answer}[self.ask]
        return f"{row} {prompt}".rstrip()

    def recovered(self):
        """The editor after its recovery, which ends a search or a question where it stands, and an undo group."""
        editor = copy.deepcopy(self)
        editor.search, editor.ask, editor.told, editor.typing, editor.keys = None, None, "", "no", b""
        editor.stored = None if editor.changed else len(editor.past)
        return editor
