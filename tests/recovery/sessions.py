"""Makes sessions for check-recovery.sh by the plain model of editor.py: sessions.py FOLDER COUNT SEED. Prints a case for each (tests/play).

The keys are random, and none of them depends on rows. After `keys1` the last row is `row`; `keys2` are more keys; `how` is a signal, its
target, and the seconds after `keys2`. When `keys1` are recovered, the last row is `back`, and the keys `more` make the text `made`, which
shows place, mark, selection, held text, undo history and its groups. The bytes `torn` begin a key; recovered with them, the letters `typed`
make the text `kept` and the last row `seen`. Each session has a folder in FOLDER for judge.py, with `keys1`, `keys2`, and `ends`: for each
count of bytes that ends a key the text then, in hexadecimal.
"""

import os
import random
import re
import sys

from editor import BYTES, CLOSERS, MOVES, NAMED, Editor

# each letter is a unit of its own in any context
LETTERS = "abcxyz ,.()0123456789" + "\u05d0\u05d1\u05d2\u05e9\u05dc\u05de\u05dd" + "\u0623\u0627\u0628\u062a\u0645"
# what `press` draws from: all keys once, and some once or twice more, so that they come more often
NAMES = [*BYTES, "select", "undo run", "redo run", "enter", "tab", "size", "quit", "named", "replaced", "replaced"]
# how keys1 end
ENDS = ["no search", "in a search", "a search given up", "a search that a save ended", "in a paste", "a selection", "between undo groups",
        "in a question", "a named character", "a region in an isolate", "behind Tell", "the replacement asked for", "a match shown",
        "matches replaced"]
# the method of each end that has one of its own
METHODS = {"in a paste": "begin_paste", "a selection": "make_selection", "between undo groups": "type_groups",
         "in a question": "ask_something", "a named character": "name_character", "a region in an isolate": "wrap_letters",
         "behind Tell": "tell_letter",
         "the replacement asked for": "ask_for_replacement", "a match shown": "show_some_match", "matches replaced": "replace_some"}
# the first bytes of a character or a sequence
TORN = [b"", b"\xd7", b"\xe2\x80", b"\x1b", b"\x1b[", b"\x1b[7", b"\x1b[8;24;"]
# the program ignores HUP under the host
WAYS = [(s, t) for t in ("host", "program", "both") for s in ("KILL", "HUP", "TERM") if (s, t) != ("HUP", "program")]


class Session(Editor):
    """An editor that random keys are typed into."""

    def insert(self, letter, byte=None):
        """A letter, but none that is on the key of a joiner's letter: a joiner is no unit of its own."""
        super().insert("x" if self.ask == "name" and letter in "\u05de\u062a" else letter, byte)

    def press(self):
        """A random key, or several that belong together: six of ten are letters."""
        name = random.choice(NAMES) if random.random() < 0.4 else "insert"
        if name == "insert":
            self.insert(random.choice(LETTERS))
        elif name == "enter":
            self.enter()
        elif name == "tab":
            self.insert("\t")
        elif name == "named":
            self.name_character()
        elif name == "replaced":
            self.replace_letters()
        elif name == "size":
            self.typed(b"\x1b[8;%d;%dt" % (random.randint(2, 30), random.randint(5, 90)))
        elif name == "quit":
            # a letter before it, so that Quit asks, and one after it, so that no later Quit ends the session
            self.insert(random.choice(LETTERS))
            self.quit()
            self.insert(random.choice(LETTERS))
        else:
            self.key(name)

    def replace_letters(self):
        """Asks for letters of the text, and for letters in their place, and replaces or passes over some of them."""
        start = random.randint(0, len(self.text))
        self.key("replace")
        for letter in self.text[start:start + random.randint(1, 2)]:
            self.insert(letter)
        self.enter()
        for letter in random.sample(LETTERS, random.randint(0, 2)):
            self.insert(letter)
        self.enter()
        for name in random.choices(["enter", "find", "replace", "erase", "find back", "cancel"], [6, 4, 2, 1, 1, 1], k=random.randint(1, 4)):
            self.enter() if name == "enter" else self.key(name)

    def search_ahead(self, name="find"):
        """Searches for letters of one direction that stand after the place, so that no message comes."""
        words = "[a-z]+|[\u05d0-\u05ea]+|[\u0623-\u064a]+"
        if not re.search(words, self.text[self.place:]):
            self.key("text start")
        word = random.choice(re.findall(words, self.text[self.place:]))
        self.key(name)
        for letter in word[:random.randint(1, 3)]:
            self.insert(letter)

    def end_by(self, end):
        """Ends the first keys, with the size of the tmux window, and with a letter, which removes a message."""
        if self.search or self.ask:
            self.key("cancel")
        self.typed(b"\x1b[8;24;80t")
        self.insert("q")
        if end == "no search":
            return
        if end in METHODS:
            getattr(self, METHODS[end])()
            return
        self.search_ahead()
        if end == "in a search":
            return
        if end == "a search given up":
            self.quit()
        else:
            self.key("save")
        self.insert(random.choice(LETTERS))

    def key(self, name):
        """A key. A paste that begins is shown at its end, and is told until then beside the row of its beginning."""
        if name == "paste start" and not self.is_pasting():
            self.before_paste = self.row()
        super().key(name)

    def is_pasting(self):
        return self.typing in ("paste", "pasting", "spent")

    def shown_row(self):
        return f"{self.before_paste} pasting" if self.is_pasting() else self.row()

    def begin_paste(self):
        self.key("paste start")
        for _ in range(random.randint(0, 20)):
            self.insert(random.choice(LETTERS + "\n\t"))

    def make_selection(self):
        for _ in range(random.randint(1, 5)):
            self.key("select")
            self.key(random.choice(MOVES))

    def type_groups(self):
        """Types words, and takes some groups of them back, so that some are before the place in the history and some after it."""
        for letter in random.sample(LETTERS, 9) + [" ", "x"]:
            self.insert(letter)
        for _ in range(random.randint(0, 2)):
            self.key("undo run")
        if not self.changed:
            self.key("redo run")

    def ask_something(self):
        self.key(random.choice(["go to", "name"]))
        answers = ["", "3", "12", "2:5", "1,", ":4"] if self.ask == "line" else ["", "u", "u5d", "+05D0"]
        for letter in random.choice(answers):
            self.insert(letter)

    def name_character(self):
        """Puts a character in by its letter or by its code."""
        self.key("name")
        if random.random() < 0.6:
            self.insert(random.choice([*NAMED]))
            return
        for letter in "u" + format(ord(random.choice(LETTERS)), random.choice(["x", "X", "06x"])):
            self.insert(letter)
        self.enter()

    def wrap_letters(self):
        """Types letters, selects the last ones by a mark, and puts a pair around them by its closer's letter."""
        for letter in random.sample(LETTERS, 4):
            self.insert(letter)
        self.key("mark")
        for _ in range(random.randint(1, 4)):
            self.key("back")
        self.key("name")
        self.insert(random.choice([*CLOSERS]))

    def ask_for_replacement(self):
        """Asks for letters that stand after the place, and then for those that are to take their place."""
        self.search_ahead("replace")
        self.enter()
        for letter in random.choice(["b", "xy", "\u05d0\u05e9\u05dd", "\u0628\u0623"]):
            self.insert(letter)

    def show_some_match(self):
        self.ask_for_replacement()
        self.enter()

    def replace_some(self):
        """Replaces a match, or all after it too. Where none is left, the number of them is told."""
        self.show_some_match()
        if random.random() < 0.5:
            self.enter()
        else:
            self.key("replace")
        self.told = "" if self.search else f"{self.count} replaced"

    def tell_letter(self):
        """Tells a letter that is a line of its own, whose level goes by its class and the direction."""
        self.key("text end")
        self.enter()
        letter = random.choice("ax\u05d0\u05e9\u0627\u0628")
        self.insert(letter)
        self.key("back")
        self.key("tell")
        latin = "L level 2" if self.direction == 2 else "L level 0"
        self.told = "U+%04X %s" % (ord(letter), latin if letter < "\u05d0" else "R level 1" if letter < "\u0600" else "AL level 1")


def files_of(number):
    """The files of a session."""
    # two LF, so that lines end more often than any letter occurs
    session = Session("".join(random.choice(LETTERS + "\n\n") for _ in range(random.randint(0, 120))))
    files = {"file": session.text}
    for _ in range(random.randint(1, 60)):
        session.press()
    # each end with each way
    end = ENDS[number // len(WAYS) % len(ENDS)]
    session.end_by(end)
    # keys1 are up to here
    cut = len(session.keys)
    files["torn"] = random.choice(TORN)
    recovered = session.recovered()
    for letter in random.sample(LETTERS.replace(" ", ""), 3):
        recovered.insert(letter)
    files["typed"], files["kept"], files["seen"] = recovered.keys, recovered.text, recovered.row()
    recovered = session.recovered()
    files["row"], files["back"] = session.shown_row(), recovered.row()
    for name in random.choice([("insert", "put"), ("cut", "insert"), ("undo run", "insert"), ("insert", "undo run", "undo run"),
                               ("redo run", "insert")]):
        if name == "insert":
            recovered.insert("z")
        else:
            recovered.key(name)
    files["more"], files["made"] = recovered.keys, recovered.text
    # a session that is in a search mostly ends there
    for _ in range(random.choice([0, random.randint(1, 60)] if end == "no search" else [0, 0, 0, random.randint(1, 60)])):
        session.press()
    files["keys1"], files["keys2"] = session.keys[:cut], session.keys[cut:]
    files["ends"] = "".join(f"{n} {text.encode().hex()}\n" for n, text in session.ends.items())
    files["how"] = *WAYS[number % len(WAYS)], random.random() * 0.2
    return files


def quoted(data):
    """Bytes or a text as a case has them. Keys are as the journal has them: what terminals send for back and forward are other bytes."""
    if isinstance(data, bytes):
        data = data.replace(b"\x02", b"\x1b[1;3D").replace(b"\x06", b"\x1b[1;3C")
    data = data if isinstance(data, bytes) else data.encode()
    return '"' + "".join(chr(byte) if 32 <= byte < 127 and byte not in b'"\\' else f"\\x{byte:02x}" for byte in data) + '"'


def row_of(text):
    """A row of a picture, in which some signs have a backslash."""
    return re.sub(r"([|<>\\])", r"\\\1", text)


# Steps of a case: a session that is killed and judged, and one that goes on, or is killed once more.
KILLED = """
case {name}: {signal} to {target}
file text {file}
start bidi-edit --no-joining text -> see "- 1:1"
type {keys1} -> row last {row}
{wait}type {keys2}
rest {rest:.3f}
kill {target} by {signal}
ends
| ...
$ python3 -B "$TOP/tests/recovery/judge.py" {folder}
"""
RESUMED = """start bidi-edit --no-joining text -> see "[l]ater?"
type "recover" Enter -> row last {back} recovered
"""
GOES_ON = RESUMED + """type {more} ^S ^Q
ends 0
| ...
text is {made}
sessions 0
"""
AGAIN = """$ printf '%b' '{torn_escapes}' >>"$SESSION/journal"
""" + RESUMED + """type {typed} -> row last {seen}
kill both
ends
| ...
$ bidi-edit --recover --to again text
again is {kept}
"""


def case_of(number, folder, files):
    """A session as a case. Every fifth that may goes on, and is saved; two of five are killed again."""
    signal, target, rest = files["how"]
    words = {name: quoted(data) for name, data in files.items() if name not in ("how", "row", "back", "seen")}
    words.update({name: row_of(files[name]) for name in ("row", "back", "seen")})
    words["torn_escapes"] = "".join(f"\\0{byte:03o}" for byte in files["torn"])
    # the letters of a paste are shown at its end
    words["wait"] = f'$ python3 -B "$TOP/tests/recovery/judge.py" {folder} kept\n' if files["row"].endswith(" pasting") else ""
    steps = KILLED
    if not files["keys2"]:
        steps += GOES_ON if number % 5 == 0 else AGAIN if number % 5 in (1, 3) else ""
    return steps.format(name=f"{number:04}", signal=signal, target=target, rest=rest, folder=folder, **words)


def main():
    top, count, seed = sys.argv[1], int(sys.argv[2]), int(sys.argv[3])
    random.seed(seed)
    for number in range(count):
        folder, files = os.path.join(top, f"{number:04}"), files_of(number)
        os.makedirs(folder)
        for name in ("keys1", "keys2", "ends"):
            with open(os.path.join(folder, name), "wb") as file:
                file.write(files[name] if isinstance(files[name], bytes) else files[name].encode())
        print(case_of(number, folder, files))


main()
