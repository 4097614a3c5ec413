"""Makes random edits in the editor and compares its paintings, for check-edits.sh: check_edits.py EDITOR TABLES EDITS SEED.

It writes files into the working folder.
"""

import random, re, shutil, subprocess, sys

editor, data, edits, seed = sys.argv[1], sys.argv[2], int(sys.argv[3]), int(sys.argv[4])
# named characters and replacements have generators of their own, so that the other choices of a seed do not depend on them
chance, name_chance, replace_chance = random.Random(seed), random.Random(seed), random.Random(seed)
# the program's options for the tables, and the names of these
FILES = {"classes": "DerivedBidiClass", "brackets": "BidiBrackets", "mirroring": "BidiMirroring", "joining": "ArabicShaping", "characters": "UnicodeData"}
TABLES = [f"--{word}={data}/{file}.txt" for word, file in FILES.items()]
PER_TEXT = 200  # edits of one text, in one run
# the beginning of a whole painting
WHOLE = b"\x1b[0m\x1b[2J"
# two Repaints: the first painting ends where the second begins
REPAINT = b"\x0c\x0c"
# auto, left to right, right to left, and auto again
DIRECTIONS = b"\x1b[9~" * 3
# for Undo and Redo of an edit: those, and the keys that undo and redo a run
STEPS = {b"\x1a": [b"\x1a", b"\x1b[82~"], b"\x19": [b"\x19", b"\x1b[83~"]}
# what the filter of keys puts before a move with Shift
SELECT = b"\x1b[81~"
# characters that begin or end an embedding or isolate, by their names: those that begin one are put round a selection
NAMED = [b"\x1b[86~" + name.encode() for name in "eEoOiIfpP"]
# F4, Escape and Delete, as the filter gives them
REPLACE, CANCEL, DELETE = b"\x1b[85~", b"\x1b[93~", b"\x1b[3~"
# arrows, a place on and back, Home, End and pages
MOVES = [b"\x1b[A", b"\x1b[B", b"\x1b[C", b"\x1b[D", b"\x06", b"\x02", b"\x1b[H", b"\x1b[F", b"\x1b[5~", b"\x1b[6~"]
HEBREW = "של אני הבית ספר ילדה הולכת לים בערב (ירושלים) מחיר שולחן כיסא".split()
ARABIC = "السلام عليكم كتاب بيت مدرسة في على كبير صغير يوم".split()
LATIN = "the house of a note: bread, milk (2 litres) and so on www.example.org".split()
NUMBERS = "12 3,5 17:30 100% $4 ١٢ ٣٤".split()
# letters of each direction, numbers and their separators, marks, blanks, brackets, joiners, wide and Indic characters: each in the
# list is as likely as another
KINDS = [0x61, 0x5A, 0x05D0, 0x05D1, 0x0627, 0x0628, 0x31, 0x38, 0x0661, 0x2B, 0x2D, 0x25, 0x24, 0x2C, 0x3A, 0x2E, 0x0301, 0x05B8,
    0x20, 0x20, 0x09, 0x28, 0x29, 0x5B, 0x5D, 0x3C, 0x3E, 0x21, 0x26, 0x200D, 0x200B, 0x4E2D, 0x1F600, 0x1F468, 0x0915, 0x094D]
# bidi controls, and the soft hyphen
CONTROLS = [0x202A, 0x202B, 0x202C, 0x202D, 0x202E, 0x2066, 0x2067, 0x2068, 0x2069, 0x200E, 0x200F, 0xAD]


# the kinds of words of a note
NOTES = [[HEBREW], [ARABIC], [HEBREW, LATIN, NUMBERS], [ARABIC, LATIN, NUMBERS], [LATIN], [HEBREW, ARABIC, LATIN, NUMBERS]]


def words(count, kinds=None):
    """A note of `count` characters, of words of these kinds."""
    kinds = kinds or chance.choice(NOTES)
    text = ""
    while len(text) < count:
        text += chance.choice(chance.choice(kinds)) + " "
    return text[:count]


def characters(count, controls):
    """A text of `count` characters; with `controls` a tenth of them are bidi controls and the like."""
    return "".join(chr(chance.choice(CONTROLS if controls and chance.random() < 0.1 else KINDS)) for _ in range(count))


def edit(is_note, kinds=None):
    """The bytes of an edit: mostly letters put in, else Backspace, Delete, Undo, Redo or Enter."""
    kind = chance.random()
    if kind < 0.6:
        return (words(1 + chance.randrange(9), kinds) if is_note else characters(1, chance.random() < 0.1)).encode()
    return b"\x7f" if kind < 0.75 else b"\x1b[3~" if kind < 0.85 else b"\x1a" if kind < 0.93 else b"\x19" if kind < 0.97 else b"\r"


def replacement(is_note):
    """Replaces a match, two, or all from the place on, if there are any, by nothing or by other letters."""
    query, other = replace_chance.choice([("ל", "הא"), ("י", ""), ("ال", "a"), ("e", "(א"), ("o ", " "), (" ", "1")])
    if not is_note:
        query = chr(replace_chance.choice(KINDS))
    ending = replace_chance.choice([b"\n", b"\n\n", REPLACE])
    return REPLACE + query.encode() + b"\n" + DELETE + other.encode() + b"\n" + ending + CANCEL


def check(count):
    """Makes `count` edits of one text. Returns what is wrong, or nothing."""
    is_note = chance.random() < 0.5
    size = chance.randrange(1, 2001)
    text = words(size) if is_note else characters(size, chance.random() < 0.3)
    rows, columns = chance.choice([(24, 80), (24, 80), (10, 20), (40, 7), (5, 132)])
    keys = b""
    for _ in range(count):
        for _ in range(chance.randrange(4)):
            keys += chance.choice(MOVES)
        selects = chance.random() < 0.1
        if selects:
            keys += SELECT + chance.choice(MOVES)
        change = edit(is_note)
        change = chance.choice(STEPS.get(change, [change]))
        if replace_chance.random() < 0.1:
            change = replacement(is_note)
        if selects and name_chance.random() < 0.3:
            change = name_chance.choice(NAMED)
        keys += change + REPAINT + DIRECTIONS + REPAINT
    with open("text", "wb") as file:
        file.write(text.encode())
    # Save, Quit, and Quit once more, in case the first only ends a search or a question
    run = subprocess.run([editor, f"--rows={rows}", f"--cols={columns}", *TABLES, "text"], input=keys + b"\x13\x11\x11", capture_output=True)
    if run.returncode != 0:
        return f"status {run.returncode}: {run.stderr[:200]!r}"
    pages = run.stdout.split(WHOLE)[2:]
    # after the opening: twice the followed layout and twice a new one for each edit, and a blank screen at the end
    if len(pages) != 4 * count + 1:
        return f"{len(pages)} paintings for {count} edits"
    for at in range(count):
        if pages[4 * at] != pages[4 * at + 2]:
            return f"the paintings after edit {at + 1} differ"
    return ""


# called once for each edit that a layout follows, and once if strong characters cut it off (docs/ARCHITECTURE.md, `cut_off.rt`)
FUNCTIONS = ["bx_paragraph::edited_rows::push_rest", "bx_levels::resolve::edited::follow_between"]


def count_ways(count, kinds):
    """Makes edits of a note of these kinds of words.

    Returns how many a layout followed, and how many of these strong characters cut off.
    """
    with open("text", "w") as file:
        file.write("\n".join(words(chance.randrange(40, 2001), kinds) for _ in range(20)))
    keys = b""
    for _ in range(count):
        for _ in range(chance.randrange(4)):
            keys += chance.choice(MOVES)
        keys += edit(True, kinds)
    with open("keys", "wb") as file:
        file.write(keys + b"\x11\x11")
    # gdb counts how often each function begins; the second Quit leaves the changed text
    words_of = " ".join(["--rows=24", "--cols=80", *TABLES])
    commands = ["set pagination off"] + [f"rbreak ^{name}" for name in FUNCTIONS] + ["ignore 1 1000000000", "ignore 2 1000000000"]
    commands += [f"run {words_of} text <keys >/dev/null", "info breakpoints"]
    with open("commands", "w") as file:
        file.write("\n".join(commands) + "\n")
    run = subprocess.run(["gdb", "-nx", "-q", "-batch", "-x", "commands", editor], stdin=subprocess.DEVNULL, capture_output=True, text=True)
    hits = [int(n) for n in re.findall(r"breakpoint already hit (\d+) times?", run.stdout)]
    return (hits[0], hits[1]) if len(hits) == 2 else (0, 0)


done = passed = failed = skipped = 0
while done < edits:
    count = min(PER_TEXT, edits - done)
    wrong = check(count)
    done += count
    passed += not wrong
    if wrong:
        failed += 1
        print(f"FAILS text {(done + PER_TEXT - 1) // PER_TEXT} of seed {seed}: {wrong}")
if shutil.which("gdb"):
    ways = [count_ways(2000 // len(NOTES), kinds) for kinds in NOTES]
    print("edits of notes that a layout followed, and of these those that strong characters cut off:", *(f"{one[0]} {one[1]}" for one in ways), sep=" | ")
    followed, cut_off = (sum(one[part] for one in ways) for part in (0, 1))
    is_few = not all(one[0] for one in ways) or 5 * cut_off < 4 * followed
    passed += not is_few
    if is_few:
        failed += 1
        print(f"FAILS {cut_off} of {followed} are cut off")
else:
    skipped = 1
    print("skipped: the count of edits that strong characters cut off, since there is no gdb")
print(f"{done} edits")
print(f"{passed} passed, {failed} failed, {skipped} skipped")
sys.exit(1 if failed else 0)
