"""Compares printed rows of joined letters with other sources, for check-joined-rows.sh: check_joined_rows.py PROGRAM DATA ROWS.

DATA is a folder with the tables that the program takes, as data/ is. ROWS is a file in the form that check-joined-rows.sh tells. It
writes a file into the working folder.
"""

import gzip, os, random, re, shutil, subprocess, sys, zipfile

program, data, rows = sys.argv[1:]
UNICODE = "/usr/share/unicode"
LINES, SEED = 5000, 1  # of random words
ARABIC, PERSIAN = "/usr/share/hunspell/ar.dic", "/usr/share/hunspell/fa.dic"
URDU = "/usr/lib/firefox-esr/browser/extensions/langpack-ur@firefox-esr.mozilla.org.xpi"
# the program's options for the tables, and the names of these
FILES = {"classes": "DerivedBidiClass", "brackets": "BidiBrackets", "mirroring": "BidiMirroring", "joining": "ArabicShaping", "characters": "UnicodeData"}
# a mark, as bidi_print prints it with --marks
MARK = re.compile(r"\[([eEoOpiIfP?~#])\]")
# vowel points; joiners that are put into words; a letter that joins on both sides
POINTS = "\u064b\u064c\u064d\u064e\u064f\u0650\u0651\u0652\u0670"
JOINERS = "\u200c\u200d\u200f"  # also the right-to-left mark, which is transparent
BEH = "\u0628"
# fribidi's ligatures in the order of their codes, an isolated and a final one of each: the final form of the alef
ALEFS = "\ufe82\ufe84\ufe88\ufe8e"
LIGATURE = re.compile(f"([\ufef5-\ufefc])([{POINTS}]*)")
passed = failed = skipped = 0


def skip(why):
    """Tells why a comparison is not made."""
    global skipped
    skipped += 1
    print(f"skipped: {why}")


def tell(name, alike, count):
    """Tells how many of `count` are alike. A comparison of none counts as failed."""
    global passed, failed
    passed += alike
    failed += count - alike or not count
    print(f"{name}: {alike} of {count} are alike")


def printed(lines, folder=data, *words):
    """The rows of bidi_print for lines that fit, without the blanks around them."""
    with open("text", "w", encoding="utf-8", newline="") as file:
        file.write("\n".join(lines))
    paths = []
    for word, name in FILES.items():
        path = f"{folder}/{name}.txt"
        paths.append(f"--{word}={path if os.path.exists(path) else f'{folder}/extracted/{name}.txt'}")
    run = subprocess.run([program, "--cols", "500", *words, *paths, "text"], capture_output=True, check=True)
    return [row.strip(" ") for row in run.stdout.decode().split("\n")]


def compare(name, lines, found, wanted):
    """Compares rows, and shows the first that differ."""
    if len(found) != len(lines):
        sys.exit(f"FAILS {name}: {len(found)} rows of {len(lines)} lines")
    different = [at for at in range(len(lines)) if found[at] != wanted[at]]
    for at in different[:10]:
        print(f"FAILS {name}, line {at + 1}:", *(f"\n    {' '.join(f'{ord(c):04X}' for c in text)}" for text in (lines[at], found[at], wanted[at])))
    tell(name, len(lines) - len(different), len(lines))


# ---- rows from an independent source


def text_of(codes):
    return "".join(chr(int(code, 16)) for code in codes.split())


def ordered(looks, levels):
    """The looks of a row's units from left to right, by rule L2."""
    units = list(zip(levels, looks))
    for level in range(max(levels, default=0), 0, -1):
        at = 0
        while at < len(units):
            end = at
            while end < len(units) and units[end][0] >= level:
                end += 1
            units[at:end] = reversed(units[at:end])
            at = max(end, at + 1)
    return "".join(look for _, look in units)


def check_rows():
    """Compares each row of ROWS with what bidi_print prints, and with what its units are shown as, set in order by their levels.

    The first lines of check-joined-rows.sh describe the fields of a line."""
    cases, ours = {}, []
    with (gzip.open if rows.endswith(".gz") else open)(rows, "rt", encoding="utf-8") as file:
        for line in file:
            if not line.startswith("#"):
                body, direction, _, levels, looks, row = line.rstrip("\n").split("\t")
                # a mark in brackets and the letter alone are taken for one
                wanted = MARK.sub(r"\1", text_of(row)).strip(" ")
                cases.setdefault(direction, []).append((text_of(body), wanted))
                by_levels = ordered([text_of(look) for look in looks.split(",")], [int(level) for level in levels.split()])
                ours.append((text_of(body), MARK.sub(r"\1", by_levels).strip(" "), wanted))
    compare("rows from elsewhere, by their levels", *zip(*ours))
    for direction, pairs in cases.items():
        bodies = [body for body, _ in pairs]
        found = [MARK.sub(r"\1", row) for row in printed(bodies, data, "--marks", "--direction", direction)]
        compare(f"rows from elsewhere, {direction}", bodies, found, [row for _, row in pairs])


# ---- Unicode's files


def lines_of(name):
    """The fields of the lines of a table."""
    with open(f"{data}/{name}.txt", encoding="utf-8") as file:
        return [line.split(";") for line in file.read().split("\n") if line and not line.startswith("#")]


def read_letters():
    """The joining type of each character with a line, and the characters that are its forms."""
    types = {chr(int(code, 16)): joining for code, _, joining, _ in lines_of("ArabicShaping")}
    forms = {}
    for fields in lines_of("UnicodeData"):
        tag, letter = fields[5].split()
        forms.setdefault(chr(int(letter, 16)), {})[tag] = chr(int(fields[0], 16))
    return types, forms


def check_tables():
    """Compares each letter alone, between two of itself, and before, after and between BEH, which joins on both sides."""
    letters = sorted(types.keys() | forms.keys())
    lines = [line for c in letters for line in (c, c + c + c, c + BEH, BEH + c, BEH + c + BEH)]
    compare("letters by data/ and by Unicode's files", lines, printed(lines), printed(lines, UNICODE))


# ---- fribidi


def words_of(text):
    """The words of Arabic letters and non-joiners in a text, without those that have a letter without a form."""
    formless = {c for c, joining in types.items() if joining in "RLD" and c not in forms}
    words = set(re.findall("[\u0620-\u064a\u066e-\u06d3\u06fa-\u06ff\u200c]{2,}", text))
    return sorted(word for word in words if not formless & set(word))


def read_words():
    """The words of each of the three packages."""
    lists = []
    for path in ARABIC, PERSIAN:
        with open(path, encoding="utf-8") as file:
            lists.append(words_of(file.read()))
    with zipfile.ZipFile(URDU) as pack:
        texts = [pack.read(name).decode("utf-8", "replace") for name in pack.namelist() if name.endswith((".ftl", ".properties"))]
    lists.append(words_of("\n".join(texts)))
    return lists


def changed(chance, word):
    """A word, now and then with points, or with a stroke or a joiner between two letters."""
    kind = chance.random()
    if kind < 0.1:
        return "".join(c + chance.choice(POINTS) for c in word)
    if kind < 0.2:
        at = chance.randrange(1, len(word))
        return word[:at] + chance.choice("\u0640" + JOINERS) + word[at:]
    return word


def random_lines(lists):
    """Yields lines of words, from one list after another. No line begins with a joiner or point."""
    chance = random.Random(SEED)
    others = "12 3.50 (note) the Latin word, ١٢٣ ۴۵ ! ؟ ، . [a] 7%".split()
    for number in range(LINES):
        words = lists[number % len(lists)]
        line = " ".join(
            chance.choice(others) if chance.random() < 0.1 else changed(chance, chance.choice(words)) for _ in range(chance.randrange(1, 13))
        )
        yield line.lstrip(JOINERS + POINTS)


def taken_apart(match):
    """The final form of an alef with its points, and the lam before it: initial of an isolated ligature, medial of a final one."""
    code = ord(match[1]) - 0xFEF5
    return ALEFS[code // 2] + match[2] + "\ufedf\ufee0"[code % 2]


def check_words(lists):
    """Compares lines of random words with fribidi's rows, once what differs by definition is made alike.

    What never occurred fails the check."""
    unjoined = {forms[c]["<isolated>"]: c for c in forms if types.get(c, "U") == "U" and "<isolated>" in forms[c]}
    lines = list(random_lines(lists))
    text = "\n".join(lines)
    run = subprocess.run(["fribidi", "--nopad", "--nobreak", "--reordernsm", "--clean"], input=text.encode(), capture_output=True, check=True)
    theirs, ligatures = LIGATURE.subn(taken_apart, run.stdout.decode())
    ours = "\n".join(printed(lines))
    dropped = dict.fromkeys(JOINERS)
    counts = {
        "ligatures taken apart": ligatures,
        "letters of type U in their form": sum(c in unjoined for c in ours),
        "joiners dropped": sum(c in dropped for c in text),
        "letters in a form": sum("\ufb50" <= c <= "\ufeff" for c in ours),
    }
    ours = ours.translate(str.maketrans(unjoined | dropped))
    compare("lines beside fribidi", lines, ours.split("\n"), [row.strip(" ") for row in theirs.rstrip("\n").split("\n")])
    for name, count in counts.items():
        print(f"    {name}: {count}")
        if not count:
            sys.exit(f"FAILS there are no {name}")


types, forms = read_letters()
check_rows()
if os.path.exists(f"{UNICODE}/UnicodeData.txt"):
    check_tables()
else:
    skip("Unicode's files are not there (apt-get install unicode-data)")
missing = [path for path in (ARABIC, PERSIAN, URDU) if not os.path.exists(path)]
if not shutil.which("fribidi"):
    skip("fribidi is not there (apt-get install libfribidi-bin)")
elif missing:
    skip(f"{' '.join(missing)} not there (apt-get install hunspell-ar myspell-fa firefox-esr-l10n-ur)")
else:
    check_words(read_words())
print(f"{passed} passed, {failed} failed, {skipped} skipped")
sys.exit(failed > 0)
