"""Measures the cost of keys, for time-keys.sh, which says how: time_keys.py EDITOR TABLES [--windows] [TEXT [BYTES]].

It writes files into the working folder.
"""

import argparse, math, os, re, subprocess, sys

# The words that a paragraph repeats; the first five characters are typed.
TEXTS = {
    "hebrew": "שלום לכל הקוראים (ובהם גם the readers), והנה עוד 12 ספרים [books] אשר נקראו היום בבוקר, ועוד 7 אתמול בערב, ",
    "arabic": "كتاب آخر من الكتب (for the readers)، وهذا 12 من الكتب [books] التي قرأناها اليوم صباحا، و 7 أخرى أمس مساء، ",
    "ascii": "When the old man, who had 12 books (and no more), went to the sea, he came back [as he always did] after 3 days, ",
    "mixed": "שלום לכל the readers of this, והנה עוד 12 ספרים (books) אשר with a word נקראו היום, and then 7 others [not read], ",
}
# the keys that are measured, the runs of which the least counts, and the numbers of letters after which the memory is told
COUNT, RUNS, LETTERS = 200, 5, (0, 1, 200, 1000)
# rows and columns
WINDOWS = (24, 80), (60, 200), (100, 400), (500, 500)
DOWN, PAGE, HOME, END, FORWARD = b"\x1b[B", b"\x1b[6~", b"\x1b[H", b"\x1b[F", b"\x06"
ERASE, UNDO, REPAINT = b"\x7f", b"\x1a", b"\x0c"
QUIT = b"\x11\x11"  # twice, since the first one asks where the text is changed
WHOLE = b"\x1b[0m\x1b[2J"  # the beginning of a whole painting
# the program's options for the tables, and the names of these
FILES = {"classes": "DerivedBidiClass", "brackets": "BidiBrackets", "mirroring": "BidiMirroring", "joining": "ArabicShaping", "characters": "UnicodeData"}


def seconds(keys):
    """The processor time of a run with some keys."""
    with open("keys", "wb") as file:
        file.write(keys + QUIT)
    actions = [(os.POSIX_SPAWN_OPEN, 0, "keys", os.O_RDONLY, 0), (os.POSIX_SPAWN_OPEN, 1, os.devnull, os.O_WRONLY, 0)]
    _, status, used = os.wait4(os.posix_spawn(command[0], command, os.environ, file_actions=actions), 0)
    if status:
        sys.exit(f"FAILS a run ended with {os.waitstatus_to_exitcode(status)}")
    return used.ru_utime + used.ru_stime


def megabytes(keys):
    """The peak memory of a run after some keys, read before it ends: wait4 would include the parent's."""
    with subprocess.Popen(command, stdin=subprocess.PIPE, stdout=subprocess.PIPE, bufsize=0) as run:
        run.stdin.write(keys + REPAINT)
        seen = b""
        while seen.count(WHOLE) < 2:  # the first is the opening's
            seen += run.stdout.read(65536) or sys.exit("FAILS a run ended before Quit")
        with open(f"/proc/{run.pid}/status") as file:
            peak = next(int(line.split()[1]) for line in file if line.startswith("VmHWM:"))
        run.communicate(QUIT)
    return peak * 1024 / 1e6


def into_word(lead, period):
    """Moves on from where the keys `lead` end to after the second letter of the repeated words, which have `period` characters.

    Near a bracket, each letter would resolve the whole paragraph again.
    """
    shown = subprocess.run(command, input=lead + REPAINT + QUIT, capture_output=True).stdout
    letter = int(re.findall(rb"1:(\d+)", shown)[-1])  # from the last row, which counts from 1
    return lead + FORWARD * ((3 - letter) % period)


def leads(length, period):
    """The keys to each place (first rows, middle, end) of `length` characters, of which the first `period` are repeated.

    Rows have nearly 80 characters, and a page has 23 rows. So 23 * 77 characters are about a page, and 1500 are less than one, for
    more pages than there are.
    """
    return [into_word(DOWN * 3, period), into_word(PAGE * (length // (2 * 23 * 77)), period), PAGE * (length // 1500 + 2) + END]


def series(lead, word):
    """For each key that is measured, by its name: the keys before it (first `lead`, which go to a place), and COUNT of it.

    `word` is typed again and again.
    """
    letters = word.encode() * (COUNT // len(word))
    return {
        "a letter": (lead, letters),
        "its erasure": (lead + letters, ERASE * COUNT),
        "its undo": (lead + letters, UNDO * COUNT),
        "the undo of its erasure": (lead + letters + ERASE * COUNT, UNDO * COUNT),
        "End, Home": (lead, (END + HOME) * (COUNT // 2)),
    }


def least_seconds(series):
    """The least times of runs, by their keys: with the keys before alone, and with the measured ones too."""
    least = {run: math.inf for before, keys in series for run in (before, before + keys)}
    for _ in range(RUNS):
        for run in least:
            least[run] = min(least[run], seconds(run))
    return least


def print_windows(name):
    """Prints the row of a letter in a line, with a figure for each window."""
    times = []
    for rows, columns in WINDOWS:
        command[1:3] = f"--rows={rows}", f"--cols={columns}"
        before, keys = DOWN * (rows // 2), (TEXTS[name][:5] * COUNT)[:COUNT].encode()
        least = least_seconds([(before, keys)])
        times.append(least[before + keys] - least[before])
    print(f"| a letter | {name} | " + " | ".join(f"{1000 * time / COUNT:.2f}" for time in times) + " |", flush=True)


def print_times(name, places):
    """Prints a row for each key, with a figure for each place."""
    least = least_seconds([run for place in places for run in place.values()])
    for key in places[0]:
        times = [least[before + keys] - least[before] for before, keys in (place[key] for place in places)]
        print(f"| {key} | {name} | " + " | ".join(f"{1000 * time / COUNT:.2f}" for time in times) + " |", flush=True)


parser = argparse.ArgumentParser(prog="time-keys.sh")
parser.add_argument("--windows", action="store_true")
parser.add_argument("text", nargs="?", choices=list(TEXTS))
parser.add_argument("bytes", nargs="?", type=int, default=1_000_000)
words = parser.parse_args(sys.argv[3:])
command = [sys.argv[1], "--rows=24", "--cols=80", *(f"--{word}={sys.argv[2]}/{file}.txt" for word, file in FILES.items()), "text"]
memory = []
places = [f"{rows}x{columns}" for rows, columns in WINDOWS] if words.windows else ["first rows", "middle", "end"]
print("| Key, ms | Text | " + " | ".join(places) + " |\n|---|---|" + "---|" * len(places))
for name in [words.text] if words.text else TEXTS:
    # in windows each repetition is a line of its own, else all are one paragraph
    text = (TEXTS[name] + "\n" * words.windows) * (words.bytes // len(TEXTS[name].encode()) + 1)
    with open("text", "w", encoding="utf-8") as file:
        file.write(text)
    if words.windows:
        print_windows(name)
        continue
    print_times(name, [series(lead, text[:5]) for lead in leads(len(text), len(TEXTS[name]))])
    memory.append((name, [megabytes((text[:5] * count)[:count].encode()) for count in LETTERS]))
if memory:
    print("\n| Most memory, MB, after letters: | " + " | ".join(map(str, LETTERS)) + " |\n|---|" + "---|" * len(LETTERS))
    for name, peaks in memory:
        print(f"| {name} | " + " | ".join(f"{peak:.1f}" for peak in peaks) + " |")
