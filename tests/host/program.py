#!/usr/bin/python3 -SI
"""A program for tests, in place of bidi_edit: speaks frames with the host (host/frames.h), paints, and keeps what is typed.

It shows `hello <LETTERS> COUNT`, the last letters and the number of all, and in the second row the size. Ctrl-S (13) saves the letters,
Ctrl-Q (11) ends it. The variable STAND_IN has words for odd ways, separated by commas:

before OPENED: refused (a fault of the text), unreadable, stalled (waits for ever), foreign (a line that is no word, and the end)
after it: flood (writes without end, reads nothing), deaf (reads nothing, and does not end), broken (ends by a fault), ends (ends
    at once), mixed (other text between words), mute (says no END)
while it runs: chatty (the journal is lost and kept again at each key), slow (a tenth of a second for each key), saves (a save at
    each key), large (a save of the letters again and again, up to 16 MB), rests (a while in the midst of a save), holds (in the midst of a
    save until there is a file `go`), notes (each
    frame is noted in FILE.frames, a line a frame: its letter and its bytes in hexadecimal, x for the end of the input), words (its words
    are noted in FILE.words), keeps (does not end at the end of its input), fails (at Ctrl-Q its output fails, with status 7)

With --replay and --to it stores the text of --text with the letters of the journal, and says `known` and their number."""
import os, signal, sys, time

QUIT, SAVE = 0x11, 0x13
LARGEST = 16777216  # bytes of a text
WAYS = set(os.environ.get('STAND_IN', '').split(','))
# What the host says without a value of its own.
SWITCHES = {'--frames', '--new', '--unsaved', '--clipboard', '--view', '--indent'}


def put(file, bytes_):
    """Writes all."""
    while bytes_:
        bytes_ = bytes_[os.write(file, bytes_):]


def say(letter, text=b''):
    """A word to the host."""
    put(2, letter + len(text).to_bytes(2, 'big') + text)


def get(file, length):
    """So many bytes; None where they end before."""
    got = b''
    while len(got) < length:
        more = os.read(file, length - len(got))
        if not more:
            return None
        got += more
    return got


def hear(file):
    """The next frame: its letter and its bytes; None at the end."""
    head = get(file, 3)
    if head is None:
        return None
    body = get(file, int.from_bytes(head[1:], 'big'))
    return None if body is None else (head[:1], body)


def options():
    """The words of the command line, by option; FILE has the name FILE."""
    found, words = {}, sys.argv[1:]
    while words:
        word = words.pop(0)
        if word in SWITCHES:
            found[word] = True
        elif word.startswith('--') and words:
            found[word] = words.pop(0)
        else:
            found['FILE'] = word
    return found


class Saves:
    """Saves over two pipes: the host gives their numbers, or without /proc their paths."""

    def __init__(self, pipes):
        requests, answers = (f'/proc/self/fd/{pipe}' if pipe.isdigit() else pipe for pipe in pipes.split(','))
        self.to = os.open(requests, os.O_WRONLY)
        self.answers = os.open(answers, os.O_RDONLY)

    def ask(self, letter, text=b'', is_answered=True):
        """Asks, and gives the answer: 0 for done, else the cause."""
        put(self.to, letter + len(text).to_bytes(2, 'big') + text)
        if not is_answered:
            return 0
        answer = hear(self.answers)
        if answer is None:
            return -1
        return 0 if answer[0] == b'k' else answer[1][0]

    def save(self, text):
        """Saves by the host, in pieces. Returns 0, or the cause of the failure."""
        cause = self.ask(b'B')
        if cause:
            return cause
        for at in range(0, len(text), 65535):
            self.ask(b'P', text[at:at + 65535], False)
            if 'rests' in WAYS and at == 65535 * 9:
                time.sleep(0.6)
            while 'holds' in WAYS and at == 65535 * 9 and not os.path.exists('go'):
                time.sleep(0.01)
        return self.ask(b'C')


def keep(journal, key):
    """Appends a key to the journal, if there is one."""
    try:
        if journal is not None:
            put(journal, key)
    except OSError:
        say(b'j', b'lost')
    if 'chatty' in WAYS:
        say(b'j', b'lost')
        say(b'j', b'kept')


def replay(given):
    """Stores a text with the letters of a journal, and says how many keys that were."""
    text = open(given['--text'], 'rb').read() if '--text' in given else b''
    keys = bytes(key for key in open(given['--replay'], 'rb').read() if key >= 32)
    if '--to' in given:
        with open(given['--to'], 'wb') as file:
            file.write(text + keys)
    say(b'r', b'known %d' % len(keys))


def begin(given):
    """What comes before the first painting."""
    if 'refused' in WAYS:
        say(b'f', b'not-utf8 3')
        sys.exit(1)
    if 'unreadable' in WAYS:
        say(b'f', b'unreadable')
        sys.exit(1)
    if 'foreign' in WAYS:
        put(2, b'an odd \x1b line\n')
        sys.exit(1)
    while 'stalled' in WAYS:
        signal.pause()
    say(b'o')
    put(1, given.get('--before', '').encode())
    if 'broken' in WAYS:
        os.kill(os.getpid(), signal.SIGSEGV)
    if 'mixed' in WAYS:
        put(2, b'thread main panicked\n')
        say(b'j', b'kept')
        put(2, b'e\tr\x07')
    if 'ends' in WAYS:
        end(b'saved')
    while 'flood' in WAYS:
        put(1, b'flood ' * 100)
    while 'deaf' in WAYS:
        signal.pause()


def end(word):
    if 'mute' not in WAYS:
        say(b'e', word)
    sys.exit(0)


def main():
    given = options()
    if '--to' in given:
        replay(given)
        return
    rows, columns = int(given.get('--rows', 24)), int(given.get('--cols', 80))
    if 'words' in WAYS:
        with open(given['FILE'] + '.words', 'w') as words:
            words.write('\n'.join(sys.argv[1:]))
    typed, saved, told = b'', b'', b''
    begin(given)
    saves = Saves(given['--saves']) if '--saves' in given else None
    notes = os.open(given['FILE'] + '.frames', os.O_WRONLY | os.O_CREAT | os.O_APPEND, 0o666) if 'notes' in WAYS else None
    journal = os.open(given['--journal'], os.O_WRONLY | os.O_APPEND) if '--journal' in given else None
    while True:
        shown = b'\x1b[H\x1b[2Jhello <%s> %d %s\x1b[2;1H- %d x %d' % (typed[-60:], len(typed), told, rows, columns)
        try:
            put(1, shown)
        except OSError:  # the terminal is closed
            pass
        frame = hear(0)
        if frame is None:
            if notes is not None:
                put(notes, b'x\n')
            while 'keeps' in WAYS:
                signal.pause()
            end(b'saved' if typed == saved else b'unsaved')
        letter, body = frame
        if notes is not None:
            put(notes, letter + body.hex().encode() + b'\n')
        if letter == b'z':
            rows, columns = int.from_bytes(body[:2], 'big'), int.from_bytes(body[2:], 'big')
        if letter == b'n':
            told = b'notice %d' % body[0]
        if letter != b'b':
            continue
        for key in body:
            if 'slow' in WAYS:
                time.sleep(0.1)
            if key == QUIT and 'fails' in WAYS:
                say(b'e', b'output')
                sys.exit(7)
            if key == QUIT:
                end(b'saved' if typed == saved else b'dropped')
            if key == SAVE or 'saves' in WAYS:
                cause = saves.save((typed * (LARGEST // len(typed) + 1))[:LARGEST] if 'large' in WAYS else typed)
                told = b'failed %d' % cause if cause else b'saved'
                saved = saved if cause else typed
            if key < 32:
                continue
            typed += bytes([key])
            keep(journal, bytes([key]))


main()
