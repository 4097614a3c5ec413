#!/usr/bin/python3 -SI
"""A program for tests of sessions, in place of bidi_edit: a text to whose front letters are typed.

It shows `text <TEXT> MODIFIED NOTICE`. Letters go in front of the text, in the order in which they are typed. Ctrl-S (13) saves, Ctrl-W
(17) over a change by another program, Ctrl-O (0F) under the name that is typed behind it up to Enter. Ctrl-Q (11) ends, and drops what is
not saved. It refuses a text that is not UTF-8. The variable TYPIST has words for odd ways: replay-dies,
replay-hangs, replay-refused (of --to), lost (the journal counts as lost), late (it ends a second after its last word, by a fault)."""
import os, signal, sys, time

QUIT, SAVE, OVER, AS, ENTER = 0x11, 0x13, 0x17, 0x0f, 0x0d
WAYS = set(os.environ.get('TYPIST', '').split(','))
SWITCHES = {'--frames', '--new', '--unsaved', '--clipboard', '--view', '--indent'}


def put(file, bytes_):
    while bytes_:
        bytes_ = bytes_[os.write(file, bytes_):]


def frame(letter, text=b''):
    return letter + len(text).to_bytes(2, 'big') + text


def say(letter, text=b''):
    put(2, frame(letter, text))


def get(file, length):
    """Exactly this many bytes of a file; None at its end."""
    got = b''
    while len(got) < length:
        more = os.read(file, length - len(got))
        if not more:
            return None
        got += more
    return got


def hear(file):
    head = get(file, 3)
    body = get(file, int.from_bytes(head[1:], 'big')) if head else None
    return None if body is None else (head[:1], body)


def options():
    """The words of the command line by their names, FILE under `FILE`."""
    found, words = {}, sys.argv[1:]
    while words:
        word = words.pop(0)
        if word in SWITCHES:
            found[word] = True
        elif word.startswith('--') and words:
            found[word] = words.pop(0)
        else:
            found['FILE'] = word
    return found


def bytes_at(path):
    with open(path, 'rb') as file:
        return file.read()


class Text:
    """The text as it was opened, with letters in front, and the texts that were opened or saved."""

    def __init__(self, opened, is_unsaved):
        self.opened, self.typed, self.known = opened, b'', [] if is_unsaved else [opened]
        self.saved = None if is_unsaved else opened

    def text(self):
        return self.typed + self.opened

    def take(self, keys):
        """Keys of a journal: escapes end in a letter or ~, as notices and sizes do."""
        at = 0
        while at < len(keys):
            if keys[at] == 0x1b:
                while at < len(keys) and not (keys[at:at + 1].isalpha() or keys[at] == ord('~')):
                    at += 1
            elif keys[at] == AS:
                self.known.append(self.text())
                at = keys.find(ENTER, at)
            elif keys[at] in (SAVE, OVER):
                self.known.append(self.text())
            elif keys[at] >= 32:
                self.typed += keys[at:at + 1]
            at += 1


def text_of(given):
    """The text that is opened. One that is not UTF-8 is a fault, as in the program."""
    text = bytes_at(given['--text']) if '--text' in given else b''
    try:
        text.decode()
    except UnicodeDecodeError as fault:
        say(b'f', b'not-utf8 %d' % (text[:fault.start].count(b'\n') + 1))
        sys.exit(1)
    return Text(text, '--unsaved' in given)


def replay(given):
    """Stores the text after a journal's keys, and says what FILE has."""
    while 'replay-hangs' in WAYS:
        signal.pause()
    if 'replay-dies' in WAYS:
        os.kill(os.getpid(), signal.SIGKILL)
    if 'replay-refused' in WAYS:
        say(b'f', b'unreadable')
        sys.exit(1)
    text, keys = text_of(given), bytes_at(given['--replay'])
    text.take(keys)
    with open(given['--to'], 'wb') as file:
        file.write(text.text())
    against = bytes_at(given['--against']) if '--against' in given else None
    is_known = against is None or against in text.known
    word = b'same' if against == text.text() else b'known' if is_known else b'foreign'
    say(b'r', word + b' %d' % sum(key >= 32 for key in keys))


def save(given, text, begin=b''):
    """Saves by the host, as the program does. Returns what is told."""
    requests, answers = given['--saves'].split(',')
    to, of = os.open(f'/proc/self/fd/{requests}', os.O_WRONLY), os.open(f'/proc/self/fd/{answers}', os.O_RDONLY)
    try:
        put(to, frame(b'B', begin))
        answer = hear(of)
        if answer and answer[0] == b'k':
            for at in range(0, len(text), 65535):
                put(to, frame(b'P', text[at:at + 65535]))
            put(to, frame(b'C'))
            answer = hear(of)
        return b'saved' if answer == (b'k', b'') else b'failed' if answer is None else b'failed: %d' % answer[1][0]
    finally:
        os.close(to)
        os.close(of)


class Journal:
    """What is typed, and notices, before they are obeyed; what could not be written waits, and is tried again with the next."""

    def __init__(self, given):
        self.file = os.open(given['--journal'], os.O_WRONLY | os.O_APPEND) if '--journal' in given else None
        self.waiting, self.is_lost = b'', False

    def add(self, bytes_):
        """Appends bytes to the journal. What a full disk refuses waits, and the host is told once: lost, or kept again."""
        if self.file is None:
            return
        self.waiting += bytes_
        try:
            while self.waiting:
                self.waiting = self.waiting[os.write(self.file, self.waiting):]
        except OSError:
            if not self.is_lost:
                say(b'j', b'lost')
            self.is_lost = True
            return
        if self.is_lost and 'lost' not in WAYS:
            say(b'j', b'kept')
            self.is_lost = False


def end(text, given, word):
    """Ends as the program does, with this word. A saved text needs no journal."""
    if word == b'saved' and '--journal' in given:
        os.truncate(given['--journal'], 0)
    say(b'e', word)
    if 'late' in WAYS:
        time.sleep(1)
        os.kill(os.getpid(), signal.SIGSEGV)
    sys.exit(1 if word == b'unsaved' else 0)


def main():
    given = options()
    if '--to' in given:
        replay(given)
        return
    text, told, name = text_of(given), b'', None
    with open(given['FILE'] + '.words', 'w') as words:
        words.write('\n'.join(sys.argv[1:]))
    if '--replay' in given:
        text.take(bytes_at(given['--replay']))
    say(b'o')
    put(1, given.get('--before', '').encode())
    journal = Journal(given)
    if 'lost' in WAYS:
        say(b'j', b'lost')
    while True:
        is_saved = text.text() == text.saved
        put(1, b'\x1b[H\x1b[2Jtext <%s> %s %s\r\n' % (text.text()[:200].replace(b'\n', b'|'), b'-' if is_saved else b'*', told))
        got = hear(0)
        if got is None:
            end(text, given, b'saved' if is_saved else b'unsaved')
        letter, body = got
        if letter == b'n':
            journal.add(b'\x1b[>%d~' % body[0])
            told = told + b' notice %d' % body[0] if body[0] else told
        if letter != b'b':
            continue
        for key in body:
            journal.add(bytes([key]))
            if name is not None and key != ENTER:
                name.append(key)
                continue
            if key == AS:
                name = bytearray()
                continue
            if key == QUIT:
                end(text, given, b'saved' if text.text() == text.saved else b'dropped')
            if key in (SAVE, OVER, ENTER):
                told = save(given, text.text(), b'n' + name if name is not None else b'o' if key == OVER else b'')
                if told == b'saved':
                    text.saved = text.text()
                    text.known.append(text.saved)
                name = None
            text.take(bytes([key]))


main()
