#!/usr/bin/env python3
"""about.py FOLDER KEY WORDS: changes a fact of a session, with the right sum. about.py FOLDER FILE: reads a new content of its file `text`
or `journal` from standard input, as if the editor had written it. about.py --torn FOLDER FILE: leaves FILE and the session as a save of standard input into FILE does that is
killed.

The file `about` of a session's folder has lines of a key and words, and in the last one the sum of all. A sum is FNV-1a, in 64 bits."""
import os, sys


def sum_of(bytes_):
    number = 14695981039346656037
    for byte in bytes_:
        number = (number ^ byte) * 1099511628211 % 2**64
    return number


def facts(folder):
    """The words of each key."""
    with open(f'{folder}/about', 'rb') as file:
        lines = file.read().decode().splitlines()
    return dict(line.partition(' ')[::2] for line in lines)


def put_fact(folder, key, words):
    """Changes the words of a key, as the editor does: with the right sum. None takes the line away."""
    found = {**facts(folder), key: words}
    lines = ''.join(f'{name} {value}\n' for name, value in found.items() if name != 'sum' and value is not None)
    with open(f'{folder}/about', 'w') as file:
        file.write(f'{lines}sum {sum_of(lines.encode()):016x}\n')


def put_part(folder, name, bytes_):
    """Changes a file of the session, as if the editor had written it."""
    with open(f'{folder}/{name}', 'wb') as file:
        file.write(bytes_)
    if name in ('text', 'journal'):
        put_fact(folder, name, f'{len(bytes_)} {sum_of(bytes_):016x}')


def tear(folder, path, text):
    """Leaves a file with three bytes of a text, and the session with the whole and a note of the save."""
    put_part(folder, 'mark', text)
    with open(path, 'r+b') as file:
        file.write(text[:3])
        file.truncate()
    look = os.stat(path)
    with open('/proc/sys/kernel/random/boot_id', encoding='ascii') as boot:
        step = f'partly {look.st_dev} {look.st_ino} {look.st_mtime_ns // 10**9} {look.st_mtime_ns % 10**9} 0 9 {boot.read().strip()}\n'
    put_part(folder, 'mark.step', step.encode())


if __name__ == '__main__':
    if sys.argv[1] == '--torn':
        tear(sys.argv[2], sys.argv[3], sys.stdin.buffer.read())
    elif len(sys.argv) == 4:
        put_fact(*sys.argv[1:])
    else:
        put_part(sys.argv[1], sys.argv[2], sys.stdin.buffer.read())
