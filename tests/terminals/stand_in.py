#!/usr/bin/python3 -SB
"""A program in the place of bidi_edit that shows what a terminal does with the mouse and with clips. It shows four rows, and appends
what the terminal sends to the file BX_RECORD, but for two bytes: at 03 (Ctrl-C) it asks the terminal to put the text of the file
BX_CLIP into the system's clipboard, and 11 in hexadecimal (Ctrl-Q) ends it. It speaks to the host in frames (host/frames.h)."""
import base64, os, sys

ROWS = 'abcdefghijklmnopqrstuvwxyz\r\nABCDEFGHIJKLMNOPQRSTUVWXYZ\r\n0123456789\r\nשלום עולם'


def put(file, text):
    while text:
        text = text[os.write(file, text):]


def get(length):
    """So many bytes; fewer where the input ends."""
    got = b''
    while len(got) < length and (more := os.read(0, length - len(got))):
        got += more
    return got


def clip():
    """The sequence that asks for that (OSC 52)."""
    with open(os.environ['BX_CLIP'], 'rb') as file:
        return b'\x1b]52;c;' + base64.b64encode(file.read()) + b'\x07'


words = sys.argv[1:]
before = words[words.index('--before') + 1].encode() if '--before' in words else b''
record = os.open(os.environ['BX_RECORD'], os.O_WRONLY | os.O_CREAT | os.O_TRUNC | os.O_APPEND, 0o666)
put(2, b'o\0\0')
# the last row is how the check sees that all is shown
put(1, before + b'\x1b[H\x1b[2J' + ROWS.encode() + b'\x1b[10;1H- 1:1\x1b[1;1H')
while len(head := get(3)) == 3:
    frame = get(int.from_bytes(head[1:], 'big'))
    if head[:1] == b'b':
        put(record, frame.replace(b'\x11', b'').replace(b'\x03', b''))
        if b'\x03' in frame:
            put(1, clip())
        if frame.endswith(b'\x11'):
            break
put(2, b'e\0\5saved')
