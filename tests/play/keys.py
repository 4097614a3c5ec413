"""Keys by their names, as xterm sends them."""
import re

CURSOR = dict(Up='A', Down='B', Right='C', Left='D', Home='H', End='F', F1='P', F2='Q', F3='R', F4='S')
NUMBERED = dict(Insert=2, Delete=3, PageUp=5, PageDown=6, F5=15, F6=17, F7=18, F8=19, F9=20, F10=21, F11=23, F12=24)
PLAIN = dict(Enter=b'\r', Tab=b'\t', Escape=b'\x1b', Backspace=b'\x7f', Space=b' ')
MODIFIERS = dict(Shift=1, Alt=2, Ctrl=4)
KEYS = [*CURSOR, *NUMBERED, *PLAIN]


def bytes_of(name):
    """What a terminal sends for a key: `^S`, `F3`, `Shift-Down`, `Ctrl-Shift-Left`, `Alt-x`."""
    if re.fullmatch(r'\^[@A-Z\[\\\]^_?]', name):
        return b'\x7f' if name == '^?' else bytes([ord(name[1]) & 31])
    parts = re.split(r'(?<=[a-z0-9])-', name)
    key, modifier = parts[-1], 0
    for part in parts[:-1]:
        if part not in MODIFIERS:
            raise SyntaxError(f'there is no key {name}')
        modifier |= MODIFIERS[part]
    if key in CURSOR:
        if not modifier:
            return b'\x1bO' + CURSOR[key].encode() if key.startswith('F') else b'\x1b[' + CURSOR[key].encode()
        return f'\x1b[1;{modifier + 1}{CURSOR[key]}'.encode()
    if key in NUMBERED:
        return (f'\x1b[{NUMBERED[key]};{modifier + 1}~' if modifier else f'\x1b[{NUMBERED[key]}~').encode()
    if (key, modifier) == ('Backspace', 4):
        return b'\x08'
    if (key, modifier) == ('Tab', 1):
        return b'\x1b[Z'
    if key in PLAIN and modifier in (0, 2):
        return b'\x1b' * (modifier == 2) + PLAIN[key]
    if len(key) == 1 and modifier == 2:
        return b'\x1b' + key.encode()
    raise SyntaxError(f'there is no key {name}')
