"""Recovers the session of the file `text` in this folder to `recovered`, and judges its text: judge.py SESSION, with a folder of sessions.py.
judge.py SESSION kept waits until the journal has keys1, of which a paste shows nothing before its end.

The journal must be a beginning of the keys that includes keys1, and the text must be the one after its last key. It may also have what
the user did not type: the host's notices, the key Fill behind a size, and a size that is told once more after the user waited long.
Without a journal all was saved, and FILE has the text after some key past keys1. The exit status is 0, or a message says what is wrong.
"""

import glob, os, re, subprocess, sys, time

UNTYPED = re.compile(rb"\x1b\[>[0-9]~|\x1b\[102~|\x1b\[8;[0-9]+;[0-9]+t")


def read(*path):
    with open(os.path.join(*path), "rb") as file:
        return file.read()


def typed(kept, keys):
    """What of a journal was typed, where these keys were."""
    found, at = b"", 0
    while at < len(kept):
        untyped = UNTYPED.match(kept, at)
        is_typed = not untyped or keys.startswith(untyped.group(), len(found))
        end = at + 1 if is_typed else untyped.end()
        found += kept[at:end] if is_typed else b""
        at = end
    return found


session = sys.argv[1]
first, second = read(session, "keys1"), read(session, "keys2")
# for each number of bytes that ends a key, the text then
ends = {int(n): bytes.fromhex(t) for n, t in (line.split(" ") for line in read(session, "ends").decode().splitlines())}


def journals():
    """The journals that have bytes, of which there is at most one."""
    return [path for path in glob.glob(os.path.expanduser("~/.local/state/bidi_edit/[0-9]*/journal")) if read(path)]


if sys.argv[2:]:
    end = time.monotonic() + 60
    while not any(typed(read(path), first).startswith(first) for path in journals()):
        if time.monotonic() > end:
            sys.exit("the journal has not what was typed")
        time.sleep(0.02)
    sys.exit(0)
if not journals():
    sys.exit(0 if read("text") in [t for n, t in ends.items() if n >= len(first)] else "what was saved is no text of these keys")
kept = typed(read(journals()[0]), first + second)
subprocess.run(["bidi-edit", "--recover", "--to", "recovered", "text"], check=True, stdout=subprocess.DEVNULL)
if not (first + second).startswith(kept):
    sys.exit("the journal is no beginning of the keys: %r, %r" % (kept, first + second))
if len(kept) < len(first):
    sys.exit("the journal has %d of %d bytes whose keys were on the screen" % (len(kept), len(first)))
found, wanted = read("recovered"), ends[max(n for n in ends if n <= len(kept))]
sys.exit(0 if found == wanted else "the text is %r, and not %r" % (found.decode(), wanted.decode()))
