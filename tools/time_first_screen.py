"""Measures the time from a clone to the first screen, for time-first-screen.sh: time_first_screen.py REPOSITORY COMMIT FOLDER."""

import fcntl, os, pty, select, struct, subprocess, sys, termios, time

repository, commit, folder = sys.argv[1:]
# without blanks, over which the editor moves the cursor
TEXT = 'the-first-screen'
LIMIT = 60
environment = {'PATH': '/usr/bin:/bin', 'HOME': f'{folder}/home', 'TERM': 'xterm-256color', 'LANG': 'C.UTF-8'}


def clone():
    subprocess.run(['git', 'clone', '-q', '--no-checkout', repository, f'{folder}/clone'], check=True)
    subprocess.run(['git', '-C', f'{folder}/clone', 'checkout', '-q', commit], check=True)


def start():
    """Starts the editor on a terminal; returns its process and the terminal."""
    child, terminal = pty.fork()
    if child == 0:
        fcntl.ioctl(0, termios.TIOCSWINSZ, struct.pack('HHHH', 24, 80, 0, 0))
        os.chdir(f'{folder}/clone')
        os.execve('./bidi-edit', ['./bidi-edit', f'{folder}/note'], environment)
    return child, terminal


def read_until(terminal, is_enough):
    """Reads what is written to the terminal, until that is enough, the end or the limit, and returns it."""
    said, end = b'', time.monotonic() + LIMIT
    while not is_enough(said) and time.monotonic() < end:
        if select.select([terminal], [], [], 0.5)[0]:
            try:
                part = os.read(terminal, 65536)
            except OSError:
                break
            said += part
    return said


def open_and_quit():
    """Opens the file and quits; returns the seconds to the screen, and what was said if there was none."""
    begun = time.monotonic()
    child, terminal = start()
    said = read_until(terminal, lambda said: TEXT.encode() in said)
    seconds = time.monotonic() - begun
    is_shown = TEXT.encode() in said
    if is_shown:
        os.write(terminal, b'\x11')
        read_until(terminal, lambda said: False)
    # which hangs it up, if it still runs
    os.close(terminal)
    status = os.waitstatus_to_exitcode(os.waitpid(child, 0)[1])
    return seconds, status, None if is_shown else said.decode(errors='replace')


os.mkdir(f'{folder}/home')
with open(f'{folder}/note', 'w') as file:
    file.write(f'{TEXT}\n')
begun = time.monotonic()
clone()
cloned = time.monotonic() - begun
first, status, said = open_and_quit()
if said is not None:
    sys.exit(f'no screen within {LIMIT} seconds; status {status}:\n{said}')
second, again, said = open_and_quit()
print(f'git clone                {cloned:6.2f} s')
print(f'first start to screen    {first:6.2f} s (status {status} after Ctrl-Q)')
print(f'clone to first screen    {cloned + first:6.2f} s')
print(f'second start to screen   {second:6.2f} s (status {again})')
