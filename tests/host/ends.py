"""Ends at random moments. After each no process is left, the terminal's settings are back, and where it takes
output the alternate screen, pastes, the mouse, reordering and the modes of Alt and of arrows are as before, with nothing after that."""
import os, random, re, signal, termios, time
from terminals import HANG, Run

QUIT, SAVE = b'\x11', b'\x13'
# What the host writes last: the title is given back, the alternate screen ends.
TAIL = b'\x1b[23;0t\x1b[?1049l'
STOP = 5  # seconds for a stop, after which the host is continued all the same: nothing depends on it

# Statuses are as waitpid gives them: a signal's number, or an exit status in the second byte.

# What ends the host, each by its signal. The last two kill it at once, and the watcher restores the terminal.
SIGNALS = {name: getattr(signal, 'SIG' + name.upper()) for name in (
    'hup', 'int', 'quit', 'usr1', 'usr2', 'alrm', 'xcpu', 'vtalrm', 'prof', 'io', 'pwr', 'abrt', 'sys')}
KINDS = ['term', 'term-job', 'kill', 'kill-job', 'kill-name', 'kill-program', 'kill-watcher', 'stop', 'closed', 'blocked', *SIGNALS]


def restored(output):
    """What is wrong with the terminal after this output."""
    wrong = []
    if b'\x1b[?1049h' not in output:
        return wrong
    behind = output.rpartition(TAIL)
    if not behind[1]:
        wrong.append('alternate screen')
    elif b'\x1b' in behind[2]:
        wrong.append(f'output behind the restoration: {behind[2][:60]!r}')
    pairs = [(b'\x1b[8l', b'\x1b[8h', 'reordering'), (b'\x1b[?1036s', b'\x1b[?1036r', 'Alt'), (b'\x1b[?1s', b'\x1b[?1r', 'arrows'),
             (b'\x1b[?1047h', TAIL, 'screen after a stop')]
    if b'\x1b[?2004h' in output:
        pairs += [(b'\x1b[?2004h', b'\x1b[?2004l', 'pastes'), (b'\x1b[?1002h', b'\x1b[?1002l', 'reports of the mouse'),
                  (b'\x1b[?1006h', b'\x1b[?1006l', 'their form'), (b'\x1b[>4;1m', b'\x1b[>4m', 'modified keys')]
    return wrong + [name for on, off, name in pairs if output.rfind(off) < output.rfind(on)]


def moment():
    """Seconds from the start until an end: mostly within the host's start, sometimes once it edits."""
    return random.choice((random.uniform(0, 0.012), random.uniform(0, 0.05), random.uniform(0.03, 0.3)))


def send(process, number):
    """Sends a signal to a process that may be gone."""
    try:
        os.kill(process, number)
    except ProcessLookupError:
        pass


def send_job(run, number):
    """Sends a signal to all processes of the job, or, where it is no group yet or any more, to its first."""
    try:
        os.killpg(run.job, number)
    except ProcessLookupError:
        send(run.job, number)


def wait_for_child(run, name):
    """The number of the job's child of this name, some time after it is there; 0 if it does not come."""
    end = time.perf_counter() + HANG
    while not (child := run.child(name)) and time.perf_counter() < end and run.status is None:
        run.rest(0.001)
    run.rest(random.choice((0, random.uniform(0, 0.05))))
    return child


def block(run):
    """Has the terminal take no output any more: nobody reads it, and each key paints until it is full, or it is stopped at once."""
    if random.random() < 0.5:
        termios.tcflow(run.slave, termios.TCOOFF)
    run.is_read = False
    if run.status is None:
        os.set_blocking(run.master, False)
        try:
            for _ in range(60):
                os.write(run.master, b'abc\x0c' * 8)
                time.sleep(0.002)
        except OSError:
            pass
        os.set_blocking(run.master, True)
    run.rest(random.uniform(0, 0.3))


def state(process):
    """The state of a process: T is stopped; empty where it is gone."""
    try:
        with open(f'/proc/{process}/stat', 'rb') as file:
            return file.read().rpartition(b')')[2].split()[0].decode()
    except OSError:
        return ''


def stop_and_go_on(run):
    """Stops the host or its job, by a signal that it cannot catch or one before which it restores the terminal, and has it go on, one
    to three times. Returns how much was written before it last went on."""
    for _ in range(random.randint(1, 3)):
        send_this = random.choice((lambda number: send_job(run, number), lambda number: send(run.job, number)))
        number = random.choice((signal.SIGSTOP, signal.SIGTSTP))
        send_this(number)
        run.rest(random.uniform(0, 0.03))
        end = time.perf_counter() + STOP
        while number == signal.SIGTSTP and state(run.job) != 'T' and time.perf_counter() < end:
            run.rest(0.001)
        if random.random() < 0.5:  # as a shell does
            termios.tcsetattr(run.slave, termios.TCSANOW, run.settings)
        seen = len(run.output)
        send_this(signal.SIGCONT)
        run.rest(random.uniform(0, 0.02))
    return seen


def is_painted(run, seen):
    """Whether the screen is painted since it was last begun, if that was after so much output."""
    begun = max(run.output.rfind(screen) for screen in (b'\x1b[?1047h', b'\x1b[?1049h'))
    return begun < seen or b'hello' in run.output[begun:]


def is_cooked(run):
    """Whether the terminal is not in the host's mode: it shows keys, or gives them by lines."""
    return termios.tcgetattr(run.slave)[3] & (termios.ECHO | termios.ICANON)


def try_stop(run, wrong):
    """Stops and continues the host, which must paint and be raw again, and quits. Returns as `act` does."""
    seen = stop_and_go_on(run)
    if not run.pump(HANG, b'hello'):
        wrong.append('no screen')
    end = time.perf_counter() + HANG
    while not is_painted(run, seen) and time.perf_counter() < end:
        run.rest(0.01)
    if not is_painted(run, seen):
        wrong.append('not painted after the stop')
    while is_cooked(run) and time.perf_counter() < end:
        run.rest(0.01)
    if is_cooked(run):
        wrong.append('not raw after the stop')
    before = time.perf_counter()
    for _ in range(HANG * 3):  # until it has ended, in case a key is lost
        run.type(b'\x11')
        if run.pump(0.3):
            break
    return before, (0,)


def resize(run):
    """Gives the window another size, so that SIGWINCH comes beside the SIGTERM. Any from 1 to 500 will do: these are usual ones."""
    run.resize(random.randint(5, 60), random.randint(20, 200))


def act(kind, run, wrong):
    """Ends the run as the kind says. Returns when that was done, and the statuses that are right, or None if any is."""
    if kind == 'stop':
        run.rest(moment())
        return try_stop(run, wrong)
    if kind == 'kill-program':
        child = wait_for_child(run, 'bidi_edit')
        before = time.perf_counter()
        if child:
            send(child, signal.SIGKILL)
        return before, (137 << 8,)  # ended by the signal 9
    run.rest(moment())
    before = time.perf_counter()
    if kind == 'term':
        acts = [lambda: send(run.job, signal.SIGTERM), lambda: resize(run)] * 2
        random.shuffle(acts)
        for one in acts:
            one()
        return before, (signal.SIGTERM,)
    if kind == 'blocked':
        block(run)
        before = time.perf_counter()
        number = random.choice((signal.SIGTERM, signal.SIGHUP, signal.SIGUSR1))
        send(run.job, number)
        return before, (number,)
    if kind == 'closed':
        run.hang_up()
        return before, None
    if kind in ('kill-job', 'term-job'):
        number = signal.SIGKILL if kind == 'kill-job' else signal.SIGTERM
        send_job(run, number)
        return before, (number,)
    if kind == 'kill-name':
        return kill_by_name(run), (signal.SIGKILL,)
    number = signal.SIGKILL if kind == 'kill' else SIGNALS[kind]
    send(run.job, number)
    return before, (number,)


def kill_by_name(run):
    """Kills what `killall -9 bidi-edit` finds among the run's processes: by the name of the process, or of its file in its command
    line, as killall of busybox does. The host has another name for the moment of its watcher's birth. Returns when that was done."""
    end = time.perf_counter() + HANG
    while time.perf_counter() < end:
        before, is_killed = time.perf_counter(), False
        for process, (comm, _, _) in run.processes().items():
            try:
                with open(f'/proc/{process}/cmdline', 'rb') as file:
                    words = file.read().split(b'\0')
            except OSError:
                continue
            if comm == 'bidi-edit' or os.path.basename(words[0]) == b'bidi-edit':
                send(process, signal.SIGKILL)
                is_killed = True
        if is_killed:
            break
    return before


def kill_watcher(run):
    """Kills the watcher, which harms nothing, and quits. Returns as `act` does."""
    run.pump(HANG, b'hello')
    watcher = run.child('bidi-watcher')
    if watcher:
        send(watcher, signal.SIGKILL)
    before = time.perf_counter()
    run.type(b'\x11')
    return before, (0,)


def try_once(tree, kind):
    """Ends one run. Returns what is wrong, and the seconds until all was over."""
    ways = 'flood' if kind == 'blocked' and random.random() < 0.3 else random.choice(('', '', 'chatty', 'saves'))
    run = Run([tree.host, tree.new_file('note')], **tree.variables(ways))
    wrong = []
    before, statuses = kill_watcher(run) if kind == 'kill-watcher' else act(kind, run, wrong)
    if not run.pump(HANG):
        wrong.append('the host did not end')
    elif statuses and run.status not in statuses and run.status & 0x7F not in statuses:  # bit 0x80 tells of a core dump
        wrong.append(f'status {run.status}')
    left = run.left(HANG)
    took = time.perf_counter() - before
    if left:
        wrong.append(f'left: {left}')
    if kind != 'closed' and not run.is_restored():
        wrong.append('settings')
    if kind == 'blocked':
        termios.tcflow(run.slave, termios.TCOON)
    run.drain()
    if kind not in ('blocked', 'closed'):
        wrong += restored(run.output)
    if re.search(rb'Sanitizer|runtime error', run.output):
        wrong.append(run.output[-2000:].decode(errors='replace'))
    run.close()
    return wrong, took


def case_of(kind, runs):
    """The case of all runs of a kind."""
    def case(check, tree):
        wrong, times = [], []
        for number in range(runs):
            found, took = try_once(tree, kind)
            times.append(took)
            if found:
                wrong.append(f'run {number}: {found}')
        check.holds(f'ends, {kind}: {runs} runs, at most {max(times):.2f} s', not wrong, (len(wrong), wrong[:3]))

    case.__name__ = kind
    return case
