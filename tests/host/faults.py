"""Each system call of the host failed in turn, by strace: the terminal is restored, no process is left, and a session that does not
go on says why."""
import os, re, signal
from checks import needs
from ends import QUIT, SAVE, restored
from terminals import Run

# The error that a call fails by, one that the system may give; EIO for all others.
ERRORS = {'fork': 'EAGAIN', 'clone': 'EAGAIN', 'vfork': 'EAGAIN', 'mmap': 'ENOMEM', 'brk': 'ENOMEM', 'openat': 'EMFILE', 'pipe2': 'EMFILE', 'readlink': 'EACCES'}
# The end itself, what does not return, what cannot fail, and what fails in the loader or, as no kernel does, in malloc.
PASSED_OVER = {'brk', 'mmap', 'exit_group', 'execve', 'rt_sigreturn', 'getpid', 'geteuid', 'gettid', 'arch_prctl', 'set_tid_address', 'set_robust_list', 'rseq', '+++', '---'}
# The most calls of one kind that are failed, the first ones: each takes a whole session.
MOST = 12


def session(tree, strace):
    """A session with a size and keys. Returns the run after its end. On a busy machine strace may give up by SIGALRM at first."""
    run = try_session(tree, strace)
    if run.status == signal.SIGALRM and not run.output:
        run.close()
        run = try_session(tree, strace)
    return run


def try_session(tree, strace):
    """One try. strace is a grandchild (-D), so that the process that is signalled and waited for is the host."""
    # all waits are limits: a failed call may make the host wait, and strace makes it slow
    run = Run(['strace', '-D', *strace, tree.host, tree.new_file('faults')], **tree.variables())
    if run.pump(4, b'hello'):
        run.resize(30, 90)
        run.type(b'abc' + SAVE)
        run.rest(0.2)
    if run.status is None:
        run.type(QUIT)
    run.pump(3)
    if run.status is None:  # a call that failed may have lost the keys; a signal ends all the same
        os.kill(run.job, signal.SIGTERM)
        run.pump(6)
    run.drain()
    return run


def calls(tree):
    """The system calls of the host in a session without a fault, and how often each is to be failed."""
    trace = tree.file('trace')
    session(tree, ['-o', trace]).close()
    counts = {}
    with open(trace) as file:
        for call in re.findall(r'^(?:\d+ +)?(\w+)\(', file.read(), re.M):
            counts[call] = counts.get(call, 0) + 1
    return {call: min(count, MOST) for call, count in counts.items() if call not in PASSED_OVER}


def fail_once(tree, call, number):
    """What is wrong where the call with this number, from 1 among those of its name, fails."""
    error = ERRORS.get(call, 'EIO')
    run = session(tree, ['-o', '/dev/null', '-e', f'trace={call}', '-e', f'inject={call}:error={error}:when={number}'])
    wrong = [] if run.status is not None else ['the host did not end']
    left = run.left(5)
    if left:
        wrong.append(f'left: {left}')
    if not run.is_restored():
        wrong.append('settings')
    wrong += restored(run.output)
    if b'hello' not in run.output and run.status == 0:
        wrong.append('no screen, and status 0')
    if run.status not in (None, 0) and not re.search(rb'bidi-edit: .|error while loading|Cannot open', run.output) and run.status != signal.SIGTERM:
        wrong.append(f'status {run.status} and nothing said: {run.output[-200:]!r}')
    run.close()
    return wrong


@needs('strace')
def faults(check, tree):
    """Each call of the host fails in turn. Only where it is asked for: it takes some minutes."""
    for call, count in sorted(calls(tree).items()):
        found = {number: wrong for number in range(1, count + 1) if (wrong := fail_once(tree, call, number))}
        check.same(f'faults: {call}, {count} times', found, {})


CASES = [faults]
