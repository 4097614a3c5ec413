"""How a case is written in this folder, and how cases are tried, told and counted.

There is one form. A case is a function of a check and of a scene: what it plays with, such as an installation, or a folder with FILE. Its
name and its first line say what happens. It looks at what comes of that by `check.same(what, found, wanted)` and `check.holds(what, is_so,
detail)`: both note what is wrong, and the case goes on. Where nothing is left to look at, as when a screen never comes, the scene raises a
Fault; any exception ends the case, which then has failed. `@needs` says what a machine may lack, and a case that finds out later that it
cannot be tried raises Skipped.

A case counts once, under its function's name. There are two exceptions. In check_host.py each look counts, under its `what`, since one run
of the host answers many questions. In save_points.py the same few cases are tried at thousands of points, and each point counts.
"""
import os, shutil, subprocess, sys, tempfile, traceback

# Processes that check side by side: more than there may be processors, since a case mostly waits.
JOBS = 6
LONGEST = 4000  # characters of a value that are told


class Fault(Exception):
    """What is wrong where a case cannot go on."""


class Skipped(Exception):
    """Why a case cannot be tried on this machine."""


def shown(value):
    """A value in one line; of a long one the beginning and the end."""
    text = repr(value)
    return text if len(text) <= LONGEST else f'{text[:LONGEST // 2]} .. {text[-LONGEST // 2:]}'


class Check:
    """A case under way. `looks` has pairs of what was looked at and what is wrong with it, empty if nothing; `broken` is the exception that
    ended the case."""

    def __init__(self, name):
        self.name, self.looks, self.broken = name, [], ''

    def same(self, what, found, wanted):
        """Two values have to be equal."""
        self.looks.append((what, '' if found == wanted else f'{shown(found)}, and not {shown(wanted)}'))

    def holds(self, what, is_so, detail=None):
        """This has to be so; `detail` is told where it is not."""
        self.looks.append((what, '' if is_so else 'does not hold' + ('' if detail is None else f': {shown(detail)}')))

    def wrong(self):
        """What is wrong in the whole case; empty if nothing."""
        return '; '.join([f'{what}: {wrong}' for what, wrong in self.looks if wrong] + [self.broken] * bool(self.broken))


class Report:
    """Prints a line for each result, `ok NAME`, `FAILS NAME: WHY` or `skipped NAME: WHY`, and counts these lines."""

    def __init__(self):
        self.counts = {'ok': 0, 'FAILS': 0, 'skipped': 0}

    def line(self, line):
        """Prints a line, which may be a result."""
        kind = line.partition(' ')[0]
        if kind in self.counts:
            self.counts[kind] += 1
        print(line, flush=True)

    def tell(self, name, wrong):
        self.line(f'FAILS {name}: {wrong}' if wrong else f'ok {name}')

    def count(self, name, wrong):
        """One of very many results, which is only told where it is wrong."""
        if wrong:
            self.tell(name, wrong)
        else:
            self.counts['ok'] += 1

    def end(self):
        """Prints the totals. Returns the exit status."""
        passed, failed, skipped = self.counts.values()
        print(f'{passed} passed, {failed} failed' + (f', {skipped} skipped' if skipped else ''))
        return 1 if failed or not passed + skipped else 0


def needs(*names):
    """A decorator of cases: what a case needs, commands or `root`."""
    def note(case):
        case.needs = names
        return case
    return note


def is_there(need):
    return os.geteuid() == 0 if need == 'root' else shutil.which(need) is not None


def play(case, check, scene, *words):
    """Plays a case to its end. Returns what it returns."""
    for need in getattr(case, 'needs', ()):
        if not is_there(need):
            raise Skipped('it needs root' if need == 'root' else f'there is no {need}')
    try:
        return case(check, scene, *words)
    except Skipped:
        raise
    except Exception as fault:  # the next case goes on
        # the case's own line, and not one of what it calls
        steps = traceback.walk_tb(fault.__traceback__)
        line = next((line for frame, line in steps if frame.f_code is case.__code__), '?')
        check.broken = f'line {line}: {fault!r}'
        return None


def try_case(report, case, scene, is_each_told=False):
    """Plays a case in its scene, and reports it, or each of its looks."""
    check = Check(case.__name__)
    try:
        play(case, check, scene)
    except Skipped as why:
        report.line(f'skipped {check.name}: {why}')
        return
    if not is_each_told:
        report.tell(check.name, check.wrong())
        return
    for look in check.looks:
        report.tell(*look)
    if check.broken:
        report.tell(check.name, check.broken)


def lasting_folder(name):
    """A new folder that is not in memory, where FILE would get no session."""
    return tempfile.mkdtemp(prefix=f'{name}.', dir='/var/tmp')


def share(script, words, names):
    """Has processes of their own try these cases side by side, as `script WORDS.. --worker NAME..` each, and reports what they print.
    Returns the exit status."""
    report = Report()
    jobs = min(JOBS, len(names))
    started = [subprocess.Popen([sys.executable, '-B', script, *words, '--worker', *names[job::jobs]], stdout=subprocess.PIPE, text=True)
               for job in range(jobs)]
    for job in started:
        for line in job.stdout:
            report.line(line.rstrip('\n'))
        if job.wait() != 0:
            report.line(f'FAILS a worker ended with status {job.returncode}')
    return report.end()
