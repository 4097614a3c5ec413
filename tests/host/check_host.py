"""check_host.py HOST [--runs N] [NAME..]: checks the host with programs for tests around it; see tests/check-host.sh. Each look of a case
counts as a check of its own."""
import os, random, shutil, signal, sys, tempfile
sys.path.insert(0, os.path.dirname(os.path.abspath(__file__)))
import ends, faults
from checks import Report, share, try_case
from terminals import become_reaper
from tree import Tree


def all_cases(runs):
    """The cases by their names; those of ends.py end so many runs each."""
    return {case.__name__: case for case in faults.CASES} | {kind: ends.case_of(kind, runs) for kind in ends.KINDS}


def worker(host, found, names):
    """Tries these cases in an installation of its own."""
    become_reaper()
    for number in (signal.SIGPIPE, signal.SIGXFSZ, signal.SIGINT, signal.SIGQUIT):  # python ignores or handles them until exec, which would lose them
        signal.signal(number, signal.SIG_DFL)
    random.seed(os.getpid())
    folder = tempfile.mkdtemp(prefix='check-host.')
    os.chmod(folder, 0o755)
    tree, report = Tree(f'{folder}/tree', host), Report()
    try:
        for name in names:
            try_case(report, found[name], tree, is_each_told=True)
    finally:
        shutil.rmtree(folder, ignore_errors=True)


def main():
    words = sys.argv[1:]
    host, runs = words.pop(0), 12
    if words[:1] == ['--runs']:
        runs = int(words[1])
        words = words[2:]
    found = all_cases(runs)
    if words[:1] == ['--worker']:  # as `share` starts it
        worker(host, found, words[1:])
        return 0
    names = words or [name for name in found if name != 'faults']  # which takes some minutes
    return share(os.path.abspath(__file__), [host, '--runs', str(runs)], names)


sys.exit(main())
