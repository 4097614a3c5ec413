"""play.py --host HOST --programs FOLDER [--lanes N] [--only WORDS] [--verbose] FILE..: plays the cases of files, in lanes side by side, and
prints a line for each that failed or was skipped, and the totals. Exit status 1: a case failed; 77: none could be played."""
import argparse, os, shutil, signal, sys, tempfile, time, traceback
from concurrent.futures import ProcessPoolExecutor, as_completed
from multiprocessing import get_context
from notation import Fault, cases_of
from scene import Scene, install
from steps import Skipped, play_line
from terminal import become_reaper


def play(case, installed, folder):
    """Plays a case in a scene of its own. Returns `ok`, `skipped` or `FAILS`, why, and the seconds."""
    begun = time.monotonic()
    os.umask(0o022)
    scene, line = Scene(installed, folder), None
    word, why = 'ok', ''
    try:
        for line in case.steps:
            play_line(scene, line)
    except Skipped as skipped:
        word, why = 'skipped', str(skipped)
    except Fault as fault:
        word, why = 'FAILS', f'{case.file}:{line.line}: {line.words}\n    wanted: {indented(fault.wanted)}\n    seen: {indented(fault.seen)}'
    except SyntaxError as fault:
        word, why = 'FAILS', f'{case.file}:{line.line}: {fault}'
    except Exception:  # the next case goes on
        word, why = 'FAILS', f'{case.file}:{line.line}: {traceback.format_exc()}'
    left = scene.close()
    if left and word == 'ok':
        word, why = 'FAILS', f'{case.file}:{line.line}: the case is over, and {", ".join(left)} goes on: it needs `ends`'
    if word == 'ok':
        shutil.rmtree(folder, ignore_errors=True)
    return word, why, time.monotonic() - begun


def begin_lane():
    """Readies a process that plays cases: as a user's, but for what python ignores or handles until exec."""
    become_reaper()
    for number in (signal.SIGTERM, signal.SIGPIPE, signal.SIGXFSZ, signal.SIGINT, signal.SIGQUIT):
        signal.signal(number, signal.SIG_DFL)


def indented(text):
    return str(text).replace('\n', '\n        ')


def tell(case, result, is_verbose):
    word, why, seconds = result
    if word != 'ok':
        print(f'{word} {case.title}: {why}', flush=True)
    elif is_verbose:
        print(f'ok {case.title} ({seconds:.1f} s)', flush=True)


def main():
    parser = argparse.ArgumentParser()
    parser.add_argument('--host', required=True)
    parser.add_argument('--programs', required=True)
    parser.add_argument('--lanes', type=int, default=2)
    parser.add_argument('--only', default='')
    parser.add_argument('--verbose', action='store_true')
    parser.add_argument('files', nargs='+')
    given = parser.parse_args()
    cases = [case for path in given.files for case in cases_of(path) if given.only in case.title]
    top = tempfile.mkdtemp(prefix='bidi-play.', dir='/var/tmp')
    os.chmod(top, 0o711)
    signal.signal(signal.SIGTERM, lambda *_: sys.exit(1))  # so that nothing stays
    counts = {'ok': 0, 'FAILS': 0, 'skipped': 0}
    try:
        os.makedirs(f'{top}/installed')
        install(f'{top}/installed', given.host, given.programs)
        with ProcessPoolExecutor(given.lanes, get_context('fork'), begin_lane) as lanes:
            under_way = {lanes.submit(play, case, f'{top}/installed', f'{top}/{number}'): case for number, case in enumerate(cases)}
            try:
                for done in as_completed(under_way):
                    tell(under_way[done], done.result(), given.verbose)
                    counts[done.result()[0]] += 1
            finally:
                lanes.shutdown(cancel_futures=True)
    finally:
        shutil.rmtree(top, ignore_errors=True)
    skipped = f', {counts["skipped"]} skipped' if counts['skipped'] else ''
    print(f'{counts["ok"]} passed, {counts["FAILS"]} failed{skipped}')
    return 1 if counts['FAILS'] else 0 if counts['ok'] else 77


sys.exit(main())
