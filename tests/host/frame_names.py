"""frame_names.py [CRATES]: checks that the crates name the letters of frames, the causes of failed saves and the notices as host/frames.h
and host/cause.h do: `const TYPED: u8 = b'b'` is FRAME_TYPED, the variants of `enum SaveCause` are the first of enum cause, and the digits that give `Key::Notice` are the numbers of enum notice. Exit status 1: something differs or is not there."""
import glob, os, re, sys
from checks import Report, try_case

HERE = os.path.dirname(os.path.abspath(__file__))
NOTICE = re.compile(r"b'(\d)' => Some\(Key::Notice\(Notice::(\w+)\)\)")
CRATES = sys.argv[1] if len(sys.argv) > 1 else f'{HERE}/../../crates'


def read(path):
    with open(path, encoding='utf-8') as file:
        return file.read()


def enum(header, name):
    """The names of an enum in their order, without comments."""
    body = re.search(rf'enum {name} {{(.*?)}};', header, re.S).group(1)
    return re.findall(r'^\s*([A-Z_]+)', re.sub(r'/\*.*?\*/', '', body, flags=re.S), re.M)


def plain(name):
    """A name without underscores, in small letters."""
    return name.replace('_', '').lower()


def names_of_frames(check, sources):
    """The crates name letters, causes and notices as the host does. The scene is their sources, by paths."""
    header = read(f'{HERE}/../../host/frames.h')
    letters = dict(re.findall(r"FRAME_([A-Z]+) = '(.)'", header))
    found = [(path, *pair) for path, text in sources.items() for pair in re.findall(r"const ([A-Z]+): u8 = b'(.)';", text) if pair[0] in letters]
    for path, name, letter in found:
        check.same(f'{name} in {path}', letter, letters[name])
    check.same('letters that no crate has', [name for name in letters if name not in {name for _, name, _ in found}], [])
    causes = [plain(name.removeprefix('CAUSE_')) for name in enum(read(f'{HERE}/../../host/cause.h'), 'cause')]
    causes = causes[1:causes.index('exists') + 1]
    for path, text in sources.items():
        if body := re.search(r'pub enum SaveCause {(.*?)\n}', text, re.S):
            check.same(f'causes in {path}', [plain(name) for name in re.findall(r'^\s*([A-Z]\w+),', body.group(1), re.M)], causes)
    notices = [plain(name.removeprefix('NOTICE_')) for name in enum(header, 'notice')]
    told = {plain(name): int(number) for text in sources.values() for number, name in NOTICE.findall(text)}
    check.same('notices', told, {name: number for number, name in enumerate(notices) if number})


report = Report()
try_case(report, names_of_frames, {path: read(path) for path in glob.glob(f'{CRATES}/*/src/**/*.rt', recursive=True)})
sys.exit(report.end())
