"""An installation for the tests: the host as bin/bidi-edit, and a program for tests in place of bidi_edit."""
import os, shutil

HERE = os.path.dirname(os.path.abspath(__file__))
REPOSITORY = os.path.dirname(os.path.dirname(HERE))


# prints its words, and the text that the last one names
PRINTER = '#!/bin/sh\nprintf "printed"\nprintf " <%s>" "$@"\necho\nshift $(($# - 1))\ncat "$1"\n'


def write(path, text, mode=0o755):
    with open(path, 'w') as file:
        file.write(text)
    os.chmod(path, mode)


class Tree:
    """An installation in a folder `top`, with program.py, and a printing program that prints its words and the text.

    `file` gives paths of FILEs in a folder of their own, `home` is where sessions are: each new one has none."""

    def __init__(self, folder, host):
        self.top = folder
        self.host = f'{folder}/bin/bidi-edit'
        self.count = 0
        lib = f'{folder}/lib/bidi_edit'
        for name in ('bin', 'lib/bidi_edit', 'share', 'work', 'temporary'):
            os.makedirs(f'{folder}/{name}')
        shutil.copy2(host, self.host)
        shutil.copy2(f'{HERE}/program.py', f'{lib}/bidi_edit')
        write(f'{lib}/bidi_print', PRINTER)
        write(f'{lib}/kit', 'toolchain 1.2\n', 0o644)
        os.symlink(f'{REPOSITORY}/data', f'{folder}/share/bidi_edit')

    def file(self, name):
        """The path of a file in the folder for FILEs."""
        return f'{self.top}/work/{name}'

    def new_file(self, name):
        """The path of a FILE that no start has had."""
        self.count += 1
        return self.file(f'{name}{self.count}')

    def new_home(self):
        """A home without sessions."""
        self.count += 1
        os.mkdir(f'{self.top}/home{self.count}', 0o700)
        return f'{self.top}/home{self.count}'

    def variables(self, ways='', home=None):
        """The environment of a start: the home, a folder for temporary files where FILE is not, and what program.py does."""
        return {'HOME': home or self.new_home(), 'TMPDIR': f'{self.top}/temporary', 'STAND_IN': ways}
