"""Writes NOTICE to standard output, from crates.txt and the toolchain's records; tools/make-notice.sh runs it."""

import re
import sys
from dataclasses import dataclass
from pathlib import Path

HEAD = """\
What of others is in bidi_edit

The license of bidi_edit itself has not been chosen yet; README.md says so. This file names what the programs contain that others
wrote, with its license. Part 1 is in the files themselves; parts 2 and 3 are linked into the programs of dist/ and of the packages.
tools/make-notice.sh writes this file from crates.txt and from the records of the toolchain.

Toolchain: {kit}

1. Unicode's data

Data: Unicode Character Database
Files: data/*.txt, installed in share/bidi_edit; tests/data/*
Version: {unicode}
License: Unicode-3.0
Copyright: 1991-2023 Unicode, Inc.
Comment: facts of five of Unicode's files, as tools/make-data.sh extracts them

2. Crates of the toolchain

Each crate is a port, to the language of this repository, of the Rust crate that its paragraph names, or was written for the toolchain.
A crate without a version has the toolchain's. Where a license offers a choice, MIT is chosen. The toolchain states no license for the
crates of its standard library.
"""

PARTS = """\
3. Parts of the C compiler and of the C library

The toolchain's linker puts the start files of the C library and of the compiler into each program. Their licenses permit a program to
contain them under any terms. The C library itself is not in the programs; the system has it.

Part: glibc, start files
Version: {glibc}
License: LGPL-2.1-or-later
Copyright: Free Software Foundation, Inc.
Comment: with the permission to link these files into any program

Part: GCC, start files and libgcc
Version: {gcc}
License: GPL-3.0-or-later WITH GCC-exception-3.1
Copyright: Free Software Foundation, Inc.
Comment: the exception permits any program to contain them

4. License texts
"""


class Unknown(Exception):
    """The records say something that this script does not know, or lack something."""


@dataclass
class Crate:
    """A crate of the toolchain, as NOTICE tells it."""

    name: str
    version: str  # empty for the toolchain's
    origin: str
    license: str
    copyright: list
    needs: list
    programs: list

    def __str__(self):
        version = f'Version: {self.version}\n' if self.version else ''
        needs = f'Needs: {" ".join(self.needs)}\n' if self.needs else ''
        return (
            f'Crate: {self.name}\n{version}Origin: {self.origin}\nLicense: {self.license}\n'
            f'Copyright: {"; ".join(self.copyright)}\n{needs}Programs: {" ".join(self.programs)}\n'
        )


def words_of(text):
    """The words of a text, which do not depend on how its lines are broken."""
    return ' '.join(text.split())


def lines_of_crates(top):
    """The crates that each crate of crates.txt stands on."""
    lines = [line.split(':') for line in (top / 'crates.txt').read_text().splitlines() if ':' in line and not line.startswith('#')]
    return {name.split()[0]: below.split() for name, below in lines}


class Kit:
    """The toolchain's folder, with its records."""

    def __init__(self, folder):
        self.folder = folder
        self.texts = {}  # by license
        unicode = (folder / 'rattle/unicode/README.md').read_text()
        self.unicode = re.search(r'Unicode (\d+\.\d+)', unicode).group(1)

    def needs(self, name):
        """The crates that a crate names, without the standard library's."""
        record = (self.folder / f'rlibs/{name}.rlib/format').read_text()
        return [line.split()[1] for line in record.splitlines() if line.startswith('dep ')]

    def page(self, name):
        """The text of a crate's README.md, or nothing."""
        page = self.folder / f'rattle/{name}/README.md'
        return page.read_text() if page.exists() else ''

    def keep_text(self, license, text):
        """Keeps a license's text, which has to be the same in all crates but for its line breaks."""
        if words_of(self.texts.setdefault(license, text)) != words_of(text):
            raise Unknown(f'{license} has two texts')

    def read_mit(self, text):
        """Keeps the permission and returns the copyright lines before it."""
        begin = text.index('Permission is hereby granted')
        self.keep_text('MIT', text[begin:].strip() + '\n')
        return [re.sub(r'^Copyright (\(c\) )?', '', line.strip()) for line in text[:begin].splitlines() if line.startswith('Copyright')]

    def licenses(self, name):
        """The licenses of a crate as an SPDX expression, and its copyright lines."""
        found, holders = [], []
        for file in sorted((self.folder / f'rattle/{name}').glob('LICENSE*')):
            text = file.read_text()
            if text.startswith('UNICODE LICENSE V3'):
                self.keep_text('Unicode-3.0', text)
                holders.append('1991-2023 Unicode, Inc.')
                found.append('Unicode-3.0')
            elif 'Permission is hereby granted, free of charge, to any person' in words_of(text):
                holders += self.read_mit(text)
                found.append('MIT')
            elif 'Apache License Version 2.0' in words_of(text):
                found.append('Apache-2.0')
            else:
                raise Unknown(f'{name} has a license of an unknown kind, {file.name}')
        code = ' OR '.join(sorted((license for license in found if license != 'Unicode-3.0'), key=['MIT', 'Apache-2.0'].index))
        if 'Unicode-3.0' in found and code:
            code = f'({code}) AND Unicode-3.0' if ' ' in code else f'{code} AND Unicode-3.0'
        return code or ('Unicode-3.0' if found else 'NOASSERTION'), holders

    def crate(self, name, programs):
        """A crate. The first version in three parts on its page is that of the Rust crate of which it is a port."""
        license, holders = self.licenses(name)
        version = re.search(r'(?<![\d.])\d+\.\d+\.\d+(?![\d.])', self.page(name))
        port = name.replace('_', '-')
        origin = f'a port of the Rust crate {port}'
        if name.startswith('ucd_'):
            origin = f'tables of the Unicode Character Database {self.unicode}, written for the toolchain'
        elif license == 'NOASSERTION':
            origin = "the toolchain's standard library"
        elif not version:
            raise Unknown(f'the page of {name} names no version')
        elif not any(not holder.endswith('Unicode, Inc.') for holder in holders):
            holders = [f'the authors of the Rust crate {port}', *holders]
        told = version.group() if origin.startswith('a port') else ''
        needs = [each for each in self.needs(name) if each != 'std']
        return Crate(name, told, origin, license, holders or ['the authors of the toolchain'], needs, programs)

    def crates(self, below, programs):
        """The toolchain's crates in the programs, by their names."""
        users = {}
        for program in programs:
            waiting, seen = [program, 'std'], set()
            while waiting:
                name = waiting.pop()
                if name in seen:
                    continue
                seen.add(name)
                waiting += below[name] if name in below else self.needs(name)
                if name not in below:
                    users.setdefault(name, []).append(program)
        return [self.crate(name, users[name]) for name in sorted(users)]

    def comment_of(self, file, pattern):
        """What a file of the toolchain's folder `lib` says of its version."""
        found = re.search(pattern, (self.folder / 'toolchain/lib' / file).read_bytes())
        if not found:
            raise Unknown(f'{file} names no version')
        return found.group(1).decode()


def unicode_version(top):
    """The version of the tables in data/."""
    versions = {re.match(r'# \w+-(\d+\.\d+\.\d+)', file.read_text()).group(1) for file in (top / 'data').glob('*.txt')}
    if len(versions) != 1:
        raise Unknown('the tables are of several versions')
    return versions.pop()


def main(top, folder, version, programs):
    kit = Kit(folder)
    crates = kit.crates(lines_of_crates(top), programs)
    glibc = kit.comment_of('libc.so.6', rb'GNU C Library \(([^)]*)\)')
    gcc = kit.comment_of('crtbeginS.o', rb'GCC: (\([^)]*\) [\d.]+)')
    print(HEAD.format(kit=version, unicode=unicode_version(top)))
    print('\n'.join(map(str, crates)))
    print(PARTS.format(glibc=glibc, gcc=gcc))
    print('\n'.join(f'---- {license}\n\n{kit.texts[license]}' for license in sorted(kit.texts)), end='')


if __name__ == '__main__':
    try:
        main(Path(sys.argv[1]), Path(sys.argv[2]), sys.argv[3], sys.argv[4:])
    except Unknown as cause:
        print(f'make-notice.sh: {cause}', file=sys.stderr)
        sys.exit(1)
