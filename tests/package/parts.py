"""Checks a package's list of parts by the rules of SPDX 2.3, and by the crates of the repository: parts.py TREE REPOSITORY."""

import hashlib
import json
import re
import sys
from pathlib import Path

DOCUMENT = 'SPDXRef-DOCUMENT'
# what SPDX 2.3 requires of a document, of its creation and of a package
DOCUMENT_FIELDS = {'spdxVersion', 'dataLicense', 'SPDXID', 'name', 'documentNamespace', 'creationInfo'}
PACKAGE_FIELDS = {'SPDXID', 'name', 'downloadLocation'}
KNOWN_FIELDS = PACKAGE_FIELDS | {
    'versionInfo', 'filesAnalyzed', 'licenseConcluded', 'licenseDeclared', 'copyrightText', 'comment', 'sourceInfo',
    'packageFileName', 'checksums', 'primaryPackagePurpose',
}  # fmt: skip
RELATIONS = {'DESCRIBES', 'CONTAINS', 'STATIC_LINK', 'DEPENDS_ON'}
LICENSES = {'MIT', 'Apache-2.0', 'Unicode-3.0', 'LGPL-2.1-or-later', 'GPL-3.0-or-later', 'GCC-exception-3.1'}


def check(is_right, what):
    if not is_right:
        sys.exit(what)


def check_license(text):
    """An expression of SPDX, or one of the two words for none."""
    if text in ('NONE', 'NOASSERTION'):
        return
    words = re.findall(r'[A-Za-z0-9.-]+', text)
    check(set(words[::2]) <= LICENSES and set(words[1::2]) <= {'AND', 'OR', 'WITH'} and len(words) % 2, f'license {text}')


def check_package(package):
    check(PACKAGE_FIELDS <= package.keys() <= KNOWN_FIELDS, f'the fields of {package}')
    check(re.fullmatch(r'SPDXRef-[A-Za-z0-9.-]+', package['SPDXID']), package['SPDXID'])
    check(package['filesAnalyzed'] is False, 'files are analyzed, and not listed')
    check(all(isinstance(value, str) and value for name, value in package.items() if name not in ('filesAnalyzed', 'checksums')), package)
    check_license(package['licenseConcluded'])
    check_license(package['licenseDeclared'])
    for sum_of in package.get('checksums', ()):
        check(sum_of['algorithm'] == 'SHA256' and re.fullmatch('[0-9a-f]{64}', sum_of['checksumValue']), f'sum {sum_of}')


def check_document(document):
    check(DOCUMENT_FIELDS | {'packages', 'relationships'} == document.keys(), f'the fields of the document: {document.keys()}')
    check((document['spdxVersion'], document['dataLicense'], document['SPDXID']) == ('SPDX-2.3', 'CC0-1.0', DOCUMENT), 'the head')
    check(re.fullmatch(r'[a-z]+:[^#\s]+', document['documentNamespace']), 'the namespace')
    check(re.fullmatch(r'\d{4}-\d\d-\d\dT\d\d:\d\d:\d\dZ', document['creationInfo']['created']), 'the time')
    check(all(re.match('(Person|Organization|Tool): ', each) for each in document['creationInfo']['creators']), 'the creators')
    names = [package['SPDXID'] for package in document['packages']]
    check(len(names) == len(set(names)), 'a name is there twice')
    for package in document['packages']:
        check_package(package)
    for relation in document['relationships']:
        ends = {relation['spdxElementId'], relation['relatedSpdxElement']}
        check(ends <= {DOCUMENT, *names} and relation['relationshipType'] in RELATIONS, f'relation {relation}')
    related = {relation['relatedSpdxElement'] for relation in document['relationships']}
    check(set(names) <= related, f'nothing relates to {set(names) - related}')


def linked(repository, program):
    """The crates that crates.txt and NOTICE name below a program."""
    below = {}
    for line in (repository / 'crates.txt').read_text().splitlines():
        if ':' in line and not line.startswith('#'):
            name, needs = line.split(':')
            below[name.split()[0]] = [*needs.split(), 'std']
    for paragraph in (repository / 'NOTICE').read_text().split('\n\n'):
        name = re.search('^Crate: (.*)$', paragraph, re.M)
        needs = re.search('^Needs: (.*)$', paragraph, re.M)
        if name:
            below[name.group(1)] = needs.group(1).split() if needs else []
    found, waiting = set(), [program, 'std']
    while waiting:
        name = waiting.pop()
        check(name in below, f'{name} is neither in crates.txt nor in NOTICE')
        if name not in found:
            found.add(name)
            waiting += below[name]
    return found


def main(tree, repository):
    document = json.loads((tree / 'share/doc/bidi-edit/bidi-edit.spdx.json').read_text())
    check_document(document)
    packages = {package['SPDXID']: package for package in document['packages']}
    files = {package['packageFileName']: package['checksums'][0]['checksumValue'] for package in packages.values() if 'packageFileName' in package}
    check(set(files) == {'bin/bidi-edit', 'lib/bidi_edit/bidi_edit', 'lib/bidi_edit/bidi_print'}, f'the programs are {set(files)}')
    for path, told in files.items():
        check(hashlib.sha256((tree / path).read_bytes()).hexdigest() == told, f'{path} has another sum')
    for program in ('bidi_edit', 'bidi_print'):
        of_program = 'SPDXRef-program-' + program.replace('_', '-')
        related = [
            packages[relation['relatedSpdxElement']]['name']
            for relation in document['relationships']
            if relation['spdxElementId'] == of_program and '-crate-' in relation['relatedSpdxElement']
        ]
        check(sorted(related) == sorted(linked(repository, program)), f'{program} has {sorted(related)}')


main(Path(sys.argv[1]), Path(sys.argv[2]))
