#!/usr/bin/env python3
"""Checks the documents against the tree, and says what is wrong. In docs/PROOF.md each must-fail edit is cited once, by `name` in the first
cell of a row of its crate's table, and no row cites one that is not there; each file or folder that a document names from the root, or
from crates/, is there, and so is each name in a code span; README prints the sheets of its examples and the header's command;
docs/changes/README.md lists each note there."""
import os
import re
import sys

ROOT = os.path.join(os.path.dirname(os.path.abspath(__file__)), '..', '..')
DOCUMENTS = ['README.md', 'docs/PROOF.md', 'docs/DECISIONS.md', 'docs/FORMAT.md', 'docs/PERFORMANCE.md']
PRINTED = ['case-1', 'house-and-tour', 'get-in-joined', 'bar-9']
ROOTS = ['bench', 'crates', 'docs', 'examples', 'include', 'tests']
IN_CRATES = ['src', 'specs', 'proofs', 'must-fail', 'data']
NAME = re.compile(r'[A-Za-z+−][\w∂ΔΣ-]*')


def read(name):
    with open(os.path.join(ROOT, name)) as file:
        return file.read()


def edits():
    """Each edit as CRATE/LABEL."""
    crates = os.path.join(ROOT, 'crates')
    for crate in sorted(os.listdir(crates)):
        folder = os.path.join(crates, crate, 'must-fail')
        for name in sorted(os.listdir(folder)) if os.path.isdir(folder) else []:
            yield f'{crate}/{name.removesuffix(".edit")}'


def cited():
    """The edits in the first cells of the rows below a heading `Edits of` a crate."""
    crate = None
    for line in read('docs/PROOF.md').splitlines():
        heading = re.match(r'#+ (?:Edits of `(\w+)`)?', line)
        if heading:
            crate = heading.group(1)
        elif crate and line.startswith('| `'):
            yield from (f'{crate}/{label}' for label in re.findall(r'`(\w+)`', line.split('|')[1]))


def citation_faults():
    there, named = list(edits()), list(cited())
    for edit in sorted(set(there) | set(named)):
        if edit not in there:
            yield f'docs/PROOF.md: {edit} is not there'
        elif named.count(edit) != 1:
            yield f'docs/PROOF.md: {edit} is cited {named.count(edit)} times'


def paths(text):
    """What reads as a path from the root, and what reads as one from crates/, made one from the root."""
    crates = os.listdir(os.path.join(ROOT, 'crates'))
    yield from re.findall(rf'(?<![\w/.])(?:{"|".join(ROOTS)})/[\w+/.-]*\w', text)
    yield from ('crates/' + found for found in re.findall(rf'(?<![\w/.])(?:{"|".join(crates)})/(?:{"|".join(IN_CRATES)})/[\w+/.-]*\w', text))


def path_faults():
    for document in DOCUMENTS:
        for path in paths(read(document)):
            if not os.path.exists(os.path.join(ROOT, path)):
                yield f'{document}: {path} is not there'


def names_there():
    """Every word of the sources and of the header, and the names of files and folders."""
    found = set(re.findall(r'\w+', read('include/flyrules.h')))
    for folder, folders, files in os.walk(os.path.join(ROOT, 'crates')):
        folders[:] = [name for name in folders if name != 'out']
        found.update(folders, (os.path.splitext(name)[0] for name in files))
        for name in files:
            if name.endswith(('.antt', '.rt')):
                found.update(re.split(r'[\s(){}\[\];:,."`=|]+', read(os.path.join(folder, name))))
    return found


def name_faults():
    there = names_there()
    for document in DOCUMENTS:
        for span in re.findall(r'`([^`\n]+)`', read(document)):
            name = span.split('::')[-1]
            if NAME.fullmatch(name) and name not in there:
                yield f'{document}: {name} is not there'


def sheet_faults():
    for example in PRINTED:
        sheet = ''.join(f'    {line}\n' for line in read(f'examples/{example}.sheet').splitlines())
        if f'\n\n{sheet}\n' not in read('README.md'):
            yield f'README.md: the sheet of {example} is another'


def command_faults():
    command = re.search(r'gcc .*', read('include/flyrules.h')).group()
    if command not in read('README.md'):
        yield f'README.md: the command of include/flyrules.h is another: {command}'


def note_faults():
    listed = ['README.md', *re.findall(r'\((S-\d+\.md)\)', read('docs/changes/README.md'))]
    for note in set(listed) ^ set(os.listdir(os.path.join(ROOT, 'docs', 'changes'))):
        yield f'docs/changes: {note} is {"not there" if note in listed else "not listed"}'


def main():
    faults = [*citation_faults(), *path_faults(), *name_faults(), *sheet_faults(), *command_faults(), *note_faults()]
    print('\n'.join(faults or [f'edits {len(list(edits()))} cited {len(list(cited()))}']))
    sys.exit(bool(faults))


main()
