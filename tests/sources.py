#!/usr/bin/env python3
"""What the prover doesn't look at in the sources.

Each crate uses each crate that crates.txt names for it. No line of an .rt file or of a definition is longer than 120
columns, but for attributes, and no line of a comment longer than 100. The text that an edit of must-fail/ replaces is
in its file just once, and what it puts there differs; there are no more edits than the gate has time for. Each file
that docs/ARCHITECTURE.md names in the section of a crate is in that crate, or in the one that it names beside it, and each
file of a crate is named there, or its folder, but for those of tests, `lib.rt`, `main.rt` and `fault.rt`.
shellcheck, if it is here, has nothing to say of a script but what .shellcheckrc wants. The last line counts crates and
edits; it fails if one is wrong.
"""

import os
import re
import shutil
import subprocess
import sys

TOP = os.path.join(os.path.dirname(os.path.abspath(__file__)), '..')
WIDEST, WIDEST_COMMENT = 120, 100
# An edit takes the gate some 40 seconds of a processor.
MOST_EDITS = 140
# `thiserror` is used by its attribute, and these by what stands for them in the sources.
USES = {'thiserror': r'#\[derive\([^)]*\bError\b|\bthiserror\b'}


def read(path):
    with open(path, encoding='utf-8') as file:
        return file.read()


def files(folder, *endings):
    """The files below a folder with one of some endings, but for what was built."""
    for here, folders, names in os.walk(folder):
        folders[:] = sorted(set(folders) - {'out'})
        for name in sorted(names):
            if name.endswith(endings):
                yield os.path.join(here, name)


def unused(crate, dependencies):
    """The dependencies of a crate that no file of it uses."""
    texts = [read(path) for path in files(os.path.join(TOP, 'crates', crate), '.rt', '.antt')]
    for dependency in dependencies:
        uses = USES.get(dependency, rf'\b{dependency}::|\bRattle\.{dependency}\b|\buse {dependency}\b')
        if not any(re.search(uses, text) for text in texts):
            yield f'{crate}: no file uses {dependency}'


def edits(crate):
    """The edits of a crate: the path of each with the file, the text that it replaces, and what it puts there."""
    for path in files(os.path.join(TOP, 'crates', crate, 'must-fail'), '.edit'):
        fields = dict(re.findall(r'^(file|old|new): ?(.*)$', read(path), re.M))
        yield os.path.relpath(path, TOP), fields


def wrong_edit(crate, path, fields):
    """What is wrong with an edit, if anything is."""
    target = os.path.join(TOP, 'crates', crate, fields.get('file', ''))
    if not os.path.isfile(target):
        return f'{path}: its file is not there'
    count = read(target).count(fields['old'])
    if count != 1:
        return f'{path}: its text is in the file {count} times'
    return f'{path}: it changes nothing' if fields['old'] == fields.get('new') else None


def missing(crates):
    """The files that a crate's section of docs/ARCHITECTURE.md names, and that aren't in the crate."""
    for section in read(os.path.join(TOP, 'docs', 'ARCHITECTURE.md')).split('\n## ')[1:]:
        own = [crate for crate in crates if re.search(rf'\b{crate}\b', section.split('\n')[0])]
        for name in re.findall(r'`([\w/]+\.rt)`', section) if own else []:
            beside = re.findall(rf'`{re.escape(name)}` of (\w+)', section)
            if not any(path.endswith('/' + name) for crate in own + beside
                       for path in files(os.path.join(TOP, 'crates', crate), '.rt')):
                yield f'docs/ARCHITECTURE.md: {", ".join(own)}: {name} is not there'


def unnamed(crates):
    """The files of the crates whose sections of docs/ARCHITECTURE.md don't name them, nor their folders."""
    sections = read(os.path.join(TOP, 'docs', 'ARCHITECTURE.md')).split('\n## ')[1:]
    for crate in crates:
        text = ''.join(section for section in sections if re.search(rf'\b{crate}\b', section.split('\n')[0]))
        source = os.path.join(TOP, 'crates', crate, 'src')
        for path in files(source, '.rt'):
            folder, name = os.path.split(os.path.relpath(path, source))
            if 'test' in crate or folder == 'tests' or name in ('lib.rt', 'main.rt', 'fault.rt', 'tests.rt'):
                continue
            if not {f'`{name}`', f'`{os.path.join(folder, name)}`', f'`{folder}/`'} & set(re.findall(r'`[^`]+`', text)):
                yield f'docs/ARCHITECTURE.md: {crate}: {os.path.join(folder, name)} is not named'


def scripts():
    """What shellcheck says of the scripts."""
    if shutil.which('shellcheck') is None:
        print('skipped, no shellcheck here: scripts')
        return []
    tracked = subprocess.run(['git', 'ls-files'], cwd=TOP, check=True, capture_output=True, text=True).stdout
    paths = [path for path in tracked.split('\n')
             if path.endswith('.sh') or path in ('.ci/run', 'tests/all', 'tests/packages')]
    told = subprocess.run(['shellcheck', '-x', '-f', 'gcc', *paths], cwd=TOP, check=False, capture_output=True, text=True)
    return (told.stdout + told.stderr).split('\n')


def main():
    wrong, tried = scripts(), 0
    crates = [line.split('#')[0] for line in read(os.path.join(TOP, 'crates.txt')).split('\n')]
    crates = [line.split(':') for line in crates if ':' in line]
    for name, dependencies in crates:
        crate = name.split()[0]
        wrong.extend(unused(crate, dependencies.split()))
        for path, fields in edits(crate):
            tried += 1
            wrong.append(wrong_edit(crate, path, fields))
    if tried > MOST_EDITS:
        wrong.append(f'{tried} edits are more than {MOST_EDITS}: a less telling one goes')
    for check in (missing, unnamed):
        wrong.extend(check([name.split()[0] for name, _ in crates]))
    for path in files(os.path.join(TOP, 'crates'), '.rt', '.antt'):
        if '/proofs/' in path:
            continue
        for number, line in enumerate(read(path).split('\n'), 1):
            most = WIDEST_COMMENT if line.lstrip().startswith(('//', '--')) else WIDEST
            # `rt fmt` leaves an attribute on one line
            if len(line) > most and not line.startswith('#['):
                wrong.append(f'{os.path.relpath(path, TOP)}:{number}: {len(line)} columns')
    wrong = [line for line in wrong if line]
    print('\n'.join(wrong + [f'{len(crates)} crates and {tried} edits are in order']))
    return 1 if wrong else 0


if __name__ == '__main__':
    sys.exit(main())
