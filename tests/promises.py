#!/usr/bin/env python3
"""Compares the tables of docs/PROMISES.md with the clauses that the sources have.

Each call that a row names is in the crate, with each clause that the row names of it; and each call of a library that
has a contract and may be called from outside is in a row, with each of its clauses. A call without clauses in its row
is there with all of them. The last line counts calls and clauses; it fails where one is missing on either side.
"""

import os
import re
import sys

TOP = os.path.join(os.path.dirname(os.path.abspath(__file__)), '..')


def sources(crate):
    """The lines of each file of a crate."""
    for folder, _, names in sorted(os.walk(os.path.join(TOP, 'crates', crate, 'src'))):
        for name in sorted(names):
            if name.endswith('.rt'):
                with open(os.path.join(folder, name), encoding='utf-8') as file:
                    yield os.path.relpath(os.path.join(folder, name), os.path.join(TOP, 'crates', crate, 'src')), file.read()


def exported(crate):
    """The names that a library gives to others; None of a program."""
    names, files = set(), dict(sources(crate))
    if 'lib.rt' not in files:
        return None
    for text in files.values():
        for use in re.findall(r'^pub use [\w:]+?::(?:\{([^}]*)\}|(\w+));', text, re.M):
            names.update(re.findall(r'\w+', use[0] or use[1]))
    return names


def owner_of(line):
    """The type or the trait that a block is of, and whether the block implements a trait."""
    line = re.sub(r"^(pub )?(impl|trait)\s*(<(?:[^<>]|<(?:[^<>]|<[^<>]*>)*>)*>(?=\s))?\s*", '', line)
    of_trait = ' for ' in line.split('{')[0].split(' where ')[0]
    return re.match(r'\w*', line).group(0), of_trait


def calls_of(text):
    """Each function of a file: its name with its type, whether it is public, and its clauses."""
    owner, of_trait, public_block, calls, call = '', False, False, [], None
    for line in text.split('\n'):
        if re.match(r'(pub )?(impl|trait)\b', line):
            owner, of_trait = owner_of(line)
            public_block = line.startswith('pub trait')
        elif line.startswith('}'):
            owner, of_trait, public_block = '', False, False
        start = re.match(r'\s*(pub )?(?:pub\(crate\) )?(?:const )?(?:extern "C" )?fn (\w+)', line)
        if start:
            name = f'{owner}::{start[2]}' if owner else start[2]
            call = [name, (bool(start[1]) or public_block) and not of_trait, []]
            calls.append(call)
        clause = re.match(r'\s*ensures\s*(\w*)\s*\{', line)
        if clause and call:
            call[2].append(clause[1])
    return calls


def contracts(crate):
    """The contracts of a crate by call, and the calls that may be made from outside."""
    names = exported(crate)
    found, outside = {}, set()
    for path, text in sources(crate):
        if path.startswith('tests'):
            continue
        for name, public, clauses in calls_of(text):
            found.setdefault(name, []).extend(clauses)
            known = names is not None and name.split('::')[0] in names
            if public and known and clauses:
                outside.add(name)
    return found, outside


def rows():
    """Each row of the tables: the crate, and the calls with the clauses that it names."""
    crate = None
    with open(os.path.join(TOP, 'docs', 'PROMISES.md'), encoding='utf-8') as file:
        for line in file:
            if line.startswith('## '):
                crate = line[3:].split(':')[0].strip()
                yield crate, []
            elif line.startswith('| ') and line.count('`') and crate:
                contract = line.rstrip().rstrip('|').rsplit(' | ', 1)[-1]
                calls = re.findall(r'`([\w:]+)`(?: \(((?:`\w+`(?:, )?)+)\))?', contract)
                yield crate, [(call, re.findall(r'\w+', clauses)) for call, clauses in calls]


def main():
    wrong, named = [], {}
    for crate, calls in rows():
        if crate not in named:
            named[crate] = (contracts(crate), {})
        (found, _), seen = named[crate]
        for call, clauses in calls:
            if call not in found:
                wrong.append(f'{crate}: no call is named {call}')
                continue
            for clause in clauses:
                if clause not in found[call]:
                    wrong.append(f'{crate}: {call} has no clause {clause}')
            seen.setdefault(call, set()).update(clauses or found[call])
    calls, clauses = 0, 0
    for crate, ((found, outside), seen) in named.items():
        for call in sorted(outside):
            if call not in seen:
                wrong.append(f'{crate}: no row names {call} ({", ".join(c or "-" for c in found[call])})')
        for call, those in seen.items():
            calls, clauses = calls + 1, clauses + len(those)
            for clause in set(found[call]) - those:
                wrong.append(f'{crate}: no row names the clause {clause or "without a name"} of {call}')
    with open(os.path.join(TOP, 'crates.txt'), encoding='utf-8') as file:
        crates = [line.split(':')[0].split()[0] for line in file if ':' in line]
    for crate in crates:
        if crate not in named and not crate.endswith('_tests') and crate != 'test_inputs':
            wrong.append(f'{crate}: docs/PROMISES.md has no table of it')
    print('\n'.join(wrong + [f'{calls} calls and {clauses} clauses are in the tables']))
    return 1 if wrong else 0


if __name__ == '__main__':
    sys.exit(main())
