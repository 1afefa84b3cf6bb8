#!/usr/bin/env python3
"""Writes what the programs and libraries of a release are made of: NOTICES has the licences of all parts, a2l.spdx.json
is a list of the parts in SPDX 2.3.

    notices.py FOLDER

The parts are the crates of Rust that the programs of rust/ are linked from, without those that only run while they are
built; the standard library of Rust; the two C++ runtimes that write names; and the crates of the toolchain that
crates.txt names, with those that they stand on. A part brings the licence files beside its sources, or what Debian's
package of it says. A crate of Rust without either ends the script. One commit and the same tools give the same bytes;
the time is that of SOURCE_DATE_EPOCH.
"""

import glob
import hashlib
import json
import os
import re
import subprocess
import sys
from dataclasses import dataclass, field
from datetime import datetime, timezone

TOP = os.path.realpath(os.path.join(os.path.dirname(__file__), os.pardir))
TARGET = 'x86_64-unknown-linux-gnu'
LICENCE = re.compile(r'(LICEN[CS]E|COPYING|COPYRIGHT|NOTICE|UNLICENSE)([-.].*)?', re.I)
NONE_STATED = 'NOASSERTION'
# Licences, and words of each that no earlier one has.
KNOWN = {'Unicode-3.0': 'UNICODE LICENSE V3', 'Apache-2.0': 'Version 2.0, January 2004',
         'MIT': 'Permission is hereby granted, free of charge'}


@dataclass(frozen=True)
class Part:
    """A part: its name and version, its licence as SPDX writes it, what it comes from, and the texts of its licence."""

    name: str
    version: str
    licence: str
    origin: str
    texts: tuple = field(default=(), repr=False)


def run(*words):
    """What a command writes."""
    return subprocess.run(words, check=True, capture_output=True, text=True).stdout


def read(path):
    with open(path, encoding='utf-8', errors='replace') as file:
        return file.read().strip('\n') + '\n'


def licence_files(folder):
    """The texts of the licence files in a folder."""
    names = sorted(name for name in os.listdir(folder) if LICENCE.fullmatch(name))
    return tuple(read(os.path.join(folder, name)) for name in names if os.path.isfile(os.path.join(folder, name)))


def debian_copyright(package):
    """What Debian says of the licence of a package."""
    path = f'/usr/share/doc/{package}/copyright'
    return (read(path),) if os.path.exists(path) else ()


def linked(metadata):
    """The identities of the packages that are linked into the programs of the workspace."""
    nodes = {node['id']: node for node in metadata['resolve']['nodes']}
    kinds = {package['id']: {kind for target in package['targets'] for kind in target['kind']}
             for package in metadata['packages']}
    found, waiting = set(), list(metadata['workspace_members'])
    while waiting:
        package = waiting.pop()
        if package in found or 'proc-macro' in kinds[package]:
            continue
        found.add(package)
        waiting += [dependency['pkg'] for dependency in nodes[package]['deps']
                    if any(kind['kind'] is None for kind in dependency['dep_kinds'])]
    return found - set(metadata['workspace_members'])


def crates_of_rust():
    """The crates that the programs of rust/ are linked from."""
    words = ['metadata', '--format-version', '1', '--filter-platform', TARGET]
    metadata = json.loads(run(os.path.join(TOP, 'rust', 'cargo.sh'), *words))
    wanted = linked(metadata)
    for package in metadata['packages']:
        if package['id'] in wanted:
            name, folder = package['name'], os.path.dirname(package['manifest_path'])
            texts = licence_files(folder) or debian_copyright(f'librust-{name.replace("_", "-")}-dev')
            if not texts and not package['license']:
                raise SystemExit(f'{name}: no licence is found')
            licence = (package['license'] or NONE_STATED).replace('/', ' OR ')
            yield Part(name, package['version'], licence, 'a crate of Rust', texts)


def library_of_rust():
    """The standard library of Rust, which is linked into each of its programs."""
    version = run('rustc', '--version').split()[1]
    folder = os.path.join(run('rustc', '--print', 'sysroot').strip(), 'share', 'doc', 'rust', 'licenses')
    places = [os.path.join(folder, name) for name in ('Apache-2.0.txt', 'MIT.txt')]
    texts = tuple(read(place) for place in places if os.path.exists(place))
    return Part('rust-std', version, 'MIT OR Apache-2.0', 'the standard library of Rust',
                texts or debian_copyright('libstd-rust-dev'))


def runtimes_of_cxx():
    """The demanglers that the symbolizer is linked with: the packages of the archives that rust/a2l/build.rs takes."""
    versions = glob.glob('/usr/lib/llvm-*/lib/libc++abi.a')
    newest = sorted(versions, key=lambda path: int(re.findall(r'llvm-(\d+)', path)[0]))
    licences = {run('cc', '-print-file-name=libstdc++.a').strip(): 'GPL-3.0-or-later WITH GCC-exception-3.1'}
    licences.update({path: 'Apache-2.0 WITH LLVM-exception' for path in newest[-1:]})
    for path, licence in licences.items():
        package = run('dpkg', '-S', os.path.realpath(path)).split(':')[0]
        version = run('dpkg-query', '-W', '-f', '${Version}', package)
        yield Part(package, version, licence, 'a library for C++', debian_copyright(package))


def crates_of_toolchain():
    """The toolchain's crates below the proved crates: those of crates.txt, and what these use."""
    kit = os.path.join(os.path.dirname(run('rt', 'doc').strip()), 'rattle')
    known = {name for name in os.listdir(kit) if os.path.isdir(os.path.join(kit, name, 'src'))}
    lines = [line.split('#')[0].split(':') for line in read(os.path.join(TOP, 'crates.txt')).split('\n')]
    waiting = [name for line in lines if len(line) > 1 for name in line[1].split()]
    found, version = set(), run('rt', 'version').split()[0]
    while waiting:
        name = waiting.pop()
        if name in known and name not in found:
            found.add(name)
            sources = glob.glob(os.path.join(kit, name, 'src', '**', '*.rt'), recursive=True)
            waiting += {word for path in sources for word in re.findall(r'\b([a-z][a-z0-9_]*)::', read(path))}
    for name in found:
        texts = licence_files(os.path.join(kit, name))
        names = {next((licence for licence, words in KNOWN.items() if words in text), NONE_STATED) for text in texts}
        yield Part(name, version, ' OR '.join(sorted(names)) or NONE_STATED, 'a crate of the toolchain', texts)


def notices(parts):
    """The licences of all parts. A text that several have stands once."""
    owners = {}
    for part in parts:
        for text in part.texts:
            owners.setdefault(text, []).append(part)
    lines = ['What the programs and libraries of a2l are made of, and under which licences.', '']
    lines += [f'{part.name} {part.version}, {part.origin}: '
              + ('no licence is stated' if not part.texts else 'below' if part.licence == NONE_STATED else part.licence)
              for part in parts]
    for text, having in sorted(owners.items(), key=lambda pair: [part.name for part in pair[1]]):
        lines += ['', '-' * 80, ', '.join(f'{part.name} {part.version}' for part in having) + ':', '', text.rstrip()]
    return '\n'.join(lines) + '\n'


def identity(part):
    """The name of a part within the list."""
    return 'SPDXRef-' + re.sub(r'[^A-Za-z0-9.-]', '-', f'{part.name}-{part.version}-{part.origin.split()[-1]}')


def spdx(parts, version):
    """The list of parts, as SPDX 2.3 has it."""
    time = datetime.fromtimestamp(int(os.environ['SOURCE_DATE_EPOCH']), timezone.utc).strftime('%Y-%m-%dT%H:%M:%SZ')
    whole = Part('a2l', version, NONE_STATED, 'this release')
    packages = [{'SPDXID': identity(part), 'name': part.name, 'versionInfo': part.version, 'comment': part.origin,
                 'licenseDeclared': part.licence, 'licenseConcluded': NONE_STATED, 'copyrightText': NONE_STATED,
                 'downloadLocation': NONE_STATED, 'filesAnalyzed': False} for part in [whole, *parts]]
    relations = [{'spdxElementId': identity(part), 'relationshipType': 'STATIC_LINK',
                  'relatedSpdxElement': identity(whole)} for part in parts]
    names = hashlib.sha256(json.dumps(packages).encode()).hexdigest()
    return {'spdxVersion': 'SPDX-2.3', 'dataLicense': 'CC0-1.0', 'SPDXID': 'SPDXRef-DOCUMENT', 'name': f'a2l-{version}',
            'documentNamespace': f'urn:a2l:{version}:{names}',
            'creationInfo': {'created': time, 'creators': ['Tool: release/notices.py']}, 'packages': packages,
            'relationships': [{'spdxElementId': 'SPDXRef-DOCUMENT', 'relationshipType': 'DESCRIBES',
                               'relatedSpdxElement': identity(whole)}, *relations]}


def main():
    folder = sys.argv[1]
    parts = [*crates_of_rust(), library_of_rust(), *runtimes_of_cxx(), *crates_of_toolchain()]
    parts.sort(key=lambda part: (part.origin, part.name, part.version))
    with open(os.path.join(folder, 'NOTICES'), 'w', encoding='utf-8') as file:
        file.write(notices(parts))
    with open(os.path.join(folder, 'a2l.spdx.json'), 'w', encoding='utf-8') as file:
        json.dump(spdx(parts, read(os.path.join(TOP, 'VERSION')).strip()), file, indent=1)
        file.write('\n')
    print(f'{len(parts)} parts')


if __name__ == '__main__':
    main()
