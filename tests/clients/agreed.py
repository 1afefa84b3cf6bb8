"""agreed.py NAME FILE [OPTION..]: what llvm-symbolizer and GNU addr2line say alike, a2l-symbolizer has to say.

All addresses of the code of a file are asked for in both protocols. Where both originals agree on a field of a frame
(function, file, line) and ours is another one, that fails, but for one of the reasons below, which the file has to
bear out. Each file is asked by addresses and by sections. llvm-symbolizer takes no section, and is asked about the
linked twin of a relocatable file, in which each section has its own addresses. Readable names of all functions at an
address of a linked file are those of llvm-symbolizer, in its protocol. It prints a line a file.
"""

import argparse
import collections
import json
import os
import re
import subprocess
import sys

# Why ours may be another one, beside which evidence.
SAID = {
    'linked': 'of the file linked, llvm-symbolizer says what ours says',
    'suffix': "as GNU's addr2line elsewhere, ours has the name of debug information, without the symbol's suffix",
    'nameless': 'llvm-symbolizer names a function by a symbol that has no name, a label of RISC-V',
}
FIELDS = ('function', 'file', 'line')


def shown(*words):
    return subprocess.run(words, check=True, capture_output=True, text=True, errors='replace').stdout


def sections_of_code(path):
    """The name, first address and size of each section of code."""
    rows = re.findall(r'\] (\S+) +\w+ +([0-9a-f]+) \w+ ([0-9a-f]+) \w\w +(\w*X\w*) ', shown('readelf', '-SW', path))
    return [(name, int(begin, 16), int(size, 16)) for name, begin, size, _ in rows if int(size, 16)]


def is_relocatable(path):
    return 'REL (Relocatable file)' in shown('readelf', '-hW', path)


def frame(name, place):
    """A frame as function, file and line; none for each that isn't known."""
    path, line = re.fullmatch(r'(.*?):(\d+|\?)(?::\d+)?(?: \(discriminator \d+\))?', place).groups()
    known = path not in ('??', '')
    line = int(line) if line.isdigit() and known else 0
    return (name if name != '??' else None, os.path.normpath(path) if known and line else None, line or None)


def frames_of(lines):
    return [frame(*pair) for pair in zip(lines[::2], lines[1::2])]


def run(words, addresses):
    asked = ''.join(f'{address:#x}\n' for address in addresses)
    return subprocess.run(words, input=asked, check=True, capture_output=True, text=True, errors='replace').stdout


def of_llvm(words, path, addresses, names='--no-demangle'):
    """The frames of each address, by llvm-symbolizer: in JSON, since names that it writes may be empty."""
    text = run([*words, names, '--inlines', '--output-style=JSON', f'--obj={path}'], addresses)
    replies = [json.loads(line).get('Symbol', []) for line in text.splitlines()]
    return [[frame(one['FunctionName'] or '??', f'{one["FileName"] or "??"}:{one["Line"]}') for one in reply]
            or [frame('??', '??:0')] for reply in replies]


def as_llvm(words, path, addresses, names='--no-demangle'):
    """The same by ours, in LLVM's protocol."""
    replies = run([*words, names, '--inlines', f'--obj={path}'], addresses).split('\n\n')[:-1]
    return [frames_of(reply.split('\n')) for reply in replies]


def as_gnu(words, path, addresses, section=None):
    """The same by either, in GNU's."""
    where = ['-j', section] if section else []
    text = run([*words, '-a', '-f', '-i', '-e', path, *where], addresses)
    replies = re.split(r'^(?=0x[0-9a-f]{8,16}$)', text, flags=re.MULTILINE)[1:]
    return [frames_of(reply.split('\n')[1:-1]) for reply in replies]


def field_of(frames, index, field):
    """A field of a frame; of a frame that isn't there it is another one than each that is."""
    return frames[index][field] if index < len(frames) else 'no frame'


class Tally:
    """What was seen of one file."""

    def __init__(self, path):
        with open(path, 'rb') as file:
            self.bytes = file.read()
        self.asked, self.agreed, self.readable, self.why, self.unlike = 0, 0, 0, collections.Counter(), []

    def add(self, where, theirs, ours, linked, in_gnu):
        """Compares the frames that ours has with those of both originals, and with llvm-symbolizer's of the twin."""
        fewer, more = sorted(map(len, theirs))
        # where they have not as many frames, they agree on the innermost one at most
        for index in range(max(more, len(ours)) if fewer == more else 1):
            for field, name in enumerate(FIELDS):
                wanted, other = (field_of(frames, index, field) for frames in theirs)
                if wanted != other:
                    continue
                self.agreed += 1
                own = field_of(ours, index, field)
                if own == wanted:
                    continue
                may_be_shorter = in_gnu and name == 'function'
                if linked and self.is_as(own, field_of(linked, index, field), may_be_shorter):
                    self.why['linked'] += 1
                elif self.is_as(own, wanted, may_be_shorter):
                    self.why['suffix'] += 1
                else:
                    self.unlike.append(f'{where}: frame {index}, {name}: {wanted} by both, {own} by ours')

    def is_as(self, own, wanted, may_be_shorter):
        """Whether a field is the other one, or a name without what compilers append, which stands so in the file."""
        is_shorter = may_be_shorter and own and wanted and re.fullmatch(re.escape(own) + r'(\.[a-z]+(\.\d+)?)+', wanted)
        return own == wanted or bool(is_shorter) and b'\0%s\0' % own.encode() in self.bytes

    def add_all(self, where, addresses, theirs, ours, linked=None, in_gnu=True):
        """The same of all addresses."""
        for replies in (*theirs, ours):
            if len(replies) != len(addresses):
                sys.exit(f'{where}: {len(replies)} replies for {len(addresses)} addresses')
        self.asked += len(addresses)
        for place, address in enumerate(addresses):
            of_address = [replies[place] for replies in theirs], ours[place], linked and linked[place]
            self.add(f'{where} {address:#x}', *of_address, in_gnu)

    def add_names(self, where, theirs, ours, has_labels):
        """Compares the readable names of the functions at an address; labels of the file may have no names."""
        theirs, ours = ([name for name, *_ in frames] for frames in (theirs, ours))
        if theirs == ours:
            self.readable += 1
        elif has_labels and theirs[-1] is None and theirs[:-1] == ours[:-1]:
            self.why['nameless'] += 1
        else:
            self.unlike.append(f'{where}: names {theirs} by llvm-symbolizer, {ours} by ours')


class Comparison:
    """The tools, and the file of which they are asked."""

    def __init__(self, words):
        self.words, self.path, self.tally = words, words.file, Tally(words.file)
        self.sections = sections_of_code(self.path)
        symbols = shown('readelf', '-sW', self.path)
        self.has_labels = re.search(r' NOTYPE +LOCAL +DEFAULT +\d+ *$', symbols, re.MULTILINE)

    def llvm(self, addresses, path=None):
        return of_llvm([self.words.llvm], path or self.path, addresses)

    def gnu(self, addresses, section=None, path=None):
        return as_gnu([self.words.gnu], path or self.path, addresses, section)

    def compare(self, where, addresses, theirs, linked=None):
        """Both protocols, without a section."""
        ours = as_llvm([self.words.tool, '--as=llvm-symbolizer'], self.path, addresses)
        self.tally.add_all(f'{where}, LLVM', addresses, theirs, ours, linked, in_gnu=False)
        ours = as_gnu([self.words.tool, '--as=addr2line'], self.path, addresses)
        self.tally.add_all(f'{where}, GNU', addresses, theirs, ours, linked)

    def compare_section(self, name, offsets, *several):
        """By the section of a name, in GNU's protocol."""
        ours = as_gnu([self.words.tool, '--as=addr2line'], self.path, offsets, name)
        for theirs in several:
            self.tally.add_all(name, offsets, theirs, ours)

    def linked(self):
        """A linked file: by addresses and by sections. Where it is split, its twin is not, of which GNU's is asked: that
        doesn't read split units."""
        for name, begin, size in self.sections:
            addresses, twin = range(begin, begin + size), self.words.twin
            by_llvm = self.llvm(addresses)
            self.compare(name, addresses, (by_llvm, self.gnu(addresses, path=twin)))
            readable = (of_llvm([self.words.llvm], self.path, addresses, '--demangle'),
                        as_llvm([self.words.tool, '--as=llvm-symbolizer'], self.path, addresses, '--demangle'))
            for address, theirs, ours in zip(addresses, *readable, strict=True):
                self.tally.add_names(f'{name} {address:#x}', theirs, ours, self.has_labels)
            self.compare_section(name, range(size), (by_llvm, self.gnu(range(size), name, path=twin)))

    def relocatable(self):
        """A relocatable file: by sections, also as both originals answer for its linked twin, and by offsets alone,
        which are in the first section that is so long. There llvm-symbolizer takes lines of one section and names of
        another one, as what it says of the twin shows."""
        begins, first = {name: begin for name, begin, _ in sections_of_code(self.words.twin)}, []
        for name, _, size in self.sections:
            if name not in begins:
                sys.exit(f'{self.words.name}: no {name} in the linked twin')
            addresses = range(begins[name], begins[name] + size)
            by_llvm = self.llvm(addresses, self.words.twin)
            theirs = (by_llvm, self.gnu(range(size), name)), (by_llvm, self.gnu(addresses, path=self.words.twin))
            self.compare_section(name, range(size), *theirs)
            first.extend(by_llvm[len(first):])
        offsets = range(len(first))
        self.compare('no section', offsets, (self.llvm(offsets), self.gnu(offsets)), first)


def main():
    parser = argparse.ArgumentParser(description=__doc__.split('\n', maxsplit=1)[0])
    parser.add_argument('--tool', required=True)
    parser.add_argument('--llvm', default='llvm-symbolizer-19')
    parser.add_argument('--gnu', default='addr2line')
    parser.add_argument('--twin', help='a relocatable file, linked so that no two sections have an address in common;'
                        ' a split program that is built whole')
    parser.add_argument('name')
    parser.add_argument('file')
    words = parser.parse_args()
    comparison = Comparison(words)
    (comparison.relocatable if is_relocatable(words.file) else comparison.linked)()
    tally = comparison.tally
    told = ''.join(f', {count} {why}: {SAID[why]}' for why, count in tally.why.items())
    told += f', {tally.readable} addresses with readable names' if tally.readable else ''
    print('\n'.join(tally.unlike[:8] + [
        f'{words.name}: {tally.asked} addresses, {tally.agreed} fields that both originals agree on, '
        f'{len(tally.unlike)} other ones by ours{told}']), flush=True)
    sys.exit(1 if tally.unlike or not tally.agreed else 0)


if __name__ == '__main__':
    main()
