"""Asks llvm-symbolizer and a2l-symbolizer for the same addresses, one after the other.

They are symbols' first addresses, random ones of the code, and some outside; objects of the symbol
table are asked for as data. Names are as they stand in the file. Where llvm-symbolizer gives an
address a line, a2l-symbolizer has to. Every other difference needs one of the reasons below. It prints
a line a program, and the counts of the reasons; the exit status is 1 where a difference has none.
"""

import argparse
import collections
import os
import random
import re
import subprocess
import sys

from conversation import Conversation

FLAGS = ['--no-demangle', '--inlines', '--default-arch=x86_64']
UNKNOWN = (b'??\n??:0:0\n\n', b'??\n0 0\n??:?\n\n')
SAID = {
    'column': 'a row has a column and no line',
    'sizeless': 'llvm-symbolizer takes a symbol without a size for all behind it, in other sections too',
    'call': 'the addr2line crate knows no file of a call whose number is 0, as in DWARF 5 by clang',
    'dropped': 'the linker dropped the code and left its ranges: each tool takes another one, or none',
    'several': 'several symbols without a size are at one address',
    'version': 'llvm-symbolizer writes the version of a symbol behind its name',
    'more': 'a2l-symbolizer gives a line, llvm-symbolizer none',
    'otherwise': 'both give a line, or neither, but not the same frames',
}


def shown(*words):
    return subprocess.run(words, check=True, capture_output=True, text=True, errors='replace').stdout


class Program:
    """What is asked of a program, and the symbols that decide on a difference."""

    def __init__(self, path, count):
        self.path, draw = os.fsencode(path), random.Random(path)
        found = re.findall(r': (\w+) +(\w+) (\w+) +\w+ +\w+ +\w+ ([^\s@]+)', shown('readelf', '-sW', path))
        self.symbols = [(int(value, 16), int(size, 0), kind, name) for value, size, kind, name in found if int(value, 16)]
        starts = sorted({value for value, _, kind, _ in self.symbols if kind in ('FUNC', 'IFUNC')})
        objects = sorted({value for value, _, kind, _ in self.symbols if kind == 'OBJECT'})
        self.data = draw.sample(objects, min(len(objects), count // 4))
        asked = set(draw.sample(starts, min(len(starts), count // 4)))
        sections = re.findall(r'\] \S* +PROGBITS +(\w+) \w+ (\w+) \w+ +\w*X', shown('readelf', '-SW', path))
        self.sections = [(int(begin, 16), int(size, 16)) for begin, size in sections if int(size, 16)]
        total = sum(size for _, size in self.sections)
        for begin, size in self.sections:
            asked.update(begin + draw.randrange(size) for _ in range(1 + count * size // total))
        asked.update([0, 1, 2 ** 63, 2 ** 64 - 1] + [draw.randrange(2 ** 24) for _ in range(20)])
        self.code = sorted(asked)

    def requests(self):
        yield from ((b'CODE', address) for address in self.code)
        yield from ((b'DATA', address) for address in self.data)

    def is_code(self, address):
        return any(begin <= address < begin + size for begin, size in self.sections)

    def are_at(self, address, *names):
        return {name for begin, _, _, name in self.symbols if begin == address}.issuperset(names)

    def is_sizeless(self, name):
        return any(size == 0 for _, size, _, other in self.symbols if other == name)


def frames(reply):
    """The frames of a reply to CODE, as names and places."""
    lines = reply.decode(errors='backslashreplace').split('\n')
    return list(zip(lines[:-2:2], lines[1:-2:2]))


def has_line(reply):
    return any(not re.search(r':0:\d+$', place) for _, place in frames(reply))


def without_columns(found):
    """Without the columns of places without a line."""
    return [(name, re.sub(r':0:\d+$', ':0:0', place)) for name, place in found]


def reason_of_data(program, address, theirs, ours):
    """Why replies to DATA differ; else none."""
    name, other = (reply.split(b'\n')[0].decode(errors='replace') for reply in (theirs, ours))
    if ours in UNKNOWN and program.is_sizeless(name):
        return 'sizeless'
    if re.sub(rb'@+[\w.]+\n', b'\n', theirs, count=1) == ours:
        return 'version'
    return 'several' if program.are_at(address, name, other) else None


def reason(program, address, theirs, ours):
    """Why replies to CODE differ; else none."""
    if ours in UNKNOWN and program.is_sizeless(frames(theirs)[0][0]):
        return 'sizeless'
    if not program.is_code(address):
        return 'dropped'
    if ours in UNKNOWN:
        return None
    if has_line(ours) and not has_line(theirs):
        return 'more'
    theirs, ours = without_columns(frames(theirs)), without_columns(frames(ours))
    if theirs == ours:
        return 'column'
    return 'call' if is_without_calls(theirs, ours) else None


def is_without_calls(theirs, ours):
    """Whether the frames are the same, but for callers' places that are unknown here."""
    pairs = list(zip(theirs, ours))
    return len(theirs) == len(ours) and pairs[0][0] == pairs[0][1] and \
        all(name == other and other_place in (place, '??:0:0') for (name, place), (other, other_place) in pairs)


class Tally:
    """What was seen of one program."""

    def __init__(self):
        self.alike, self.lines, self.lost, self.why, self.unlike = 0, 0, 0, collections.Counter(), []

    def add(self, program, kind, address, theirs, ours, lines_alone):
        self.lines += kind == b'CODE' and has_line(theirs)
        if theirs == ours:
            self.alike += 1
            return
        is_lost = kind == b'CODE' and has_line(theirs) and not has_line(ours)
        self.lost += is_lost
        why = (reason if kind == b'CODE' else reason_of_data)(program, address, theirs, ours)
        if is_lost and why not in ('dropped', 'call'):
            why = None
        elif lines_alone:
            why = why or 'otherwise'
        if why:
            self.why[why] += 1
        else:
            self.unlike.append(f'{kind.decode()} {address:#x}\n  theirs {theirs!r}\n  ours   {ours!r}')


def compare(path, words, peer, tool):
    """Asks for the addresses of one program."""
    program, tally = Program(path, words.count), Tally()
    for kind, address in program.requests():
        line = b'%s "%s" %#x' % (kind, program.path, address)
        tally.add(program, kind, address, peer.ask(line), tool.ask(line), words.lines)
    print('\n'.join(tally.unlike[:8] + [
        f'{os.path.basename(path)}: {len(program.code) + len(program.data)} requests, {tally.alike} replies alike, '
        f'{tally.lines} with a line, {tally.lost} of them without one' +
        ''.join(f', {count} {why}' for why, count in tally.why.items())]), flush=True)
    return tally


def main():
    parser = argparse.ArgumentParser(description=__doc__.split('\n', maxsplit=1)[0])
    parser.add_argument('--lines', action='store_true', help='only a line that is missing fails; the rest is counted')
    parser.add_argument('count', type=int)
    parser.add_argument('peer')
    parser.add_argument('tool')
    parser.add_argument('programs', nargs='+')
    words = parser.parse_args()
    with Conversation([words.peer] + FLAGS) as peer, Conversation([words.tool] + FLAGS) as tool:
        tallies = [compare(path, words, peer, tool) for path in words.programs]
    whys = sum((tally.why for tally in tallies), collections.Counter())
    for why, count in whys.items():
        print(f'{count:6} {why}: {SAID[why]}')
    unlike = sum(len(tally.unlike) for tally in tallies)
    alike, lines = (sum(getattr(tally, name) for tally in tallies) for name in ('alike', 'lines'))
    print(f'{alike} replies of {len(tallies)} programs alike, {lines} with a line; {unlike} differ without a reason')
    sys.exit(1 if unlike else 0)


if __name__ == '__main__':
    main()
