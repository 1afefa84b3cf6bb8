"""damaged.py COUNT SEED TOOL OBJECT..: relocatable files with bytes that are changed, asked for in both protocols.

Bytes are changed in relocations, symbols, sections of debug information and headers, or the file is cut off. Each
request has to get a reply that is framed as its protocol demands, and a known request after each file its known reply.
It prints how many replies had frames.
"""

import os
import random
import re
import subprocess
import sys

from conversation import Conversation

LLVM = re.compile(rb'(?:[^\n]+\n[^\n]+:\d+:\d+\n)+\n')
GNU = re.compile(rb'(?:[^\n]+\n[^\n]+:(?:\d+|\?)\n)+')
UNKNOWN = (b'??\n??:0:0\n\n', b'??\n??:0\n')
NUMBERS = [0, 1, 0x7f, 0x80, 0xff, 0xffff, 0x7fffffff, 0xffffffff, 1 << 40, (1 << 63) - 1, 1 << 63, (1 << 64) - 1]


def places_of(path):
    """Where bytes are changed: the offset and the size of the header, of the table of sections and of sections."""
    shown = subprocess.run(['readelf', '-hSW', path], check=True, capture_output=True, text=True).stdout
    begin = int(re.search(r'Start of section headers: +(\d+)', shown)[1])
    rows = re.findall(r'\] (\S+) +(\w+) +[0-9a-f]+ ([0-9a-f]+) ([0-9a-f]+) ', shown)
    found = {name: (int(offset, 16), int(size, 16)) for name, kind, offset, size in rows if kind != 'NOBITS'}
    wanted = [found[name] for name in found if re.match(r'\.rela?\.debug|\.debug|\.symtab|\.strtab', name)]
    wanted = [place for place in wanted if place[1]]
    relocations = [found[name] for name in found if re.match(r'\.rela?\.debug', name) and found[name][1]]
    return wanted + relocations * 2 + [(0, 64)] + [(begin, os.path.getsize(path) - begin)] * 4


def damaged(draw, whole, places):
    """The bytes of a file with one to eight changes."""
    data = bytearray(whole)
    for _ in range(draw.choice([1, 1, 1, 2, 3, 8])):
        begin, size = draw.choice(places)
        at, width = begin + draw.randrange(size), draw.choice([1, 1, 2, 4, 8])
        number = draw.choice(NUMBERS) if draw.random() < 0.5 else draw.getrandbits(64)
        data[at:at + width] = (number % (1 << 8 * width)).to_bytes(width, 'little')
    return bytes(data[:draw.randrange(len(data))] if draw.random() < 0.03 else data)


def as_gnu(words, line, has_section):
    """Whether the reply in GNU's protocol has frames. A file that has lost its section is refused."""
    words = [*words, *(['-j', '.text'] if has_section else [])]
    done = subprocess.run(words, input=line + b'\n,\n', capture_output=True, timeout=20)
    if has_section and done.returncode == 1 and b'cannot find section' in done.stderr:
        return False
    reply = done.stdout.removesuffix(UNKNOWN[1])
    if not GNU.fullmatch(reply) or done.returncode not in (0, 1):
        sys.exit(f'{words}: status {done.returncode}, the reply {reply[:400]!r}, {done.stderr!r}')
    return reply not in UNKNOWN


def main(count, seed, tool, *objects):
    draw, known, found = random.Random(int(seed)), {}, 0
    files = [(open(path, 'rb').read(), places_of(path)) for path in objects]
    with Conversation([tool, '--as=llvm-symbolizer']) as llvm:
        marker = b'"%s" 0x4' % os.fsencode(os.path.abspath(objects[0]))
        known = llvm.ask(marker)
        if known in UNKNOWN or not LLVM.fullmatch(known):
            sys.exit(f'no frames of {marker!r}: {known!r}')
        for number in range(int(count)):
            whole, places = draw.choice(files)
            path = f'damaged-{number}.o'
            with open(path, 'wb') as file:
                file.write(damaged(draw, whole, places))
            for address in (0, draw.randrange(64), draw.getrandbits(draw.choice([8, 12, 63]))):
                reply = llvm.ask(b'%s %#x' % (path.encode(), address))
                if not LLVM.fullmatch(reply):
                    sys.exit(f'{path}, {address:#x}: the reply {reply[:400]!r}')
                found += reply not in UNKNOWN
            if (after := llvm.ask(marker)) != known:
                sys.exit(f'after {path} the known request has the reply {after[:400]!r}')
            found += as_gnu([tool, '--as=addr2line', '-fie', path], b'%x' % draw.randrange(64), draw.random() < 0.5)
            os.remove(path)
        if llvm.end():
            sys.exit('the tool ended with another status than 0')
    print(f'{count} damaged files, {found} of {4 * int(count)} replies with frames')


if __name__ == '__main__':
    main(*sys.argv[1:])
