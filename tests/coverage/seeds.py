"""Writes the files with which the search begins into a folder: the samples and those of tests/fuzz that are made byte
by byte, some that are made at random, and small ones of each kind of tests/hostile.py. Each has two addresses at its
end. Words: the folder, a folder of samples, and the most bytes of a file. See tests/coverage.sh."""
import os
import random
import sys

here = os.path.dirname(os.path.abspath(__file__))
sys.path[:0] = [os.path.join(here, '..'), os.path.join(here, '..', 'fuzz')]

import hostile
from assemble import elf_file, number
from generate import Generator
from samples import bases

MADE_AT_RANDOM = 1500
HOSTILE_SIZES = [400, 1500, 7000]


def files(samples):
    """Each file with two addresses of it."""
    for base in bases(samples, []):
        yield elf_file(base.sections), (0x401004, 0x40100e)
        yield base.file, (0x1000, 0x401000)
    for index in range(MADE_AT_RANDOM):
        drawn = random.Random(index)
        yield Generator(drawn).file(), [0x1000 * drawn.randrange(1, 4) + drawn.randrange(0x100) for _ in range(2)]
    for kind in hostile.KINDS:
        for size in HOSTILE_SIZES:
            yield getattr(hostile, kind)(size), (hostile.BEGIN + 5, hostile.BEGIN + 0x2005)


def main():
    folder, samples, most = sys.argv[1], sys.argv[2], int(sys.argv[3])
    for index, (file, addresses) in enumerate(files(samples)):
        file += b''.join(number(address, 8) for address in addresses)
        if len(file) <= most:
            with open(os.path.join(folder, f'{index:05}'), 'wb') as written:
                written.write(file)


main()
