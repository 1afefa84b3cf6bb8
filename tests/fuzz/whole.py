"""Compares the program and the model on whole programs of compilers, at addresses where something changes, and on spans.
Words: the program, how many addresses to ask of each at most, and the programs. See tests/model.sh."""
import os
import random
import sys
from collections import Counter

here = os.path.dirname(os.path.abspath(__file__))
sys.path[:0] = [here, os.path.dirname(here)]

from compare import LAST, Program, borders
from model.answers import Image
from model.program import run
from rows import load

SPANS = 50


def asked(path, image, most):
    """The borders of ranges and rows and the addresses before them, or some of them, and some marks; and spans: between
    such addresses, short ones, and all addresses."""
    found = sorted({a for end in borders(image) for a in (end - 1, end) if 0 <= a <= LAST})
    drawn = random.Random(path)
    addresses = sorted({0, 1, 2 ** 63, LAST, *drawn.sample(found, min(len(found), most))})
    spans = [sorted(drawn.sample(found, 2)) for _ in range(SPANS)]
    spans += [(low, low + 100) for low in drawn.sample(found, min(len(found), SPANS))] + [(0, LAST)]
    return [f'{address:#x}' for address in addresses], [f'{low:#x}-{high:#x}' for low, high in spans]


def agreed(program, words, file, lines):
    """What program and model write for these words and lines, which is the same."""
    given = ''.join(line + '\n' for line in lines).encode()
    with open('given', 'wb') as written:
        written.write(given)
    wanted = run(words, lambda _: file, lambda: given)
    got = Program(program, words, 'given').outcome()
    if got != wanted:
        pairs = zip(got.output.split(b'\n'), wanted.output.split(b'\n'))
        line, pair = next(((n, pair) for n, pair in enumerate(pairs) if pair[0] != pair[1]), (0, None))
        sys.exit(f'{words}: status {got.status} and {wanted.status}, line {line}: program and model wrote {pair}')
    return got.output


def compare(program, path, most):
    """Compares the listing and the answers of a program, and gives how many addresses, frames, spans and pieces there
    were."""
    file = load(path)
    addresses, spans = asked(path, Image(file), most)
    agreed(program, ['-e', path, '--units'], file, [])
    frames = agreed(program, ['-e', path, '-f', '-i', '-a'], file, addresses)
    pieces = agreed(program, ['-e', path, '-a'], file, spans)
    return Counter(addresses=len(addresses), frames=(frames.count(b'\n') - len(addresses)) // 2, spans=len(spans),
                   pieces=sum(line.startswith(b'0x') for line in pieces.split(b'\n')) - len(spans))


def main(program, most, *paths):
    total = Counter()
    for path in paths:
        found = compare(program, path, int(most))
        print(f'{os.path.basename(path)}: {found["addresses"]} addresses, {found["frames"]} frames, '
              f'{found["spans"]} spans, {found["pieces"]} pieces', flush=True)
        total += found
    print(f'{total["addresses"]} answers of {total["frames"]} frames agree with the model of docs/MEANING.md, '
          f'{total["spans"]} spans of {total["pieces"]} pieces, and {len(paths)} listings')


main(*sys.argv[1:])
