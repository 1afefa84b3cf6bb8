#!/usr/bin/env python3
"""Draws docs/times.svg and docs/memory.svg from docs/FIGURES.md: how long 10,000 addresses take, and how much memory.

    charts.py [--check]

The figures are those of the row on 10,000 addresses in the first table; nothing is measured here. With --check it draws
nothing, and fails if a picture isn't what the figures give.
"""

import os
import re
import sys
from dataclasses import dataclass

DOCS = os.path.join(os.path.dirname(os.path.abspath(__file__)), os.pardir, 'docs')
ROW = '| 10,000 in random order |'
OURS = {'one worker': 'a2l, one worker', 'four': 'a2l, four workers'}
PEERS = {'the crate': 'addr2line (Rust)', 'LLVM': 'llvm-symbolizer', 'GNU': 'GNU addr2line'}
WIDTH, LABEL, ROOM, BAR, GAP, HEAD = 640, 150, 90, 22, 8, 34


@dataclass(frozen=True)
class Figure:
    """What one program took: its seconds, and its megabytes."""

    who: str
    ours: bool
    seconds: float
    megabytes: int


def figures(text):
    """The figures of the row, ours first."""
    row = next(line for line in text.split('\n') if line.startswith(ROW))
    for names, ours in ((OURS, True), (PEERS, False)):
        for name, who in names.items():
            found = re.search(rf'\b{name} ([\d.]+) s, (\d+) MB', row)
            if found is None:
                raise SystemExit(f'docs/FIGURES.md: the row on 10,000 addresses has no figures of {name}')
            yield Figure(who, ours, float(found[1]), int(found[2]))


def bar(number, figure, value, most, unit):
    """A bar with its name and its value."""
    top, length = HEAD + number * (BAR + GAP), (WIDTH - LABEL - ROOM) * value / most
    colour, middle = ('#2f6f4f' if figure.ours else '#a9b4bd'), top + BAR * 0.7
    return (f'<text x="{LABEL - 8}" y="{middle:.0f}" text-anchor="end">{figure.who}</text>'
            f'<rect x="{LABEL}" y="{top}" width="{length:.1f}" height="{BAR}" fill="{colour}"/>'
            f'<text x="{LABEL + length + 6:.1f}" y="{middle:.0f}">{value:g} {unit}</text>')


def chart(title, found, values, unit):
    """A picture with a bar for each program."""
    bars = [bar(number, figure, value, max(values), unit) for number, (figure, value) in enumerate(zip(found, values))]
    height = HEAD + len(bars) * (BAR + GAP)
    return '\n'.join([
        f'<svg xmlns="http://www.w3.org/2000/svg" viewBox="0 0 {WIDTH} {height}" font-family="sans-serif" font-size="13">',
        f'<title>{title}</title>',
        f'<rect width="{WIDTH}" height="{height}" fill="#ffffff"/>',
        f'<text x="8" y="20" font-weight="bold">{title}</text>', *bars, '</svg>', ''])


def main():
    with open(os.path.join(DOCS, 'FIGURES.md'), encoding='utf-8') as file:
        found = list(figures(file.read()))
    of = '10,000 random addresses of gdb, 146 MB of C++'
    pictures = {'times.svg': chart(f'{of}: seconds', found, [figure.seconds for figure in found], 's'),
                'memory.svg': chart(f'{of}: memory', found, [figure.megabytes for figure in found], 'MB')}
    for name, picture in pictures.items():
        path = os.path.join(DOCS, name)
        if '--check' not in sys.argv[1:]:
            with open(path, 'w', encoding='utf-8') as file:
                file.write(picture)
        else:
            with open(path, encoding='utf-8') as file:
                if file.read() != picture:
                    raise SystemExit(f'docs/{name} is not what docs/FIGURES.md gives: run bench/charts.py')
    print(f'{len(pictures)} pictures of {len(found)} figures each')


if __name__ == '__main__':
    main()
