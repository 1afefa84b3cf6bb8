"""What is asked for: tables of programs, addresses and counts, added up by program."""

from __future__ import annotations

import csv
import json
import os
import re
from array import array
from typing import Dict, Iterable, Iterator, List, Tuple

# How many rows of a program may wait before equal ones are added up.
WAITING = 1 << 16
# A program that is named by its build id rather than by its path.
BUILD_ID = re.compile('(?:[0-9a-f]{2}){4,}')
ADDRESS, COUNT = re.compile('(?:0x)?[0-9A-Fa-f]{1,16}'), re.compile('[0-9]+')


class Asked:
    """The addresses of one program, and how often each was seen. Rows take 16 bytes each.

    Equal addresses are added up where there are many rows, and when `settle` is called, after which they are in order.
    """

    def __init__(self) -> None:
        self.addresses, self.counts = array('Q'), array('Q')
        self._settled = 0

    def add(self, address: int, count: int) -> None:
        """Adds a row. Raises OverflowError where one of the numbers has more than 64 bits."""
        self.addresses.append(address)
        try:
            self.counts.append(count)
        except OverflowError:
            self.addresses.pop()
            raise
        if len(self.addresses) > 2 * self._settled + WAITING:
            self.settle()

    def settle(self) -> None:
        """Adds up equal addresses, and sorts them."""
        sums: Dict[int, int] = {}
        for address, count in zip(self.addresses, self.counts):
            sums[address] = sums.get(address, 0) + count
        self.addresses = array('Q', sorted(sums))
        self.counts = array('Q', [sums[address] for address in self.addresses])
        self._settled = len(self.addresses)

    def write(self, path: str) -> None:
        """Writes all addresses, and then all counts. `read` reads some of them again."""
        with open(path, 'wb') as file:
            self.addresses.tofile(file)
            self.counts.tofile(file)


def read(path: str, begin: int, end: int) -> Tuple[array[int], array[int]]:
    """Addresses and counts from one place to before another."""
    addresses, counts = array('Q'), array('Q')
    with open(path, 'rb') as file:
        count = os.fstat(file.fileno()).st_size // 16
        file.seek(8 * begin)
        addresses.fromfile(file, end - begin)
        file.seek(8 * (count + begin))
        counts.fromfile(file, end - begin)
    return addresses, counts


def read_tables(paths: Iterable[str]) -> Tuple[Dict[str, Asked], List[str]]:
    """What is asked for of each program, and a row for each line of the tables that can't be read.

    A line is `program,address,count`, the address of 1 to 16 hexadecimal digits, with 0x or without. A first line of
    these three words is passed over.
    """
    programs: Dict[str, Asked] = {}
    bad: List[str] = []
    for path in paths:
        for number, cells in _lines(path):
            try:
                program, address, count = cells
                if not ADDRESS.fullmatch(address) or not COUNT.fullmatch(count):
                    raise ValueError
                programs.setdefault(program, Asked()).add(int(address, 16), int(count))
            except (ValueError, OverflowError):
                bad.append(json.dumps({'table': path, 'line': number, 'bad': ','.join(cells)}))
    for asked in programs.values():
        asked.settle()
    return {program: asked for program, asked in programs.items() if asked.addresses}, bad


def _lines(path: str) -> Iterator[Tuple[int, List[str]]]:
    """The lines of a table with their numbers, without its head."""
    with open(path, encoding='utf-8', errors='surrogateescape', newline='') as file:
        reader = csv.reader(file)
        for cells in reader:
            if cells and not (reader.line_num == 1 and cells == ['program', 'address', 'count']):
                yield reader.line_num, cells


def path_of(program: str, folders: List[str]) -> str:
    """Where a program is. A build id is looked for as debuggers do, by its first byte and then by the others."""
    if not BUILD_ID.fullmatch(program):
        return program
    within = [os.path.join(program[:2], program[2:] + ending) for ending in ('.debug', '')]
    places = [os.path.join(folder, place) for folder in folders for place in within]
    return next((place for place in places if os.path.exists(place)), places[0])
