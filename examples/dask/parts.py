"""What a worker does: it cuts a program's addresses into parts, and answers a part.

A part is answered by its own words alone, and its answers are a file that appears whole or not at all, under a name
that the part tells. So a part may be run anywhere, again, or twice at once.
"""

from __future__ import annotations

import json
import math
import os
import signal
import threading
import time
import uuid
from collections import OrderedDict
from contextlib import contextmanager
from dataclasses import dataclass, replace
from typing import Dict, Iterator, List, Optional, Sequence, Tuple

import a2l
import asked

# What a part takes, about: for each address, and for each byte of the program where all of its units are read.
PER_ADDRESS, PER_BYTE = 60e-6, 6e-9
# How many programs a worker keeps open.
OPEN = 8
# How many addresses are asked for at once to find where a unit ends.
PROBES = 16


@dataclass(frozen=True)
class Pace:
    """How many seconds a part should take, and how many it may take; without a limit, as many as it takes.

    A part that keeps a unit whole may take up to twice as long as it should.
    """

    seconds: float = 2.0
    limit: Optional[float] = None


@dataclass(frozen=True)
class Part:
    """Some of the addresses of a program: those from `begin` on and before `end` of the file `asked`."""

    program: str
    path: str
    asked: str
    begin: int
    end: int
    out: str
    number: int
    limit: Optional[float] = None

    @property
    def name(self) -> str:
        """The name of the file of its answers."""
        return f'{self.number:06}-{self.begin:010}.jsonl'


@dataclass(frozen=True)
class Done:
    """What was done for a part: its rows, whether its program was refused, and for how many seconds it was asked."""

    rows: int
    refused: bool
    seconds: float
    asking: float


class Programs:
    """The programs that were used last. One that is dropped here is closed when nobody uses it any more."""

    def __init__(self, most: int) -> None:
        self._most = most
        self._lock = threading.Lock()
        self._open: OrderedDict[str, Tuple[Tuple[int, ...], a2l.Program]] = OrderedDict()

    def get(self, path: str) -> a2l.Program:
        """The program at a path, which is opened where it isn't open or where the file is another one now."""
        about = os.stat(path)
        which = (about.st_dev, about.st_ino, about.st_size, about.st_mtime_ns)
        with self._lock:
            known = self._open.get(path)
            if known is None or known[0] != which:
                known = self._open[path] = which, a2l.open(path, capacity=1)
            self._open.move_to_end(path)
            while len(self._open) > self._most:
                self._open.popitem(last=False)
            return known[1]


PROGRAMS = Programs(OPEN)


def parts_wanted(addresses: int, size: int, seconds: float) -> int:
    """How many parts a program of so many addresses and bytes should have."""
    return max(1, min(addresses, math.ceil((addresses * PER_ADDRESS + size * PER_BYTE) / seconds)))


def cut(part: Part, wanted: int) -> List[Part]:
    """Cuts a part into as many as are wanted, of as many addresses each, so that a unit's addresses stay together.

    Each cut is moved on to where a unit ends. A unit with so many addresses that the next cut comes first is cut all
    the same. A program that can't be opened isn't cut.
    """
    try:
        program = PROGRAMS.get(part.path)
    except (a2l.Refused, OSError):
        return [part]
    addresses, _ = asked.read(part.asked, part.begin, part.end)
    even = [len(addresses) * k // wanted for k in range(wanted + 1)]
    cuts = sorted({0, len(addresses), *(_border(program, addresses, *both) for both in zip(even[1:], even[2:]))})
    return [replace(part, begin=part.begin + begin, end=part.begin + end) for begin, end in zip(cuts, cuts[1:])]


def _border(program: a2l.Program, addresses: Sequence[int], begin: int, end: int) -> int:
    """The first place from `begin` on whose address isn't of the unit before; `begin` where there is none before `end`.

    It is looked for by a few addresses at a time, at first near `begin`, so a unit that lies in pieces may be cut.
    """
    low, high = begin, end
    places = [begin - 1 + (1 << k) for k in range(PROBES) if begin - 1 + (1 << k) < end]
    unit = program.locations_of([addresses[begin - 1]])[0].unit
    while low < high:
        for place, answer in zip(places, program.locations_of([addresses[place] for place in places])):
            if answer.unit != unit:
                high = place
                break
            low = place + 1
        places = sorted({low + (high - low) * k // PROBES for k in range(PROBES)} - {high})
    return begin if low == end else low


@contextmanager
def within(limit: Optional[float]) -> Iterator[None]:
    """Ends this process if the block takes more seconds: a question to the library can't be interrupted."""
    if limit is None:
        yield
        return
    timer = threading.Timer(limit, os.kill, (os.getpid(), signal.SIGKILL))
    timer.daemon = True
    timer.start()
    try:
        yield
    finally:
        timer.cancel()


def answer(part: Part) -> Done:
    """Answers a part: its rows are in the folder then, also if its program is refused or missing.

    A part that takes longer than its limit ends the worker's process, as any other death of a worker would.
    """
    with within(part.limit):
        return _answer(part)


def _answer(part: Part) -> Done:
    begun = time.perf_counter()
    addresses, counts = asked.read(part.asked, part.begin, part.end)
    answers: List[a2l.Answer] = []
    refusal: Optional[str] = None
    asking = time.perf_counter()
    try:
        # A handle of its own, so that what is read of units is let go with the part.
        with PROGRAMS.get(part.path).beside() as program:
            answers = program.frames_of(addresses)
    except (a2l.Refused, OSError) as why:
        refusal = reason_of(why)
    answered = time.perf_counter()
    if refusal is None:
        rows = list(_rows(part.program, addresses, counts, answers))
    else:
        rows = [row_without_answers(part.program, 'refused', refusal, counts)]
    write(os.path.join(part.out, part.name), rows)
    return Done(len(rows), refusal is not None, time.perf_counter() - begun, answered - asking)


def reason_of(why: Exception) -> str:
    """Why a program isn't answered, without its path, which the row has."""
    if isinstance(why, a2l.Refused):
        return str(why)[len(why.path) + 2:]
    return os.strerror(why.errno) if isinstance(why, OSError) and why.errno else repr(why)


def row_without_answers(program: str, what: str, why: str, counts: Sequence[int]) -> str:
    """The one row of addresses that aren't answered, with how many they are and how often they were seen."""
    return json.dumps({'program': program, what: why, 'addresses': len(counts), 'count': sum(counts)})


def _rows(program: str, addresses: Sequence[int], counts: Sequence[int], answers: List[a2l.Answer]) -> Iterator[str]:
    """A row for each address. The text of a frame is made once, since answers share their frames."""
    name, texts = json.dumps(program), {}  # type: str, Dict[int, str]
    for address, count, found in zip(addresses, counts, answers):
        for frame in found.frames:
            if id(frame) not in texts:
                texts[id(frame)] = json.dumps({'function': frame.function, 'path': frame.location.path,
                                               'line': frame.location.line, 'column': frame.location.column})
        frames = ', '.join([texts[id(frame)] for frame in found.frames])
        fault = ''
        if found.fault is not None:
            fault = f', "fault": {{"unit": "{found.fault.unit:#x}", "number": {found.fault.number}}}'
        yield f'{{"program": {name}, "address": "{address:#x}", "count": {count}, "frames": [{frames}]{fault}}}'


def write(path: str, rows: List[str]) -> None:
    """Writes a file of rows, which is there when all of them are."""
    folder, name = os.path.split(path)
    unfinished = os.path.join(folder, 'unfinished', f'{name}.{uuid.uuid4().hex}')
    with open(unfinished, 'w', encoding='ascii') as file:
        file.writelines(f'{row}\n' for row in rows)
    os.replace(unfinished, path)
