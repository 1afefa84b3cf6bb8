"""Runs the program and the model on a file, and compares all that they write."""
import os
import re
import select
import signal
import time
from dataclasses import dataclass

from model.answers import Image
from model.elf import Refused
from model.program import Outcome, run

LIMIT = 10  # seconds after which a run is given up

MARKS = [0, 1, 0x401000, 0x401004, 0x40100e, 2 ** 63, 2 ** 64 - 2, 2 ** 64 - 1]
LAST = 2 ** 64 - 1
MOST_SPANS = 6  # of one run
BAD = ['', '0x', 'zz', '0x10000000000000000', '00000000000000001', '+1', '0x1 ', '1\r', '2-1', '1-1', '1-', '1-2-3', '1-z']


class GivenUp(Exception):
    """A run takes too long."""


def alarmed(*_):
    raise GivenUp


class Program:
    """A run of the program, which goes on while the model runs."""

    def __init__(self, program, words, given):
        self.until = time.monotonic() + LIMIT
        self.ends = [os.pipe(), os.pipe()]
        actions = [(os.POSIX_SPAWN_OPEN, 0, given, os.O_RDONLY, 0)]
        for descriptor, (_, write) in enumerate(self.ends, 1):
            actions.append((os.POSIX_SPAWN_DUP2, write, descriptor))
        self.process = os.posix_spawn(program, [program, *words], os.environ, file_actions=actions)
        for _, write in self.ends:
            os.close(write)

    def outcome(self):
        """What it wrote and its status; it is ended where it takes too long."""
        written = {read: [] for read, _ in self.ends}
        waiting = set(written)
        try:
            while waiting:
                ready, _, _ = select.select(waiting, [], [], max(0, self.until - time.monotonic()))
                if not ready:
                    os.kill(self.process, signal.SIGKILL)
                    raise GivenUp
                for read in ready:
                    piece = os.read(read, 1 << 16)
                    written[read].append(piece)
                    if not piece:
                        waiting.remove(read)
        finally:
            for read in written:
                os.close(read)
            _, status = os.waitpid(self.process, 0)
        output, errors = (b''.join(pieces) for pieces in written.values())
        return Outcome(output, errors, os.waitstatus_to_exitcode(status))


# ---- what is asked


def borders(image):
    """The addresses at which a range of a unit or a function, or a row, begins or ends."""
    found = set()
    for unit, ranges in image.ranges:
        for pair in ranges:
            found.update(pair)
        tree, lines, fault = image.tree_and_lines(unit)
        if fault is None:
            for function in tree.functions:
                for pair in function.ranges:
                    found.update(pair)
            for addresses, _ in lines.sequences if lines else ():
                found.update(addresses)
    return found


def addresses(random, image, most):
    """Borders and the addresses before them, mostly inside of units, and some outside."""
    found = borders(image) if image else set()
    found = sorted({a for end in found for a in (end - 1, end) if 0 <= a < 2 ** 64})
    asked = random.sample(found, min(len(found), most))
    for unit, ranges in image.ranges if image else ():
        if ranges:
            begin, end = random.choice(ranges)
            asked += [begin, random.randrange(begin, end)]
    return asked + random.sample(MARKS, 2)


def border_near(random, found):
    """A border, or an address beside one, or a mark."""
    near = random.choice(found) + random.choice([-1, 0, 0, 0, 1]) if found and random.random() < 0.9 else random.choice(MARKS)
    return min(max(near, 0), LAST)


def spans(random, image, most):
    """Short spans and long ones, mostly between borders, and all addresses."""
    found = sorted(borders(image)) if image else []
    asked = []
    for _ in range(random.choice([0, 0, 1, 2, most])):
        low = border_near(random, found)
        high = random.choice([
            lambda: min(low + random.randrange(1, 40), LAST),
            lambda: border_near(random, found),
            lambda: random.randrange(2 ** 64),
            lambda: LAST,
        ])()
        ends = (low, high) if random.random() < 0.1 else (min(low, high), max(low, high))
        asked.append(ends if random.random() < 0.8 else (0, LAST))
    return asked


def spelled(random, address):
    return random.choice(['%x', '0x%x', '0x%x', '0X%X', '%016x', '0x%016X']) % address


def spelled_span(random, span):
    low, high = span
    return spelled(random, low) + '-' + spelled(random, high)


@dataclass
class Question:
    """The words of a run, and its input."""
    words: list
    given: bytes


def question(random, path, image, most):
    flags = random.choice([['-fia'], ['-fia'], ['-f', '-i'], ['-a', '-f'], ['-i'], []])
    threads = random.choice([['--workers', '1'], ['--workers=1'], ['--workers', '3', '--senders', '2'], []])
    words = ['-e', path, *flags, *threads]
    asked = [spelled(random, address) for address in addresses(random, image, most)]
    for span in spans(random, image, MOST_SPANS):
        asked.insert(random.randrange(len(asked) + 1), spelled_span(random, span))
    if random.random() < 0.1:
        asked.insert(random.randrange(len(asked) + 1), random.choice(BAD))
    if random.random() < 0.8:
        return Question([*words, '--', *asked], b'')
    ends = random.choices(['\n', '\r\n'], k=len(asked))
    return Question(words, ''.join(map(''.join, zip(asked, ends))).encode()[:None if random.random() < 0.8 else -1])


# ---- a file


@dataclass
class Judged:
    """What came of a file: a refusal's name, the fault of some address, or that it was answered; and the runs in which
    program and model differ, each with what they wrote."""
    verdict: str
    asked: int
    differences: list


def opened(file):
    try:
        return Image(file), 'answered'
    except Refused as refused:
        return None, f'refused {refused.number} {refused.name}'


def judge(random, program, file, path, most=24):
    """Compares a listing, and a run that answers."""
    with open(path, 'wb') as written:
        written.write(file)
    signal.signal(signal.SIGALRM, alarmed)
    signal.setitimer(signal.ITIMER_REAL, LIMIT)
    runs = []
    try:
        listed = Question(['-e', path, '--units'], b'')
        runs.append((listed, Program(program, listed.words, os.devnull)))
        image, verdict = opened(file)
        asked = question(random, path, image, most)
        given = os.devnull
        if asked.given:
            given = path + '.input'
            with open(given, 'wb') as written:
                written.write(asked.given)
        runs.append((asked, Program(program, asked.words, given)))
        modelled = [run(one.words, lambda _: file, lambda: one.given) for one, _ in runs]
        if fault := re.search(rb'^!unit 0x[0-9a-f]+ fault ([1-4])$', modelled[1].output, re.M):
            verdict = f'fault {fault[1].decode()}'
        signal.setitimer(signal.ITIMER_REAL, 0)
    except GivenUp:
        for _, started in runs:
            finished(started)
        return Judged('given up', 0, [])
    finally:
        signal.setitimer(signal.ITIMER_REAL, 0)
    outcomes = [finished(started) for _, started in runs]
    if None in outcomes:
        return Judged('given up', 0, [])
    differences = [(one, got, wanted) for (one, _), got, wanted in zip(runs, outcomes, modelled) if got != wanted]
    return Judged(verdict, asked.given.count(b'\n') + len(asked.words), differences)


def finished(started):
    """The outcome of a run, and none where it was given up."""
    try:
        return started.outcome()
    except GivenUp:
        return None
