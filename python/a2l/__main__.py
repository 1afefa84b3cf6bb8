"""Writes the functions at addresses of a file, innermost first: python -m a2l FILE ADDRESS..

Addresses are hexadecimal digits, with 0x or without; where no word has one, they are read from standard input, one a
line. Each is written as `a2l -a -f -i` does. The status is 0, or 1 if a unit can't be read, or 2 if an address or the
file is refused.
"""

import sys
from typing import Iterable, Iterator, List

import a2l


def _address(word: str) -> int:
    try:
        return int(word, 16)
    except ValueError:
        raise ValueError(f'{word!r} is no address') from None


def _lines(address: int, answer: a2l.Answer) -> Iterator[str]:
    """The lines of an address."""
    yield f'{address:#018x}'
    if answer.fault is not None:
        yield f'!unit {answer.fault.unit:#x} fault {answer.fault.number}'
        return
    for frame in answer.frames or (a2l.Frame(None, a2l.Location(None, None, None)),):
        yield '??' if frame.function is None else frame.function
        yield str(frame.location)


def _write(path: str, words: Iterable[str]) -> int:
    """Writes what a file says of addresses, and returns the status."""
    addresses = [_address(word) for word in words]
    with a2l.open(path) as program:
        answers = program.frames_of(addresses)
    lines = [line for pair in zip(addresses, answers) for line in _lines(*pair)]
    text = ''.join(f'{line}\n' for line in lines)
    sys.stdout.buffer.write(text.encode('utf-8', 'surrogateescape'))
    return 1 if any(answer.fault for answer in answers) else 0


def main(words: List[str]) -> int:
    """Runs the words of a command line, and returns the status."""
    if not words or words[0] in ('-h', '--help'):
        print('usage: python -m a2l FILE ADDRESS..', file=sys.stdout if words else sys.stderr)
        return 0 if words else 2
    try:
        return _write(words[0], words[1:] or sys.stdin.read().split())
    except (a2l.Error, OSError, ValueError) as why:
        print(f'a2l: {why}', file=sys.stderr)
        return 2


if __name__ == '__main__':
    sys.exit(main(sys.argv[1:]))
