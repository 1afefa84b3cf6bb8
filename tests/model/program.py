"""What the program writes (docs/MEANING.md, 'Output'; README.md, 'Use'): the listing of units, inputs, the text of
answers, and whole runs."""
import re
from dataclasses import dataclass, field

from .answers import Image
from .elf import Refused
from .units import DebugInfo

USAGE = b'usage: a2l -e FILE [-f] [-i] [-a] [--workers N] [--senders N] [--units] [ADDRESS..]\n'


# ---- the command line


@dataclass
class Options:
    file: str | None = None
    functions: bool = False
    inlines: bool = False
    addresses: bool = False
    units: bool = False
    words: list = field(default_factory=list)


class CommandLine(Exception):
    """The command line is refused."""


FLAGS = {'f': 'functions', 'i': 'inlines', 'a': 'addresses'}


def is_count(text):
    """A number of threads: 1 to 64 in decimal digits, before which a plus may stand."""
    return re.fullmatch(r'\+?[0-9]+', text) is not None and 1 <= int(text) <= 64


def options_of(words):
    """What a command line asks for; a repeated option is refused. The numbers of threads change nothing that is
    written."""
    options, words, seen = Options(), list(words), set()

    def once(option):
        if option in seen:
            raise CommandLine
        seen.add(option)

    def argument():
        if not words or words[0].startswith('-') and words[0] != '-':
            raise CommandLine
        return words.pop(0)

    while words:
        word = words.pop(0)
        long, equals, value = word.partition('=')
        if word == '--':
            options.words += words
            break
        if word == '--units':
            once(word)
            options.units = True
        elif long in ('--workers', '--senders'):
            once(long)
            if not is_count(value if equals else argument()):
                raise CommandLine
        elif word.startswith('--'):
            raise CommandLine
        elif word.startswith('-') and word != '-':
            letters = word[1:]
            while letters:
                letter, letters = letters[0], letters[1:]
                once(letter)
                if letter == 'e':
                    options.file, letters = letters.removeprefix('=') if letters else argument(), ''
                elif letter in FLAGS:
                    setattr(options, FLAGS[letter], True)
                else:
                    raise CommandLine
        else:
            options.words.append(word)
    if options.file is None:
        raise CommandLine
    return options


# ---- inputs


def inputs(words, read):
    """The words of the command line, or where there are none the lines of the input: one `\\r` before a newline is
    dropped, and what follows the last newline is a line where it isn't empty."""
    if words:
        return [word.encode() for word in words]
    *ended, last = read().split(b'\n')
    return [line.removesuffix(b'\r') for line in ended] + [last] * (last != b'')


def address_in(text):
    """1 to 16 hexadecimal digits behind `0x`, `0X` or nothing; else no address."""
    found = re.fullmatch(rb'(?:0[xX])?([0-9a-fA-F]{1,16})', text)
    return None if found is None else int(found[1], 16)


@dataclass
class Span:
    """The addresses from `low` on and before `high`."""
    low: int
    high: int


def query_in(text):
    """An address, or a span `LOW-HIGH` of two addresses with the first below the second; else nothing is asked."""
    first, dash, second = text.partition(b'-')
    if not dash:
        return address_in(text)
    low, high = address_in(first), address_in(second)
    return Span(low, high) if low is not None and high is not None and low < high else None


# ---- the text


def listing(info):
    """A line for each unit: its offset, its version, and what is done with it."""
    return b''.join(b'0x%x version %d %s\n' % (unit.offset, unit.version, unit.kind.value.encode())
                    for unit in info.units)


def location_text(location):
    """`PATH:LINE`; without a line `PATH:?`, without a path `??:LINE`, and with neither `??:0`."""
    if location.path is None:
        return b'??:%d' % (location.line or 0)
    return location.path + (b':?' if location.line is None else b':%d' % location.line)


def frame_lines(options, frame):
    name = b'??' if frame.name is None else frame.name
    return (name + b'\n' if options.functions else b'') + location_text(frame.location) + b'\n'


def span_text(low, high):
    return b'0x%016x-0x%016x' % (low, high)


def piece_lines(pieces):
    """For each piece its addresses and its location; without pieces, what an address is of which nothing is known."""
    lines = (b'%s %s\n' % (span_text(piece.begin, piece.end), location_text(piece.location)) for piece in pieces)
    return b''.join(lines) or b'??:0\n'


def query_line(query):
    """The address or the span itself."""
    return (span_text(query.low, query.high) if isinstance(query, Span) else b'0x%016x' % query) + b'\n'


def answer_lines(options, answer):
    """The fault of a unit; or the pieces of a span; or the frames of an address, without -i the innermost alone."""
    if answer.fault is not None:
        return b'!unit 0x%x fault %d\n' % (answer.unit.offset, answer.fault)
    if answer.pieces is not None:
        return piece_lines(answer.pieces)
    frames = answer.frames if options.inlines else answer.frames[:1]
    return b''.join(frame_lines(options, frame) for frame in frames)


def answer_of(image, query):
    return image.pieces(query.low, query.high) if isinstance(query, Span) else image.answer(query)


def text(options, image, asked):
    """What is written for these inputs, and whether some input is a bad address or has a fault for an answer."""
    written, has_faults = [], False
    for query in map(query_in, asked):
        if query is None:
            written.append(b'!bad address\n')
            has_faults = True
        else:
            answer = answer_of(image, query)
            before = query_line(query) if options.addresses else b''
            written.append(before + answer_lines(options, answer))
            has_faults |= answer.fault is not None
    return b''.join(written), has_faults


# ---- whole runs


@dataclass
class Outcome:
    """What a run wrote to its output and to its error stream, and its status."""
    output: bytes
    errors: bytes
    status: int


def run(words, load, read):
    """A run of the program. `load` gives the bytes of the file at a path, and `read` the input; each may fail by an
    OSError. Nothing is written before all is answered."""
    if not words:
        return Outcome(USAGE, b'', 0)
    try:
        options = options_of(words)
    except CommandLine:
        return Outcome(b'', USAGE, 2)
    try:
        file = load(options.file)
    except OSError:
        return Outcome(b'', b'a2l: cannot read file\n', 3)
    try:
        if options.units:
            return Outcome(listing(DebugInfo(file)), b'', 0)
        image = Image(file)
    except Refused as refused:
        return Outcome(b'', refused.line(), 2)
    try:
        asked = inputs(options.words, read)
    except OSError:
        return Outcome(b'', b'a2l: read failed\n', 3)
    output, has_faults = text(options, image, asked)
    return Outcome(output, b'', int(has_faults))
