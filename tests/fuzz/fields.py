"""The fields of a file: what the model reads of it, piece by piece, so that damages find the structure."""
import sys
from collections import defaultdict
from dataclasses import dataclass

from model import elf
from model.answers import Image
from model.elf import Refused
from model.reading import Reader, Unreadable

KINDS = ('number', 'take', 'text', 'uleb', 'sleb')


@dataclass
class Field:
    """What was read at a place of a section: of which kind it is, its bytes and value, and its role, which is the
    function that read it and the place in that function."""
    section: bytes
    at: int
    raw: bytes
    kind: str
    value: object
    role: tuple

    def end(self):
        return self.at + len(self.raw)


class Recorder:
    """While it is entered, each piece that any reader reads is kept."""

    def __init__(self):
        self.found = {}

    def __enter__(self):
        self.plain = {kind: getattr(Reader, kind) for kind in KINDS}
        for kind in KINDS:
            setattr(Reader, kind, self.recording(kind))
        return self

    def __exit__(self, *_):
        for kind in KINDS:
            setattr(Reader, kind, self.plain[kind])

    def recording(self, kind):
        plain = self.plain[kind]

        def read(reader, *words):
            at = reader.at
            value = plain(reader, *words)
            caller = sys._getframe(1)
            if caller.f_code.co_name not in KINDS:
                while caller.f_code.co_name in ('<lambda>', '<listcomp>', 'indexed'):
                    caller = caller.f_back
                key = id(reader.bytes), at, reader.at
                self.found.setdefault(key, (reader.bytes, kind, value, caller.f_code.co_name, caller.f_lasti))
            return value
        return read


def read_all(file):
    """Lets the model read all that addresses of the file may lead to."""
    try:
        image = Image(file)
    except Refused:
        return None
    for unit in image.info.units:
        if unit.answers():
            image.tree_and_lines(unit)
    return image


def fields_of(file):
    """The fields of the used sections of a file, by section and function."""
    sections = {}
    plain = elf.sections

    def named(file):
        found = plain(file)
        sections.update({id(content): (content, name) for name, content in found.items() if content})
        return found

    elf.sections = named
    try:
        with Recorder() as recorder:
            read_all(file)
    finally:
        elf.sections = plain
    places = defaultdict(set)
    for _, _, _, function, instruction in recorder.found.values():
        places[function].add(instruction)
    order = {function: sorted(instructions) for function, instructions in places.items()}
    fields = defaultdict(lambda: defaultdict(list))
    for (piece, at, end), (content, kind, value, function, instruction) in recorder.found.items():
        if piece in sections and end > at and (function, kind) != ('piece_at', 'take'):
            name = sections[piece][1]
            role = function, order[function].index(instruction)
            fields[name][function].append(Field(name, at, content[at:end], kind, value, role))
    for functions in fields.values():
        for found in functions.values():
            found.sort(key=lambda field: field.at)
    return {name: dict(functions) for name, functions in fields.items()}
