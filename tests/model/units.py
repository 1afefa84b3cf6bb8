"""The units of .debug_info, their first entries, and what those say (DWARF 5, sections 7.5.1 and 7.26 to 7.28;
docs/MEANING.md, 'Units', 'Entries' and 'Refusal')."""
from dataclasses import dataclass
from enum import Enum

from . import elf
from .dwarf import *
from .elf import Refused
from .entries import Kind, abbreviations, attribute, entry_at
from .reading import Reader, Unreadable


class UnitKind(Enum):
    """Compile and skeleton units answer addresses, partial ones are targets of references, all others are skipped."""
    COMPILE = 'compile'
    PARTIAL = 'partial'
    SKELETON = 'skeleton'
    SKIPPED = 'skipped'


KINDS = {DW_UT_compile: UnitKind.COMPILE, DW_UT_partial: UnitKind.PARTIAL, DW_UT_skeleton: UnitKind.SKELETON}


@dataclass(eq=False)
class Unit:
    """A unit's header. Offsets count from the first byte of .debug_info; a skipped unit has no abbreviations, and no
    entry before its end."""
    offset: int
    end: int
    version: int
    kind: UnitKind
    offset_size: int
    debug_abbrev_offset: int
    first_entry: int

    def is_skipped(self):
        return self.kind is UnitKind.SKIPPED

    def answers(self):
        return self.kind in (UnitKind.COMPILE, UnitKind.SKELETON)


def condition(number, name, offset):
    """Why a file is refused by a unit at an offset."""
    return Refused(number, name, b'0x%x' % offset)


def unit_behind(reader, offset, offset_size):
    """The unit whose bytes behind its length are these (section 7.5.1). The version is needed in each, the type in
    those of version 5, and the other fields in those that aren't skipped."""
    version = reader.number(2)
    kind = KINDS.get(reader.number(1), UnitKind.SKIPPED) if version == DWARF_VERSION else UnitKind.SKIPPED
    if kind is UnitKind.SKIPPED:
        return Unit(offset, reader.end, version, kind, offset_size, 0, reader.end)
    address_size, debug_abbrev_offset = reader.number(1), reader.number(offset_size)
    if kind is UnitKind.SKELETON:
        reader.take(DWO_ID_SIZE)
    if address_size != ADDRESS_SIZE:
        raise condition(9, 'AddressSize', offset)
    return Unit(offset, reader.end, version, kind, offset_size, debug_abbrev_offset, reader.at)


def piece_at(reader):
    """A piece of .debug_info, an initial length (section 7.4) and as many bytes: a unit, or none where the length is
    0."""
    offset = reader.at
    length, offset_size = reader.initial_length()
    if length > reader.left():
        raise Unreadable
    behind = Reader(reader.bytes, reader.at, reader.at + length)
    reader.take(length)
    return None if length == 0 else unit_behind(behind, offset, offset_size)


@dataclass
class Bases:
    """Where a unit's entries begin in .debug_str_offsets, .debug_addr and .debug_rnglists, and how many bytes its
    offsets have."""
    str_offsets: int | None
    addr: int | None
    rnglists: int | None
    offset_size: int


def bases_in(root, offset_size):
    """The bases that a unit's first entry names, where offsets have so many bytes (sections 7.26 to 7.28)."""
    found = [attribute(root, name) for name in (DW_AT_str_offsets_base, DW_AT_addr_base, DW_AT_rnglists_base)]
    return Bases(*(None if value is None else value[1] for value in found), offset_size)


class DebugInfo:
    """The used sections of a file and its units, all of which have a first entry where they aren't skipped."""

    def __init__(self, file):
        """Refused by the first condition of 1 to 10 that the file fails."""
        named = elf.sections(file)
        self.info, self.abbrev, self.line = named[b'.debug_info'], named[b'.debug_abbrev'], named[b'.debug_line']
        self.line_str, self.str = named[b'.debug_line_str'], named[b'.debug_str']
        self.str_offsets, self.addr = named[b'.debug_str_offsets'], named[b'.debug_addr']
        self.rnglists = named[b'.debug_rnglists']
        self.tables, self.roots, self.based = {}, {}, {}
        self.units = self.cut()

    def cut(self):
        """The units, each of which meets the conditions 7 to 10."""
        units, reader = [], Reader(self.info)
        while reader.left() > 0:
            offset = reader.at
            try:
                unit = piece_at(reader)
            except Unreadable:
                raise condition(7, 'UnitHeader', offset) from None
            if unit is not None:
                self.test_root(unit)
                units.append(unit)
        return units

    def test_root(self, unit):
        """A unit that isn't skipped has a first entry that can be read and isn't a null one."""
        if unit.is_skipped():
            return
        try:
            root = self.entry(unit, unit.first_entry)
        except Unreadable:
            root = None
        if root is None:
            raise condition(10, 'Root', unit.offset)
        self.roots[unit] = root
        self.based[unit] = bases_in(root, unit.offset_size)

    # ---- entries

    def abbreviations(self, unit):
        """The declarations of a unit by their codes."""
        offset = unit.debug_abbrev_offset
        if offset not in self.tables:
            self.tables[offset] = abbreviations(self.abbrev, offset)
        return self.tables[offset]

    def entry(self, unit, offset):
        """The entry at an offset between a unit's first entry and its end, and none for a null one."""
        if not unit.first_entry <= offset < unit.end:
            raise Unreadable
        return entry_at(Reader(self.info, offset, unit.end), self.abbreviations(unit), unit.offset_size)

    def root(self, unit):
        """The first entry of a unit that isn't skipped."""
        return self.roots[unit]

    def bases(self, unit):
        """The bases that its first entry names."""
        return self.based[unit]

    # ---- what values lead to (sections 7.5.5, 7.26 and 7.27)

    def text(self, bases, value):
        """The text to which a value leads: itself, the one at its offset, or by an index the one at the offset that
        stands there; none where that isn't in its section or no zero byte follows."""
        kind, what = value
        try:
            if kind is Kind.INLINE:
                return what
            if kind is Kind.STR:
                return Reader(self.str, what).text()
            if kind is Kind.LINE_STR:
                return Reader(self.line_str, what).text()
            if kind is Kind.STR_INDEX and bases.str_offsets is not None:
                size = bases.offset_size
                offset = Reader(self.str_offsets, bases.str_offsets + size * what).number(size)
                return Reader(self.str, offset).text()
        except Unreadable:
            pass
        return None

    def address(self, bases, value):
        """The address to which a value leads: itself, or by an index the one that stands there."""
        kind, what = value
        if kind is Kind.ADDRESS:
            return what
        if kind is Kind.ADDRESS_INDEX and bases.addr is not None:
            return Reader(self.addr, bases.addr + ADDRESS_SIZE * what).number(ADDRESS_SIZE)
        raise Unreadable
