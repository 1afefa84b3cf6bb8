"""What the addresses of a file mean (docs/MEANING.md, 'Answers')."""
from dataclasses import dataclass

from .dwarf import *
from .entries import number_of
from .functions import Fault, Faulty, Tree, name
from .lines import lines_of
from .ranges import covers, ranges_of
from .reading import Unreadable
from .units import DebugInfo, Unit, condition


@dataclass(frozen=True)
class Location:
    path: bytes | None
    line: int | None
    column: int | None


@dataclass
class Frame:
    name: bytes | None
    location: Location


NOWHERE = Location(None, None, None)
UNKNOWN = Frame(None, NOWHERE)


@dataclass
class Piece:
    """Addresses from `begin` on and before `end`, which have one location."""
    begin: int
    end: int
    location: Location


@dataclass
class Answer:
    """Of an address its unit, and the frames at it, innermost first, or the unit's first fault; no unit where none
    covers the address. Of a span its pieces, or the first fault of its addresses and the unit that has it."""
    unit: Unit | None
    frames: list
    fault: Fault | None = None
    pieces: list | None = None


def location_at(path, line, column):
    """Line 0 is no line, and without a line no column is told."""
    return Location(path, line, column) if line else Location(path, None, None)


class Image:
    """A file that is accepted, and what its addresses mean."""

    def __init__(self, file):
        """Refused by the first condition of 1 to 11 that the file fails."""
        self.info = DebugInfo(file)
        self.ranges = [(unit, self.unit_ranges(unit)) for unit in self.info.units if unit.answers()]
        self.read, self.tables = {}, {}

    def unit_ranges(self, unit):
        """The ranges of a unit's first entry."""
        try:
            return ranges_of(self.info, unit, self.info.root(unit))
        except Unreadable:
            raise condition(11, 'RootRanges', unit.offset) from None

    def unit_of(self, address):
        """Of the units that answer, the first whose ranges hold the address."""
        return next((unit for unit, ranges in self.ranges if covers(ranges, address)), None)

    def tree_and_lines(self, unit):
        """A unit's functions and lines, or its first fault: the tree's before that of the line table."""
        if unit not in self.read:
            self.read[unit] = self.read_unit(unit)
        return self.read[unit]

    def read_unit(self, unit):
        try:
            tree = Tree(self.info, unit)
        except Faulty as faulty:
            return None, None, faulty.fault
        lines, fault = self.lines(unit)
        return (tree, lines, None) if fault is None else (None, None, fault)

    def lines(self, unit):
        """The line table of a unit, where it has one, or that it is bad."""
        if unit not in self.tables:
            try:
                self.tables[unit] = lines_of(self.info, unit), None
            except Unreadable:
                self.tables[unit] = None, Fault.LINE
        return self.tables[unit]

    def answer(self, address):
        unit = self.unit_of(address)
        if unit is None:
            return Answer(None, [UNKNOWN])
        tree, lines, fault = self.tree_and_lines(unit)
        if fault is not None:
            return Answer(unit, [], fault)
        return Answer(unit, self.frames(unit, lines, tree.chain(address), address))

    def frames(self, unit, lines, chain, address):
        """The innermost frame stands where the row of the address says, each other one where the function inside it was
        called. Where no function holds the address there is one frame without a name."""
        location = row_location(lines, address) or NOWHERE
        if not chain:
            return [Frame(None, location)]
        frames = []
        for function in chain:
            frames.append(Frame(name(self.info, unit, function.entry), location))
            location = call_location(lines, function.entry)
        return frames

    # ---- spans

    def changes(self, low, high):
        """The addresses of a span at which something else may be answered than at the one before: where a range of a
        unit begins or ends, and at the rows of the units that have addresses of it; and both ends of the span."""
        found = {low, high}
        for unit, ranges in self.ranges:
            met = [pair for pair in ranges if pair[0] < high and low < pair[1]]
            if met:
                found.update(border for pair in met for border in pair)
                lines, _ = self.lines(unit)
                for addresses, _ in lines.sequences if lines else ():
                    found.update(addresses)
        return sorted(address for address in found if low <= address <= high)

    def pieces(self, low, high):
        """The pieces of the addresses from one on and before another, or the fault of the first that has one. An
        address is in a piece exactly where its unit has a row for it, and two that touch differ in path, line or
        column."""
        pieces = []
        borders = self.changes(low, high)
        for begin, end in zip(borders, borders[1:]):
            unit = self.unit_of(begin)
            lines, fault = (None, None) if unit is None else self.lines(unit)
            if fault is not None:
                return Answer(unit, [], fault)
            location = row_location(lines, begin)
            if location is None:
                continue
            if pieces and (pieces[-1].end, pieces[-1].location) == (begin, location):
                pieces[-1].end = end
            else:
                pieces.append(Piece(begin, end, location))
        return Answer(None, [], None, pieces)


def row_location(lines, address):
    """Where an address comes from by its row, and none where it has none."""
    row = None if lines is None else lines.row(address)
    return None if row is None else location_at(lines.path(row.file), row.line, row.column)


def call_location(lines, entry):
    """Where an inlined function was called, as its entry says (section 3.3.8.2)."""
    file = number_of(entry, DW_AT_call_file)
    path = None if lines is None or file is None else lines.path(file)
    return location_at(path, number_of(entry, DW_AT_call_line), number_of(entry, DW_AT_call_column))
