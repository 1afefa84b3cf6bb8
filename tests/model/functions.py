"""The entries of a unit as a tree, the functions at an address, and their names (DWARF 5, sections 2.3, 2.15 and 3.3;
docs/MEANING.md, 'Functions')."""
from dataclasses import dataclass
from enum import IntEnum

from .dwarf import *
from .entries import Entry, Kind, attribute, entry_at
from .ranges import covers, ranges_of
from .reading import Reader, Unreadable

MOST_DEPTH = 512
MOST_REFERENCES = 16


class Fault(IntEnum):
    """Why a unit gives no answer."""
    ENTRY = 1
    DEPTH = 2
    RANGES = 3
    LINE = 4


class Faulty(Exception):
    def __init__(self, fault):
        super().__init__(fault)
        self.fault = fault


@dataclass(eq=False)
class Function:
    """A subprogram or an inlined subroutine, its ranges, and the nearest function in which it lies."""
    entry: Entry
    ranges: list
    enclosing: 'Function | None'

    def is_subprogram(self):
        return self.entry.tag == DW_TAG_subprogram

    def is_inlined(self):
        return self.entry.tag == DW_TAG_inlined_subroutine


class Tree:
    """The functions of a unit in order, from its first entry to the end of the list below it (section 2.3)."""

    def __init__(self, info, unit):
        self.info, self.unit = info, unit
        self.functions = []
        self.around = []  # the functions in which the place lies, each with its depth
        self.read()

    def read(self):
        """The first fault in the order of the entries: one that can't be read, one that stands too deep, a function
        whose ranges are bad. The unit's end ends all lists."""
        reader = Reader(self.info.info, self.unit.first_entry, self.unit.end)
        root = self.next_entry(reader)
        if root is None:
            raise Faulty(Fault.ENTRY)
        self.add(root, 0)
        depth = 1 if root.children else 0
        while depth > 0 and reader.left() > 0:
            entry = self.next_entry(reader)
            if entry is None:
                depth -= 1
                continue
            self.add(entry, depth)
            depth += entry.children

    def next_entry(self, reader):
        try:
            return entry_at(reader, self.info.abbreviations(self.unit), self.unit.offset_size)
        except Unreadable:
            raise Faulty(Fault.ENTRY) from None

    def add(self, entry, depth):
        if depth > MOST_DEPTH:
            raise Faulty(Fault.DEPTH)
        while self.around and self.around[-1][0] >= depth:
            self.around.pop()
        if entry.tag not in (DW_TAG_subprogram, DW_TAG_inlined_subroutine):
            return
        try:
            ranges = ranges_of(self.info, self.unit, entry)
        except Unreadable:
            raise Faulty(Fault.RANGES) from None
        function = Function(entry, ranges, self.around[-1][1] if self.around else None)
        self.functions.append(function)
        self.around.append((depth, function))

    def chain(self, address):
        """The functions at an address, innermost first: from the first subprogram that holds it inwards, each next the
        first inlined one that holds it and lies directly in the one before (section 3.3)."""
        holding = [function for function in self.functions if covers(function.ranges, address)]
        chain = []
        inner = next((function for function in holding if function.is_subprogram()), None)
        while inner is not None:
            chain.insert(0, inner)
            inner = next((function for function in holding if function.is_inlined() and function.enclosing is chain[0]),
                         None)
        return chain


# ---- names (sections 2.15, 3.3.8 and 7.5.5)


def unit_holding(info, offset):
    """The unit in whose bytes an offset of .debug_info lies."""
    return next((unit for unit in info.units if unit.offset <= offset < unit.end), None)


def referred(info, unit, entry):
    """The entry, in whichever unit, of which this one says that it is an instance, or else which it completes; none
    for a null entry, an entry that can't be read, a header or a skipped unit."""
    value = attribute(entry, DW_AT_abstract_origin) or attribute(entry, DW_AT_specification)
    if value is None:
        return None, None
    offset = value[1] + (unit.offset if value[0] is Kind.UNIT_REF else 0)
    target = unit_holding(info, offset)
    try:
        return target, None if target is None else info.entry(target, offset)
    except Unreadable:
        return target, None


def own_name(info, unit, entry):
    """The name that an entry has itself: the one for the linker, else the one of the source."""
    for name in (DW_AT_linkage_name, DW_AT_name):
        value = attribute(entry, name)
        text = None if value is None else info.text(info.bases(unit), value)
        if text is not None:
            return text
    return None


def name(info, unit, entry):
    """The first own name among an entry and those to which at most 16 references lead."""
    for _ in range(1 + MOST_REFERENCES):
        if entry is None:
            return None
        found = own_name(info, unit, entry)
        if found is not None:
            return found
        unit, entry = referred(info, unit, entry)
    return None
