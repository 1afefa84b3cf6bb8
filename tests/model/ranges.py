"""Ranges of addresses (DWARF 5, sections 2.17 and 7.25; docs/MEANING.md, 'Ranges'). A range is its begin and its end;
it holds the addresses from the begin on and below the end."""
from .dwarf import *
from .entries import Kind, attribute
from .reading import Reader, Unreadable


def is_kept(begin, end):
    """Only such ranges count."""
    return begin < end <= 2 ** 64 - 1


def covers(ranges, address):
    return any(begin <= address < end for begin, end in ranges)


def list_offset(info, bases, value):
    """Where the list begins that DW_AT_ranges names: at an offset, or at one that stands at an index behind the base
    (section 7.28)."""
    kind, what = value
    if kind is Kind.SECTION_OFFSET:
        return what
    if bases.rnglists is None:
        raise Unreadable
    size = bases.offset_size
    return bases.rnglists + Reader(info.rnglists, bases.rnglists + size * what).number(size)


def list_ranges(info, unit, value):
    """The ranges of the list that DW_AT_ranges names, up to its end (table 7.30). The base is the one that the last
    base entry set, else the first base, which is needed only where an offset_pair uses it."""
    bases = info.bases(unit)
    reader = Reader(info.rnglists, list_offset(info, bases, value))

    def indexed():
        return info.address(bases, (Kind.ADDRESS_INDEX, reader.uleb()))

    ranges, base = [], None
    while (code := reader.number(1)) != DW_RLE_end_of_list:
        if code == DW_RLE_base_addressx:
            base = indexed()
        elif code == DW_RLE_startx_endx:
            ranges.append((indexed(), indexed()))
        elif code == DW_RLE_startx_length:
            begin = indexed()
            ranges.append((begin, begin + reader.uleb()))
        elif code == DW_RLE_offset_pair:
            if base is None:
                base = first_base(info, unit)
            ranges.append((base + reader.uleb(), base + reader.uleb()))
        elif code == DW_RLE_base_address:
            base = reader.number(ADDRESS_SIZE)
        elif code == DW_RLE_start_end:
            ranges.append((reader.number(ADDRESS_SIZE), reader.number(ADDRESS_SIZE)))
        elif code == DW_RLE_start_length:
            begin = reader.number(ADDRESS_SIZE)
            ranges.append((begin, begin + reader.uleb()))
        else:
            raise Unreadable
    return ranges


def first_base(info, unit):
    """The base of a unit's lists before any entry sets one: the address of its first entry, else 0."""
    low = attribute(info.root(unit), DW_AT_low_pc)
    return 0 if low is None else info.address(info.bases(unit), low)


def pc_ranges(info, unit, entry):
    """The range from DW_AT_low_pc to DW_AT_high_pc, an address or how many there are; one of them alone makes none."""
    low, high = attribute(entry, DW_AT_low_pc), attribute(entry, DW_AT_high_pc)
    if low is None or high is None:
        return []
    begin = info.address(info.bases(unit), low)
    if high[0] in (Kind.UNSIGNED, Kind.SIGNED):
        return [(begin, begin + high[1])]
    return [(begin, info.address(info.bases(unit), high))]


def ranges_of(info, unit, entry):
    """The ranges of an entry of a unit that count, in order."""
    value = attribute(entry, DW_AT_ranges)
    ranges = pc_ranges(info, unit, entry) if value is None else list_ranges(info, unit, value)
    return [(begin, end) for begin, end in ranges if is_kept(begin, end)]
