"""Makes files of about so many bytes that are meant to ruin their reader: few bytes of the file that many others name.

    hostile.py KIND BYTES FILE     writes the file, and prints the addresses to ask, or a span of them, one a line
    hostile.py                     prints the kinds, each with how its time may grow, and with how many bytes of memory
                                   it may take for each byte of the file
"""
import os
import sys

sys.path[:0] = [os.path.dirname(__file__), os.path.join(os.path.dirname(__file__), 'fuzz')]

from model.dwarf import OFFSET_SIZE_64

from assemble import Section, elf_file, number, uleb
from samples import file_of, line_table, unit

LINEAR, SQUARE, BORDERS, LONG = 'linear', 'square', 'borders', 'long'

COMPILE_UNIT, INLINED, SUBPROGRAM = 0x11, 0x1d, 0x2e
NAME, STMT_LIST, LOW_PC, HIGH_PC, ORIGIN, RANGES, ADDR_BASE, LISTS_BASE = 0x03, 0x10, 0x11, 0x12, 0x31, 0x55, 0x73, 0x74
CALL_FILE = 0x58
ADDR, DATA1, DATA4, STRP, UDATA, REF4, SEC_OFFSET, FLAG_PRESENT = 0x01, 0x0b, 0x06, 0x0e, 0x0f, 0x13, 0x17, 0x19
ADDRX, IMPLICIT_CONST, RNGLISTX = 0x1b, 0x21, 0x23
COVERING = [(LOW_PC, ADDR), (HIGH_PC, DATA4)]
BEGIN, LENGTH = 0x1000, 0x10000000


def declaration(code, tag, children, pairs):
    listed = (uleb(name) + uleb(form) + bytes(constant) for name, form, *constant in pairs)
    return uleb(code) + uleb(tag) + bytes([children]) + b''.join(listed) + bytes(2)


def covered(begin=BEGIN, length=LENGTH):
    return number(begin, 8) + number(length, 4)


def one_unit(declarations, entries, **more):
    """A unit that covers the addresses, with these entries below its first one, which has code 1."""
    first = declaration(1, COMPILE_UNIT, 1, COVERING)
    return file_of(unit(b'\x01' + covered() + entries), first + declarations + b'\0', **more)


def long_list(count):
    """A range list of so many ranges, which aren't in order of address, from the base of the unit on."""
    return b''.join(b'\x04' + uleb(16 * (i * 7919 % count), 4) + uleb(16 * (i * 7919 % count) + 8, 4) for i in range(count)) + b'\0'


def tables_in_one_another(size):
    """Units whose tables of abbreviations begin one declaration after another."""
    count = size // 18
    units = b''.join(unit(b'\x01', abbrev=5 * i) for i in range(count))
    last = declaration(2, COMPILE_UNIT, 0, COVERING)
    return file_of(units + unit(b'\x02' + covered()), declaration(1, COMPILE_UNIT, 0, []) * count + last + b'\0')


def falling_tables_in_one_another(size):
    """The same, the last table first."""
    count = size // 18
    units = b''.join(unit(b'\x01', abbrev=5 * i) for i in reversed(range(count)))
    last = declaration(2, COMPILE_UNIT, 0, COVERING)
    return file_of(units + unit(b'\x02' + covered()), declaration(1, COMPILE_UNIT, 0, []) * count + last + b'\0')


def declarations_in_one_another(size):
    """Units whose first entries have declarations that begin in one another, each with flags that take no bytes."""
    count = size // 26
    # code FLAG_PRESENT, tag COMPILE_UNIT, children FLAG_PRESENT; then pairs of a name COMPILE_UNIT and a form FLAG_PRESENT
    pairs = bytes([FLAG_PRESENT, COMPILE_UNIT]) * (size // 4)
    units = b''.join(unit(bytes([FLAG_PRESENT]), abbrev=12 * i) for i in range(count))
    last = declaration(2, COMPILE_UNIT, 0, COVERING)
    front = pairs + bytes([FLAG_PRESENT, 0, 0, 0])
    return file_of(units + unit(b'\x02' + covered(), abbrev=len(front)), front + last + b'\0')


def functions_of_one_list(size):
    count = size // 14
    function = declaration(2, SUBPROGRAM, 0, [(RANGES, SEC_OFFSET)])
    return one_unit(function, b'\x02\0\0\0\0' * count, rnglists=long_list(count))


def inlined_of_one_list(size):
    count = size // 14
    functions = declaration(2, SUBPROGRAM, 1, COVERING) + declaration(3, INLINED, 0, [(RANGES, SEC_OFFSET)])
    return one_unit(functions, b'\x02' + covered() + b'\x03\0\0\0\0' * count, rnglists=long_list(count))


def functions_of_tails(size):
    """Functions whose lists are the tails of one list, the shortest first."""
    count = size // 14
    function = declaration(2, SUBPROGRAM, 0, [(RANGES, SEC_OFFSET)])
    entries = b''.join(b'\x02' + number(9 * (count - 1 - i), 4) for i in range(count))
    return one_unit(function, entries, rnglists=long_list(count))


def functions_of_long_tails(size):
    """The same, each list three ranges longer than the one before: a unit may keep fewer than there are."""
    count = size // 32
    function = declaration(2, SUBPROGRAM, 0, [(RANGES, SEC_OFFSET)])
    entries = b''.join(b'\x02' + number(27 * (count - 1 - i), 4) for i in range(count))
    return one_unit(function, entries, rnglists=long_list(3 * count))


def functions_of_tails_in_turn(size):
    """The same of two lists, in turn."""
    count = size // 64
    function = declaration(2, SUBPROGRAM, 0, [(RANGES, SEC_OFFSET)])
    lists = long_list(3 * count)
    entries = b''.join(b'\x02' + number(27 * (count - 1 - i) + at, 4) for i in range(count) for at in (0, len(lists)))
    return one_unit(function, entries, rnglists=lists * 2)


def inlined_of_tails(size):
    """Functions inlined in one, whose lists are the tails of one list, the shortest first."""
    count = size // 14
    functions = declaration(2, SUBPROGRAM, 1, COVERING) + declaration(3, INLINED, 0, [(RANGES, SEC_OFFSET)])
    entries = b''.join(b'\x03' + number(9 * (count - 1 - i), 4) for i in range(count))
    return one_unit(functions, b'\x02' + covered() + entries, rnglists=long_list(count))


def callers_of_one_list(size):
    """Functions of two bytes, in each of which one of two bytes was inlined that names one list."""
    count = size // 14
    first = declaration(1, COMPILE_UNIT, 1, [*COVERING, (ADDR_BASE, SEC_OFFSET), (LISTS_BASE, SEC_OFFSET)])
    functions = (declaration(2, SUBPROGRAM, 1, [(LOW_PC, ADDRX), (HIGH_PC, IMPLICIT_CONST, 16)])
                 + declaration(3, INLINED, 0, [(RANGES, RNGLISTX)]))
    info = unit(b'\x01' + covered() + bytes(8) + b'\x02\0\x03\0\0' * count)
    return file_of(info, first + functions + b'\0', addr=number(BEGIN, 8), rnglists=number(4, 4) + long_list(count))


def units_with_functions_of_one_list(size):
    """Units of 16 addresses, in each of which a function names one list."""
    count = size // 40
    first = declaration(1, COMPILE_UNIT, 1, COVERING)
    function = declaration(2, SUBPROGRAM, 0, [(RANGES, SEC_OFFSET)])
    units = b''.join(unit(b'\x01' + covered(BEGIN + 16 * i, 16) + b'\x02\0\0\0\0\0') for i in range(count))
    return file_of(units, first + function + b'\0', rnglists=long_list(count))


def units_of_one_list(size):
    count = size // 26
    first = declaration(1, COMPILE_UNIT, 0, [(RANGES, SEC_OFFSET)])
    return file_of(unit(b'\x01\0\0\0\0') * count, first + b'\0', rnglists=long_list(count))


def units_with_bases(size):
    """How many units with bases of their own there are, and where the last one begins."""
    count = size // 34
    return count, 16 * count * (count - 1)


def units_with_bases_of_one_list(size):
    """The same, but each unit has a base of its own, so the list has other ranges in each. The last unit is asked."""
    count, _ = units_with_bases(size)
    first = declaration(1, COMPILE_UNIT, 0, [(RANGES, SEC_OFFSET), (LOW_PC, ADDR)])
    units = b''.join(unit(b'\x01\0\0\0\0' + number(16 * i * count, 8)) for i in range(count))
    return file_of(units, first + b'\0', rnglists=long_list(count))


def span_over_units_with_bases(size):
    """The same file, of which a span is asked that begins in the last unit, and has five borders."""
    return units_with_bases_of_one_list(size)


def program(count, rise=1):
    """A line program of so many rows in one sequence, each of so many lines more than the one before."""
    rows = bytes([13 + 5 + 14 + rise]) * count  # address 1 more
    return b'\0\x09\x02' + number(BEGIN, 8) + rows + b'\0\x01\x01'


def units_of_one_line_table(size):
    count = size // 60
    first = declaration(1, COMPILE_UNIT, 0, [*COVERING, (STMT_LIST, SEC_OFFSET)])
    units = b''.join(unit(b'\x01' + covered(BEGIN + 16 * i, 16) + bytes(4)) for i in range(count))
    return file_of(units, first + b'\0', line_table(program(size - len(units))))


def names_without_end(size):
    """Section headers whose names have no end."""
    count = size // 96
    names = b'.' * (size - 64 * count)
    # the count of headers and the index of names stand in the first header, since they may pass 16 bits
    headers = bytes(32) + number(count + 2, 8) + number(count + 1, 4) + bytes(20)
    headers += b''.join(number(i, 4) + number(1, 4) + bytes(56) for i in range(count))
    headers += number(0, 4) + number(3, 4) + bytes(16) + number(64, 8) + number(len(names), 8) + bytes(24)
    front = elf_file([])
    return front[:40] + number(64 + len(names), 8) + front[48:60] + number(0, 2) + number(0xffff, 2) + names + headers


def addressed_unit(function, entries):
    """A unit that covers the addresses, with functions of code 2 below its first entry that begin at index 0 of addresses."""
    first = declaration(1, COMPILE_UNIT, 1, [*COVERING, (ADDR_BASE, SEC_OFFSET)])
    return file_of(unit(b'\x01' + covered() + bytes(4) + entries), first + function + b'\0', addr=number(BEGIN + 5, 8))


def functions_of_empty_values(size):
    """Functions whose declaration has a long list of values that take no bytes, and after it a number that no entry has."""
    count = size // 3
    pairs = [(0x2000, FLAG_PRESENT)] * (count // 2)
    function = declaration(2, SUBPROGRAM, 0, [*pairs, (LOW_PC, ADDRX), (HIGH_PC, IMPLICIT_CONST, 1)])
    return addressed_unit(function, b'\x02\0' * (count // 2))


def functions_of_empty_values_after_a_number(size):
    """The same after a number of no fixed size, and before a number that 32 bits don't hold."""
    count = size // 4
    pairs = [(0x2001, UDATA), *[(0x2000, FLAG_PRESENT)] * (count // 2)]
    function = declaration(2, SUBPROGRAM, 0, [*pairs, (LOW_PC, ADDRX), (HIGH_PC, IMPLICIT_CONST, *[0x80] * 5, 1)])
    return addressed_unit(function, b'\x02\0\0' * (count // 2))


def units_of_empty_values(size):
    """Units whose first entries have a long list of values that take no bytes."""
    first = declaration(1, COMPILE_UNIT, 0, [(0x2000, FLAG_PRESENT)] * (size // 8))
    last = declaration(2, COMPILE_UNIT, 0, COVERING)
    return file_of(unit(b'\x01') * (size // 26) + unit(b'\x02' + covered()), first + last + b'\0')


def units_of_empty_values_of_64_bits(size):
    """The same in the 64-bit format."""
    first = declaration(1, COMPILE_UNIT, 0, [(0x2000, FLAG_PRESENT)] * (size // 8))
    last = declaration(2, COMPILE_UNIT, 0, COVERING)
    units = unit(b'\x01', offset_size=OFFSET_SIZE_64) * (size // 50)
    return file_of(units + unit(b'\x02' + covered()), first + last + b'\0')


def references_of_empty_values(size):
    """Functions whose names lie after 16 references, each in an entry with many values that take no bytes."""
    pairs = [(0x2000, FLAG_PRESENT)] * (size // 8)
    declarations = (declaration(2, SUBPROGRAM, 0, [(ORIGIN, REF4), *COVERING])
                    + declaration(3, SUBPROGRAM, 0, [*pairs, (ORIGIN, REF4)]))
    count = size // 34
    at = 12 + 13 + 17 * count
    chain = b''.join(b'\x03' + number(at + 5 * (i + 1), 4) for i in range(16))
    functions = b''.join(b'\x02' + number(at, 4) + covered(BEGIN + i, 1) for i in range(count))
    return one_unit(declarations, functions + chain)


def skipped_units(size):
    first = declaration(1, COMPILE_UNIT, 0, COVERING)
    return file_of((number(2, 4) + number(4, 2)) * (size // 6) + unit(b'\x01' + covered()), first + b'\0')


def small_units(size):
    """Units of 13 bytes that have no ranges."""
    first = declaration(1, COMPILE_UNIT, 0, []) + declaration(2, COMPILE_UNIT, 0, COVERING)
    return file_of(unit(b'\x01') * (size // 13) + unit(b'\x02' + covered()), first + b'\0')


def small_declarations(size):
    declarations = b''.join(declaration(i + 2, COMPILE_UNIT, 0, []) for i in range(size // 7))
    return one_unit(declarations, b'')


def small_functions(size):
    """Functions of three bytes, each with another range."""
    addresses = size // (8 + 3 * 255)
    first = declaration(1, COMPILE_UNIT, 1, [*COVERING, (ADDR_BASE, SEC_OFFSET)])
    function = declaration(2, SUBPROGRAM, 0, [(LOW_PC, ADDRX), (HIGH_PC, DATA1)])
    entries = b''.join(b'\x02' + uleb(i) + bytes([length]) for i in range(addresses) for length in range(1, 256))
    addr = b''.join(number(BEGIN + 256 * i, 8) for i in range(addresses))
    return file_of(unit(b'\x01' + covered() + bytes(4) + entries), first + function + b'\0', addr=addr)


def small_sequences(size):
    """Sequences of a line table that take few bytes."""
    first = declaration(1, COMPILE_UNIT, 0, [*COVERING, (STMT_LIST, SEC_OFFSET)])
    sequences = b''.join(b'\x02' + uleb(BEGIN + i) + b'\x01\x21\0\x01\x01' for i in range(size // 9))
    return file_of(unit(b'\x01' + covered() + bytes(4)), first + b'\0', line_table(sequences))


def small_files(size):
    """A line table whose lists have entries that take no bytes."""
    first = declaration(1, COMPILE_UNIT, 0, [*COVERING, (STMT_LIST, SEC_OFFSET)])
    fields = bytes.fromhex('010101fb0e0d000101010100000001000001')
    lists = b'\x01\x01\x19' + uleb(size // 2, 4) + b'\x01\x01\x19' + uleb(size // 2 - 16, 4) + bytes(size)
    return file_of(unit(b'\x01' + covered() + bytes(4)), first + b'\0', line_table(program(1), fields + lists))


def lines_of_one_path(size, text):
    """A line table of two files: one without a name, and one whose name takes so many bytes."""
    fields = bytes.fromhex('010101fb0e0d000101010100000001000001')
    lists = bytes(2) + b'\x01\x01\x08' + b'\x02' + b'\0' + b'x' * size + b'\0'
    return line_table(text, fields + lists)


def frames_of_one_path(size):
    """Functions inlined in one another, each of which is called in one file with a long name."""
    first = declaration(1, COMPILE_UNIT, 1, [*COVERING, (STMT_LIST, SEC_OFFSET)])
    inlined = declaration(3, INLINED, 1, [*COVERING, (CALL_FILE, IMPLICIT_CONST, 1)])
    declarations = first + declaration(2, SUBPROGRAM, 1, COVERING) + inlined + b'\0'
    entries = b'\x02' + covered() + (b'\x03' + covered()) * 510
    return file_of(unit(b'\x01' + covered() + bytes(4) + entries), declarations, lines_of_one_path(size, program(1)))


def no_rows(size):
    """A line program that does nothing between two rows."""
    first = declaration(1, COMPILE_UNIT, 0, [*COVERING, (STMT_LIST, SEC_OFFSET)])
    text = b'\0\x09\x02' + number(BEGIN, 8) + b'\x01' + b'\x06' * size + b'\x02\x20\0\x01\x01'
    return file_of(unit(b'\x01' + covered() + bytes(4)), first + b'\0', line_table(text))


def span_over_all_units_with_bases(size):
    """The same file, of which a span is asked that has all borders: as many as the square of the file."""
    return units_with_bases_of_one_list(size)


def units_of_tails(size):
    """Units whose lists are the tails of one list, the shortest first."""
    count = size // 35
    first = declaration(1, COMPILE_UNIT, 0, [(RANGES, SEC_OFFSET)])
    units = b''.join(unit(b'\x01' + number(9 * (count - 1 - i), 4)) for i in range(count))
    return file_of(units, first + b'\0', rnglists=long_list(count))


def span_over_units_of_tails(size):
    """The same file, of which the span of all addresses is asked."""
    return units_of_tails(size)


def units_of_tails_with_bases(size):
    """The same, but each unit has a base of its own, from which the list has other ranges."""
    count = size // 43
    first = declaration(1, COMPILE_UNIT, 0, [(RANGES, SEC_OFFSET), (LOW_PC, ADDR)])
    units = b''.join(unit(b'\x01' + number(9 * (count - 1 - i), 4) + number(16 * i, 8)) for i in range(count))
    return file_of(units, first + b'\0', rnglists=long_list(count))


def span_over_units_of_tails_with_bases(size):
    """The same file, of which the span of all addresses is asked."""
    return units_of_tails_with_bases(size)


def units_of_tables(offsets):
    """Units of 16 addresses that name line tables at these offsets, with the declaration of their entries."""
    units = b''.join(unit(b'\x01' + covered(BEGIN + 16 * i, 16) + number(at, 4)) for i, at in enumerate(offsets))
    return units, declaration(1, COMPILE_UNIT, 0, [*COVERING, (STMT_LIST, SEC_OFFSET)]) + b'\0'


def tables_before(count, lists, filler, text, ways=1):
    """Line tables one after the other, each with a header up to the same place, where one program follows, which they
    run in so many ways, in turn. A header has lists for so many bytes that are left in it. Returns the section, and
    where each table begins."""
    fields = bytes.fromhex('010101fb0e0d0001010101000000010000')
    each = 13 + len(fields) + len(lists(0))
    end = count * each + filler
    # the last field is how many operands an opcode has that the program doesn't use
    heads = (number(end + len(text) - each * i - 4, 4) + number(5, 2) + bytes([8, 0]) + number(end - each * i - 12, 4)
             + fields + bytes([1 + i % ways]) + lists(end - each * (i + 1)) for i in range(count))
    return b''.join(heads) + bytes(filler) + text, range(0, count * each, each)


def tables_of_one_list(size):
    """Line tables whose lists have as many entries as bytes are left, and whose entries take no bytes."""
    listed = lambda left: (b'\x01\x01\x19' + uleb(left, 4)) * 2
    line, offsets = tables_before(size // 130, listed, size // 2, b'\0\x01\x01')
    units, first = units_of_tables(offsets)
    return file_of(units, first, line)


def tables_of_long_lists(size, flags=0, each=130):
    """Line tables whose lists of files have an entry for each byte that is left in the header, up to one place. An entry
    has so many flags that take no bytes."""
    formats = b'\0\0' + bytes([1 + flags]) + (uleb(3) + uleb(FLAG_PRESENT)) * flags + uleb(1) + uleb(DATA1)
    row = b'\0\x09\x02' + number(BEGIN, 8) + b'\x01\x02' + uleb(LENGTH) + b'\0\x01\x01'
    line, offsets = tables_before(size // each, lambda left: formats + uleb(left, 4), size // 2, row)
    units, first = units_of_tables(offsets)
    return file_of(units, first, line)


def tables_of_long_lists_of_flags(size):
    """The same, with as many flags as there may be."""
    return tables_of_long_lists(size, 254, 1300)


def tables_of_one_program_of_sequences(size):
    """64 line tables over one program of sequences that take few bytes."""
    sequences = b''.join(b'\x02' + uleb(BEGIN + i) + b'\x01\x21\0\x01\x01' for i in range((size - 4000) // 9))
    line, offsets = tables_before(64, lambda left: bytes(4), 0, sequences)
    units, first = units_of_tables(offsets)
    return file_of(units, first, line)


def tables_of_one_program(size, ways=1):
    """Line tables over one program of many rows."""
    count = size // 128
    line, offsets = tables_before(count, lambda left: bytes(4), 0, program(size // 2), ways)
    units, first = units_of_tables(offsets)
    return file_of(units, first, line)


def span_over_tables_of_one_program(size):
    """The same file, of which a span over all units is asked."""
    return tables_of_one_program(size)


def tables_of_one_program_by_ways(size):
    """The same, but each table runs the program in another way than the one before it."""
    return tables_of_one_program(size, 200)


def span_over_tables_of_one_program_by_ways(size):
    """The same file, of which a span over all units is asked."""
    return tables_of_one_program(size, 200)


def taking_turns(count, line, offsets):
    """A unit for each line table at these offsets, with so many ranges of 16 addresses; those of the units take turns.
    All rows have one location, so that the answer stays short."""
    stride = 16 * len(offsets)
    first = declaration(1, COMPILE_UNIT, 0, [(RANGES, SEC_OFFSET), (LOW_PC, ADDR), (STMT_LIST, SEC_OFFSET)])
    one = b''.join(b'\x04' + uleb(stride * i, 4) + uleb(stride * i + 16, 4) for i in range(count)) + b'\0'
    entries = (bytes(4) + number(BEGIN + 16 * i, 8) + number(at, 4) for i, at in enumerate(offsets))
    units = b''.join(unit(b'\x01' + entry) for entry in entries)
    return file_of(units, first + b'\0', line, rnglists=one)


def units_that_take_turns(size, ways=1):
    """17 units whose ranges take turns, each with a line table of its own over one program; a span is asked."""
    return taking_turns(size // (17 * 16), *tables_before(17, lambda left: bytes(4), 0, program(size // 2, 0), ways))


def units_that_take_turns_by_ways(size):
    """The same, but each table runs the program in a way of its own."""
    return units_that_take_turns(size, 200)


def units_with_tables_that_take_turns(size):
    """64 units whose ranges take turns, each with a line table of its own beside the others; a span is asked."""
    table = line_table(program(size // 128, 0))
    return taking_turns(size // (64 * 16), table * 64, range(0, 64 * len(table), len(table)))


def many_units_that_take_turns(size, ways=1):
    """Units whose ranges take turns, as many as the file has room for, each with a line table over one program. A span
    is asked, with as many borders as the square of the file."""
    tables = tables_before(size // 180, lambda left: bytes(4), 0, program(size // 4, 0), ways)
    return taking_turns(size // 36, *tables)


def many_units_that_take_turns_by_ways(size):
    """The same, but each table runs the program in another way than the one before it."""
    return many_units_that_take_turns(size, 200)


def no_rows_between_holes(size):
    """A long stretch without a row, in a sequence with holes that earlier ones hold. An address in each hole and one
    behind it are asked in turn."""
    count = size // 32
    first = declaration(1, COMPILE_UNIT, 0, [*COVERING, (STMT_LIST, SEC_OFFSET)])
    holes = b''.join(b'\x02' + uleb(BEGIN + 16 * i, 4) + b'\x01\x02\x02\0\x01\x01' for i in range(count))
    stretch = b'\x01' + b'\x06' * (size // 2) + b'\x02' + uleb(16 * count)
    last = b'\0\x09\x02' + number(BEGIN, 8) + stretch + b'\0\x01\x01'
    return file_of(unit(b'\x01' + covered() + bytes(4)), first + b'\0', line_table(holes + last))


def span_over_no_rows_between_holes(size):
    """The same file, of which a span over all holes is asked."""
    return no_rows_between_holes(size)


KINDS = {
    'tables_in_one_another': LINEAR, 'falling_tables_in_one_another': LINEAR, 'declarations_in_one_another': SQUARE,
    'functions_of_one_list': LINEAR,
    'inlined_of_one_list': LINEAR, 'functions_of_tails': LINEAR, 'functions_of_long_tails': LINEAR,
    'functions_of_tails_in_turn': SQUARE, 'inlined_of_tails': LINEAR, 'callers_of_one_list': LINEAR,
    'units_with_functions_of_one_list': LINEAR, 'units_of_one_list': LINEAR, 'units_with_bases_of_one_list': LINEAR,
    'span_over_units_with_bases': LINEAR, 'span_over_all_units_with_bases': SQUARE, 'units_of_tails': LINEAR,
    'span_over_units_of_tails': LINEAR, 'units_of_tails_with_bases': SQUARE,
    'span_over_units_of_tails_with_bases': SQUARE,
    'units_of_one_line_table': LINEAR, 'tables_of_one_list': LINEAR, 'tables_of_long_lists': SQUARE,
    'tables_of_long_lists_of_flags': SQUARE, 'tables_of_one_program_of_sequences': LINEAR,
    'tables_of_one_program': LINEAR, 'span_over_tables_of_one_program': LINEAR,
    'tables_of_one_program_by_ways': SQUARE, 'span_over_tables_of_one_program_by_ways': SQUARE,
    'units_that_take_turns': LINEAR, 'units_that_take_turns_by_ways': LINEAR,
    'units_with_tables_that_take_turns': LINEAR, 'many_units_that_take_turns': SQUARE,
    'many_units_that_take_turns_by_ways': BORDERS,
    'no_rows_between_holes': LINEAR, 'span_over_no_rows_between_holes': LINEAR,
    'names_without_end': LINEAR, 'functions_of_empty_values': LINEAR,
    'functions_of_empty_values_after_a_number': LINEAR, 'units_of_empty_values': LINEAR,
    'units_of_empty_values_of_64_bits': LINEAR, 'references_of_empty_values': LINEAR, 'skipped_units': LINEAR, 'small_units': LINEAR, 'small_declarations': LINEAR,
    'small_functions': LINEAR, 'small_sequences': LINEAR, 'small_files': LINEAR, 'no_rows': LINEAR,
    'frames_of_one_path': LONG,
}
# How many bytes of memory a kind may take for each byte of the file. The answer of a long one is itself longer than the
# file: each of 511 frames has the path, and the text of the answer has it as often.
LIMITS = {LINEAR: 64, SQUARE: 64, BORDERS: 64, LONG: 2000}


def every(count):
    """The addresses to ask: one in each of so many stretches of 16."""
    return [f'{BEGIN + 16 * i + 5:x}' for i in range(count)]


def asked(kind, size):
    """The addresses to ask, or a span of them, each as a text."""
    begin = units_with_bases(size)[1]
    spans = {
        'span_over_units_with_bases': (begin + 5, begin + 45), 'span_over_all_units_with_bases': (0, begin),
        'span_over_units_of_tails': (0, 16 * (size // 35)),
        'span_over_units_of_tails_with_bases': (0, 32 * (size // 43)),
        'span_over_tables_of_one_program': (BEGIN, BEGIN + 16 * (size // 128)),
        'span_over_tables_of_one_program_by_ways': (BEGIN, BEGIN + 16 * (size // 128)),
        'units_that_take_turns': (BEGIN, BEGIN + size), 'units_that_take_turns_by_ways': (BEGIN, BEGIN + size),
        'units_with_tables_that_take_turns': (BEGIN, BEGIN + size),
        'many_units_that_take_turns': (BEGIN, BEGIN + 16 * (size // 180) * (size // 36)),
        'many_units_that_take_turns_by_ways': (BEGIN, BEGIN + 16 * (size // 180) * (size // 36)),
        'span_over_no_rows_between_holes': (BEGIN, BEGIN + size // 2),
    }
    # how many bytes a unit of 16 addresses takes of the file, with what it names
    each = {
        'units_of_one_line_table': 60, 'units_with_functions_of_one_list': 40, 'tables_of_one_list': 130,
        'tables_of_long_lists': 130, 'tables_of_long_lists_of_flags': 1300,
        'tables_of_one_program_of_sequences': size // 64, 'tables_of_one_program': 128,
        'tables_of_one_program_by_ways': 128,
    }
    if kind == 'units_with_bases_of_one_list':
        return [f'{begin + 5:x}']
    if kind == 'no_rows_between_holes':
        return [f'{BEGIN + 16 * i + at:x}' for i in range(size // 32) for at in (1, 5)]
    if kind in spans:
        return ['{:x}-{:x}'.format(*spans[kind])]
    return every(size // each[kind] if kind in each else 1)


if __name__ == '__main__':
    if len(sys.argv) == 1:
        for kind, growth in KINDS.items():
            print(kind, growth, LIMITS[growth])
        sys.exit()
    kind, size, path = sys.argv[1], int(sys.argv[2]), sys.argv[3]
    with open(path, 'wb') as out:
        out.write(globals()[kind](size))
    print(*asked(kind, size), sep='\n')
