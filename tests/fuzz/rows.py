"""Rows that were worked out by hand from the standards' tables: what whole runs write, and what parts of the model read.
Some stand in tests of the crates too. `check` compares the model with each, and the program with the runs."""
import os

from model import ranges
from model.dwarf import *
from model.entries import Entry, Kind, value_at
from model.functions import Fault, Faulty, Tree, name
from model.lines import Lines
from model.program import USAGE, Outcome, run
from model.reading import Reader, Unreadable
from model.units import DebugInfo

from assemble import elf_file, number
from compare import Program
from samples import PROGRAM, TABLE, deep, file_of, line_table, references, unit

hex_of = bytes.fromhex


def poked(content, *changes):
    content = bytearray(content)
    for at, new in changes:
        content[at:at + len(new)] = new
    return bytes(content)


def section_of(file, section):
    return getattr(DebugInfo(file), section)


# ---- whole runs: a file, words behind `-e FILE`, the input, and what is written


def overlapping(units, program='14' '0210' '000101', offset_size=4):
    """A unit over 0x1000 to 0x3000 without lines, and one over 0x2000 to 0x2010 with the lines of a program that begins
    at 0x2000, in some order; those of capital letters have the 64-bit format, and the table that of its offsets."""
    abbrev = hex_of('011100110112060000' '021100101711011206000000')
    made = {'x': unit(hex_of('01' '0010000000000000' '00200000')),
            'y': unit(hex_of('02' '00000000' '0020000000000000' '10000000')),
            'X': unit(hex_of('01' '0010000000000000' '00200000'), offset_size=8),
            'Y': unit(hex_of('02' '0000000000000000' '0020000000000000' '10000000'), offset_size=8)}
    table = line_table(hex_of('000902' '0020000000000000') + hex_of(program), offset_size=offset_size)
    return file_of(b''.join(made[one] for one in units), abbrev, table)


def answers(inlined, mixed):
    """Runs that answer: status 0 or 1, and nothing on the error stream."""
    smallest = elf_file([])[:40] + bytes(8) + elf_file([])[48:58] + bytes(6)
    info, abbrev, line = (section_of(inlined, one) for one in ('info', 'abbrev', 'line'))
    more = unit(b'\x01' + bytes(4) + number(0x500000, 8) + number(4, 4))
    faulty = file_of(poked(info, (0x23, b'\x63')) + more, abbrev, line)
    inner = 'leaf\n/w/a.c:4\nmid\n/w/a.c:30\nmain\n/w/z.c:20\n'
    unknown = line_table(hex_of('000902' '0010400000000000' '037f01' '0201' '0409' '0314' '01' '020d' '000101'))
    return [
        (inlined, '-a -f -i 0x401004', '', 0, '0x0000000000401004\n' + inner),
        (inlined, '-a -f 0x401004', '', 0, '0x0000000000401004\nleaf\n/w/a.c:4\n'),
        (inlined, '401004', '', 0, '/w/a.c:4\n'),
        (inlined, '-f -i 401000 401006 40100e', '', 0, 'main\n/w/a.c:3\nmid\n/w/a.c:4\nmain\n/w/z.c:20\n??\n??:0\n'),
        (mixed, '-f -i 401003', '', 0, '??\n/w/a.c:3\nmain\n/w/z.c:20\n'),
        (smallest, '0x0', '', 0, '??:0\n'),
        # the entry at 0x47 says that it is an instance of itself
        (poked(inlined, (64 + 0x48, b'\x47')), '-f 401004', '', 0, '??\n/w/a.c:4\n'),
        # no .debug_line; a code without a declaration
        (poked(inlined, (354, b'x')), '401000 zz', '', 1, '!unit 0x0 fault 4\n!bad address\n'),
        (poked(inlined, (64 + 0x23, b'\x63')), '401000', '', 1, '!unit 0x0 fault 1\n'),
        # a name that is a block of more bytes than the unit has left
        (poked(inlined, (189, b'\x0a')), '401000', '', 1, '!unit 0x0 fault 1\n'),
        (overlapping('xy'), '-f 2000', '', 0, '??\n??:0\n'),
        (overlapping('yx'), '-f 2000', '', 0, '??\n/w/a.c:3\n'),
        (overlapping('Xy'), '-f 2000', '', 0, '??\n??:0\n'),
        (overlapping('Yx'), '-f 2000', '', 0, '??\n/w/a.c:3\n'),
        (overlapping('y', offset_size=8), '-f 2000', '', 0, '??\n/w/a.c:3\n'),
        (overlapping('Xy'), '--units', '', 0, '0x0 version 5 compile\n0x25 version 5 compile\n'),
        (overlapping('Yx'), '--units', '', 0, '0x0 version 5 compile\n0x2d version 5 compile\n'),
        (file_of(info + more, abbrev, line), '-f -i 401004 500001 401004 500004', '', 0, (inner + '??\n??:0\n') * 2),
        (faulty, '-f', '0x401000\nzz\n\n0x500001\n', 1, '!unit 0x0 fault 1\n!bad address\n!bad address\n??\n??:0\n'),
        (faulty, '-f --workers 64 --senders 3', '0x401000\n500001', 1, '!unit 0x0 fault 1\n??\n??:0\n'),
        # line 0; a file that isn't there; no unit
        (file_of(info, abbrev, unknown), '401000 401001 2', '', 0, '/w/a.c:?\n??:20\n??:0\n'),
        (deep(512), '-f 1000', '', 0, '??\n??:0\n'),
        (deep(513), '-f 1000', '', 1, '!unit 0x0 fault 2\n'),
        (references(16), '-f 1000', '', 0, 'far\n??:0\n'),
        (references(17), '-f 1000', '', 0, '??\n??:0\n'),
        (references(5, True), '-f 1000', '', 0, '??\n??:0\n'),
        *((smallest, '', given, int('bad' in text), text) for given, text in (
            ('', ''), ('0x401000\n', '??:0\n'), ('1\r\n2', '??:0\n??:0\n'), ('\n', '!bad address\n'),
            ('zz\n1', '!bad address\n??:0\n'), ('1\r', '!bad address\n'), ('1\r\r\n', '!bad address\n'),
            ('00000000000000001\n', '!bad address\n'), ('0X00000000000000fF\n', '??:0\n'))),
        (smallest, '-a -f -i 4f 0x 401000', '', 1,
         '0x000000000000004f\n??\n??:0\n!bad address\n0x0000000000401000\n??\n??:0\n'),
        (smallest, '--units', '', 0, ''),
        (inlined, '--units 401000 zz', '', 0, '0x0 version 5 compile\n0x5b version 5 partial\n'),
        (mixed, '--units', '', 0, '0x0 version 4 skipped\n0xb version 5 compile\n0x66 version 5 partial\n'),
        (poked(inlined, (354, b'x')), '--units', '', 0, '0x0 version 5 compile\n0x5b version 5 partial\n'),
        (poked(inlined, (180, b'\x1b')), '--units', '', 0, '0x0 version 5 compile\n0x5b version 5 partial\n'),
        # a size of .debug_line past the end, of a section that takes no bytes of the file
        (poked(inlined, (366 + 3 * 64 + 33, b'\4'), (366 + 3 * 64 + 4, b'\x08')), '--units', '', 0,
         '0x0 version 5 compile\n0x5b version 5 partial\n'),
    ]


def piece(begin, end, location):
    return f'0x{begin:016x}-0x{end:016x} {location}\n'


def spans(inlined):
    """The same of runs that ask for spans."""
    both = piece(0x401000, 0x401004, '/w/a.c:3') + piece(0x401004, 0x40100e, '/w/a.c:4')
    one = piece(0x2000, 0x2010, '/w/a.c:3')
    bad = '!bad address\n'
    return [
        (inlined, '400000-500000', '', 0, both),
        (inlined, '-f -i 0-ffffffffffffffff', '', 0, both),
        (inlined, '401002-401006', '', 0, piece(0x401002, 0x401004, '/w/a.c:3') + piece(0x401004, 0x401006, '/w/a.c:4')),
        (inlined, '400000-401000', '', 0, '??:0\n'),
        (inlined, '-a 400000-401000', '', 0, '0x0000000000400000-0x0000000000401000\n??:0\n'),
        (inlined, '-a -f', '0x401003-0X401004\r\n401000\n', 0, '0x0000000000401003-0x0000000000401004\n'
         + piece(0x401003, 0x401004, '/w/a.c:3') + '0x0000000000401000\nmain\n/w/a.c:3\n'),
        # the first isn't below the second; one of them is no address, or there are more than two
        *((inlined, word, '', 1, bad) for word in (
            '401000-401000', '401004-401000', '401000-', '401000-zz', 'zz-401000', '401000-10000000000000000',
            '401000--401004', '401000-401004-401008', '401000-401004-', '401000_401004')),
        (inlined, '', '-401000\n401000 -401004\n-\n', 1, bad * 3),
        # the unit that stands first answers, whichever covers more
        (overlapping('yx'), '1000-3000', '', 0, one),
        (overlapping('xy'), '1000-3000', '', 0, '??:0\n'),
        (overlapping('YX'), '1000-3000', '', 0, one),
        # two rows of one location are one piece, two of different columns are two, and line 0 takes its column away
        (overlapping('y', '14' '20' '020f' '000101'), '2000-2010', '', 0, one),
        (overlapping('y', '14' '0504' '20' '020f' '000101'), '2000-2010', '', 0,
         piece(0x2000, 0x2001, '/w/a.c:3') + piece(0x2001, 0x2010, '/w/a.c:3')),
        (overlapping('y', '037f' '01' '0504' '0202' '01' '020e' '000101'), '2000-2010', '', 0,
         piece(0x2000, 0x2010, '/w/a.c:?')),
        # of one file and of one that isn't there
        (overlapping('y', '14' '0402' '20' '020f' '000101'), '2000-2010', '', 0,
         piece(0x2000, 0x2001, '/w/a.c:3') + piece(0x2001, 0x2010, '??:3')),
        # a sequence that ends before the unit, and one behind it that touches it
        (overlapping('y', '14' '0204' '000101' '000902' '0420000000000000' '14' '0204' '000101'), '0-ffffffffffffffff',
         '', 0, piece(0x2000, 0x2008, '/w/a.c:3')),
        # no .debug_line: the fault of the first address of the unit, and none where the span has none
        (poked(inlined, (354, b'x')), '400000-401001', '', 1, '!unit 0x0 fault 4\n'),
        (poked(inlined, (354, b'x')), '-a -i 40100d-40100e 40100e-401010', '', 1,
         '0x000000000040100d-0x000000000040100e\n!unit 0x0 fault 4\n'
         '0x000000000040100e-0x0000000000401010\n??:0\n'),
        # entries that can't be read are no fault of a span
        (poked(inlined, (64 + 0x23, b'\x63')), '401003-401005 401003', '', 1,
         piece(0x401003, 0x401004, '/w/a.c:3') + piece(0x401004, 0x401005, '/w/a.c:4') + '!unit 0x0 fault 1\n'),
    ]


def refusals(inlined):
    """The first sample changed at a place, and why it is refused; behind these, of a run that answers alone."""
    changed = [(0, b'\0', '1 NotElf'), (4, b'\1', '2 NotElf64Little'), (5, b'\2', '2 NotElf64Little'),
               (16, b'\1', '3 Relocatable'), (58, b'\x3f', '4 SectionTable'), (64, b'\x58', '7 UnitHeader 0x5c'),
               (64, b'\xff\xff\xff\xff', '7 UnitHeader 0x0'), (71, b'\4', '9 AddressSize 0x0'),
               (567, b'\x08', '6 Compressed .debug_line'), (344, b'.zdebug_line\0', '6 Compressed .debug_line'),
               (366 + 3 * 64 + 33, b'\4', '5 SectionRange .debug_line'), (174, b'\x08', '10 Root 0x0'),
               (167, b'\0', '10 Root 0x5b'), (167, b'\x09', '10 Root 0x5b'), (167, b'\2', '10 Root 0x5b')]
    files = [(poked(inlined, (at, new)), why) for at, new, why in changed]
    files += [(inlined[:size], '1 NotElf' if size < 64 else '4 SectionTable') for size in (0, 63, 64, 685)]
    for file, why in files:
        yield file, '--units', why
        yield file, '-f 401000', why
    yield poked(inlined, (180, b'\x1b')), '401000', '11 RootRanges 0x0'


COMMAND_LINES = ['-f', '--help', '--units', '-e FILE --units --workers 0', '-e FILE --units --workers 65',
                 '-e FILE --units --senders=0', '-e FILE --units --senders x', '-e FILE -e FILE --units',
                 '-e FILE -x --units', '-e', '-e FILE --units --units', '-e FILE -ff', '-e FILE --units=1',
                 '-e FILE --workers', '-e FILE --workers -1', '-e -f 1', '-h', '-V', '-e FILE --unit', '-e FILE -f=1']
SPELLINGS = ['-eFILE --units', '--units -fia -e FILE', '--units --workers=64 --senders 64 -e FILE', '-e=FILE --units',
             '--units -e FILE -- 401000', '-fieFILE --units', '-e FILE --workers +4 --units', '-e FILE --units - 4',
             '-e FILE --workers=004 --units', '-e FILE --units -- -x --workers', '-ie FILE -a --units']


def runs(inlined, mixed):
    """A file, words, an input, and the outcome."""
    for file, words, given, status, text in answers(inlined, mixed) + spans(inlined):
        yield file, ['-e', 'FILE', *words.split()], given, Outcome(text.encode(), b'', status)
    for file, words, why in refusals(inlined):
        yield file, ['-e', 'FILE', *words.split()], '', Outcome(b'', f'a2l: file refused: {why}\n'.encode(), 2)
    yield inlined, [], '', Outcome(USAGE, b'', 0)
    yield None, ['-e', 'MISSING', '401000'], '', Outcome(b'', b'a2l: cannot read file\n', 3)
    for words in COMMAND_LINES:
        yield inlined, words.split(), '', Outcome(b'', USAGE, 2)
    for words in SPELLINGS:
        yield inlined, words.split(), '', Outcome(b'0x0 version 5 compile\n0x5b version 5 partial\n', b'', 0)


def check_runs(program, inlined, mixed):
    count = 0
    for file, words, given, wanted in runs(inlined, mixed):
        for path, content in (('FILE', file or b''), ('given', given.encode())):
            with open(path, 'wb') as written:
                written.write(content)
        modelled = run(words, load, lambda: given.encode())
        assert modelled == wanted, (words, given, 'model', modelled, wanted)
        got = Program(program, words, 'given').outcome()
        assert got == wanted, (words, given, 'program', got, wanted)
        count += 1
    os.remove('FILE')
    return count


def load(path):
    with open(path, 'rb') as file:
        return file.read()


# ---- values

NUMBERS = '0102030405060708'
VALUES = [
    (DW_FORM_addr, NUMBERS, (Kind.ADDRESS, 0x0807060504030201)), (DW_FORM_block2, '02000709', (Kind.BYTES, b'\7\x09')),
    (DW_FORM_block4, '0100000007', (Kind.BYTES, b'\7')), (DW_FORM_data2, '0102', (Kind.UNSIGNED, 0x0201)),
    (DW_FORM_data4, '01020304', (Kind.UNSIGNED, 0x04030201)),
    (DW_FORM_data8, NUMBERS, (Kind.UNSIGNED, 0x0807060504030201)), (DW_FORM_string, '616200', (Kind.INLINE, b'ab')),
    (DW_FORM_block, '020709', (Kind.BYTES, b'\7\x09')), (DW_FORM_block1, '0107', (Kind.BYTES, b'\7')),
    (DW_FORM_data1, 'ff', (Kind.UNSIGNED, 255)), (DW_FORM_flag, '02', (Kind.FLAG, 2)),
    (DW_FORM_sdata, '807f', (Kind.SIGNED, -128)), (DW_FORM_strp, '01020304', (Kind.STR, 0x04030201)),
    (DW_FORM_udata, 'e58e26', (Kind.UNSIGNED, 624485)), (DW_FORM_ref_addr, '01020304', (Kind.SECTION_REF, 0x04030201)),
    (DW_FORM_ref1, '09', (Kind.UNIT_REF, 9)), (DW_FORM_ref2, '0102', (Kind.UNIT_REF, 0x0201)),
    (DW_FORM_ref4, '01020304', (Kind.UNIT_REF, 0x04030201)),
    (DW_FORM_ref8, '0100000000000080', (Kind.UNIT_REF, 2 ** 63 + 1)), (DW_FORM_ref_udata, '8001', (Kind.UNIT_REF, 128)),
    (DW_FORM_sec_offset, '01020304', (Kind.SECTION_OFFSET, 0x04030201)),
    (DW_FORM_exprloc, '019c', (Kind.BYTES, b'\x9c')),
    (DW_FORM_strx, '05', (Kind.STR_INDEX, 5)), (DW_FORM_addrx, '05', (Kind.ADDRESS_INDEX, 5)),
    (DW_FORM_ref_sup4, '01020304', (Kind.UNUSED, 0x04030201)),
    (DW_FORM_strp_sup, '01020304', (Kind.UNUSED, 0x04030201)),
    (DW_FORM_data16, NUMBERS * 2, (Kind.BYTES, hex_of(NUMBERS * 2))),
    (DW_FORM_line_strp, '01020304', (Kind.LINE_STR, 0x04030201)),
    (DW_FORM_ref_sig8, '0100000000000000', (Kind.UNUSED, 1)),
    (DW_FORM_loclistx, '06', (Kind.UNUSED, 6)), (DW_FORM_rnglistx, '06', (Kind.RANGE_INDEX, 6)),
    (DW_FORM_ref_sup8, '0100000000000000', (Kind.UNUSED, 1)), (DW_FORM_strx1, 'fe', (Kind.STR_INDEX, 0xfe)),
    (DW_FORM_strx2, '0102', (Kind.STR_INDEX, 0x0201)), (DW_FORM_strx3, '010203', (Kind.STR_INDEX, 197121)),
    (DW_FORM_strx4, '01020304', (Kind.STR_INDEX, 0x04030201)), (DW_FORM_addrx1, 'fe', (Kind.ADDRESS_INDEX, 0xfe)),
    (DW_FORM_addrx2, '0102', (Kind.ADDRESS_INDEX, 0x0201)), (DW_FORM_addrx3, '010203', (Kind.ADDRESS_INDEX, 197121)),
    (DW_FORM_addrx4, '01020304', (Kind.ADDRESS_INDEX, 0x04030201)),
    (DW_FORM_GNU_ref_alt, '01020304', (Kind.UNUSED, 0x04030201)),
    (DW_FORM_GNU_strp_alt, '01020304', (Kind.UNUSED, 0x04030201)), (DW_FORM_indirect, '160b07', (Kind.UNSIGNED, 7)),
]
# the forms whose values have eight bytes in the 64-bit format, and four in the 32-bit one
OFFSETS = [(DW_FORM_ref_addr, Kind.SECTION_REF), (DW_FORM_strp, Kind.STR), (DW_FORM_line_strp, Kind.LINE_STR),
           (DW_FORM_sec_offset, Kind.SECTION_OFFSET), (DW_FORM_strp_sup, Kind.UNUSED),
           (DW_FORM_GNU_ref_alt, Kind.UNUSED), (DW_FORM_GNU_strp_alt, Kind.UNUSED)]
NO_VALUES = [(0, '01'), (2, '01'), (0x2d, '01'), (0x1f01, '01020304'), (0x1f02, '01020304'), (DW_FORM_indirect, '2101'),
             (DW_FORM_indirect, '1616'), (DW_FORM_block, '0501'), (DW_FORM_string, '6162'),
             (DW_FORM_udata, 'ff' * 9 + '02'), (DW_FORM_udata, 'ff' * 10), (DW_FORM_sdata, '80' * 9 + '01')]
LEBS = [('uleb', '808000', 0), ('uleb', 'ff' * 9 + '01', 2 ** 64 - 1), ('uleb', '80' * 12 + '00', 0),
        ('sleb', '7f', -1), ('sleb', 'ff7f', -1), ('sleb', '3f', 63), ('sleb', '40', -64),
        ('sleb', '80' * 9 + '7f', -2 ** 63)]


def is_read(read, *words):
    try:
        return read(*words)
    except Unreadable:
        return None


def check_values():
    for form, spelling, value in VALUES:
        reader = Reader(hex_of(spelling))
        assert value_at(reader, form, None, 4) == value and reader.left() == 0, form
        assert is_read(value_at, Reader(hex_of(spelling)[:-1]), form, None, 4) is None, form
    for form, spelling in NO_VALUES:
        assert is_read(value_at, Reader(hex_of(spelling)), form, 1, 4) is None, form
    assert value_at(Reader(b''), DW_FORM_flag_present, None, 4) == (Kind.FLAG, 1)
    assert value_at(Reader(b''), DW_FORM_implicit_const, -3, 4) == (Kind.SIGNED, -3)
    assert is_read(value_at, Reader(b''), DW_FORM_implicit_const, None, 4) is None
    for form, kind in OFFSETS:
        reader = Reader(hex_of('0102030405060708'))
        assert value_at(reader, form, None, 8) == (kind, 0x0807060504030201) and reader.left() == 0, form
    for kind, spelling, value in LEBS:
        assert getattr(Reader(hex_of(spelling)), kind)() == value, spelling
    return len(VALUES) + len(NO_VALUES) + len(LEBS) + len(OFFSETS) + 3


# ---- ranges: units with the bases 8 of addresses and 4 of range lists, with none, and with these and an address

ADDR = hex_of('0102030405060708' '0010000000000000' '0020000000000000')
ROOTS = {'based': '0108000000' '04000000', 'plain': '02', 'at address': '0308000000' '04000000' '0005000000000000',
         'at index': '0408000000' '04000000' '01', 'unreadable': '0408000000' '04000000' '02'}
HIGH = 'f0ffffffffffffff'
LISTS = [
    ('based', '00', []), ('based', '010104000100', [(0x2000, 0x2001)]), ('based', '010200', None),
    ('based', '02000100', [(0x1000, 0x2000)]), ('based', '02010000', []), ('based', '02000200', None),
    ('based', '02020000', None), ('based', '0300800100', [(0x1000, 0x1080)]), ('based', '03000000', []),
    ('based', '03020100', None), ('based', '04030500', [(3, 5)]), ('based', '04050500', []), ('based', '04050300', []),
    ('based', '050030000000000000' '040102' '040304' '00', [(0x3001, 0x3002), (0x3003, 0x3004)]),
    ('based', '05' + HIGH + '041020' '040010' '04000f' '00', [(2 ** 64 - 16, 2 ** 64 - 1)]),
    ('based', '06' '0100000000000000' '0200000000000000' '00', [(1, 2)]), ('based', '07' + HIGH + '1000', []),
    ('based', '07' + HIGH + '0f00', [(2 ** 64 - 16, 2 ** 64 - 1)]), ('based', '0008', []), ('based', '0800', None),
    ('based', 'ff', None), ('based', '', None), ('based', '0401', None), ('based', '040102', None),
    ('based', '06' '0100000000000000' '02000000000000', None), ('based', '0400' + 'ff' * 9 + '0200', None),
    ('based', '0100' '041020' '030108' '043030' '07' + 'ff' * 8 + '08' '00', [(0x1010, 0x1020), (0x2000, 0x2008)]),
    ('based', '0100' '041020' '030108' '043030' '07' + 'ff' * 8 + '08', None),
    ('plain', '010000', None), ('plain', '02000000', None), ('plain', '03000000', None),
    ('plain', '040000' '03000000', None), ('plain', '04010200', [(1, 2)]), ('at address', '04010200', [(0x501, 0x502)]),
    ('at index', '04010200', [(0x2001, 0x2002)]), ('unreadable', '04010200', None),
    ('unreadable', '030001' '050000000000000000' '040102' '00', [(0x1000, 0x1001), (1, 2)]),
]
INDEXED = '09090909' '08000000' '0c000000' '04010200' '04030400'
LISTED = [('based', (Kind.RANGE_INDEX, 0), [(1, 2)]), ('based', (Kind.RANGE_INDEX, 1), [(3, 4)]),
          ('based', (Kind.RANGE_INDEX, 2), None), ('based', (Kind.RANGE_INDEX, 4), None),
          ('based', (Kind.RANGE_INDEX, 2 ** 62), None), ('based', (Kind.RANGE_INDEX, 2 ** 64 - 1), None),
          ('based', (Kind.SECTION_OFFSET, 12), [(1, 2)]), ('based', (Kind.SECTION_OFFSET, 16), [(3, 4)]),
          ('based', (Kind.SECTION_OFFSET, 19), []), ('based', (Kind.SECTION_OFFSET, 20), None),
          ('based', (Kind.SECTION_OFFSET, 2 ** 64 - 1), None), ('plain', (Kind.RANGE_INDEX, 0), None)]
FIVE = (Kind.ADDRESS, 5)
PAIRS = [
    (None, None, []), (FIVE, None, []), (None, FIVE, []), (None, (Kind.ADDRESS_INDEX, 9), []),
    ((Kind.ADDRESS_INDEX, 9), None, []), (FIVE, (Kind.ADDRESS, 8), [(5, 8)]), (FIVE, (Kind.UNSIGNED, 8), [(5, 13)]),
    (FIVE, (Kind.SIGNED, 8), [(5, 13)]), (FIVE, (Kind.SIGNED, -2), []), (FIVE, (Kind.UNSIGNED, 0), []),
    (FIVE, FIVE, []),
    ((Kind.ADDRESS, 0), (Kind.UNSIGNED, 7), [(0, 7)]),
    ((Kind.ADDRESS_INDEX, 0), (Kind.ADDRESS_INDEX, 1), [(0x1000, 0x2000)]),
    ((Kind.ADDRESS_INDEX, 2), (Kind.UNSIGNED, 1), None), (FIVE, (Kind.ADDRESS_INDEX, 2), None),
    ((Kind.ADDRESS, 2 ** 64 - 1), (Kind.UNSIGNED, 1), []),
]


def ranges_in(root, rnglists, *attributes):
    """The ranges of an entry with these attributes in a unit with this first entry."""
    abbrev = hex_of('01110073177417000002110000000311007317741711010000' '0411007317741711' '1b0000' '00')
    info = DebugInfo(file_of(unit(hex_of(ROOTS[root])), abbrev, addr=ADDR, rnglists=hex_of(rnglists)))
    entry = Entry(0, DW_TAG_subprogram, False, [pair for pair in attributes if pair[1] is not None])
    return is_read(ranges.ranges_of, info, info.units[0], entry)


def check_ranges():
    for root, listed, wanted in LISTS:
        found = ranges_in(root, listed, (DW_AT_ranges, (Kind.SECTION_OFFSET, 0)))
        assert found == wanted, (root, listed, found)
    for root, value, wanted in LISTED:
        assert ranges_in(root, INDEXED, (DW_AT_ranges, value)) == wanted, value
    for low, high, wanted in PAIRS:
        assert ranges_in('based', '', (DW_AT_low_pc, low), (DW_AT_high_pc, high)) == wanted, (low, high)
    for value, wanted in (((Kind.SECTION_OFFSET, 0), [(1, 2)]), ((Kind.SECTION_OFFSET, 9), None),
                          ((Kind.UNSIGNED, 0), [(5, 8)])):
        assert ranges_in('plain', '04010200', (DW_AT_low_pc, FIVE), (DW_AT_ranges, value),
                         (DW_AT_high_pc, (Kind.ADDRESS, 8))) == wanted, value
    return len(LISTS) + len(LISTED) + len(PAIRS) + 3


# ---- lines: fields of headers, programs, and the lines of addresses

FOUR_BYTES = hex_of('040101fb0e0e0001010101000000010000010200' '000000')
START = '00090200104000000000' '00'
MANY = ''.join('000902' + at + '01' + '21' * 9 + '0201' '000101' for at in ('0010000000000000', '0020000000000000'))
PROGRAMS = [
    (TABLE, START + '144b020a000101', {0: None, 0x400fff: None, 0x401000: 3, 0x401003: 3, 0x401004: 4, 0x40100d: 4,
                                        0x40100e: None, 2 ** 64 - 1: None}),
    (TABLE, START + '14084b020a000101', {0x401000: 3, 0x401014: 3, 0x401015: 4, 0x40101e: 4, 0x40101f: None}),
    (TABLE, START + '18140204000101', {0x401000: 9, 0x401003: 9}),
    (TABLE, '000902' + 'ff' * 8 + '140204000101' + START + '144b020a000101',
     {1: None, 2 ** 64 - 1: None, 0x401000: 3, 0x401004: 4}),
    (TABLE, START + '144b020a000101' + START + '180220000101',
     {0x401000: 3, 0x40100d: 4, 0x40100e: 7, 0x40101f: 7, 0x401020: None}),
    (TABLE, '', {0: None, 0x401000: None, 2 ** 64 - 1: None}),
    (TABLE, START + '144b020a', {0: None, 0x401000: None, 2 ** 64 - 1: None}),
    (TABLE, '000101', {0: None, 0x401000: None, 2 ** 64 - 1: None}),
    (TABLE, START + '037601' '0201' '000101', {0x401000: 2 ** 64 - 9}),
    (TABLE, MANY, {0x0fff: None, 0x1003: 4, 0x1009: 10, 0x100a: None, 0x2009: 10}),
    (FOUR_BYTES, '0d8101050102012208' '090100' '000101', {0: 1, 7: 1, 8: 2, 76: 2, 77: None}),
    (TABLE, '0407' '0508' '0309' '06070a0b' '0c8101' '090201' '00020409' '01' '0205' '000101' '01' '0201' '000101',
     {0: 1, 1: None, 0x102: 10, 0x106: 10, 0x107: None}),
]
BAD_PROGRAMS = ['0000', '00', '0003020000', '000a02000000000000000000', '0004800000', '0280', '02', '0380', '0901',
                '02' + 'ff' * 9 + '02', START + '144b020a000101' '00']
CHANGED_HEADERS = [(0, 68, False), (3, 0xff, False), (4, 4, False), (6, 4, False), (8, 66, False), (8, 0x28, False),
                   (13, 2, False), (16, 0, False), (17, 0, False), (33, 20, False), (41, 0, False), (42, 3, False),
                   (42, 11, False), (7, 9, True), (14, 0, True)]
LINE_STR = b'/w\0src\0/abs\0b.c\0/b.c\0'
OPCODES = '010101fb0e0d000101010100000001000001'
PATHS = hex_of(OPCODES + '01011f' '03' '00000000' '03000000' '07000000' '03' '020b' '011f' '040f' '05'
               '01' '0c000000' '05' '02' '0c000000' '05' '00' '0c000000' '05' '07' '0c000000' '00' '01' '10000000' '00')
NO_DIRECTORY = hex_of(OPCODES + '0000' '010108' '01' '622e6300')
NO_FORMATS = hex_of(OPCODES + '00' '02' '00' '02' '00000000')


def lines_in(table, comp_dir=None, **more):
    """The line table of a unit that was compiled in a directory."""
    abbrev = hex_of('01110010171b0800000211001017000000')
    first = b'\x02' + bytes(4) if comp_dir is None else b'\x01' + bytes(4) + comp_dir + b'\0'
    info = DebugInfo(file_of(unit(first), abbrev, table, **more))
    return is_read(Lines, info, info.units[0], 0)


def check_lines():
    count = 0
    for fields, program, rows in PROGRAMS:
        lines = lines_in(line_table(hex_of(program), fields))
        for address, line in rows.items():
            row = lines.row(address)
            assert (row and row.line) == line, (program, hex(address), row)
            count += 1
    for program in BAD_PROGRAMS:
        assert lines_in(line_table(hex_of(program))) is None, program
    assert lines_in(line_table(hex_of('0003800000'))) is not None
    for at, byte, is_good in CHANGED_HEADERS:
        table = poked(line_table(PROGRAM), (at, bytes([byte])))
        assert (lines_in(table) is not None) == is_good, at
    return count + len(BAD_PROGRAMS) + 1 + len(CHANGED_HEADERS) + check_paths()


def check_paths():
    rows = [(PATHS, b'/x', [b'/w/src/b.c', b'/abs/b.c', b'/w/b.c', b'/w/b.c', b'/b.c', None]),
            (NO_DIRECTORY, b'/w/', [b'/w/b.c']), (NO_DIRECTORY, b'/w', [b'/w/b.c']), (NO_DIRECTORY, b'', [b'b.c']),
            (NO_DIRECTORY, None, [b'b.c']), (NO_FORMATS, b'/w', [None, None])]
    for fields, comp_dir, paths in rows:
        lines = lines_in(line_table(b'', fields), comp_dir, line_str=LINE_STR)
        assert [lines.path(number) for number in range(len(paths))] == paths, (comp_dir, paths)
        assert lines.path(2 ** 64 - 1) is None
    return sum(len(paths) for *_, paths in rows)


# ---- functions

SHORT = hex_of('0111010000' '021d0031130000' '032e0003080000' '040b010000' '052e0055170000' '060b0055170000'
               '070b0003080000' '080b00037e0000' '090b00030f0000' '00')
TREES = [(0, '007f', None), (1, '7f', Fault.ENTRY), (0, '036e', Fault.ENTRY), (0, '06000000', Fault.ENTRY),
         (0, '076e', Fault.ENTRY), (511, '036e0004', None), (512, '036e00', Fault.DEPTH), (512, '04', Fault.DEPTH),
         (512, '076e00', Fault.DEPTH), (0, '05000000007f', Fault.RANGES), (0, '060000000000', None)]
CHAINS = {0x400fff: [], 0x401000: [0x23], 0x401001: [0x23], 0x401002: [0x36, 0x23], 0x401004: [0x47, 0x36, 0x23],
          0x401005: [0x47, 0x36, 0x23], 0x401006: [0x36, 0x23], 0x401007: [0x36, 0x23], 0x401008: [0x23],
          0x40100d: [0x23], 0x40100e: [], 2 ** 64 - 1: []}
TARGETS = [('', None), ('00', None), ('7f', None), ('076e', None), ('08', None), ('09' + 'ff' * 10 + '7f', None),
           ('076e00', b'n')]


def check_functions(inlined):
    for blocks, last, fault in TREES:
        info = DebugInfo(file_of(unit(b'\x01' + b'\x04' * blocks + hex_of(last)), SHORT))
        try:
            Tree(info, info.units[0])
            found = None
        except Faulty as faulty:
            found = faulty.fault
        assert found == fault, (blocks, last, found)
    info = DebugInfo(inlined)
    tree = Tree(info, info.units[0])
    for address, offsets in CHAINS.items():
        assert [function.entry.offset for function in tree.chain(address)] == offsets, hex(address)
    for behind, wanted in TARGETS:
        info = DebugInfo(file_of(unit(b'\x01\x02' + number(19, 4) + b'\0' + hex_of(behind)), SHORT))
        found = name(info, info.units[0], info.entry(info.units[0], 13))
        assert found == wanted, (behind, found)
    return len(TREES) + len(CHAINS) + len(TARGETS)


def check(program, inlined, mixed):
    """Compares all rows, and gives how many there are."""
    return (check_runs(program, inlined, mixed) + check_values() + check_ranges() + check_lines()
            + check_functions(inlined))
