"""The files that are damaged, beside those that are made at random: samples, some made here byte by byte, and small
programs of compilers."""
import os

from model.dwarf import DW_LENGTH_64BIT, OFFSET_SIZE_32, OFFSET_SIZE_64

from assemble import Section, elf_file, number
from damage import base_of
from fields import fields_of

TABLE = bytes.fromhex('010101fb0e0d00010101010000000100000101010801' '2f770002010802' '0b027a2e630000612e630000')
PROGRAM = bytes.fromhex('0009020010400000000000144b020a000101')  # 0x401000 line 3, 0x401004 line 4, end 0x40100e


def line_table(program, fields=TABLE, offset_size=OFFSET_SIZE_32):
    """Directory 0 is `/w`; file 0 is `z.c` and file 1 is `a.c`, in it."""
    table = number(5, 2) + bytes([8, 0]) + number(len(fields), offset_size) + fields + program
    return initial_length(len(table), offset_size) + table


def initial_length(length, offset_size):
    return number(length, 4) if offset_size == OFFSET_SIZE_32 else number(DW_LENGTH_64BIT, 4) + number(length, 8)


def unit(entries, unit_type=1, abbrev=0, offset_size=OFFSET_SIZE_32):
    body = number(5, 2) + bytes([unit_type, 8]) + number(abbrev, offset_size) + entries
    return initial_length(len(body), offset_size) + body


def file_of(info, abbrev, line=b'', **more):
    sections = [(b'.debug_info', info), (b'.debug_abbrev', abbrev), (b'.debug_line', line)]
    sections += [(b'.debug_' + name.encode(), content) for name, content in more.items()]
    return elf_file([Section(name, content) for name, content in sections])


COVERING = bytes.fromhex('1101' '1206')  # low_pc by its bytes, high_pc as four
AT = number(0x1000, 8) + number(16, 4)


def deep(depth):
    """A unit whose last entry stands so deep; each but it has children."""
    abbrev = bytes.fromhex('011101') + COVERING + bytes(2) + bytes.fromhex('020b010000' '032e00') + COVERING + bytes(3)
    return file_of(unit(b'\x01' + AT + b'\x02' * (depth - 1) + b'\x03' + AT), abbrev)


def references(count, ring=False):
    """A subprogram whose name stands so many references away, or a ring of as many entries."""
    abbrev = (bytes.fromhex('011101') + COVERING + bytes(2) + bytes.fromhex('022e003113') + COVERING + bytes(2)
              + bytes.fromhex('032e0031130000' '042e0003080000' '00'))
    at = [12 + 13 + 17 + 5 * i for i in range(count)]
    targets = at[1:count] + [at[0]] * ring
    entries = b'\x02' + number(at[0], 4) + AT + b''.join(b'\x03' + number(target, 4) for target in targets)
    return file_of(unit(b'\x01' + AT + entries + b'\x04far\0' + b'\0'), abbrev)


def followed(info, count=1):
    """The first sample's units with others behind them, which have no lines."""
    more = [unit(b'\x01' + number(1000, 4) + number(0x500000 + 4 * i, 8) + number(5, 4)) for i in range(count)]
    return info + b''.join(more)


def skeletons():
    """A skeleton unit, a type unit and a split unit, with first entries of one kind."""
    first = b'\x01' + number(0, 4) + number(0x401000, 8) + number(14, 4) + b'\0'
    units = [unit(bytes(8) + first, 4), unit(bytes(12) + first, 2), unit(bytes(8) + first, 5), unit(first, 3)]
    return b''.join(units) + unit(first)


def pathed(directories, files, comp_dir):
    """A unit whose table has these directories and files, and that was compiled in a directory."""
    abbrev = bytes.fromhex('011100' '1017') + COVERING + bytes.fromhex('1b08' '0000' '00')
    lists = b'\x01\x01\x08' + bytes([len(directories)]) + b''.join(one + b'\0' for one in directories)
    lists += b'\x02\x01\x08\x02\x0b' + bytes([len(files)]) + b''.join(one + b'\0' + bytes([n]) for one, n in files)
    table = line_table(PROGRAM, TABLE[:18] + lists)
    return file_of(unit(b'\x01' + bytes(4) + number(0x401000, 8) + number(14, 4) + comp_dir + b'\0'), abbrev, table)


def formats(widths):
    """Units of these offset sizes over one table of abbreviations, each with a function that has the name of the one
    before it, a text by index, a range list by index and a line table of its own size or of the other one."""
    abbrev = bytes.fromhex('011101' '1017' '7217' '7417' '5523' '0325' '0000' '022e00' '1101' '1206' '3110' '0310' '0000'
                           '032e00' '1101' '1206' '0325' '0000' '00')
    info, line, str_offsets, rnglists = b'', b'', b'', b''
    for i, size in enumerate(widths):
        at, before = 0x1000 * (i + 1), len(info)
        root = b'\x01' + b''.join(number(n, size) for n in (len(line), len(str_offsets), len(rnglists))) + b'\1\0'
        named = b'\x03' + number(at, 8) + number(8, 4) + b'\1'
        origin = before + (12 if size == OFFSET_SIZE_32 else 24) + len(root)
        other = b'\x02' + number(at + 8, 8) + number(8, 4) + number(origin, size) + number(0, size)
        info += unit(root + named + other + b'\0', offset_size=size)
        str_offsets += number(i, size) + number(i + 3, size)
        rnglists += number(0, size) + number(2 * size, size) + b'\x07' + number(at, 8) + b'\x10\0'
        program = b'\0\x09\x02' + number(at, 8) + b'\x14\x4b\x02\x0c\0\x01\x01'
        line += line_table(program, offset_size=widths[i - 1])
    return file_of(info, abbrev, line, str=b'first\0second\0third\0', str_offsets=str_offsets, rnglists=rnglists)


def handmade(sample):
    """Files by name, of which some have parts of the first sample."""
    sections = {section.name: section.content for section in base_of('', sample, lambda file: {}).sections}
    info, abbrev, line = (sections[name] for name in (b'.debug_info', b'.debug_abbrev', b'.debug_line'))
    return {
        'formats': formats([OFFSET_SIZE_64, OFFSET_SIZE_32]),
        'formats-of-four': formats([OFFSET_SIZE_32, OFFSET_SIZE_64, OFFSET_SIZE_64, OFFSET_SIZE_32]),
        'followed': file_of(followed(info, 3), abbrev, line),
        'skeletons': file_of(skeletons(), abbrev, line),
        'deep-512': deep(512), 'deep-513': deep(513),
        'references-16': references(16), 'references-17': references(17), 'references-ring': references(5, True),
        'paths': pathed([b'/w', b'src', b'/abs'], [(b'a.c', 0), (b'b.c', 1), (b'c.c', 2), (b'/d.c', 1), (b'e.c', 9)],
                        b'/elsewhere'),
        'paths-without-directories': pathed([], [(b'', 1), (b'b.c', 0)], b'there/'),
    }


def read(path):
    with open(path, 'rb') as file:
        return file.read()


def bases(folder, programs):
    """The samples of a folder, files that are made here, and programs: their used sections, and of those that are small
    also the whole file."""
    files = {name: read(os.path.join(folder, name)) for name in sorted(os.listdir(folder)) if name.endswith('.elf')}
    files |= handmade(files['inlined.elf'])
    found = [base_of(name, file, fields_of) for name, file in files.items()]
    for path in programs:
        name, file = os.path.basename(path), read(path)
        found.append(base_of(name, file, fields_of))
        found.append(base_of(name + ', whole', file, fields_of, True))
    return found
