"""Damages files by their structure. A damage is an edit of a section's bytes at a field, an edit of the file's layout,
or of its bytes; each says what it did."""
import struct
from dataclasses import dataclass, replace

from model import elf
from model.dwarf import *

from assemble import Section, elf_file, number, sleb, uleb

FORMS = [value for name, value in globals().items() if name.startswith('DW_FORM_')]
NAMES = [value for name, value in globals().items() if name.startswith('DW_AT_')]
TAGS = [DW_TAG_subprogram, DW_TAG_inlined_subroutine, 0x11, 0x0b]
# forms whose values take the same bytes, so that what stands behind them is read as before
ALIKE = [
    [DW_FORM_data4, DW_FORM_strp, DW_FORM_line_strp, DW_FORM_ref_addr, DW_FORM_ref4, DW_FORM_sec_offset, DW_FORM_strx4,
     DW_FORM_addrx4, DW_FORM_ref_sup4, DW_FORM_strp_sup, DW_FORM_GNU_ref_alt, DW_FORM_GNU_strp_alt],
    [DW_FORM_addr, DW_FORM_data8, DW_FORM_ref8, DW_FORM_ref_sig8, DW_FORM_ref_sup8],
    [DW_FORM_data2, DW_FORM_ref2, DW_FORM_strx2, DW_FORM_addrx2],
    [DW_FORM_data1, DW_FORM_ref1, DW_FORM_strx1, DW_FORM_addrx1, DW_FORM_flag, DW_FORM_udata, DW_FORM_sdata,
     DW_FORM_strx, DW_FORM_addrx, DW_FORM_rnglistx, DW_FORM_loclistx, DW_FORM_ref_udata],
    [DW_FORM_block1, DW_FORM_block, DW_FORM_exprloc, DW_FORM_indirect],
    [DW_FORM_flag_present, DW_FORM_implicit_const],
]
MARKS = [0, 1, 2, 3, 4, 5, 8, 0x7f, 0x80, 0xff, 0x100, 0x7fff, 0x8000, 0xffff, 0x7fffffff, 0x80000000, 0xffffffef,
         0xfffffff0, 0xfffffffe, 0xffffffff, 2 ** 32, 2 ** 63 - 1, 2 ** 63, 2 ** 64 - 2, 2 ** 64 - 1]
WIDE = [b'\xff' * 9 + b'\x02', b'\x80' * 9 + b'\x02', b'\x80' * 10 + b'\x01', b'\xff' * 12 + b'\x7f',
        b'\x80' * 9 + b'\x01', b'\xff' * 9 + b'\x01', b'\x80' * 9 + b'\x7f', b'\xff' * 8 + b'\x40',
        b'\x80' * 12 + b'\0']
TEXTS = [b'', b'/', b'a/', b'/abs', b'x' * 200, b'\xff\xfe', b'two\nlines', b'.', b'..']
# the fields that say how many bytes follow them: the initial lengths of units and tables of both formats, and
# header_length
SHORT, LONG = ('initial_length', 0), ('initial_length', 1)
LENGTHS = {(section, role) for section in (b'.debug_info', b'.debug_line') for role in (SHORT, LONG)}
LENGTHS.add((b'.debug_line', ('line_header', 3)))


@dataclass
class Base:
    """A file that is damaged, its used sections, their fields, and whether its own layout is kept."""
    name: str
    file: bytes
    sections: list
    fields: dict
    keeps_layout: bool


@dataclass
class Edit:
    """Some bytes of a section at a place, and those that replace them."""
    section: bytes
    at: int
    old: bytes
    new: bytes
    what: str

    def __str__(self):
        name = self.section.decode()
        return f'{self.what} at {name}+{self.at:#x}: {self.old[:24].hex()} to {self.new[:24].hex()}'


# ---- edits of fields


def drawn(random, choices, weights):
    """One of some choices, each as likely as its weight, which is 1 if it has none."""
    choices = list(choices)
    return random.choices(choices, [weights.get(choice, 1) for choice in choices])[0]


def any_field(random, base):
    """A field: first a section is drawn, then a function that reads it, then a place in that function."""
    name = drawn(random, base.fields, {b'.debug_info': 5, b'.debug_abbrev': 4, b'.debug_line': 5, b'.debug_rnglists': 3})
    function = drawn(random, base.fields[name], {'value_at': 4, 'entry_at': 2, 'list_ranges': 2, 'standard': 2})
    fields = base.fields[name][function]
    role = random.choice(sorted({field.role for field in fields}))
    return random.choice([field for field in fields if field.role == role])


def others(base, field):
    """The fields of the same role in the same section."""
    return [other for other in base.fields[field.section][field.role[0]] if other.role == field.role]


def new_number(random, base, field):
    """Another number for a field."""
    old, size = field.value, len(content_of(base, field.section))
    if field.role in (('specifications_at', 1), ('formats_at', 2)):
        alike = [form for forms in ALIKE if old in forms for form in forms if form != old]
        return random.choice(alike if alike and random.random() < 0.6 else FORMS)
    if field.role == ('specifications_at', 0) and random.random() < 0.8:
        return random.choice(NAMES)
    if field.role == ('abbreviations', 1) and random.random() < 0.7:
        return random.choice(TAGS)
    return random.choice([
        lambda: random.choice(MARKS),
        lambda: old + random.choice([-1, 1]),
        lambda: old + random.randrange(-20, 21),
        lambda: old ^ 1 << random.randrange(8 * max(1, len(field.raw))),
        lambda: random.choice([other.value for other in others(base, field) if other.kind == field.kind]),
        lambda: random.choice([size, size - field.at, size - field.end(), field.at]) + random.randrange(-1, 2),
        lambda: random.randrange(256 ** len(field.raw)),
    ])()


def new_bytes(random, base, field):
    """Other bytes for a field."""
    raw, kind = field.raw, field.kind
    if kind == 'text':
        return random.choice([random.choice(TEXTS) + b'\0', raw[:-1], raw[:-1] + b'x', b'/' + raw, raw[1:]])
    if kind == 'take':
        return random.choice([random.randbytes(len(raw)), raw[:-1], raw + random.randbytes(1)])
    value = new_number(random, base, field)
    if kind == 'number':
        return number(value, len(raw))
    if random.random() < 0.2:
        return random.choice([random.choice(WIDE), bytes(byte | 0x80 for byte in raw)])
    size = random.choice([0, 0, len(raw), len(raw), 3, 12])
    return sleb(value, size) if kind == 'sleb' or value < 0 else uleb(value % 2 ** 64, size)


def change(random, base):
    field = any_field(random, base)
    return [Edit(field.section, field.at, field.raw, new_bytes(random, base, field), 'changed ' + field.role[0])]


def exchange(random, base):
    """Two fields of one role change their places."""
    field = any_field(random, base)
    other = random.choice(others(base, field))
    return [Edit(field.section, field.at, field.raw, other.raw, 'exchanged ' + field.role[0]),
            Edit(field.section, other.at, other.raw, field.raw, 'exchanged ' + field.role[0])]


def exchange_attributes(random, base):
    """Two neighbours of a declaration's pairs change their places, or their names, or their forms."""
    fields = base.fields.get(b'.debug_abbrev', {}).get('specifications_at')
    if fields is None or len(fields) < 4:
        return change(random, base)
    at = random.randrange(len(fields) - 3)
    first, second = [random.choice([(0, 2), (1, 3), (0, 1)])][0]
    first, second = fields[at + first], fields[at + second]
    return [Edit(first.section, first.at, first.raw, second.raw, 'exchanged attributes'),
            Edit(first.section, second.at, second.raw, first.raw, 'exchanged attributes')]


def drop(random, base):
    field = any_field(random, base)
    return [Edit(field.section, field.at, field.raw, b'', 'dropped ' + field.role[0])]


def double(random, base):
    """A field, or some from it on, stand there twice."""
    field = any_field(random, base)
    content = content_of(base, field.section)
    piece = content[field.at:field.end() + random.choice([0, 0, 1, 5, 20])]
    return [Edit(field.section, field.at, b'', piece * random.choice([1, 1, 1, 2, 40]), 'doubled ' + field.role[0])]


def put_zero(random, base):
    """A zero byte before a field: a null entry, the end of a list, an instruction."""
    field = any_field(random, base)
    return [Edit(field.section, field.at, b'', bytes(random.choice([1, 1, 2, 4])), 'zeros before ' + field.role[0])]


def change_byte(random, base):
    """A byte of a section."""
    section = random.choice([section for section in base.sections if section.content])
    at = random.randrange(len(section.content))
    new = random.choice([0, 0x7f, 0x80, 0xff, random.randrange(256), section.content[at] ^ 1 << random.randrange(8)])
    return [Edit(section.name, at, section.content[at:at + 1], bytes([new]), 'changed a byte')]


def is_length(field):
    """It says how many bytes follow it, and isn't the escape before such a field."""
    return (field.section, field.role) in LENGTHS and (field.role != SHORT or field.value < DW_LENGTH_RESERVED)


def beginning(field):
    """Where an initial length begins: a long one has the escape before it."""
    return field.at - 4 if field.role == LONG else field.at


def edit_units(random, base):
    """A unit stands there twice, or not, or with a length of the other format, or padding stands before it."""
    fields = [field for field in base.fields.get(b'.debug_info', {}).get('initial_length', []) if is_length(field)]
    if not fields:
        return change(random, base)
    field, other = random.choice(fields), random.choice(fields)
    content = content_of(base, field.section)
    at, length = beginning(field), content[beginning(field):field.end()]
    piece = content[at:field.end() + field.value]
    escape = number(DW_LENGTH_64BIT, 4)
    return [random.choice([
        Edit(field.section, beginning(other), b'', piece, 'doubled a unit'),
        Edit(field.section, at, piece, b'', 'dropped a unit'),
        Edit(field.section, at, b'', bytes(4), 'padding'),
        Edit(field.section, at, b'', escape + bytes(random.choice([4, 8, 8])), 'padding of the 64-bit format'),
        Edit(field.section, at, length, escape + number(field.value, 8), 'the 64-bit format'),
        Edit(field.section, at, length, number(field.value, 4), 'the 32-bit format'),
        Edit(field.section, at, b'', bytes([3, 0, 0, 0, 5, 0, 6]), 'a split unit'),
        Edit(field.section, at, b'', bytes([2, 0, 0, 0, random.randrange(6), 0]), 'a short unit'),
    ])]


EDITS = [(change, 12), (exchange, 3), (exchange_attributes, 2), (drop, 1), (double, 1), (put_zero, 1), (change_byte, 3),
         (edit_units, 1)]


def content_of(base, name):
    return next(section.content for section in base.sections if section.name == name)


def mended(base, edits):
    """The edits, with those of the lengths around each that changes how many bytes there are."""
    found = list(edits)
    for edit in edits:
        by = len(edit.new) - len(edit.old)
        for fields in base.fields.get(edit.section, {}).values() if by else ():
            for field in fields:
                if is_length(field) and field.end() <= edit.at < field.end() + field.value:
                    found.append(Edit(edit.section, field.at, field.raw, by, 'mended'))
    return found


def edited(content, edits):
    """The content after edits from its end on; a mended length counts from what stands there."""
    content = bytearray(content)
    for edit in sorted(edits, key=lambda edit: edit.at, reverse=True):
        end = edit.at + len(edit.old)
        if edit.what == 'mended':
            content[edit.at:end] = number(int.from_bytes(content[edit.at:end], 'little') + edit.new, len(edit.old))
        else:
            content[edit.at:end] = edit.new
    return bytes(content)


# ---- edits of the layout


def edit_sections(random, sections):
    """Sections dropped, exchanged, renamed, cut, doubled, or marked. Gives what was done."""
    i, j = random.randrange(len(sections)), random.randrange(len(sections))
    one, other = sections[i], sections[j]
    what = random.choice(['exchanged', 'renamed', 'cut', 'cut', 'dropped', 'doubled', 'nobits', 'flagged', 'zdebug',
                          'extended', 'zeros', 'turned'])
    if what == 'exchanged':
        sections[i], sections[j] = replace(one, name=other.name), replace(other, name=one.name)
    elif what == 'renamed':
        sections[i] = replace(one, name=random.choice([one.name + b'x', one.name[:-1], b'', other.name]))
    elif what == 'cut':
        sections[i] = replace(one, content=one.content[:random.randrange(len(one.content) + 1)])
    elif what == 'dropped':
        del sections[i]
    elif what == 'doubled':
        sections.insert(random.randrange(len(sections) + 1), replace(one, content=other.content))
    elif what == 'nobits':
        sections[i] = replace(one, type=elf.SHT_NOBITS)
    elif what == 'flagged':
        sections[i] = replace(one, flags=random.choice([elf.SHF_COMPRESSED, 0xfff, 0x400, 2 ** 63]))
    elif what == 'zdebug':
        sections[i] = replace(one, name=b'.z' + one.name[1:])
    elif what == 'extended':
        sections[i] = replace(one, content=one.content + random.choice([bytes(1), bytes(5), random.randbytes(9)]))
    elif what == 'zeros':
        at = random.randrange(len(one.content) + 1)
        sections[i] = replace(one, content=one.content[:at] + bytes(len(one.content) - at))
    else:
        random.shuffle(sections)
    return f'sections: {what} {one.name.decode()} ({other.name.decode()})'


FILE_HEADER = [(0, 1), (4, 1), (5, 1), (16, 2), (40, 8), (40, 8), (58, 2), (60, 2), (60, 2), (62, 2), (62, 2)]
SECTION_HEADER = [(0, 4), (4, 4), (8, 8), (24, 8), (32, 8), (32, 8), (40, 4)]


def edit_header(random, file):
    """A field of the file header or of a section header."""
    table, = struct.unpack_from('<Q', file, 40)
    count, = struct.unpack_from('<H', file, 60)
    if random.random() < 0.3 or not count:
        at, size = random.choice(FILE_HEADER)
    else:
        at, size = random.choice(SECTION_HEADER)
        at += table + 64 * random.randrange(count)
    if at + size > len(file):
        return file, 'no header to change'
    old = int.from_bytes(file[at:at + size], 'little')
    new = number(random.choice([random.choice(MARKS), old + random.choice([-1, 1, 64, -64]), len(file) - old,
                                old ^ 1 << random.randrange(8 * size), random.randrange(count + 2)]), size)
    return file[:at] + new + file[at + size:], f'header at {at:#x}: {file[at:at + size].hex()} to {new.hex()}'


def edit_extended_count(random, file):
    """The count of sections and the index of the names stand in header 0 (ELF section 4)."""
    table, = struct.unpack_from('<Q', file, 40)
    count, index = struct.unpack_from('<HH', file, 60)
    if table == 0 or table + 64 > len(file):
        return file, 'no header 0'
    file = bytearray(file)
    if random.random() < 0.7:
        struct.pack_into('<H', file, 60, 0)
        struct.pack_into('<Q', file, table + 32, random.choice([count, count, count + 1, 0, 2 ** 63]))
    if random.random() < 0.7:
        struct.pack_into('<H', file, 62, 0xffff)
        struct.pack_into('<I', file, table + 40, random.choice([index, index, count, 0]))
    return bytes(file), 'the count or the names by header 0'


def edit_file(random, file):
    """The file is cut, or a byte of it changed, or some put behind it."""
    what = random.randrange(4)
    at = random.randrange(len(file))
    if what == 0:
        return file[:at], f'cut to {at} bytes'
    if what == 1:
        return file + random.randbytes(random.randrange(1, 90)), 'bytes put behind'
    new = random.choice([0, 0x7f, 0x80, 0xff, file[at] ^ 1 << random.randrange(8)])
    return file[:at] + bytes([new]) + file[at + 1:], f'byte {at:#x}: {file[at]:02x} to {new:02x}'


# ---- a damaged file


def damaged(random, base):
    """A damaged file, and what was done to it. Most edits are inside of sections, and the lengths around them are
    mostly mended, so that what stands behind is reached."""
    told, edits = [], []
    for _ in range(random.choice([0, 1, 1, 1, 1, 2, 2, 3, 6])):
        made = random.choices([one for one, _ in EDITS], [weight for _, weight in EDITS])[0](random, base)
        told += map(str, made)
        edits += mended(base, made) if random.random() < 0.8 else made
    if base.keeps_layout:
        file = edited_in_place(base, edits)
    else:
        sections = [replace(section, content=edited(section.content, [e for e in edits if e.section == section.name]))
                    for section in base.sections]
        if random.random() < 0.12:
            told.append(edit_sections(random, sections))
        file = elf_file(sections)
    for chance, edit in ((0.12, edit_header), (0.04, edit_extended_count), (0.06, edit_file)):
        if random.random() < chance and len(file) >= 64:
            file, what = edit(random, file)
            told.append(what)
    return file, told


def edited_in_place(base, edits):
    """The file with edits that change no size; where one would, its bytes are cut, or the old ones stay behind them."""
    file = bytearray(base.file)
    table = elf.table_of(base.file)
    for edit in edits:
        if edit.what != 'mended':
            at = table.header_named(edit.section).sh_offset + edit.at
            new = edit.new[:len(edit.old)]
            file[at:at + len(new)] = new
    return bytes(file)


def base_of(name, file, fields, keeps_layout=False):
    """A base file from a whole one: of its sections those that are used."""
    sections = [Section(name, content) for name, content in elf.sections(file).items()
                if elf.table_of(file).header_named(name) is not None]
    if not keeps_layout:
        file = elf_file(sections)
    return Base(name, file, sections, fields(file), keeps_layout)
