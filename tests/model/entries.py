"""Abbreviations, values, entries and their attributes (DWARF 5, section 7.5; docs/MEANING.md, 'Entries')."""
from dataclasses import dataclass
from enum import Enum

from .dwarf import *
from .reading import Reader, Unreadable

# ---- abbreviations (section 7.5.3)


@dataclass
class Specification:
    """An attribute's name and form, and its number where that stands in the declaration."""
    name: int
    form: int
    constant: int | None


@dataclass
class Declaration:
    code: int
    tag: int
    children: bool
    specifications: list


def specifications_at(reader):
    """Pairs of name and form up to the pair 0, 0; a number follows DW_FORM_implicit_const."""
    found = []
    while True:
        name, form = reader.uleb(), reader.uleb()
        if name == 0 and form == 0:
            return found
        constant = reader.sleb() if form == DW_FORM_implicit_const else None
        found.append(Specification(name, form, constant))


def abbreviations(section, offset):
    """The first declaration of each code in the table at an offset of .debug_abbrev. Code 0 ends the table, and so does
    the section's end."""
    if offset > len(section):
        raise Unreadable
    reader, found = Reader(section, offset), {}
    while reader.left() > 0:
        code = reader.uleb()
        if code == 0:
            break
        tag, children = reader.uleb(), reader.number(1) != 0
        found.setdefault(code, Declaration(code, tag, children, specifications_at(reader)))
    return found


# ---- values (sections 7.5.5 and 7.5.6)


class Kind(Enum):
    """What a value is by its form."""
    ADDRESS = 'an address'
    UNSIGNED = 'an unsigned constant'
    SIGNED = 'a signed constant'
    BYTES = 'a block'
    FLAG = 'a flag'
    INLINE = 'a text that stands here'
    STR = 'an offset in .debug_str'
    LINE_STR = 'an offset in .debug_line_str'
    STR_INDEX = 'an index in .debug_str_offsets'
    ADDRESS_INDEX = 'an index in .debug_addr'
    UNIT_REF = 'an offset in the unit'
    SECTION_REF = 'an offset in .debug_info'
    SECTION_OFFSET = 'an offset in another section'
    RANGE_INDEX = 'an index in .debug_rnglists'
    UNUSED = 'what leads to what is not read'


def fixed(size, kind):
    return lambda reader, constant, offset_size: (kind, reader.number(size))


def offset(kind):
    return lambda reader, constant, offset_size: (kind, reader.number(offset_size))


def in_uleb(kind):
    return lambda reader, constant, offset_size: (kind, reader.uleb())


def counted(size):
    return lambda reader, constant, offset_size: (Kind.BYTES, reader.take(reader.number(size)))


def uleb_counted(reader, constant, offset_size):
    return Kind.BYTES, reader.take(reader.uleb())


def implicit(reader, constant, offset_size):
    if constant is None:
        raise Unreadable
    return Kind.SIGNED, constant


# How a value of each form is spelled, and of which kind it is (table 7.6).
FORMS = {
    DW_FORM_addr: fixed(ADDRESS_SIZE, Kind.ADDRESS),
    DW_FORM_block2: counted(2),
    DW_FORM_block4: counted(4),
    DW_FORM_data2: fixed(2, Kind.UNSIGNED),
    DW_FORM_data4: fixed(4, Kind.UNSIGNED),
    DW_FORM_data8: fixed(8, Kind.UNSIGNED),
    DW_FORM_string: lambda reader, constant, offset_size: (Kind.INLINE, reader.text()),
    DW_FORM_block: uleb_counted,
    DW_FORM_block1: counted(1),
    DW_FORM_data1: fixed(1, Kind.UNSIGNED),
    DW_FORM_flag: fixed(1, Kind.FLAG),
    DW_FORM_sdata: lambda reader, constant, offset_size: (Kind.SIGNED, reader.sleb()),
    DW_FORM_strp: offset(Kind.STR),
    DW_FORM_udata: in_uleb(Kind.UNSIGNED),
    DW_FORM_ref_addr: offset(Kind.SECTION_REF),
    DW_FORM_ref1: fixed(1, Kind.UNIT_REF),
    DW_FORM_ref2: fixed(2, Kind.UNIT_REF),
    DW_FORM_ref4: fixed(4, Kind.UNIT_REF),
    DW_FORM_ref8: fixed(8, Kind.UNIT_REF),
    DW_FORM_ref_udata: in_uleb(Kind.UNIT_REF),
    DW_FORM_sec_offset: offset(Kind.SECTION_OFFSET),
    DW_FORM_exprloc: uleb_counted,
    DW_FORM_flag_present: lambda reader, constant, offset_size: (Kind.FLAG, 1),
    DW_FORM_strx: in_uleb(Kind.STR_INDEX),
    DW_FORM_addrx: in_uleb(Kind.ADDRESS_INDEX),
    DW_FORM_ref_sup4: fixed(4, Kind.UNUSED),
    DW_FORM_strp_sup: offset(Kind.UNUSED),
    DW_FORM_data16: lambda reader, constant, offset_size: (Kind.BYTES, reader.take(16)),
    DW_FORM_line_strp: offset(Kind.LINE_STR),
    DW_FORM_ref_sig8: fixed(8, Kind.UNUSED),
    DW_FORM_implicit_const: implicit,
    DW_FORM_loclistx: in_uleb(Kind.UNUSED),
    DW_FORM_rnglistx: in_uleb(Kind.RANGE_INDEX),
    DW_FORM_ref_sup8: fixed(8, Kind.UNUSED),
    DW_FORM_strx1: fixed(1, Kind.STR_INDEX),
    DW_FORM_strx2: fixed(2, Kind.STR_INDEX),
    DW_FORM_strx3: fixed(3, Kind.STR_INDEX),
    DW_FORM_strx4: fixed(4, Kind.STR_INDEX),
    DW_FORM_addrx1: fixed(1, Kind.ADDRESS_INDEX),
    DW_FORM_addrx2: fixed(2, Kind.ADDRESS_INDEX),
    DW_FORM_addrx3: fixed(3, Kind.ADDRESS_INDEX),
    DW_FORM_addrx4: fixed(4, Kind.ADDRESS_INDEX),
    DW_FORM_GNU_ref_alt: offset(Kind.UNUSED),
    DW_FORM_GNU_strp_alt: offset(Kind.UNUSED),
}


def value_at(reader, form, constant, offset_size):
    """The value of a form: its kind, and its number or bytes, where offsets have so many bytes. Behind DW_FORM_indirect
    stands another form, which has no number in the declaration (section 7.5.6)."""
    while form == DW_FORM_indirect:
        form, constant = reader.uleb(), None
    spelled_at = FORMS.get(form)
    if spelled_at is None:
        raise Unreadable
    return spelled_at(reader, constant, offset_size)


# ---- entries (section 7.5.2)


@dataclass
class Entry:
    """An entry: its offset in .debug_info, its tag, whether a list of children follows, and the names of its attributes
    with their values."""
    offset: int
    tag: int
    children: bool
    attributes: list


def entry_at(reader, declarations, offset_size):
    """The entry at a place, where offsets have so many bytes; none at code 0, a null entry, which ends a list of children."""
    offset = reader.at
    code = reader.uleb()
    if code == 0:
        return None
    declaration = declarations.get(code)
    if declaration is None:
        raise Unreadable
    attributes = [(one.name, value_at(reader, one.form, one.constant, offset_size))
                  for one in declaration.specifications]
    return Entry(offset, declaration.tag, declaration.children, attributes)


# ---- attributes (sections 7.5.4 and 7.5.5, table 7.5)

TEXTS = {Kind.INLINE, Kind.STR, Kind.LINE_STR, Kind.STR_INDEX}
ADDRESSES = {Kind.ADDRESS, Kind.ADDRESS_INDEX}
CONSTANTS = {Kind.UNSIGNED, Kind.SIGNED}
REFERENCES = {Kind.UNIT_REF, Kind.SECTION_REF}

# The kinds that count for each attribute that is used.
CLASSES = {
    DW_AT_name: TEXTS,
    DW_AT_comp_dir: TEXTS,
    DW_AT_linkage_name: TEXTS,
    DW_AT_stmt_list: {Kind.SECTION_OFFSET},
    DW_AT_low_pc: ADDRESSES,
    DW_AT_high_pc: ADDRESSES | CONSTANTS,
    DW_AT_ranges: {Kind.SECTION_OFFSET, Kind.RANGE_INDEX},
    DW_AT_abstract_origin: REFERENCES,
    DW_AT_specification: REFERENCES,
    DW_AT_call_column: CONSTANTS,
    DW_AT_call_file: CONSTANTS,
    DW_AT_call_line: CONSTANTS,
    DW_AT_str_offsets_base: {Kind.SECTION_OFFSET},
    DW_AT_addr_base: {Kind.SECTION_OFFSET},
    DW_AT_rnglists_base: {Kind.SECTION_OFFSET},
}


def attribute(entry, name):
    """The value of the first pair of a name, where it is of a kind that counts; else the attribute is absent."""
    for found, value in entry.attributes:
        if found == name:
            return value if value[0] in CLASSES[name] else None
    return None


def number_of(entry, name):
    """The number of a constant that isn't negative."""
    value = attribute(entry, name)
    return None if value is None or value[1] < 0 else value[1]
