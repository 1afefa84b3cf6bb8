"""The layout of an ELF64 file, and the conditions under which it is refused (ELF-64 Object File Format, version 1.5;
docs/MEANING.md, 'The ELF file' and 'Refusal')."""
from dataclasses import dataclass

from .reading import Reader, Unreadable

ELFMAG = b'\x7fELF'
ELFCLASS64 = 2
ELFDATA2LSB = 1
ET_REL = 1
SHDR_SIZE = 64
SHN_UNDEF = 0
SHN_XINDEX = 0xffff
SHT_NOBITS = 8
SHF_COMPRESSED = 0x800

USED_NAMES = (b'.debug_info', b'.debug_abbrev', b'.debug_line', b'.debug_line_str', b'.debug_str',
              b'.debug_str_offsets', b'.debug_addr', b'.debug_rnglists')


class Refused(Exception):
    """The first condition that a file fails: its number and name, and the section or the unit's offset that it
    speaks of."""

    def __init__(self, number, name, subject=None):
        super().__init__(number, name, subject)
        self.number, self.name, self.subject = number, name, subject

    def line(self):
        """What the program writes of it."""
        subject = b'' if self.subject is None else b' ' + self.subject
        return b'a2l: file refused: %d %s%s\n' % (self.number, self.name.encode(), subject)


@dataclass
class FileHeader:
    """Elf64_Ehdr, the fields that are used (ELF section 3)."""
    magic: bytes
    class_: int
    encoding: int
    e_type: int
    e_shoff: int
    e_shentsize: int
    e_shnum: int
    e_shstrndx: int


def file_header(file):
    reader = Reader(file)
    magic, class_, encoding = reader.take(4), reader.number(1), reader.number(1)
    reader.take(10)
    e_type = reader.number(2)
    e_machine, e_version, e_entry, e_phoff = reader.number(2), reader.number(4), reader.number(8), reader.number(8)
    e_shoff = reader.number(8)
    e_flags, e_ehsize, e_phentsize, e_phnum = reader.number(4), reader.number(2), reader.number(2), reader.number(2)
    return FileHeader(magic, class_, encoding, e_type, e_shoff, reader.number(2), reader.number(2), reader.number(2))


@dataclass
class SectionHeader:
    """Elf64_Shdr, the fields that are used (ELF section 4)."""
    sh_name: int
    sh_type: int
    sh_flags: int
    sh_offset: int
    sh_size: int
    sh_link: int

    def takes_nothing(self):
        """Whether the section takes no bytes of the file."""
        return self.sh_type == SHT_NOBITS or self.sh_size == 0


def section_header_at(reader):
    sh_name, sh_type, sh_flags, sh_addr = reader.number(4), reader.number(4), reader.number(8), reader.number(8)
    sh_offset, sh_size, sh_link = reader.number(8), reader.number(8), reader.number(4)
    sh_info, sh_addralign, sh_entsize = reader.number(4), reader.number(8), reader.number(8)
    return SectionHeader(sh_name, sh_type, sh_flags, sh_offset, sh_size, sh_link)


def contents(file, header):
    """The bytes that a header gives, where they lie in the file."""
    if header.takes_nothing():
        return b''
    return Reader(file, header.sh_offset).take(header.sh_size)


@dataclass
class Table:
    """The section headers, and the bytes of the section that has their names."""
    headers: list
    names: bytes

    def name_of(self, header):
        """The text that begins at sh_name, where there is one (ELF section 5)."""
        try:
            return Reader(self.names, header.sh_name).text()
        except Unreadable:
            return None

    def header_named(self, name):
        """The first header of a name."""
        return next((header for header in self.headers if self.name_of(header) == name), None)


def table_at(file, header):
    """The section header table that a file header names (ELF section 4). Header 0 has the count where e_shnum is 0, and
    the index of the names where e_shstrndx is SHN_XINDEX."""
    if header.e_shentsize != SHDR_SIZE:
        raise Unreadable
    first = section_header_at(Reader(file, header.e_shoff))
    count = header.e_shnum or first.sh_size
    if count == 0:
        return Table([], b'')
    Reader(file, header.e_shoff).take(SHDR_SIZE * count)
    reader = Reader(file, header.e_shoff)
    headers = [section_header_at(reader) for _ in range(count)]
    index = first.sh_link if header.e_shstrndx == SHN_XINDEX else header.e_shstrndx
    if index == SHN_UNDEF:
        return Table(headers, b'')
    if index >= count:
        raise Unreadable
    return Table(headers, contents(file, headers[index]))


def table_of(file):
    """The table of a file of the kind that is read; without e_shoff there are no sections (conditions 1 to 4)."""
    try:
        header = file_header(file)
    except Unreadable:
        raise Refused(1, 'NotElf') from None
    if header.magic != ELFMAG:
        raise Refused(1, 'NotElf')
    if header.class_ != ELFCLASS64 or header.encoding != ELFDATA2LSB:
        raise Refused(2, 'NotElf64Little')
    if header.e_type == ET_REL:
        raise Refused(3, 'Relocatable')
    if header.e_shoff == 0:
        return Table([], b'')
    try:
        return table_at(file, header)
    except Unreadable:
        raise Refused(4, 'SectionTable') from None


def section(file, table, name):
    """The contents of the first header of a name, and empty where there is none."""
    header = table.header_named(name)
    try:
        return b'' if header is None else contents(file, header)
    except Unreadable:
        raise Refused(5, 'SectionRange', name) from None


def is_compressed(table, name):
    """Whether the first header of a name has SHF_COMPRESSED and takes bytes of the file, or there is none but one of
    `.zdebug_..`."""
    header = table.header_named(name)
    if header is None:
        return table.header_named(b'.z' + name[1:]) is not None
    return header.sh_flags & SHF_COMPRESSED != 0 and not header.takes_nothing()


def sections(file):
    """The used sections by their names, or the first condition of 1 to 6 that the file fails."""
    table = table_of(file)
    found = {name: section(file, table, name) for name in USED_NAMES}
    for name in USED_NAMES:
        if is_compressed(table, name):
            raise Refused(6, 'Compressed', name)
    return found
