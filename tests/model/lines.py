"""Line tables (DWARF 5, section 6.2; docs/MEANING.md, 'Lines')."""
from bisect import bisect_right
from dataclasses import dataclass

from .dwarf import *
from .entries import Kind, attribute, value_at
from .reading import Reader, Unreadable

# ---- the header (section 6.2.4)


@dataclass
class LineEntry:
    """A directory or a file: its path, where that can be read, and the number of its directory."""
    path: bytes | None
    directory: int


@dataclass
class LineHeader:
    minimum_instruction_length: int
    line_base: int
    line_range: int
    opcode_base: int
    standard_opcode_lengths: bytes
    directories: list
    files: list
    program: Reader


def line_entry(info, bases, contents):
    """The first path and the first directory index of an entry; without an index that is an unsigned constant, it is
    0."""
    path = next((value for content, value in contents if content == DW_LNCT_path), None)
    index = next((value for content, value in contents if content == DW_LNCT_directory_index), None)
    directory = index[1] if index is not None and index[0] is Kind.UNSIGNED else 0
    return LineEntry(None if path is None else info.text(bases, path), directory)


def formats_at(reader):
    """How many formats there are, and these, content types with their forms."""
    formats = []
    for _ in range(reader.number(1)):
        content, form = reader.uleb(), reader.uleb()
        formats.append((content, form))
    return formats


def entry_list(reader, info, bases, offset_size):
    """Directories or files: their formats, how many entries there are, and those, a value of each format, where offsets
    have so many bytes. A number of entries above that of the bytes left is bad (section 6.2.4.1)."""
    formats = formats_at(reader)
    count = reader.uleb()
    if count > reader.left():
        raise Unreadable
    return [line_entry(info, bases, [(content, value_at(reader, form, None, offset_size))
                                     for content, form in formats])
            for _ in range(count)]


def line_header(info, bases, offset):
    """The header of the table at an offset of .debug_line, in the format of its own length. The program begins
    header_length bytes behind that field, and what stands between the header's fields and the program is passed
    by."""
    reader = Reader(info.line, offset)
    unit_length, offset_size = reader.initial_length()
    if unit_length > reader.left():
        raise Unreadable
    table = Reader(info.line, reader.at, reader.at + unit_length)
    version, address_size, segment_selector_size = table.number(2), table.number(1), table.number(1)
    header_length = table.number(offset_size)
    if header_length > table.left() or version != DWARF_VERSION or address_size != ADDRESS_SIZE:
        raise Unreadable
    fields = Reader(info.line, table.at, table.at + header_length)
    program = Reader(info.line, table.at + header_length, table.end)
    minimum_instruction_length, maximum_operations_per_instruction = fields.number(1), fields.number(1)
    default_is_stmt, line_base = fields.number(1), int.from_bytes(fields.take(1), 'little', signed=True)
    line_range, opcode_base = fields.number(1), fields.number(1)
    if maximum_operations_per_instruction != 1 or line_range == 0 or opcode_base == 0:
        raise Unreadable
    standard_opcode_lengths = fields.take(opcode_base - 1)
    directories = entry_list(fields, info, bases, offset_size)
    files = entry_list(fields, info, bases, offset_size)
    return LineHeader(minimum_instruction_length, line_base, line_range, opcode_base, standard_opcode_lengths,
                      directories, files, program)


# ---- the program and its matrix (section 6.2.5)


@dataclass
class Row:
    address: int
    file: int
    line: int
    column: int


class Machine:
    """The registers that are kept, of the line number machine (section 6.2.2), and the sequences that it made: the rows
    up to and with one that ends. Address and line are modulo 2^64."""

    def __init__(self, header):
        self.header = header
        self.sequences = []
        self.begin()

    def begin(self):
        """The registers at the beginning of a sequence (table 6.4)."""
        self.address, self.file, self.line, self.column = 0, 1, 1, 0
        self.rows = []

    def append_row(self):
        self.rows.append(Row(self.address, self.file, self.line, self.column))

    def advance_address(self, by):
        self.address = (self.address + by) % 2 ** 64

    def advance_line(self, by):
        self.line = (self.line + by) % 2 ** 64

    def operation_advance(self, adjusted_opcode):
        """The address advance of a special opcode (section 6.2.5.1)."""
        self.advance_address(self.header.minimum_instruction_length * (adjusted_opcode // self.header.line_range))

    def special(self, opcode):
        adjusted = opcode - self.header.opcode_base
        self.operation_advance(adjusted)
        self.advance_line(self.header.line_base + adjusted % self.header.line_range)
        self.append_row()

    def standard(self, opcode, reader):
        """A standard opcode with its operands (section 6.2.5.2); one that the standard doesn't name has as many as the
        header says, and does nothing."""
        if opcode == DW_LNS_copy:
            self.append_row()
        elif opcode == DW_LNS_advance_pc:
            self.advance_address(self.header.minimum_instruction_length * reader.uleb())
        elif opcode == DW_LNS_advance_line:
            self.advance_line(reader.sleb())
        elif opcode == DW_LNS_set_file:
            self.file = reader.uleb()
        elif opcode == DW_LNS_set_column:
            self.column = reader.uleb()
        elif opcode == DW_LNS_const_add_pc:
            self.operation_advance(255 - self.header.opcode_base)
        elif opcode == DW_LNS_fixed_advance_pc:
            self.advance_address(reader.number(2))
        elif opcode == DW_LNS_set_isa:
            reader.uleb()
        elif opcode > DW_LNS_set_isa:
            for _ in range(self.header.standard_opcode_lengths[opcode - 1]):
                reader.uleb()

    def extended(self, reader):
        """An extended opcode (section 6.2.5.3), which takes exactly its length. All but two do nothing here."""
        content = reader.take(reader.uleb())
        if not content:
            raise Unreadable
        if content[0] == DW_LNE_end_sequence:
            self.append_row()
            self.sequences.append(self.rows)
            self.begin()
        elif content[0] == DW_LNE_set_address:
            if len(content) != 1 + ADDRESS_SIZE:
                raise Unreadable
            self.address = int.from_bytes(content[1:], 'little')

    def run(self):
        """The sequences of the header's program; rows after the last end are in none."""
        reader = self.header.program
        while reader.left() > 0:
            opcode = reader.number(1)
            if opcode >= self.header.opcode_base:
                self.special(opcode)
            elif opcode == DW_LNS_extended:
                self.extended(reader)
            else:
                self.standard(opcode, reader)
        return self.sequences


def is_used(addresses):
    """Whether the addresses of a sequence never fall and the first is below the last."""
    return addresses[0] < addresses[-1] and all(a <= b for a, b in zip(addresses, addresses[1:]))


# ---- a unit's table


def joined(path, part):
    """A part put behind a path: it replaces the path where it begins with a slash, else one slash stands between,
    unless there is nothing before it or a slash already."""
    if part.startswith(b'/'):
        return part
    return path + part if path == b'' or path.endswith(b'/') else path + b'/' + part


class Lines:
    """A line table: its header, its used sequences, and the directory in which the unit was compiled."""

    def __init__(self, info, unit, offset):
        bases = info.bases(unit)
        self.header = line_header(info, bases, offset)
        comp_dir = attribute(info.root(unit), DW_AT_comp_dir)
        self.comp_dir = None if comp_dir is None else info.text(bases, comp_dir)
        self.sequences = []
        for rows in Machine(self.header).run():
            addresses = [row.address for row in rows]
            if is_used(addresses):
                self.sequences.append((addresses, rows))

    def row(self, address):
        """The row of an address: in the first used sequence that holds it, the one whose address is at most this one,
        while the next row's is above."""
        for addresses, rows in self.sequences:
            if addresses[0] <= address < addresses[-1]:
                return rows[bisect_right(addresses, address) - 1]
        return None

    def directory(self, number):
        """The path of a numbered directory, where it is there and can be read."""
        directories = self.header.directories
        return directories[number].path if number < len(directories) else None

    def path(self, number):
        """The path of a file: from directory 0, else from the directory of the compilation, by the file's directory to
        its name (section 6.2.4). Directory 0 isn't put behind itself."""
        if number >= len(self.header.files) or self.header.files[number].path is None:
            return None
        file = self.header.files[number]
        path = self.directory(0)
        if path is None:
            path = self.comp_dir or b''
        directory = self.directory(file.directory) if file.directory > 0 else None
        if directory is not None:
            path = joined(path, directory)
        return joined(path, file.path)


def lines_of(info, unit):
    """The line table that a unit's first entry names, where it names one."""
    offset = attribute(info.root(unit), DW_AT_stmt_list)
    return None if offset is None else Lines(info, unit, offset[1])
