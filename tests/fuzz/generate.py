"""Makes small programs at random, most of which are accepted: units of all kinds and both formats with entries of all
forms, range lists, line tables of both formats, and references across units."""
from model.dwarf import *

from assemble import Section, elf_file, number, sleb, uleb

NAMES = [b'main', b'f', b'', b'_ZN1a1bEv', b'caf\xc3\xa9', b'x' * 40, b'a b', b'.', b'operator<']
PATHS = [b'/w', b'src', b'/abs/', b'', b'a.c', b'/b.c', b'in/c.h', b'/', b'd/', b'\xff\xfe']

TEXT_FORMS = [DW_FORM_string, DW_FORM_strp, DW_FORM_line_strp, DW_FORM_strx, DW_FORM_strx1, DW_FORM_strx2,
              DW_FORM_strx3, DW_FORM_strx4]
ADDRESS_FORMS = [DW_FORM_addr, DW_FORM_addr, DW_FORM_addrx, DW_FORM_addrx1, DW_FORM_addrx2, DW_FORM_addrx3,
                 DW_FORM_addrx4]
CONSTANT_FORMS = [DW_FORM_data1, DW_FORM_data2, DW_FORM_data4, DW_FORM_data8, DW_FORM_udata, DW_FORM_sdata,
                  DW_FORM_implicit_const]
REFERENCE_FORMS = [DW_FORM_ref1, DW_FORM_ref2, DW_FORM_ref4, DW_FORM_ref8, DW_FORM_ref_udata, DW_FORM_ref_addr,
                   DW_FORM_ref_addr]
OTHER_FORMS = [DW_FORM_block, DW_FORM_block1, DW_FORM_block2, DW_FORM_block4, DW_FORM_exprloc, DW_FORM_flag,
               DW_FORM_flag_present, DW_FORM_data16, DW_FORM_ref_sig8, DW_FORM_ref_sup4, DW_FORM_ref_sup8,
               DW_FORM_strp_sup, DW_FORM_loclistx, DW_FORM_GNU_ref_alt, DW_FORM_GNU_strp_alt, DW_FORM_rnglistx,
               DW_FORM_sec_offset]
SIZES = {DW_FORM_data1: 1, DW_FORM_data2: 2, DW_FORM_data4: 4, DW_FORM_data8: 8, DW_FORM_strx1: 1, DW_FORM_strx2: 2,
         DW_FORM_strx3: 3, DW_FORM_strx4: 4, DW_FORM_addrx1: 1, DW_FORM_addrx2: 2, DW_FORM_addrx3: 3,
         DW_FORM_addrx4: 4, DW_FORM_ref1: 1, DW_FORM_ref2: 2, DW_FORM_ref4: 4, DW_FORM_ref8: 8, DW_FORM_flag: 1,
         DW_FORM_flag_present: 0, DW_FORM_data16: 16, DW_FORM_ref_sig8: 8, DW_FORM_ref_sup4: 4, DW_FORM_ref_sup8: 8}
OFFSETS = {DW_FORM_ref_addr, DW_FORM_strp_sup, DW_FORM_GNU_ref_alt, DW_FORM_GNU_strp_alt, DW_FORM_sec_offset}
COUNTS = {DW_FORM_block1: 1, DW_FORM_block2: 2, DW_FORM_block4: 4}
IN_ULEB = {DW_FORM_udata, DW_FORM_strx, DW_FORM_addrx, DW_FORM_loclistx, DW_FORM_rnglistx}
DW_TAG_compile_unit, DW_TAG_lexical_block, DW_TAG_variable = 0x11, 0x0b, 0x34
RANGE_LISTS = 6  # that each unit names by index


def initial_length(length, offset_size):
    """A length of the format whose offsets have so many bytes."""
    return number(length, 4) if offset_size == OFFSET_SIZE_32 else number(DW_LENGTH_64BIT, 4) + number(length, 8)


def spelled(form, value, offset_size):
    """A number by its form, where offsets have so many bytes; where it stands in the declaration, nothing."""
    if form in OFFSETS:
        return number(value, offset_size)
    if form in SIZES:
        return number(value, SIZES[form])
    if form in IN_ULEB:
        return uleb(value)
    if form == DW_FORM_ref_udata:
        return uleb(value, 3)
    return sleb(value) if form == DW_FORM_sdata else b''


class Generator:
    def __init__(self, random):
        self.random = random
        self.info, self.abbrev, self.line = bytearray(), bytearray(), bytearray()
        self.str, self.line_str = bytearray(b'\0'), bytearray(b'\0')
        self.str_offsets, self.addr, self.rnglists = bytearray(8), bytearray(8), bytearray(12)
        self.references = []  # the places of references, each with its form, its unit's offset and that's offset size
        self.entries = []     # the offsets of entries
        self.tables = []      # the offsets of line tables

    def flip(self, one_of):
        return self.random.randrange(one_of) == 0

    def file(self):
        for index in range(self.random.choice([1, 1, 2, 2, 3, 4])):
            self.unit(index)
        self.settle_references()
        sections = [Section(b'.debug_info', self.info), Section(b'.debug_abbrev', self.abbrev),
                    Section(b'.debug_line', self.line), Section(b'.debug_line_str', self.line_str),
                    Section(b'.debug_str', self.str), Section(b'.debug_str_offsets', self.str_offsets),
                    Section(b'.debug_addr', self.addr), Section(b'.debug_rnglists', self.rnglists)]
        return elf_file([Section(one.name, bytes(one.content)) for one in sections])

    # ---- units

    def unit(self, index):
        self.offset = len(self.info)
        # of the offsets that are spelled, and of those that the unit names by index
        self.offset_size = self.indexed_size = self.random.choice([OFFSET_SIZE_32, OFFSET_SIZE_32, OFFSET_SIZE_64])
        self.low, self.high = 0x1000 * (index + 1), 0x1000 * (index + 1) + 0x100
        self.str_base, self.addr_base, self.ranges_base = len(self.str_offsets), len(self.addr), len(self.rnglists)
        size = self.offset_size
        self.rnglists += self.random.randbytes(size * RANGE_LISTS)
        for i in range(RANGE_LISTS):
            at = self.ranges_base + size * i
            self.rnglists[at:at + size] = number(self.range_list(self.low, self.high) - self.ranges_base, size)
        unit_type = self.random.choice([1, 1, 1, 1, 1, 3, 4, 4, 2, 5])
        version = 4 if self.flip(12) else 5
        abbrev_offset = len(self.abbrev)
        self.declare()
        more = {4: 8, 5: 8, 2: 12}.get(unit_type, 0)
        header = number(version, 2) + bytes([unit_type, 8]) + number(abbrev_offset, size) + self.random.randbytes(more)
        unfilled = initial_length(0, size)
        self.info += unfilled + header
        self.entry(1, 0, self.low, self.high)
        if self.flip(6):
            self.info += bytes(self.random.randrange(4))
        behind = self.offset + len(unfilled)
        self.info[self.offset:behind] = initial_length(len(self.info) - behind, size)
        if self.flip(8):
            self.info += initial_length(0, self.random.choice([OFFSET_SIZE_32, OFFSET_SIZE_64]))

    def declare(self):
        """The declarations of a unit: the first entry's, and some others. Code 1 is the root's."""
        self.declarations = {1: (DW_TAG_compile_unit, True, self.root_attributes())}
        for code in range(2, 2 + self.random.randrange(3, 9)):
            if self.flip(8):
                code = self.random.choice([code + 0x100, code + 0x4000])
            tag = self.random.choice([DW_TAG_subprogram] * 3 + [DW_TAG_inlined_subroutine] * 3
                                     + [DW_TAG_lexical_block, DW_TAG_variable])
            self.declarations[code] = (tag, not self.flip(3), self.attributes(tag))
        for code, (tag, children, attributes) in self.declarations.items():
            self.abbrev += uleb(code) + uleb(tag) + bytes([children])
            for name, form, constant in attributes:
                self.abbrev += uleb(name) + uleb(form) + (b'' if constant is None else sleb(constant))
            self.abbrev += bytes(2)
        if not self.flip(20):
            self.abbrev += bytes(1)

    def pair(self, name, forms):
        form = self.random.choice(forms if not self.flip(25) else OTHER_FORMS + CONSTANT_FORMS)
        constant = self.random.choice([0, 1, 2, 7, 16, 300, -1, -300]) if form == DW_FORM_implicit_const else None
        if self.flip(20) and form != DW_FORM_implicit_const:
            return name, DW_FORM_indirect, None
        return name, form, constant

    def ranges_pairs(self):
        """The attributes that say where an entry has code."""
        if self.flip(3):
            return [self.pair(DW_AT_ranges, [DW_FORM_sec_offset, DW_FORM_rnglistx])]
        return [self.pair(DW_AT_low_pc, ADDRESS_FORMS),
                self.pair(DW_AT_high_pc, [*CONSTANT_FORMS, DW_FORM_addr, DW_FORM_addrx])][:1 if self.flip(15) else 2]

    def root_attributes(self):
        found = [(name, DW_FORM_sec_offset, None)
                 for name in (DW_AT_str_offsets_base, DW_AT_addr_base, DW_AT_rnglists_base) if not self.flip(10)]
        if not self.flip(5):
            found.append(self.pair(DW_AT_stmt_list, [DW_FORM_sec_offset]))
        if self.flip(2):
            found.append(self.pair(DW_AT_comp_dir, TEXT_FORMS))
        found += self.ranges_pairs()
        if self.flip(2):
            found.append(self.pair(DW_AT_low_pc, ADDRESS_FORMS))
        self.random.shuffle(found)
        return found

    def attributes(self, tag):
        found = []
        if tag in (DW_TAG_subprogram, DW_TAG_inlined_subroutine) and not self.flip(5):
            found += self.ranges_pairs()
        for name, forms, one_of in ((DW_AT_name, TEXT_FORMS, 2), (DW_AT_linkage_name, TEXT_FORMS, 4),
                                    (DW_AT_abstract_origin, REFERENCE_FORMS, 2),
                                    (DW_AT_specification, REFERENCE_FORMS, 4),
                                    (DW_AT_call_file, CONSTANT_FORMS, 2), (DW_AT_call_line, CONSTANT_FORMS, 2),
                                    (DW_AT_call_column, CONSTANT_FORMS, 4), (0x3f, OTHER_FORMS, 3),
                                    (0x2137, OTHER_FORMS, 5)):
            if self.flip(one_of):
                found.append(self.pair(name, forms))
        self.random.shuffle(found)
        return found

    # ---- entries

    def entry(self, code, depth, low, high):
        tag, children, attributes = self.declarations[code]
        self.entries.append(len(self.info))
        self.info += uleb(code, self.random.choice([0, 0, 0, 0, 3]))
        if depth > 0:
            low = self.random.randrange(low, max(low + 1, high - 1))
            high = self.random.randrange(low, high) + 1
        for name, form, _ in attributes:
            while form == DW_FORM_indirect:
                form = self.random.choice([DW_FORM_indirect, *TEXT_FORMS, *ADDRESS_FORMS, *CONSTANT_FORMS[:-1],
                                           *REFERENCE_FORMS, *OTHER_FORMS])
                self.info += uleb(form)
            self.info += self.value(name, form, low, high)
        if children:
            for _ in range(0 if depth > 5 else self.random.randrange(6 if depth == 0 else 3)):
                self.entry(self.random.choice([*self.declarations][1:]), depth + 1, low, high)
            self.info += bytes(1)

    def value(self, name, form, low, high):
        """The value of an attribute of an entry that has the code from `low` on and below `high`."""
        if form in TEXT_FORMS:
            return self.text(form, self.random.choice(PATHS if name == DW_AT_comp_dir else NAMES))
        if form in ADDRESS_FORMS:
            return self.address(form, high if name == DW_AT_high_pc else low)
        if form in REFERENCE_FORMS:
            self.references.append((len(self.info), form, self.offset, self.offset_size))
            return spelled(form, 0, self.offset_size)
        if name == DW_AT_high_pc and form in CONSTANT_FORMS:
            return spelled(form, high - low, self.offset_size)
        if form == DW_FORM_sec_offset:
            return number(self.section_offset(name, low, high), self.offset_size)
        if form == DW_FORM_rnglistx:
            return uleb(self.random.randrange(RANGE_LISTS + self.flip(10)))
        if form == DW_FORM_sdata and self.flip(5):
            return sleb(-self.random.randrange(100))
        if form in OFFSETS or form in SIZES and form not in CONSTANT_FORMS:
            return self.random.randbytes(len(spelled(form, 0, self.offset_size)))
        if form in COUNTS or form in (DW_FORM_block, DW_FORM_exprloc):
            content = self.random.randbytes(self.random.randrange(5))
            return (number(len(content), COUNTS[form]) if form in COUNTS else uleb(len(content))) + content
        return spelled(form, self.random.choice([0, 1, 1, 2, 3, 5, 30, 127, 200]), self.offset_size)

    def text(self, form, text):
        if form == DW_FORM_string:
            return text + b'\0'
        if form == DW_FORM_line_strp:
            self.line_str += text + b'\0'
            return number(len(self.line_str) - len(text) - 1, self.offset_size)
        self.str += text + b'\0'
        offset, size = len(self.str) - len(text) - 1, self.indexed_size
        if form == DW_FORM_strp:
            return number(offset, self.offset_size)
        self.str_offsets += number(offset, size)
        return spelled(form, (len(self.str_offsets) - size - self.str_base) // size, self.offset_size)

    def address(self, form, address):
        if form == DW_FORM_addr:
            return number(address, 8)
        self.addr += number(address, 8)
        return spelled(form, (len(self.addr) - 8 - self.addr_base) // 8, self.offset_size)

    def section_offset(self, name, low, high):
        if name == DW_AT_stmt_list:
            if not self.tables or not self.flip(4):
                self.tables.append(len(self.line))
                self.line_table()
            return self.random.choice(self.tables[-2:])
        if name == DW_AT_ranges:
            return self.range_list(low, high)
        bases = {DW_AT_str_offsets_base: self.str_base, DW_AT_addr_base: self.addr_base,
                 DW_AT_rnglists_base: self.ranges_base}
        return bases.get(name, self.random.randrange(64))

    def settle_references(self):
        for at, form, unit, offset_size in self.references:
            target = self.random.choice(self.entries) + (self.random.randrange(-3, 4) if self.flip(12) else 0)
            new = spelled(form, target if form == DW_FORM_ref_addr else max(0, target - unit), offset_size)
            self.info[at:at + len(new)] = new

    # ---- range lists

    def range_list(self, low, high):
        """Adds a list whose ranges lie mostly in these addresses, and gives its offset. It is made before it is
        added, since its addresses by index are added too."""
        made = bytearray()
        for _ in range(self.random.randrange(1, 4)):
            begin = self.random.randrange(low, high)
            end = self.random.randrange(begin, high + 1)
            made += self.random.choice([
                lambda: b'\x01' + self.address(DW_FORM_addrx, low) + b'\x04' + uleb(begin - low) + uleb(end - low),
                lambda: b'\x02' + self.address(DW_FORM_addrx, begin) + self.address(DW_FORM_addrx, end),
                lambda: b'\x03' + self.address(DW_FORM_addrx, begin) + uleb(end - begin),
                lambda: b'\x04' + uleb(max(0, begin - self.low)) + uleb(max(0, end - self.low)),
                lambda: b'\x05' + number(low, 8) + b'\x04' + uleb(begin - low) + uleb(end - low, 4),
                lambda: b'\x06' + number(begin, 8) + number(end, 8),
                lambda: b'\x07' + number(begin, 8) + uleb(end - begin),
                lambda: b'\x07' + number(2 ** 64 - 2, 8) + uleb(self.random.randrange(4)),
            ])()
        offset = len(self.rnglists)
        self.rnglists += made + b'\0'
        return offset

    # ---- line tables

    def line_table(self):
        """Adds a table, in a format of its own."""
        self.offset_size = self.random.choice([OFFSET_SIZE_32, OFFSET_SIZE_64, self.indexed_size, self.indexed_size])
        self.opcode_base = self.random.choice([13, 13, 13, 10, 14, 16, 1, 4])
        self.line_range = self.random.choice([14, 14, 12, 1, 255])
        lengths = bytes([0, 1, 1, 1, 1, 0, 0, 0, 1, 0, 0, 1, 2, 0, 1])[:self.opcode_base - 1]
        fields = bytes([self.random.choice([1, 1, 4]), 1, 1, self.random.choice([0xfb, 0xfd, 1]), self.line_range,
                        self.opcode_base]) + lengths
        fields += self.entry_list(self.random.randrange(4)) + self.entry_list(self.random.randrange(1, 5))
        fields += self.random.randbytes(self.random.choice([0, 0, 0, 3]))
        program = b''.join(self.sequence() for _ in range(self.random.randrange(1, 4)))
        if self.flip(4):
            program += b'\x01'
        table = number(5, 2) + bytes([8, 0]) + number(len(fields), self.offset_size) + fields + program
        self.line += initial_length(len(table), self.offset_size) + table
        self.offset_size = self.indexed_size

    def entry_list(self, count):
        formats = [(DW_LNCT_path, self.random.choice(TEXT_FORMS))] if not self.flip(20) else []
        if self.flip(2):
            formats.append((DW_LNCT_directory_index, self.random.choice([DW_FORM_udata, DW_FORM_data1, DW_FORM_data2])))
        if self.flip(3):
            formats.append(self.random.choice([(5, DW_FORM_data16), (3, DW_FORM_udata), (4, DW_FORM_block),
                                               (0x2001, DW_FORM_string), (1, DW_FORM_string), (2, DW_FORM_sdata)]))
        self.random.shuffle(formats)
        found = bytes([len(formats)]) + b''.join(uleb(content) + uleb(form) for content, form in formats) + uleb(count)
        for _ in range(count):
            for content, form in formats:
                if form in TEXT_FORMS:
                    found += self.text(form, self.random.choice(PATHS))
                elif form in (DW_FORM_data16, DW_FORM_block):
                    found += self.value(0, form, 0, 1)
                else:
                    found += spelled(form, self.random.randrange(4), self.offset_size)
        return found

    def sequence(self):
        """Instructions from an address of the unit on to an end."""
        step = {
            DW_LNS_copy: lambda: b'',
            DW_LNS_advance_pc: lambda: uleb(self.random.randrange(20)),
            DW_LNS_advance_line: lambda: sleb(self.random.randrange(-10, 30)),
            DW_LNS_set_file: lambda: uleb(self.random.randrange(4)),
            DW_LNS_set_column: lambda: uleb(self.random.randrange(90)),
            DW_LNS_fixed_advance_pc: lambda: number(self.random.randrange(10), 2),
            DW_LNS_set_isa: lambda: uleb(2),
            13: lambda: uleb(1) + uleb(200), 15: lambda: uleb(70),
        }
        found = b'\0\x09\x02' + number(self.random.randrange(self.low, self.high), 8)
        for _ in range(self.random.randrange(1, 20)):
            opcode = self.random.randrange(self.opcode_base, 256) if self.flip(2) else self.random.randrange(1, 16)
            if opcode < self.opcode_base:
                found += bytes([opcode]) + step.get(opcode, lambda: b'')()
            else:
                found += bytes([opcode])
            if self.flip(12):
                found += self.random.choice([b'\0\x02\x04\x01', b'\0\x05\x80abc\0', b'\0\x01\x80'])
            if self.flip(30):
                found += b'\0\x09\x02' + number(self.random.randrange(self.low, self.high), 8)
        if self.opcode_base > DW_LNS_advance_pc:
            found += bytes([DW_LNS_advance_pc]) + uleb(self.random.randrange(1, 100))
        return found + b'\0\x01\x01'
