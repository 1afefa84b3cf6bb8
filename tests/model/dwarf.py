"""The numbers that DWARF 5 names, as far as they are used (chapter 7), by their names there."""

DWARF_VERSION = 5
ADDRESS_SIZE = 8
OFFSET_SIZE_32, OFFSET_SIZE_64 = 4, 8  # of the two formats (section 7.4)
DW_LENGTH_RESERVED = 0xfffffff0  # the first initial length that is none (section 7.2.2)
DW_LENGTH_64BIT = 0xffffffff  # the escape before a length of the 64-bit format (section 7.4)

# unit types (table 7.2)
DW_UT_compile, DW_UT_partial, DW_UT_skeleton = 0x01, 0x03, 0x04
DWO_ID_SIZE = 8  # of the header of a skeleton unit (section 7.5.1.2)

# tags (table 7.3)
DW_TAG_inlined_subroutine, DW_TAG_subprogram = 0x1d, 0x2e

# attributes (table 7.5)
DW_AT_name = 0x03
DW_AT_stmt_list = 0x10
DW_AT_low_pc = 0x11
DW_AT_high_pc = 0x12
DW_AT_comp_dir = 0x1b
DW_AT_abstract_origin = 0x31
DW_AT_specification = 0x47
DW_AT_ranges = 0x55
DW_AT_call_column = 0x57
DW_AT_call_file = 0x58
DW_AT_call_line = 0x59
DW_AT_linkage_name = 0x6e
DW_AT_str_offsets_base = 0x72
DW_AT_addr_base = 0x73
DW_AT_rnglists_base = 0x74

# forms (table 7.6), and two of the GNU tools
DW_FORM_addr = 0x01
DW_FORM_block2 = 0x03
DW_FORM_block4 = 0x04
DW_FORM_data2 = 0x05
DW_FORM_data4 = 0x06
DW_FORM_data8 = 0x07
DW_FORM_string = 0x08
DW_FORM_block = 0x09
DW_FORM_block1 = 0x0a
DW_FORM_data1 = 0x0b
DW_FORM_flag = 0x0c
DW_FORM_sdata = 0x0d
DW_FORM_strp = 0x0e
DW_FORM_udata = 0x0f
DW_FORM_ref_addr = 0x10
DW_FORM_ref1 = 0x11
DW_FORM_ref2 = 0x12
DW_FORM_ref4 = 0x13
DW_FORM_ref8 = 0x14
DW_FORM_ref_udata = 0x15
DW_FORM_indirect = 0x16
DW_FORM_sec_offset = 0x17
DW_FORM_exprloc = 0x18
DW_FORM_flag_present = 0x19
DW_FORM_strx = 0x1a
DW_FORM_addrx = 0x1b
DW_FORM_ref_sup4 = 0x1c
DW_FORM_strp_sup = 0x1d
DW_FORM_data16 = 0x1e
DW_FORM_line_strp = 0x1f
DW_FORM_ref_sig8 = 0x20
DW_FORM_implicit_const = 0x21
DW_FORM_loclistx = 0x22
DW_FORM_rnglistx = 0x23
DW_FORM_ref_sup8 = 0x24
DW_FORM_strx1, DW_FORM_strx2, DW_FORM_strx3, DW_FORM_strx4 = 0x25, 0x26, 0x27, 0x28
DW_FORM_addrx1, DW_FORM_addrx2, DW_FORM_addrx3, DW_FORM_addrx4 = 0x29, 0x2a, 0x2b, 0x2c
DW_FORM_GNU_ref_alt, DW_FORM_GNU_strp_alt = 0x1f20, 0x1f21

# entries of a range list (table 7.30)
DW_RLE_end_of_list = 0x00
DW_RLE_base_addressx = 0x01
DW_RLE_startx_endx = 0x02
DW_RLE_startx_length = 0x03
DW_RLE_offset_pair = 0x04
DW_RLE_base_address = 0x05
DW_RLE_start_end = 0x06
DW_RLE_start_length = 0x07

# standard opcodes of a line program (table 7.25)
DW_LNS_copy = 0x01
DW_LNS_advance_pc = 0x02
DW_LNS_advance_line = 0x03
DW_LNS_set_file = 0x04
DW_LNS_set_column = 0x05
DW_LNS_negate_stmt = 0x06
DW_LNS_set_basic_block = 0x07
DW_LNS_const_add_pc = 0x08
DW_LNS_fixed_advance_pc = 0x09
DW_LNS_set_prologue_end = 0x0a
DW_LNS_set_epilogue_begin = 0x0b
DW_LNS_set_isa = 0x0c

# extended opcodes (table 7.26), behind the byte 0
DW_LNS_extended = 0x00
DW_LNE_end_sequence = 0x01
DW_LNE_set_address = 0x02

# contents of entries of directories and files (table 7.27)
DW_LNCT_path = 0x01
DW_LNCT_directory_index = 0x02
