"""Spells numbers, and makes ELF files of sections."""
import struct
from dataclasses import dataclass

SHT_PROGBITS, SHT_STRTAB = 1, 3


def number(value, size):
    """A number of so many bytes, the lowest first, cut to them."""
    return (value % 256 ** size).to_bytes(size, 'little')


def uleb(value, size=0):
    """An unsigned LEB128 number of so many bytes at least."""
    found = bytearray()
    while True:
        found.append(value & 0x7f | 0x80)
        value >>= 7
        if value == 0 and len(found) >= size:
            found[-1] &= 0x7f
            return bytes(found)


def sleb(value, size=0):
    """A signed LEB128 number of so many bytes at least."""
    found = bytearray()
    while True:
        found.append(value & 0x7f | 0x80)
        value >>= 7
        if value in (0, -1) and (found[-1] >> 6 & 1) == value & 1 and len(found) >= size:
            found[-1] &= 0x7f
            return bytes(found)


@dataclass
class Section:
    name: bytes
    content: bytes
    type: int = SHT_PROGBITS
    flags: int = 0


def elf_file(sections):
    """An executable file: its header, the contents of the sections, their names, and the section header table."""
    names, body, headers = b'\0', b'', [bytes(64)]
    for section in [*sections, Section(b'.shstrtab', b'', SHT_STRTAB)]:
        place, at = len(names), 64 + len(body)
        names += section.name + b'\0'
        content = names if section.type == SHT_STRTAB else section.content
        body += content
        headers.append(struct.pack('<IIQQQQIIQQ', place, section.type, section.flags, 0, at, len(content), 0, 0, 1, 0))
    ident = b'\x7fELF\x02\x01\x01' + bytes(9)
    count = len(headers)
    header = struct.pack('<HHIQQQIHHHHHH', 2, 62, 1, 0, 0, 64 + len(body), 0, 64, 0, 0, 64, count, count - 1)
    return ident + header + body + b''.join(headers)
