"""Reading bytes from the front (docs/MEANING.md, 'Reading')."""
from .dwarf import DW_LENGTH_64BIT, DW_LENGTH_RESERVED, OFFSET_SIZE_32, OFFSET_SIZE_64


class Unreadable(Exception):
    """The bytes aren't what is read: they end too early, a number is too wide, a form is unknown, or a code has no
    declaration."""


class Reader:
    """A place in a piece of bytes. Nothing from `end` on is read; a place past it is at it."""
    __slots__ = ('bytes', 'at', 'end')

    def __init__(self, piece, at=0, end=None):
        self.bytes = piece
        self.end = len(piece) if end is None else end
        self.at = min(at, self.end)

    def left(self):
        """How many bytes are left."""
        return self.end - self.at

    def number(self, size):
        """An unsigned number of so many bytes, the lowest first."""
        return int.from_bytes(self.take(size), 'little')

    def initial_length(self):
        """A length, and how many bytes the offsets behind it have: four bytes, or eight behind the escape (section
        7.4)."""
        length = self.number(4)
        if length == DW_LENGTH_64BIT:
            return self.number(8), OFFSET_SIZE_64
        if length >= DW_LENGTH_RESERVED:
            raise Unreadable
        return length, OFFSET_SIZE_32

    def take(self, count):
        """The next bytes, so many."""
        before, after = self.at, self.at + count
        if after > self.end:
            raise Unreadable
        self.at = after
        return self.bytes[before:after]

    def text(self):
        """The bytes before the next zero byte, which is passed."""
        before = self.at
        zero = self.bytes.find(0, before, self.end)
        if zero < 0:
            raise Unreadable
        self.at = zero + 1
        return self.bytes[before:zero]

    def groups(self):
        """The low seven bits of each byte up to and with the next one whose top bit isn't set, the lowest first:
        the number that they make, and how many bits it has (section 7.6)."""
        number = bits = 0
        for at in range(self.at, self.end):
            byte = self.bytes[at]
            number |= (byte & 0x7f) << bits
            bits += 7
            if byte < 0x80:
                self.at = at + 1
                return number, bits
        raise Unreadable

    def uleb(self):
        """An unsigned LEB128 number, which fits 64 bits (section 7.6)."""
        number, _ = self.groups()
        if number >= 2 ** 64:
            raise Unreadable
        return number

    def sleb(self):
        """A signed LEB128 number, which fits 64 bits; it is in two's complement of all its bits (section 7.6)."""
        number, bits = self.groups()
        if number >> (bits - 1):
            number -= 1 << bits
        if not -2 ** 63 <= number < 2 ** 63:
            raise Unreadable
        return number
