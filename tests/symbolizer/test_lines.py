"""Lines of all kinds: each has one reply, which comes before the next line is read."""

import subprocess
import unittest

from case import AS_LLVM, LEAF, SAMPLE, UNKNOWN, UNKNOWN_DATA, Case, code


class Lines(Case):

    def test_known_address(self):
        self.assert_reply(code(SAMPLE), LEAF)

    def test_a_megabyte(self):
        for line in (b'x' * 1_000_000, b'CODE "' + b'y' * 1_000_000 + b'" 0x10', b' ' * 1_000_000,
                     b'CODE ' + b'"' * 1_000_000, code(SAMPLE, b'0' * 1_000_000 + b'x')):
            self.assert_reply(line, UNKNOWN)

    def test_a_megabyte_behind_the_number(self):
        self.assert_reply(code(SAMPLE) + b' ' + b'z' * 1_000_000, LEAF)

    def test_empty_and_bytes_of_zero(self):
        for line in (b'', b' ', b'\t', b'\0', b'\0' * 4096, b'CODE \0 0x10', b'CODE "a\0b" 0x10'):
            self.assert_reply(line, UNKNOWN)

    def test_without_a_number(self):
        for line in (b'CODE', b'CODE "x"', b'garbage', b'CODE x main', b'0x401004',
                     *(code(SAMPLE, number) for number in (b'', b'0x', b'1e3', b'0x401004g'))):
            self.assert_reply(line, UNKNOWN)
        for line in (b'DATA', b'DATA "x"', b'DATA x 0x'):
            self.assert_reply(line, UNKNOWN, UNKNOWN_DATA)

    def test_number_of_17_digits(self):
        for number in (b'0xfffffffffffffffff', b'18446744073709551616', b'0x10000000000401004'):
            self.assert_reply(code(SAMPLE, number), UNKNOWN)

    def test_spellings_of_a_number(self):
        for number in (b'0x401004', b'0X401004', b'4198404', b'020010004', b'0x0000000000401004'):
            self.assert_reply(code(SAMPLE, number), LEAF)

    def test_frame_and_data_know_nothing(self):
        self.assert_reply(b'FRAME "%s" 0x401004' % SAMPLE.encode(), b'??\n\n')
        self.assert_reply(b'DATA "%s" 0x401004' % SAMPLE.encode(), UNKNOWN_DATA)

    def test_ends_in_the_middle(self):
        for text, wanted in ((code(SAMPLE), LEAF), (b'CODE "', UNKNOWN), (b'', b'')):
            done = subprocess.run(AS_LLVM, input=text, capture_output=True, check=True, timeout=20)
            self.assertEqual(done.stdout, wanted)

    def test_comes_byte_by_byte(self):
        talk = self.talk()
        for byte in code(SAMPLE):
            talk.tool.stdin.write(bytes([byte]))
        self.assertFalse(talk.selector.select(0.1), 'a reply before the end of the line')
        talk.tool.stdin.write(b'\n')
        self.assertEqual(talk.read(), LEAF)

    def test_many_before_a_reply_is_read(self):
        text = (code(SAMPLE) + b'\n') * 100_000
        done = subprocess.run(AS_LLVM, input=text, stdout=subprocess.PIPE, check=True, timeout=120)
        self.assertEqual(len(done.stdout), 100_000 * len(LEAF))
        self.assertEqual(done.stdout.count(LEAF), 100_000)


if __name__ == '__main__':
    unittest.main()
