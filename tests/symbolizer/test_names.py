"""Names and paths that hold line breaks, or that are long when they are demangled: the framing holds."""

import pathlib
import re
import struct
import time
import unittest

from case import NESTED, TOOL, Case, assembled, at, code, compiled, run

DIGITS = '0123456789ABCDEFGHIJKLMNOPQRSTUVWXYZ'


def substitution(n):
    """The nth name of the parts of a mangled name that came before: S_, S0_ .. S9_, SA_ .. SZ_, S10_."""
    if n == 0:
        return 'S_'
    n, digits = n - 1, ''
    while True:
        digits, n = DIGITS[n % 36] + digits, n // 36
        if n == 0:
            return f'S{digits}_'


def doubling(count):
    """The mangled name of an f<A<int, int>, ..>, in which each part has the one before it twice."""
    parts = ['1AIiiE'] + [f'S_I{substitution(n)}{substitution(n)}E' for n in range(1, count)]
    return f'_Z1fI{"".join(parts)}EvT_'


class Names(Case):

    def test_line_breaks_of_dwarf(self):
        """In names of functions, and in a path: each is a question mark."""
        def edit(text):
            text = text.replace('.string\t"inner"', '.string\t"in\\nner"').replace('.string\t"outer"', '.string\t"out\\n\\ner"')
            return re.sub(r'(\.file .*br)(eaks\.c")', r'\1\\n\2', text)
        first, size = compiled('breaks', NESTED, edit=edit)['outer']
        talk, seen = self.talk(), set()
        for address in range(first, first + size):
            reply = talk.ask(code('breaks', at(address)))
            self.assertRegex(reply, rb'\A([^\n]+\n[^\n]+:\d+:\d+\n)+\n\Z')
            seen.update(reply.split(b'\n'))
            self.assert_known(talk)
        self.assertIn(b'in?ner', seen)
        self.assertTrue(any(b'br?eaks.c:' in line for line in seen), seen)

    def test_line_breaks_by_a_directive(self):
        first, _ = compiled('directive', '#line 1 "a\\nb.c"\n' + NESTED)['outer']
        reply = self.talk().ask(code('directive', at(first)))
        self.assertRegex(reply, rb'\A(inner\n[^\n]*a\?b\.c:2:\d+\n)?outer\n[^\n]*a\?b\.c:3:\d+\n\n\Z')

    def test_carriage_return(self):
        """A name that ends with one would end its line by both."""
        edit = lambda text: text.replace('.string\t"inner"', '.string\t"inner\\r"')
        first, size = compiled('returns', NESTED, edit=edit)['outer']
        talk = self.talk()
        for address in range(first, first + size):
            self.assertNotIn(b'\r\n', talk.ask(code('returns', at(address))))

    def test_line_breaks_of_symbols(self):
        """The assembler takes none in a name, so they are put into the program's table of names."""
        found = assembled('breaks', '.type symxbol,@function\nsymxbol: nop\nret\n.size symxbol, .-symxbol\n'
                          '.data\n.type daxta,@object\ndaxta: .quad 1\n.size daxta, 8\n')
        text = pathlib.Path('breaks').read_bytes()
        pathlib.Path('breaks').write_bytes(text.replace(b'\0symxbol\0', b'\0sym\nbol\0').replace(b'\0daxta\0', b'\0da\nta\0'))
        talk = self.talk()
        self.assertRegex(talk.ask(code('breaks', at(found['symxbol'][0]))), rb'\Asym\?bol\n[^\n]+:0:0\n\n\Z')
        address = found['daxta'][0]
        self.assertRegex(talk.ask(b'DATA "breaks" %#x' % address), rb'\Ada\?ta\n%d 8\n' % address)
        self.assert_known(talk)

    def test_long_when_demangled(self):
        """Some have a text of gigabytes, some are as deep as they are long: one line, within seconds."""
        mangled = [doubling(40), '_Z' + 'N' * 5000 + '1a' + 'E' * 5000, '_Z1f' + 'P' * 20000 + 'i',
                   '_Z1f' + 'U1aI' * 3000 + 'i', '_R' + 'NvC' * 3000, '_RNvC1a1b' + 'I' * 3000,
                   '_ZN' + '1a' * 8000 + 'E', '_Z1fIL' + 'X' * 9000 + 'E']
        for name in mangled:
            with self.subTest(name=name[:40]):
                found = assembled('long', f'.type {name},@function\n{name}: nop\nret\n.size {name}, .-{name}\n')
                begun, talk = time.monotonic(), self.talk()
                reply = talk.ask(code('long', at(found[name][0])))
                self.assertRegex(reply, rb'\A[^\n]+\n[^\n]+:0:0\n\n\Z')
                self.assertFalse(reply.startswith(b'??'))
                self.assertLess(len(reply), 1_000_000)
                self.assertLess(time.monotonic() - begun, 5)
                peak = pathlib.Path(f'/proc/{talk.tool.pid}/status').read_text().split('VmHWM:')[1].split()[0]
                self.assertLess(int(peak), 200_000)
                self.assert_known(talk)

    def test_names_that_overlap(self):
        """20,000 symbols, whose names are the ends of one of a megabyte, asked for by name."""
        name = 'f' + 'x' * 1_000_000
        assembled('many', ''.join(f'.globl s{n}\ns{n}:\n' for n in range(20_000)) +
                  f'.globl {name}\n.type {name},@function\n{name}: nop\n.size {name}, .-{name}\n')
        move_names('many', name)
        for words in (['--as=llvm-symbolizer'], ['--as=addr2line', '-f']):
            begun = time.monotonic()
            found = run(TOOL, *words, '-e', 'many', input=f'{name}+0\n{name[5:]}+0\nnowhere+0\n'.encode()).split(b'\n')
            self.assertLess(time.monotonic() - begun, 3)
            self.assertGreater(len(found), 6)


def move_names(path, name):
    """Has the names of the symbols s0, s1, .. begin within another one, each somewhere else."""
    file = bytearray(pathlib.Path(path).read_bytes())
    (table,), (count,) = struct.unpack_from('<Q', file, 40), struct.unpack_from('<H', file, 60)
    sections = [struct.unpack_from('<IIQQQQIIQQ', file, table + 64 * n) for n in range(count)]
    symbols, strings = next((it, sections[it[6]]) for it in sections if it[1] == 2)
    begin = file.index(name.encode(), strings[4]) - strings[4]
    for n, at_byte in enumerate(range(symbols[4], symbols[4] + symbols[5], 24)):
        first = strings[4] + struct.unpack_from('<I', file, at_byte)[0]
        if re.match(rb's\d+\0', file[first:first + 9]):
            struct.pack_into('<I', file, at_byte, begin + 1 + n)
    pathlib.Path(path).write_bytes(file)


if __name__ == '__main__':
    unittest.main()
