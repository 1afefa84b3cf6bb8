"""Requests by names and offsets: each is answered as GNU addr2line 2.40 and llvm-symbolizer 19 answer it."""

import pathlib
import re
import shutil
import subprocess
import unittest

from case import TOOL, Case, at, run, symbols

SOURCE = '''extern "C" __attribute__((noinline)) int face_fn(int x) { return x; }
extern "C" __attribute__((noinline)) int added(int x) { return x + 1; }
static __attribute__((noinline)) int local(int x) { return x ^ 3; }
namespace n {
int deep(int x) { return x; }
int deep(int x, char) { return 3 * x; }
struct S { int go(); };
int S::go() { return 5; }
}
template <class T> T twice(T x) { return x + x; }
template int twice<int>(int);
int main(int argc, char **) { return face_fn(argc) + added(argc) + local(argc); }
'''
# In two files, so that two functions have one name.
TWIN = 'static int same(int x) { return x; }\nint NAME(int x) { return same(x); }\n'
ZERO = 'volatile int x;\nint main(void) { x = 1;\nx = 2;\nreturn 0; }\n'
OF_GNU = ['face_fn', 'face_fn+0', 'added', 'added+1', 'local', '_ZL5locali', 'n::deep(int)+4', 'n::deep(int, char)',
          'n::S::go()', 'n::S::go', 'twice<int>(int)', '_Z5twiceIiET_S0_', 'main', ' main', 'main+08', 'main+010',
          'main+-4', 'main + 4', 'main+ 4', 'main+4+4', 'main+4x', 'main x', 'main\t+4', 'main+0xffffffffffffffff',
          'x', '0x', '0xz', '+', '+abc', '+0x10', '+1149 +4', '1149+4', 'abd+1', 'nosuch+4', '_start', 'printf', '@',
          '(', ',', '-1', '', '#']
OF_LLVM = ['main', 'main+4', 'main+0x4', 'main+1000', 'main+zz', 'local', '_ZL5locali', '_ZL5locali+1', 'n::S::go()',
           'nosuch', '0x', 'DATA main', 'FRAME main', '+4', 'same', 'same+1']
DETAILS = [['--verbose'], ['--verbose', '--output-style=GNU'], ['--output-style=JSON'],
           ['--print-source-context-lines=5'],
           ['--print-source-context-lines=4', '--output-style=GNU', '-p', '-a'],
           ['--print-source-context-lines=3', '--output-style=JSON']]


def is_here(name, version):
    return shutil.which(name) and re.search(version, run(name, '--version').decode())


class Requests(Case):

    def setUp(self):
        super().setUp()
        pathlib.Path('asked.cc').write_text(SOURCE, encoding='ascii')
        for name in ('other', 'third'):
            pathlib.Path(f'{name}.c').write_text(TWIN.replace('NAME', name), encoding='ascii')
        run('g++', '-g', '-gdwarf-5', '-O0', 'asked.cc', '-x', 'c', 'other.c', 'third.c', '-o', 'asked')

    def assert_alike(self, theirs, ours, words):
        for word in words:
            with self.subTest(word=word):
                line = f'{word}\n'.encode()
                self.assertEqual(run(*ours, input=line), run(*theirs, input=line, stderr=subprocess.DEVNULL))

    @unittest.skipUnless(is_here('addr2line', r'2\.4\d'), 'no GNU addr2line 2.40 here: requests beside it')
    def test_beside_gnu(self):
        words = ['-a', '-f', '-e', 'asked']
        self.assert_alike(['addr2line', *words], [TOOL, '--as=addr2line', *words], OF_GNU)

    @unittest.skipUnless(is_here('llvm-symbolizer-19', ' 19'), 'no llvm-symbolizer 19 here: requests beside it')
    def test_beside_llvm(self):
        for style in ('LLVM', 'GNU', 'JSON'):
            words = ['-e', 'asked', '--relativenames', f'--output-style={style}']
            self.assert_alike(['llvm-symbolizer-19', *words], [TOOL, *words], OF_LLVM)

    @unittest.skipUnless(is_here('llvm-symbolizer-19', ' 19'), 'no llvm-symbolizer 19 here: details beside it')
    def test_details_beside_llvm(self):
        main = re.search(r'^(\w+) T main$', run('nm', 'asked').decode(), re.MULTILINE)[1]
        addresses = [hex(int(main, 16) + n) for n in range(0, 40, 3)]
        for flags in DETAILS:
            words = ['-e', 'asked', *flags]
            self.assert_alike(['llvm-symbolizer-19', *words], [TOOL, *words], addresses)

    @unittest.skipUnless(shutil.which('clang'), 'no clang here: rows of line 0, which GNU as leaves out')
    def test_line_zero(self):
        """An address without a line has that of the row before, where it is asked for, and says so."""
        pathlib.Path('zero.c').write_text(ZERO, encoding='ascii')
        run('clang', '-S', '-gdwarf-5', '-O1', 'zero.c', '-o', 'zero.s')
        text = pathlib.Path('zero.s').read_text(encoding='ascii')
        pathlib.Path('zero.s').write_text(re.sub(r'\.loc\s+(\d) 3 .*', r'.loc \1 0 0', text), encoding='ascii')
        run('clang', 'zero.s', '-o', 'zero')
        first, size = symbols('zero')['main']
        talk, other = self.talk('-e', 'zero'), self.talk('-e', 'zero', '--skip-line-zero')
        seen = set()
        for address in range(first, first + size):
            plain, taken = (it.ask(at(address)).split(b'\n')[1] for it in (talk, other))
            if b':0:' in plain:
                self.assertRegex(taken, rb'zero\.c:2:\d+ \(approximate\)\Z')
            else:
                self.assertEqual(plain, taken)
            seen.add(b':0:' in plain)
        self.assertEqual(seen, {False, True})


if __name__ == '__main__':
    unittest.main()
