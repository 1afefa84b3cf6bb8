"""What the tests of a2l-symbolizer share: conversations, a known address, programs made for a test.

A2L_SYMBOLIZER names the program, and A2L_SAMPLE samples/inlined.elf. Each test runs in a folder of
its own.
"""

import os
import pathlib
import re
import subprocess
import sys
import tempfile
import unittest

sys.path.insert(0, str(pathlib.Path(__file__).resolve().parent.parent / 'clients'))
from conversation import Conversation  # noqa: E402

TOOL = os.path.abspath(os.environ['A2L_SYMBOLIZER'])
SAMPLE = os.path.abspath(os.environ['A2L_SAMPLE'])
AS_LLVM = [TOOL, '--as=llvm-symbolizer', '--demangle', '--inlines', '--default-arch=x86_64']
AS_GNU = [TOOL, '--as=addr2line', '-f', '-i']

LEAF = b'leaf\n/w/a.c:4:0\nmid\n/w/a.c:30:0\nmain\n/w/z.c:20:7\n\n'
UNKNOWN = b'??\n??:0:0\n\n'
UNKNOWN_DATA = b'??\n0 0\n??:?\n\n'

# Two functions, one inlined in the other.
NESTED = '''volatile int count;
static inline __attribute__((always_inline)) int inner(int x) { count = x; return count + 1; }
__attribute__((noinline)) int outer(int x) { return inner(x) + count; }
int main(int argc, char **argv) { return outer(argc); }
'''


def run(*words, **how):
    return subprocess.run(words, check=True, stdout=subprocess.PIPE, timeout=120, **how).stdout


def code(path, number=b'0x401004'):
    """A request for an address of a file, without one for the known address."""
    return b'CODE "%s" %s' % (os.fsencode(path), number)


def at(number):
    return b'%#x' % number


def symbols(path):
    """The address and the size of each symbol that has a name."""
    shown = run('readelf', '-sW', path).decode(errors='backslashreplace')
    rows = re.findall(r'^ *\d+: (\w+) +(\w+) (?:FUNC|OBJECT) +\w+ +\w+ +\w+ (\S+)', shown, re.MULTILINE)
    return {name: (int(value, 16), int(size, 0)) for value, size, name in rows}


def compiled(name, source, *flags, edit=None):
    """Builds a program, whose assembly is edited on the way; its symbols."""
    pathlib.Path(f'{name}.c').write_text(source, encoding='ascii')
    run('gcc', '-S', '-gdwarf-5', '-O1', f'{name}.c', '-o', f'{name}.s')
    if edit:
        text = pathlib.Path(f'{name}.s').read_text(encoding='ascii')
        edited = edit(text)
        if edited == text:
            raise unittest.SkipTest('this compiler writes other assembly')
        pathlib.Path(f'{name}.s').write_text(edited, encoding='ascii')
    run('gcc', f'{name}.s', '-o', name, *flags)
    return symbols(name)


def assembled(name, source):
    """Builds a program without debug information, of `main` and what the source has; its symbols."""
    text = f'.section .note.GNU-stack,"",@progbits\n.text\n.globl main\nmain: ret\n{source}'
    pathlib.Path(f'{name}.s').write_text(text, encoding='ascii')
    run('gcc', '-no-pie', f'{name}.s', '-o', name)
    return symbols(name)


class Case(unittest.TestCase):
    """A test in a folder of its own."""

    maxDiff = 2000

    def setUp(self):
        folder = tempfile.TemporaryDirectory(ignore_cleanup_errors=True)
        self.addCleanup(folder.cleanup)
        self.addCleanup(os.chdir, os.getcwd())
        os.chmod(folder.name, 0o755)
        os.chdir(folder.name)

    def talk(self, *flags, words=None, **how):
        """A conversation, which is ended with the test."""
        talk = Conversation([*(words or AS_LLVM), *flags], **how)
        self.addCleanup(talk.end)
        return talk

    def assert_known(self, talk):
        """The known address has its reply, and so nothing was written too much before it."""
        self.assertEqual(talk.ask(code(SAMPLE)), LEAF)

    def assert_reply(self, line, *wanted, flags=(), **how):
        """The reply to a line is one of those wanted; then the known address has its own, and the tool ends well."""
        talk = self.talk(*flags, **how)
        self.assertIn(talk.ask(line), wanted, line[:200])
        self.assert_known(talk)
        self.assertEqual(talk.end(), 0)
