"""Tests of the module a2l: python3 -m unittest python/test_a2l.py, after `make shared`.

What is expected was worked out by hand, from the bytes of samples/inlined.elf and the standards. tests/python.sh
compares answers with those of the program, on many programs.
"""

import ctypes
import gc
import os
import pickle
import shutil
import subprocess
import sys
import tempfile
import threading
import unittest
from array import array
from unittest import mock

HERE = os.path.dirname(os.path.abspath(__file__))
TOP = os.path.dirname(HERE)
sys.path.insert(0, HERE)

import a2l  # noqa: E402  (the folder of this file is where it is)

SAMPLE = os.path.join(TOP, 'samples', 'inlined.elf')
# The bytes of the sample, by what readelf shows of it: .debug_info begins at 0x40, its second unit 0x5b bytes after
# that, .debug_abbrev at 0xae, .debug_line at 0xf6, and the header of section 1, .debug_info, at 0x1ae.
REFUSALS = [
    (a2l.NotElf, 1, None, None, {0x00: b'\x7e'}),
    (a2l.NotElf64Little, 2, None, None, {0x04: b'\x01'}),
    (a2l.Relocatable, 3, None, None, {0x10: b'\x01'}),
    (a2l.SectionTable, 4, None, None, {0x3a: b'\x3f'}),
    (a2l.SectionRange, 5, '.debug_info', None, {0x1ce: b'\xff\xff'}),
    (a2l.Compressed, 6, '.debug_info', None, {0x1b7: b'\x08'}),
    (a2l.UnitHeader, 7, None, 0x5b, {0x9b: b'\x7f'}),
    (a2l.AddressSize, 9, None, 0x5b, {0xa2: b'\x04'}),
    (a2l.Root, 10, None, 0x5b, {0xa7: b'\x00'}),
    # the address becomes an index into .debug_addr, which isn't there
    (a2l.RootRanges, 11, None, 0x0, {0xb4: b'\x2c', 0xb6: b'\x07'}),
]
FAULTS = [
    # an entry of a code that isn't declared, and a line table of version 4
    (1, {0x5d: b'\x63'}),
    (4, {0xfa: b'\x04'}),
]


def inlined():
    """The frames of the sample at 0x401004."""
    return [
        a2l.Frame('leaf', a2l.Location('/w/a.c', 4, 0)),
        a2l.Frame('mid', a2l.Location('/w/a.c', 30, None)),
        a2l.Frame('main', a2l.Location('/w/z.c', 20, 7)),
    ]


class Files(unittest.TestCase):
    """Tests that make files."""

    def setUp(self):
        folder = tempfile.TemporaryDirectory()
        self.addCleanup(folder.cleanup)
        self.folder = folder.name

    def changed(self, changes):
        """The path of the sample with other bytes at some places."""
        with open(SAMPLE, 'rb') as file:
            content = bytearray(file.read())
        for place, new in changes.items():
            self.assertNotEqual(content[place:place + len(new)], new)
            content[place:place + len(new)] = new
        path = os.path.join(self.folder, 'changed')
        with open(path, 'wb') as file:
            file.write(content)
        return path


class Answers(unittest.TestCase):
    """What a file says."""

    def setUp(self):
        self.program = a2l.open(SAMPLE)
        self.addCleanup(self.program.close)

    def test_frames_are_innermost_first(self):
        self.assertEqual(self.program.frames(0x401004), inlined())

    def test_nothing_covers_the_first_address(self):
        self.assertEqual(self.program.frames(0), [])
        self.assertIsNone(self.program.location(0))
        self.assertEqual(self.program.frames_of([0]), [a2l.Answer((), None, None)])

    def test_answers_stand_in_the_order_of_the_addresses(self):
        addresses = [0x401004, 0, 0x40100e, 0x401004, 0x401000]
        found = self.program.frames_of(addresses)
        self.assertEqual([[frame.function for frame in answer.frames] for answer in found],
                         [['leaf', 'mid', 'main'], [], [], ['leaf', 'mid', 'main'], ['main']])
        self.assertIs(found[0], found[3])
        self.assertEqual([answer.unit for answer in found], [0, None, None, 0, 0])

    def test_blocks_join(self):
        addresses = list(range(0x401020, 0x400ff0, -1))
        whole = self.program.frames_of(addresses)
        for size in (1, 2, 7):
            with mock.patch.object(a2l, 'BLOCK', size):
                self.assertEqual(self.program.frames_of(addresses), whole)

    def test_locations_have_no_names(self):
        self.assertEqual(self.program.location(0x401004), a2l.Location('/w/a.c', 4, 0))
        answer, = self.program.locations_of([0x401004])
        self.assertEqual(answer.frames, (a2l.Frame(None, a2l.Location('/w/a.c', 4, 0)),))

    def test_pieces(self):
        self.assertEqual([(piece.begin, piece.end, str(piece.location)) for piece in self.program.pieces(0, 2**64 - 1)],
                         [(0x401000, 0x401004, '/w/a.c:3'), (0x401004, 0x40100e, '/w/a.c:4')])
        self.assertEqual(self.program.pieces(0x401004, 0x401004), [])

    def test_addresses_of_many_kinds(self):
        for addresses in ([0x401004], (0x401004,), {0x401004}, array('Q', [0x401004]), array('l', [0x401004]),
                          iter([0x401004]), range(0x401004, 0x401005), memoryview(array('Q', [0x401004]))):
            self.assertEqual(self.program.frames_of(addresses)[0].frames, tuple(inlined()))
        self.assertEqual(self.program.frames_of([]), [])

    def test_what_is_no_address(self):
        for wrong in (-1, 2**64):
            self.assertRaises(ValueError, self.program.frames, wrong)
            self.assertRaises(ValueError, self.program.frames_of, [0, wrong, 1])
            self.assertRaises(ValueError, self.program.pieces, wrong, 1)
        for wrong in ('401004', 1.0, None, b'4'):
            self.assertRaises(TypeError, self.program.frames, wrong)
        for wrong in ('401004', b'401004', [1.0], array('d', [1.0]), 5):
            self.assertRaises(TypeError, self.program.frames_of, wrong)
        self.assertEqual(self.program.frames(0x401004), inlined())

    def test_a_long_path_is_told_whole(self):
        with mock.patch.object(a2l, '_ROOM', 1):
            self.assertEqual(self.program.frames(0x401004), inlined())
            self.assertEqual(len(self.program.pieces(0, 2**64 - 1)), 2)

    def test_what_comes_out_can_be_pickled(self):
        for made in (self.program.frames_of([0x401004, 0]), self.program.pieces(0, 2**64 - 1)):
            self.assertEqual(pickle.loads(pickle.dumps(made)), made)

    def test_a_location_as_text(self):
        for location, text in ((a2l.Location('/a', 3, 1), '/a:3'), (a2l.Location('/a', None, None), '/a:?'),
                               (a2l.Location(None, 3, None), '??:3'), (a2l.Location(None, None, None), '??:0')):
            self.assertEqual(str(location), text)


class Refusals(Files):
    """What can't be answered."""

    def test_each_reason_is_a_class(self):
        for kind, number, section, offset, changes in REFUSALS:
            with self.subTest(kind.__name__):
                path = self.changed(changes)
                with self.assertRaises(kind) as caught:
                    a2l.open(path)
                why = caught.exception
                self.assertEqual((why.path, why.number, why.name, why.section, why.offset),
                                 (path, number, kind.__name__, section, offset))
                place = f' {section}' if section else '' if offset is None else f' {offset:#x}'
                self.assertEqual(str(why), f'{path}: file refused: {number} {kind.__name__}{place}')
                again = pickle.loads(pickle.dumps(why))
                self.assertEqual((type(again), str(again)), (kind, str(why)))
                self.assertIsInstance(why, a2l.Error)

    def test_each_class_has_a_test(self):
        self.assertEqual({kind for kind, *_ in REFUSALS}, set(a2l.Refused.__subclasses__()))

    def test_a_file_without_bytes(self):
        path = os.path.join(self.folder, 'empty')
        with open(path, 'wb'):
            pass
        self.assertRaises(a2l.NotElf, a2l.open, path)

    def test_what_is_no_file(self):
        self.assertRaises(FileNotFoundError, a2l.open, os.path.join(self.folder, 'missing'))
        self.assertRaises(IsADirectoryError, a2l.open, self.folder)
        os.mkfifo(os.path.join(self.folder, 'pipe'))
        self.assertRaises(OSError, a2l.open, os.path.join(self.folder, 'pipe'))
        with self.assertRaises(FileNotFoundError) as caught:
            a2l.open(os.path.join(self.folder, 'missing'))
        self.assertEqual(caught.exception.filename, os.path.join(self.folder, 'missing'))

    def test_a_unit_that_cannot_be_read(self):
        for number, changes in FAULTS:
            with a2l.open(self.changed(changes)) as program, self.subTest(number):
                self.assertEqual(program.frames_of([0, 0x401004]),
                                 [a2l.Answer(()), a2l.Answer((), 0, a2l.Fault(0, number))])
                with self.assertRaises(a2l.UnitFault) as caught:
                    program.frames(0x401004)
                self.assertEqual((caught.exception.unit, caught.exception.number), (0, number))
                self.assertEqual(str(caught.exception), f'unit 0x0 fault {number}')
                again = pickle.loads(pickle.dumps(caught.exception))
                self.assertEqual((again.unit, again.number), (0, number))
        with a2l.open(self.changed(FAULTS[1][1])) as program:
            self.assertRaises(a2l.UnitFault, program.pieces, 0, 2**64 - 1)
            self.assertRaises(a2l.UnitFault, program.location, 0x401004)

    def test_names_that_are_no_utf8(self):
        # the l of leaf
        with a2l.open(self.changed({0x5e: b'\xff'})) as program:
            name = program.frames(0x401004)[0].function
            self.assertEqual(name.encode('utf-8', 'surrogateescape'), b'\xffeaf')

    def test_out_of_memory(self):
        program = a2l.open(SAMPLE)
        with mock.patch.object(program._library, 'find_frames', lambda *_: 1):
            self.assertRaises(a2l.OutOfMemory, program.frames, 0x401004)
            self.assertRaises(MemoryError, program.frames_of, [0x401004])
        self.assertEqual(program.frames(0x401004), inlined())
        self.assertEqual(str(a2l.OutOfMemory()), 'out of memory')


class Handles(Files):
    """How long a program stays open, and who may ask it."""

    def test_a_program_that_is_closed(self):
        with a2l.open(SAMPLE) as program:
            self.assertFalse(program.closed)
        self.assertTrue(program.closed)
        program.close()
        program.close()
        for call in (lambda: program.frames(0), lambda: program.frames_of([0]), lambda: program.frames_of([]),
                     lambda: program.location(0), lambda: program.locations_of([0]), lambda: program.pieces(0, 1),
                     program.beside, program.__enter__):
            self.assertRaises(a2l.Closed, call)
        self.assertIn('closed', repr(program))

    def test_a_file_stays_while_a_handle_is_open(self):
        copy = os.path.join(self.folder, 'copy')
        shutil.copy(SAMPLE, copy)
        program = a2l.open(copy)
        other = program.beside()
        program.close()
        os.remove(copy)
        self.assertEqual(other.frames(0x401004), inlined())
        self.assertTrue(self.is_mapped(copy))
        other.close()
        self.assertFalse(self.is_mapped(copy))

    def test_the_last_reference_closes(self):
        copy = os.path.join(self.folder, 'copy')
        shutil.copy(SAMPLE, copy)
        program = a2l.open(copy)
        self.assertTrue(self.is_mapped(copy))
        del program
        gc.collect()
        self.assertFalse(self.is_mapped(copy))

    @staticmethod
    def is_mapped(path):
        with open('/proc/self/maps', encoding='utf-8', errors='replace') as maps:
            return any(path in line for line in maps)

    def test_a_capacity_of_none(self):
        for wrong in (0, -1):
            self.assertRaises(ValueError, a2l.open, SAMPLE, wrong)
        with a2l.open(SAMPLE, capacity=1) as program:
            self.assertEqual(program.frames(0x401004), inlined())
            self.assertRaises(ValueError, program.beside, 0)

    def test_threads_share_a_program(self):
        found = []

        def ask(program):
            found.extend(program.frames(0x401004) == inlined() for _ in range(200))

        with a2l.open(SAMPLE) as program, program.beside() as other:
            threads = [threading.Thread(target=ask, args=(one,)) for one in (program, program, other, other)]
            for thread in threads:
                thread.start()
            for thread in threads:
                thread.join()
        self.assertEqual((len(found), all(found)), (800, True))


def run_python(*words, text='', **variables):
    """Runs another Python that finds the module."""
    return subprocess.run([sys.executable, *words], env={**os.environ, 'PYTHONPATH': HERE, **variables}, input=text,
                          capture_output=True, text=True, check=False)


class CommandLine(unittest.TestCase):
    """What `python -m a2l` writes."""

    LINES = '0x0000000000401004\nleaf\n/w/a.c:4\nmid\n/w/a.c:30\nmain\n/w/z.c:20\n'

    def test_addresses_are_words_or_lines(self):
        for words, text in (('401004',), ''), (('0x401004',), ''), ((), '401004\n'):
            told = run_python('-m', 'a2l', SAMPLE, *words, text=text)
            self.assertEqual((told.returncode, told.stdout, told.stderr), (0, self.LINES, ''))
        told = run_python('-m', 'a2l', SAMPLE, '0')
        self.assertEqual((told.returncode, told.stdout), (0, '0x0000000000000000\n??\n??:0\n'))

    def test_what_is_wrong_is_told(self):
        for words, why in ((SAMPLE, 'zz'), "'zz' is no address"), ((__file__, '1'), 'file refused: 1 NotElf'), \
                (('/nowhere', '1'), 'No such file'), ((), 'usage: '):
            told = run_python('-m', 'a2l', *words)
            self.assertEqual((told.returncode, told.stdout), (2, ''))
            self.assertIn(why, told.stderr)


class Library(unittest.TestCase):
    """How the library is found, and what it is."""

    def test_the_version_is_that_of_the_release(self):
        with open(os.path.join(TOP, 'VERSION'), encoding='ascii') as file:
            version = file.read().strip()
        self.assertEqual((a2l.version(), a2l.__version__), (version, version))

    def test_a_library_that_is_missing(self):
        code = f'import a2l\ntry: a2l.open({SAMPLE!r})\nexcept a2l.LibraryMissing as why: print(why)'
        for named in ('/nowhere/liba2l.so', SAMPLE):
            told = run_python('-c', code, A2L_LIBRARY=named)
            self.assertIn('make shared', told.stdout, told.stderr)

    def test_structs_are_those_of_the_header(self):
        compiler = shutil.which(os.environ.get('CC', 'cc'))
        if compiler is None:
            self.skipTest('no C compiler here')
        structs = {'a2l': a2l._Handle, 'a2l_refusal': a2l._Refusal, 'a2l_answer': a2l._Answer,
                   'a2l_location': a2l._Location, 'a2l_frame': a2l._Frame, 'a2l_piece': a2l._Piece}
        lines = ['#include <stddef.h>', '#include <stdio.h>', '#include "a2l.h"', 'int main(void) {']
        wanted = []
        for name, struct in structs.items():
            lines.append(f'printf("%zu\\n", sizeof({name}));')
            wanted.append(ctypes.sizeof(struct))
            for field, kind in struct._fields_:
                lines.append(f'printf("%zu %zu\\n", offsetof({name}, {field}), sizeof((({name} *)0)->{field}));')
                wanted.append((getattr(struct, field).offset, ctypes.sizeof(kind)))
        with tempfile.TemporaryDirectory() as folder:
            source = os.path.join(folder, 'structs.c')
            with open(source, 'w', encoding='ascii') as file:
                file.write('\n'.join(lines + ['}', '']))
            built = os.path.join(folder, 'structs')
            subprocess.run([compiler, '-I', os.path.join(TOP, 'include'), '-o', built, source], check=True)
            told = subprocess.run([built], check=True, capture_output=True, text=True).stdout
        self.assertEqual(told, ''.join(f'{size}\n' if isinstance(size, int) else '%d %d\n' % size for size in wanted))


if __name__ == '__main__':
    unittest.main()
