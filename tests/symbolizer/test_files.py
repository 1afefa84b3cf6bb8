"""Files of all kinds, and files that change while they are open."""

import os
import pathlib
import re
import shutil
import socket
import struct
import subprocess
import tempfile
import unittest

from case import AS_LLVM, LEAF, NESTED, SAMPLE, TOOL, UNKNOWN, UNKNOWN_DATA, Case, at, code, compiled, run
from conversation import NoReply


class Files(Case):

    def test_paths_with_blanks_and_quotes(self):
        names = ['a blank', 'two  blanks ', "a 'quoted' name", 'r\u00f6d.elf', 'back\\slash', 'x:y', 'FILE: x',
                 '[stack]', '-e', 'a\ttab', b'\xff\xfe']
        for name in names:
            shutil.copy(SAMPLE, name)
            self.assert_reply(code(name), LEAF)
        shutil.copy(SAMPLE, 'a "b" c')
        self.assert_reply(b'CODE \'a "b" c\' 0x401004', LEAF)

    def test_path_without_quotes(self):
        shutil.copy(SAMPLE, 'plain')
        for line in (b'plain 0x401004', b'CODE plain 0x401004', b'CODE plain:x86_64 0x401004', b'FILE:plain 0x401004'):
            self.assert_reply(line, LEAF)

    def test_path_with_a_newline_is_two_lines(self):
        talk = self.talk()
        talk.write(b'CODE "a\nb" 0x401004')
        replies = talk.read()
        if replies == UNKNOWN:
            replies += talk.read()
        self.assertEqual(replies, UNKNOWN + UNKNOWN)
        self.assert_known(talk)

    def test_what_is_no_program(self):
        os.mkfifo('fifo')
        os.mkdir('folder')
        os.symlink('loop', 'loop')
        pathlib.Path('empty').touch()
        server = socket.socket(socket.AF_UNIX)
        self.addCleanup(server.close)
        server.bind('socket')
        for path in ('missing', 'folder', 'folder/', 'fifo', 'socket', 'empty', 'loop', 'missing/x', '', '.', 'x' * 300,
                     'y/' * 3000, '/dev/null', '/dev/zero', '/dev/tty', '/proc/self', '/proc/self/mem', '/etc/passwd'):
            self.assert_reply(code(path), UNKNOWN)
            self.assert_reply(b'DATA "%s" 0x10' % path.encode(), UNKNOWN_DATA, *([] if path else [UNKNOWN]))

    def test_unreadable(self):
        """A file that this user can't read; root is another user for this."""
        shutil.copy(SAMPLE, 'unreadable')
        os.chmod('unreadable', 0)
        how = {'user': 65534, 'group': 65534} if os.getuid() == 0 else {}
        try:
            run('test', '-x', TOOL, '-a', '-r', SAMPLE, **how)
        except subprocess.CalledProcessError:
            self.skipTest('another user can\'t reach the tool')
        self.assert_reply(code('unreadable'), UNKNOWN, **how)

    def test_cut_off(self):
        whole = pathlib.Path(SAMPLE).read_bytes()
        for size in (1, 15, 16, 63, 64, 100, len(whole) // 2, len(whole) - 1):
            pathlib.Path('cut').write_bytes(whole[:size])
            self.assert_reply(code('cut'), UNKNOWN)

    def test_replaced(self):
        """By a file that is renamed, and in place: the new bytes answer. Of one that is gone the old may."""
        whole = pathlib.Path(SAMPLE).read_bytes()
        other = whole.replace(b'leaf\0', b'tree\0')
        self.assertNotEqual(whole, other)
        pathlib.Path('replaced').write_bytes(whole)
        talk = self.talk()
        self.assertEqual(talk.ask(code('replaced')), LEAF)
        pathlib.Path('new').write_bytes(other)
        os.rename('new', 'replaced')
        self.assertEqual(talk.ask(code('replaced')), LEAF.replace(b'leaf', b'tree'))
        pathlib.Path('replaced').write_bytes(whole)
        os.utime('replaced', ns=(1, 1))
        self.assertEqual(talk.ask(code('replaced')), LEAF)
        os.remove('replaced')
        self.assertIn(talk.ask(code('replaced')), (LEAF, UNKNOWN))
        self.assert_known(talk)

    def test_cut_off_while_open(self):
        """Read instead of mapped, the conversation goes on; mapped, it may end, but not without a word."""
        for flags in (['--no-mmap'], []):
            shutil.copy(TOOL, 'shrinks')
            with tempfile.TemporaryFile() as told:
                talk = self.talk(*flags, stderr=told)
                talk.ask(code('shrinks', b'0x20000'))
                os.truncate('shrinks', 4096)
                os.utime('shrinks', ns=(1, 1))
                try:
                    talk.ask(code('shrinks', b'0x30000'))
                    self.assert_known(talk)
                except NoReply:
                    told.seek(0)
                    self.assertFalse(flags)
                    self.assertTrue(told.read(), 'it ends without a word')

    def test_10000_files(self):
        """Each is a file of its own; memory, open files and maps stay few."""
        os.mkdir('many')
        for n in range(10_000):
            shutil.copyfile(SAMPLE, f'many/{n}')
        talk = self.talk()
        for n in range(10_000):
            self.assertEqual(talk.ask(code(f'many/{n}')), LEAF)
        of_process = pathlib.Path(f'/proc/{talk.tool.pid}')
        peak = int((of_process / 'status').read_text().split('VmHWM:')[1].split()[0])
        self.assertLess(peak, 64_000)
        self.assertLess(len(os.listdir(of_process / 'fd')), 64)
        self.assertLess(len((of_process / 'maps').read_text().splitlines()), 400)

    def test_quiet_of_what_cannot_be_opened(self):
        for flags, times in (([], 0), (['--explain'], 1)):
            text = (code('missing') + b'\n') * 3
            done = subprocess.run([*AS_LLVM, *flags], input=text, capture_output=True, check=True, timeout=20)
            self.assertEqual(done.stdout, UNKNOWN * 3)
            self.assertEqual(done.stderr.count(b'missing'), times, done.stderr)

    def test_section_that_claims_too_much(self):
        """A compressed section is read; one that claims gigabytes is not, and leaves the symbols."""
        outer = at(compiled('whole', NESTED)['outer'][0])
        for kind in ('zlib', 'zstd'):
            run('objcopy', f'--compress-debug-sections={kind}', 'whole', 'claims')
            self.assertIn(b'whole.c:3', self.talk().ask(code('claims', outer)))
            shown = run('readelf', '-SW', 'claims').decode()
            offset = int(re.search(r' \.debug_info +PROGBITS +\w+ (\w+)', shown)[1], 16)
            for size in (1 << 30, 1 << 40, (1 << 64) - 1, 0):
                shutil.copy('claims', 'claimed')
                with open('claimed', 'r+b') as file:
                    file.seek(offset + 8)
                    file.write(struct.pack('<Q', size))
                talk = self.talk()
                self.assertRegex(talk.ask(code('claimed', outer)), rb'\Aouter\n[^\n]+\n\n\Z')
                peak = pathlib.Path(f'/proc/{talk.tool.pid}/status').read_text().split('VmHWM:')[1].split()[0]
                self.assertLess(int(peak), 100_000)
                self.assert_known(talk)

    def test_package_that_cannot_be_read(self):
        """It is reported once, and split units are in their own files."""
        pathlib.Path('split.c').write_text(NESTED, encoding='ascii')
        run('gcc', '-g', '-gdwarf-5', '-O1', '-gsplit-dwarf', 'split.c', '-o', 'split')
        shown = run('nm', 'split').decode()
        outer = at(int(re.search(r'^(\w+) . outer$', shown, re.MULTILINE)[1], 16))
        pathlib.Path('noise').write_bytes(b'noise')
        shutil.copy('noise', 'split.dwp')
        for package, words in (('split.dwp', []), ('missing', ['--dwp=missing']), ('noise', ['--dwp', 'noise'])):
            done = subprocess.run([*AS_LLVM, *words], input=(code('split', outer) + b'\n') * 3, capture_output=True,
                                  check=True, timeout=20)
            self.assertRegex(done.stdout, rb'\Ainner\n[^\n]+split\.c:2:\d+\nouter\n[^\n]+split\.c:3:\d+\n\n')
            self.assertEqual(done.stderr.count(package.encode()), 1, done.stderr)


if __name__ == '__main__':
    unittest.main()
