"""How a conversation ends, and what GNU's clients take for the end of a reply."""

import os
import random
import re
import subprocess
import threading
import unittest

from case import AS_GNU, AS_LLVM, LEAF, NESTED, SAMPLE, TOOL, Case, code, compiled, run
from conversation import Conversation


class Ends(Case):

    def test_closed_output(self):
        """As when a client ends, before a reply or after one: status 0, and nothing on standard error."""
        for replies in (0, 1):
            read, write = os.pipe()
            with subprocess.Popen(AS_LLVM, stdin=subprocess.PIPE, stdout=write, stderr=subprocess.PIPE) as tool:
                os.close(write)
                if replies:
                    tool.stdin.write(code(SAMPLE) + b'\n')
                    tool.stdin.flush()
                    self.assertEqual(os.read(read, 1 << 16), LEAF)
                os.close(read)
                told = tool.communicate((code(SAMPLE) + b'\n') * 3, timeout=20)[1]
                self.assertEqual((tool.returncode, told), (0, b''))

    def test_many_conversations(self):
        """Eight beside one another."""
        def converse(told):
            with Conversation(AS_LLVM) as talk:
                for _ in range(50):
                    told.append(talk.ask(code(SAMPLE)))
        told = []
        threads = [threading.Thread(target=converse, args=(told,)) for _ in range(8)]
        for thread in threads:
            thread.start()
        for thread in threads:
            thread.join()
        self.assertEqual(told, [LEAF] * 400)


class GnuEnds(Case):

    def test_sentinels_where_zero_has_frames(self):
        """A line that is no number has nothing known, also in a program whose first function is at 0."""
        compiled('zero', NESTED, '-Wl,-Ttext=0', '-nostdlib', '-static', '-Wl,-e,0')
        frames = None
        for sentinel in (b',', b'0xffffffffffffffff', b'-1', b'', b'x', b' ', b'ffffffffffffffff'):
            reply = self.talk('-e', 'zero', words=AS_GNU, sentinel=sentinel).ask(b'0')
            self.assertRegex(reply, rb'\A([^\n]+\n[^\n]+zero\.c:\d+\n)+\Z', sentinel)
            self.assertIn(frames, (None, reply))
            frames = reply

    def test_pairs(self):
        """Replies are pairs of a name and a place; the place of a known function is never `??:0`."""
        draw = random.Random(1)
        found = re.search(r'\] \.text +PROGBITS +(\w+) \w+ (\w+)', run('readelf', '-SW', TOOL).decode())
        begin, size = int(found[1], 16), int(found[2], 16)
        talk, named = self.talk('-e', TOOL, words=AS_GNU, sentinel=b','), 0
        for _ in range(2000):
            reply = talk.ask(b'%x' % (begin + draw.randrange(size)))
            if reply != b'??\n??:0\n':
                self.assertRegex(reply, rb'\A([^\n]+\n[^\n]+:(\d+|\?)\n)+\Z')
                self.assertNotIn(b'\n??:0\n', reply)
                named += 1
        self.assertGreater(named, 1000)


if __name__ == '__main__':
    unittest.main()
