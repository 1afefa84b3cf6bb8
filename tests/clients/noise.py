"""noise.py COUNT SEED PROGRAM TOOL.. [-- PEER..]: lines of the grammar and of noise, in lockstep.

The tool speaks LLVM's protocol. The reply to each line has to be framed as its kind demands, nothing
may follow it, and a known request after each line has to get its known reply. Where a peer
(llvm-symbolizer) is named, each reply is also compared with its reply. It prints how many lines had
each kind of reply.
"""

import collections
import random
import re
import subprocess
import sys

from conversation import Conversation, NoReply

NAME = rb'[^\n]+\n'
PLACE = rb'[^\n]+:\d+:\d+\n'
KINDS = {
    'unknown code': re.compile(rb'\?\?\n\?\?:0:0\n\n'),
    'frames': re.compile(rb'(?:%s%s)+\n' % (NAME, PLACE)),
    'unknown data': re.compile(rb'\?\?\n0 0\n(?:\?\?:\?\n)?\n'),
    'data': re.compile(rb'%s\d+ \d+\n(?:[^\n]+:(?:\d+|\?)\n)?\n' % NAME),
    'unknown frame': re.compile(rb'\?\?\n\n'),
}
WANTED = {b'DATA ': ('data', 'unknown data'), b'FRAME ': ('unknown frame',)}

# A name and an offset, as the last part of a line that says where.
NAME_AND_OFFSET = re.compile(rb'[^\s\d][^ ]*\+\w+')
# An architecture and a quote at the end of a path.
ARCHITECTURE_AND_QUOTE = re.compile(rb':(?:arm|x86_64)["\']')
# A symbol's name without a line.
SYMBOL = re.compile(rb'([^\n]+)\n(?:[^\n]+:0:0|\d+ \d+\n\?\?:\?)\n\n')

COMMANDS = [b'CODE ', b'DATA ', b'FRAME ', b'', b'CODE  ', b'code ', b'CODE\t', b'DATA', b' ', b'CODE CODE ',
            b'FRAME FRAME ']
PREFIXES = [b'', b'', b'', b'FILE:', b'FILE: ', b'FILE:FILE:', b'BUILDID:', b'BUILDID:zz ', b'BUILDID:FILE:']
QUOTES = [b'""', b"''", b'"', b"'", b'"\'', b'']
NUMBERS = [b'0x%x', b'%d', b'0%o', b'0X%X', b'%x', b'-%d', b'+%d', b'0x%017x', b'0x%040x', b'0x%xg', b'0x', b'',
           b'0x%x 7', b'0x%x,', b'18446744073709551615', b'18446744073709551616', b'0xffffffffffffffff', b'0b101', b'0o17', b'09',
           b'1e3', b'main']
ENDS = [b'', b'', b'', b' ', b' trailing', b'\t', b'\r', b' 0x10', b':x86_64', b'\x00', b'  \r']


def quoted(draw, text):
    pair = draw.choice(QUOTES)
    return pair[:1] + text + pair[1:]


def spelled(draw, begin, size):
    form = draw.choice(NUMBERS)
    number = begin + draw.randrange(size) if draw.random() < 0.7 else draw.getrandbits(draw.choice([3, 12, 32, 63]))
    return form % number if b'%' in form else form


def request(draw, paths, begin, size):
    """A line of the grammar, or one that is nearly so."""
    path = draw.choice(paths) + draw.choice([b'', b'', b'', b':x86_64', b':arm', b':'])
    module = draw.choice(PREFIXES) + quoted(draw, path)
    between = draw.choice([b' ', b' ', b' ', b'  ', b'', b'\t'])
    return draw.choice(COMMANDS) + module + between + spelled(draw, begin, size) + draw.choice(ENDS)


def noise(draw):
    """Bytes of any value but the end of a line; some lines are long."""
    return draw.randbytes(draw.choice([0, 1, 2, 8, 40, 300, 900])).replace(b'\n', b' ')


def damaged(draw, line):
    """A request with a part that is cut out, doubled or overwritten."""
    if not line:
        return line
    at, end = sorted((draw.randrange(len(line)), draw.randrange(len(line) + 1)))
    return line[:at] + draw.choice([b'', line[at:end] * 2, draw.randbytes(end - at).replace(b'\n', b'?')]) + line[end:]


def lines(draw, count, paths, begin, size):
    for _ in range(count):
        kind = draw.random()
        if kind < 0.3:
            yield draw.choice([b'CODE "%s" %#x', b'%s %d', b'DATA "%s" %#x']) % (paths[0], begin + draw.randrange(size))
        elif kind < 0.5:
            yield request(draw, paths, begin, size)
        elif kind < 0.8:
            yield damaged(draw, request(draw, paths, begin, size))
        else:
            yield noise(draw)


def kind_of(line, reply):
    """The kind of a reply, which the line allows; else none."""
    wanted = next((kinds for command, kinds in WANTED.items() if line.startswith(command)), ('frames', 'unknown code'))
    for kind, shape in KINDS.items():
        if shape.fullmatch(reply) and kind in wanted + ('unknown code',):
            return kind
    return None


class Peer:
    """The tool beside ours, which is started again where a line kills it."""

    def __init__(self, words):
        self.words, self.tool, self.deaths = words, None, 0

    def ask(self, line):
        """Its reply. llvm-symbolizer takes a line of 1,023 bytes for several, and ends one at a byte of zero."""
        if not self.words or len(line) > 1000 or b'\x00' in line:
            return None
        self.tool = self.tool or Conversation(self.words)
        try:
            return self.tool.ask(line)
        except NoReply:
            self.tool.end()
            self.tool, self.deaths = None, self.deaths + 1
            return None


def is_as_good(line, ours, theirs, not_code):
    """Whether a reply is the peer's, or differs for a reason: both know nothing, of which the peer has
    one spelling for each line that it doesn't understand; FRAME, of which a2l-symbolizer knows nothing;
    `> >` for `>>`; an address outside of code, which llvm-symbolizer takes for the last symbol before
    it, of data or without a size; DATA with a name and an offset, of which it drops the name; and a
    quote behind the architecture of a path, which it takes for a part of that."""
    if line.startswith(b'FRAME ') or ours.replace(b'> >', b'>>').replace(b'> >', b'>>') == theirs:
        return True
    unknown = [shape for kind, shape in KINDS.items() if kind.startswith('unknown')]
    if not any(shape.fullmatch(ours) for shape in unknown):
        return False
    symbol = SYMBOL.fullmatch(theirs)
    if any(shape.fullmatch(theirs) for shape in unknown) or symbol and symbol[1] in not_code:
        return True
    is_without_name = line.startswith(b'DATA ') and NAME_AND_OFFSET.search(line) and KINDS['data'].fullmatch(theirs)
    return bool(is_without_name or ARCHITECTURE_AND_QUOTE.search(line))


def symbols_not_of_code(program):
    """The names of symbols of data, and of those that have no size."""
    shown = subprocess.run(['readelf', '-sW', program], check=True, capture_output=True).stdout
    rows = re.findall(rb'^ *\d+: \w+ +(\w+) (\w+) +\w+ +\w+ +\w+ ([^\s@]+)', shown, re.MULTILINE)
    return {name for size, kind, name in rows if kind == b'OBJECT' or int(size, 0) == 0}


def text_of(program):
    """Where .text begins, and its size."""
    shown = subprocess.run(['readelf', '-SW', program], check=True, capture_output=True, text=True).stdout
    found = re.search(r'\] \.text +PROGBITS +(\w+) \w+ (\w+)', shown)
    return (int(found[1], 16), int(found[2], 16))


def main(count, seed, program, *words):
    ours, theirs = words, ()
    if '--' in words:
        ours, theirs = words[:words.index('--')], words[words.index('--') + 1:]
    draw = random.Random(int(seed))
    begin, size = text_of(program)
    path = program.encode()
    marker = b'CODE "%s" %#x' % (path, begin)
    paths = [path] * 6 + [b'/no/such', b'/', b'', b'[stack]', b'[vdso]', b'a b', b'/etc/passwd', b'x' * 700]
    counts, differences, failures = collections.Counter(), 0, 0
    peer, not_code = Peer(theirs), symbols_not_of_code(program)
    with Conversation(ours) as tool:
        known = tool.ask(marker)
        if KINDS['unknown code'].fullmatch(known) or not KINDS['frames'].fullmatch(known):
            sys.exit(f'no frames of the first address: {known!r}')
        for line in lines(draw, int(count), paths, begin, size):
            reply = tool.ask(line)
            kind = kind_of(line, reply)
            counts[kind or 'none of these'] += 1
            if kind is None:
                failures += 1
                print(f'{line[:200]!r}\n  has the reply {reply[:400]!r}')
            if (after := tool.ask(marker)) != known:
                failures += 1
                print(f'after {line[:200]!r}\n  the known request has the reply {after[:400]!r}')
            other = peer.ask(line)
            if other is not None and not is_as_good(line, reply, other, not_code):
                differences += 1
                if differences <= 40:
                    print(f'{line[:200]!r}\n  ours   {reply[:300]!r}\n  theirs {other[:300]!r}')
            if failures > 20:
                break
        status = tool.end()
    if status:
        sys.exit(f'the tool ended with status {status}')
    told = ', '.join(f'{number} {kind}' for kind, number in sorted(counts.items()))
    print(told + (f'; {differences} unlike the peer, which {peer.deaths} lines killed' if theirs else ''))
    sys.exit(1 if failures or differences else 0)


if __name__ == '__main__':
    main(*sys.argv[1:])
