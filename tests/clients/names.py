"""names.py TOOL FILE..: the names that a2l-symbolizer makes readable are those of the originals.

An object is assembled that has the mangled names of the files' symbols, a function each. Of all of them the names by
LLVM's protocol have to be those of llvm-cxxfilt, and those by GNU's protocol those of c++filt, but for the
reasons below. It prints how many are the same, and the first that differ.
"""

import os
import re
import subprocess
import sys

from conversation import Conversation

SAID = {
    'endless': 'it may stand for a text that is too long, and the crate that would tell can\'t read it, so it stays mangled',
    'version': 'the C++ library of gcc 12 reads no _Float16, and writes calls in types without parentheses around what is called',
}
PEERS = {'llvm-symbolizer': ['llvm-cxxfilt-19'], 'addr2line': ['c++filt', '--no-verbose']}


def run(*words, **how):
    return subprocess.run(words, check=True, capture_output=True, text=True, errors='replace', **how).stdout


def mangled(paths):
    """The mangled names of files, in order: those of the symbol table or of dynamic symbols, and of an archive's members."""
    found = set()
    for path in paths:
        for table in ([], ['-D']):
            shown = subprocess.run(['nm', *table, path], check=False, capture_output=True, text=True, errors='replace').stdout
            found.update(re.findall(r' (_[ZR][\w.$]+)(?=@|$)', shown, re.MULTILINE))
    return sorted(found)


def assemble(names, path):
    """A program with a function for each name, one byte each from an address on, which is returned."""
    text = ''.join(f'.type "{name}",@function\n"{name}": ret\n.size "{name}",1\n' for name in names)
    subprocess.run(['as', '-o', f'{path}.o', '-'], input=text, check=True, text=True)
    subprocess.run(['ld', '-Ttext=0x400000', '-e', '0', '-o', path, f'{path}.o'], check=True)
    return 0x400000


def shown(tool, identity, path, begin, count):
    """The names at all addresses, by one of the protocols."""
    if identity == 'addr2line':
        asked = ''.join(f'{begin + n:x}\n' for n in range(count))
        return run(tool, '--as=addr2line', '-C', '-f', '-e', path, input=asked).splitlines()[::2]
    with Conversation([tool, '--as=llvm-symbolizer']) as talk:
        return [talk.ask(b'CODE "%s" %#x' % (os.fsencode(path), begin + n)).decode().split('\n')[0] for n in range(count)]


def reason(name, ours, theirs):
    """Why two readable names differ; else none."""
    references = len(re.findall('[ST][_0-9A-Z]', name))
    if ours == name and (re.search('Dp|sp|sZ|sP|cv', name) or 18 * len(name) << references >= 1 << 20):
        return 'endless'
    if 'DF16' in name or 'sr' in name and re.sub('[()]', '', ours) == re.sub('[()]', '', theirs):
        return 'version'
    return None


def main(tool, *paths):
    names = mangled(paths)
    begin = assemble(names, os.path.abspath('names'))
    failed = not names
    for identity, peer in PEERS.items():
        theirs = run(*peer, input='\n'.join(names) + '\n').splitlines()
        ours = shown(tool, identity, os.path.abspath('names'), begin, len(names))
        pairs = [it for it in zip(names, ours, theirs, strict=True) if it[1] != it[2]]
        whys = [reason(*it) for it in pairs]
        unlike = [it for it, why in zip(pairs, whys) if why is None]
        for name, one, other in unlike[:20]:
            print(f'{name}\n  ours   {one}\n  theirs {other}')
        print(f'{len(names) - len(pairs)} of {len(names)} names are as {peer[0]} writes them, {len(unlike)} are unlike')
        for why, text in SAID.items():
            if why in whys:
                print(f'{whys.count(why):6} {why}: {text}')
        failed |= bool(unlike)
    sys.exit(1 if failed else 0)


if __name__ == '__main__':
    main(*sys.argv[1:])
