"""What other readers of the same forms make of them: LLVM's filter of markup, and the kernel's decode_stacktrace.sh."""
import os
import re
import shutil
import subprocess

from producers import kernel, markup
from truth import run


def of_markup(count, crash, rows):
    """Lines and columns are those of `llvm-symbolizer --filter-markup`, where it has lines."""
    if not shutil.which('llvm-symbolizer-19'):
        return count.add('markup by llvm-symbolizer', 'skipped')
    log, ids = markup(crash)
    found = run('llvm-symbolizer-19', '--filter-markup', '--debug-file-directory', ids, input=log).stdout.decode()
    places = re.findall(r'#\d+(?:\.\d+)? +0x\w+ .*? [^ ]+:(\d+):(\d+) \(', found)
    # It has column 0 where none is known.
    theirs = [(int(line), int(column) or None) for line, column in places if int(line)]
    frames = [frame for row in rows(log) for frame in row['frames'] if frame['line']]
    ours = [(frame['line'], frame['column']) for frame in frames]
    if ours == theirs:
        return count.add('markup by llvm-symbolizer', 'same', len(ours))
    count.fail('markup by llvm-symbolizer', f'{crash.out}: {set(ours) ^ set(theirs)}')


def decode(script, log, *words):
    return run('bash', script, *words, input=log).stdout.decode()


def lines_of(text):
    """The symbol and the places of each frame, without columns."""
    text = re.sub(r' \(discriminator \d+\)', '', text)
    found = re.findall(r'(?:^|RIP: 0010:| )([\w.]+) \(([^)]*)\)', text, re.M)
    return [(name, [place for place in places.split() if place[0] == '/']) for name, places in found]


def called(log):
    """The same log, in which each return address is one less: the script takes them as they are."""
    lines = []
    for line in log.decode().splitlines(True):
        lines.append(line if 'RIP' in line else re.sub(r'\+0x(\w+)/', lambda found: f'+{int(found[1], 16) - 1:#x}/', line))
    return ''.join(lines).encode()


def of_kernel(count, crash, trace):
    """Functions and places are those of decode_stacktrace.sh, of a linked program in the place of vmlinux, and of a
    relocatable file in the place of a module."""
    source = '/usr/src/linux-source-6.1.tar.xz'
    if not os.path.exists(source):
        return count.add('kernel by decode_stacktrace.sh', 'skipped')
    script = os.path.abspath('decode_stacktrace.sh')
    if not os.path.exists(script):
        words = ['tar', 'xf', source, '--strip-components=2', 'linux-source-6.1/scripts/decode_stacktrace.sh']
        subprocess.run(words, check=True)
    os.makedirs('modules', exist_ok=True)
    here = os.path.dirname(os.path.abspath(__file__))
    run('gcc', '-g', '-O2', '-c', here + '/crash.c', '-o', 'modules/crash_mod.ko')
    symbols = run('readelf', '-sW', 'modules/crash_mod.ko').stdout.decode()
    sizes = {name: int(size) for size, name in re.findall(r'(\d+) FUNC +\w+ +\w+ +\d+ (\w+)$', symbols, re.M)}
    # gcc has put main into a section of its own, which the script takes for .text.
    of_module = ''.join(f' {name}+{offset:#x}/{size:#x} [crash_mod]\n'
                        for name, size in sizes.items() if name != 'main' for offset in range(1, size, 3))
    for log in [kernel(crash), of_module.encode()]:
        words = ['--in-place', '--module', 'vmlinux=' + crash.program, '--module', 'crash_mod=modules/crash_mod.ko']
        ours = lines_of(run(trace, *words, input=log).stdout.decode())
        theirs = lines_of(decode(script, called(log), crash.program, '/nowhere', os.path.abspath('modules')))
        if ours == theirs:
            count.add('kernel by decode_stacktrace.sh', 'same', len(ours))
        else:
            different = [pair for pair in zip(ours, theirs) if pair[0] != pair[1]]
            count.fail('kernel by decode_stacktrace.sh', f'{crash.out}: {len(ours)} and {len(theirs)}: {different[:4]}')
