"""trace.py A2L-TRACE FOLDER: how long 1 GB without frames takes beside `cat | grep -c 0x`, and 100,000 frames of twenty
modules beside asan_symbolize with llvm-symbolizer 19. What is compared is processor time, of all processes together,
since other work may run beside it; the time that passed is printed too. The folder gets the logs, and has the library
large.so, as bench/trace.sh makes it."""
import os
import random
import re
import resource
import shutil
import subprocess
import sys
import time

TRACE = os.path.abspath(sys.argv[1])
os.chdir(sys.argv[2])
GIGABYTE, FRAMES, MODULES = 1 << 30, 100_000, 20


def cost(command, times=3):
    """The least processor time and the least time of some runs, in seconds."""
    costs = []
    for _ in range(times):
        before, begun = resource.getrusage(resource.RUSAGE_CHILDREN), time.monotonic()
        subprocess.run(command, shell=True, check=True, stdout=subprocess.DEVNULL, stderr=subprocess.DEVNULL)
        after = resource.getrusage(resource.RUSAGE_CHILDREN)
        costs.append((after.ru_utime + after.ru_stime - before.ru_utime - before.ru_stime, time.monotonic() - begun))
    return min(processor for processor, _ in costs), min(passed for _, passed in costs)


def plain():
    drawn = random.Random(1)
    words = 'request served connection closed worker started session queue timeout retry cache status bytes'.split()
    lines = []
    for number in range(100_000):
        text = ' '.join(drawn.choice(words) for _ in range(drawn.randrange(4, 14)))
        pointer = f' at {drawn.randrange(1 << 30):#x}' if number % 50 == 0 else ''
        time_of = f'10:{number % 60:02}:{number % 59:02}'
        lines.append(f'2026-12-01 {time_of} host service[{drawn.randrange(30000)}]: {text}{pointer}\n')
    block = ''.join(lines).encode()
    with open('plain', 'wb') as log:
        for _ in range(GIGABYTE // len(block) + 1):
            log.write(block)


def frames():
    text = subprocess.run(['readelf', '-SW', 'large.so'], capture_output=True).stdout.decode()
    start, size = (int(word, 16) for word in re.search(r' \.text +PROGBITS +(\w+) \w+ (\w+)', text).groups())
    drawn = random.Random(2)
    for number in range(MODULES):
        shutil.copy('large.so', f'large{number}.so')
    with open('frames', 'w') as log:
        for number in range(FRAMES):
            path = os.path.abspath(f'large{drawn.randrange(MODULES)}.so')
            address = start + drawn.randrange(size)
            log.write(f'    #{number % 30} {0x7f0000000000 + address:#x}  ({path}+{address:#x})\n')


def compare(what, ours, theirs):
    (processor, passed), (other, other_passed) = ours, theirs
    print(f'{what}: {processor:.2f} s of processor time, {passed:.2f} s; beside it {other:.2f} s, {other_passed:.2f} s; '
          f'{processor / other:.2f} and {passed / other_passed:.2f} times')


def main():
    plain()
    compare('1 GB without frames', cost(f'{TRACE} plain'), cost('cat plain | grep -c 0x | cat'))
    piped = cost(f'cat plain | {TRACE}')
    print(f'the same through a pipe: {piped[0]:.2f} s of processor time, {piped[1]:.2f} s')
    os.remove('plain')
    frames()
    if shutil.which('asan_symbolize-19') and shutil.which('llvm-symbolizer-19'):
        theirs = cost('LLVM_SYMBOLIZER_PATH=$(command -v llvm-symbolizer-19) asan_symbolize-19 < frames')
        compare(f'{FRAMES} frames of {MODULES} modules', cost(f'{TRACE} --in-place frames'), theirs)
    else:
        print('skipped, no asan_symbolize-19 here: the time of frames')


main()
