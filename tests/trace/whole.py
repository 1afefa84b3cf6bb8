"""What has to come out whole, byte for byte: long lines, bytes that are no UTF-8, a log that ends in the middle of a line,
modules that are a FIFO, a folder, missing, cut off, or of another build id, and noise that is nearly a frame. No log takes
longer than its length warrants. The words are the program a2l-trace and a folder with programs."""
import os
import random
import re
import shutil
import subprocess
import sys
import time

TRACE = os.path.abspath(sys.argv[1])
os.chdir(sys.argv[2])
checks = 0


def trace(log, *words, seconds=60):
    """What comes out, and standard error."""
    begun = time.monotonic()
    found = subprocess.run([TRACE, *words], input=log, capture_output=True, timeout=seconds * 5)
    assert found.returncode == 0, (found.returncode, found.stderr[-500:])
    assert time.monotonic() - begun < seconds, (log[:60], time.monotonic() - begun)
    return found.stdout, found.stderr


def passes(log, *words, said=(), seconds=60):
    """A log comes out as it was, and the reasons are written once each."""
    global checks
    for option in ['--below', '--in-place']:
        out, errors = trace(log, option, *words, seconds=seconds)
        assert out == log, (option, log[:80], out[:160])
        lines = errors.splitlines()
        assert len(lines) == len(said) and all(text in line for text, line in zip(said, lines)), (said, lines)
    checks += 1


def frame(module, address=0x1199, build_id=''):
    return f'    #1 0x55a6a28ef07b  ({module}+{address:#x}){build_id}\n'.encode()


def modules():
    os.mkfifo('fifo')
    passes(frame('./fifo') * 3, said=[b'Not a regular file'])
    passes(frame('.') * 2, said=[b'Is a directory'])
    passes(frame('./missing') * 2 + b'./missing(+0x10) [0x55]\n', said=[b'No such file'])
    with open('text', 'w') as file:
        file.write('no program')
    passes(frame('./text'), said=[b'not recognized'])
    with open('crash-gcc', 'rb') as whole, open('cut', 'wb') as cut:
        cut.write(whole.read()[:5000])
    trace(frame('./cut'))
    os.symlink('loop', 'loop')
    passes(frame('./loop'), said=[b'symbolic links'])
    passes(frame('a\0b'), said=[b"'a?b'"])


def build_ids():
    """A file of another build id is never used, and the reason stands behind the line."""
    global checks
    text = subprocess.run(['readelf', '-n', 'crash-gcc'], capture_output=True).stdout.decode()
    own = re.search(r'Build ID: (\w+)', text)[1]
    address = int(subprocess.run("nm crash-gcc | awk '$3 == \"main\" {print $1}'", shell=True, capture_output=True).stdout, 16)
    good = frame('./crash-gcc', address, f' (BuildId: {own})')
    bad = frame('./crash-gcc', address, f' (BuildId: {"00" * 20})')
    assert b'main at ' in trace(good)[0]
    for option in ['--below', '--in-place', '--json']:
        out, errors = trace(bad * 2, option)
        assert out.count(b'build id differs') == 2 and errors.count(b'build id differs') == 1 and b'main' not in out, out
    # the right one is found by its build id
    os.makedirs(f'sys/usr/lib/debug/.build-id/{own[:2]}')
    shutil.copy('crash-gcc', f'sys/usr/lib/debug/.build-id/{own[:2]}/{own[2:]}.debug')
    assert b'main at ' in trace(frame('/not/here', address, f' (BuildId: {own})'), '--sysroot', 'sys')[0]
    checks += 2


def texts():
    long = b'0x ' * (100 << 20 >> 2)
    passes(long + b'\n' + b'x' * 10 + b'\n', seconds=60)
    passes(bytes(range(256)) * 1000 + b'\n#1 0x\xff\n')
    for end in [b'./missing(+0x10)[0x', b'./missing(+0x10)[0x20', b'{{{bt:0:', b'#1 0x55', b'12: 0x']:
        passes(b'first\n' + end)
    passes(b'a\r\n0x10\r\n\r\n')
    # an unfinished line with a frame is followed by its functions all the same
    out, _ = trace(b'x\n' + b'./crash-gcc-fixed[0x401000]')
    assert out.startswith(b'x\n./crash-gcc-fixed[0x401000]'), out


def hostile():
    """Lines of a megabyte that are nearly frames again and again."""
    size = (1 << 20) - 8
    for part in [b'#1 0x1 ', b'#1 0x1 (', b'[0x1]', b')[0x1]', b'(+0x1)[0x1] ', b'1: 0x1 - ', b'a+0x1/0x1 ', b'+0x1/0x1',
                 b'{{{', b'{{{}}}', b'{{{bt:1:0x1}}}', b'0x1-0x1 r-xp ', b'1-2 r-xp 0 0:0 0 ', b'#1 pc 1 ', b' - 0x1', b'#',
                 b'0x', b'#1#1', b' (BuildId: ', b'#1 0x1 (a+0x1) (BuildId: ', b') at ', b'[aa]@0x1+0x1']:
        begun = time.monotonic()
        out = trace(part * (size // len(part)) + b'\n', seconds=30)[0]
        assert out.startswith(part * 100), part
        assert time.monotonic() - begun < 30, part
    drawn = random.Random()
    seed = drawn.randrange(1 << 32)
    drawn.seed(seed)
    print('seed', seed)
    words = [b'#1', b' ', b'  ', b'0x55', b'0x7f00000000', b'(', b')', b'+0x10', b'[', b']', b'/0x40', b'pc ', b' in ', b' - ',
             b'./crash-gcc', b'main', b'{{{', b'}}}', b'bt:0:', b'module:0:', b'(BuildId: ', b'00ff', b'1-2 r-xp 0 0:0 0 /', b'\n',
             b'RIP: 0010:', b'\xff', b'\r', b' + ', b'<unknown>', b'1:']
    log = b''.join(drawn.choice(words) for _ in range(200000))
    out = trace(log, '--below', '--module', 'vmlinux=crash-gcc')[0]
    left = b''.join(line for line in out.splitlines(True) if not line.startswith(b' ' * 8))
    kept = b''.join(line for line in log.splitlines(True) if not line.startswith(b' ' * 8))
    assert re.sub(rb'[\r\n]+', b'\n', left) == re.sub(rb'[\r\n]+', b'\n', kept)


def pipe():
    """A line comes out before the next one goes in."""
    global checks
    with subprocess.Popen([TRACE], stdin=subprocess.PIPE, stdout=subprocess.PIPE) as running:
        for line in [b'one\n', b'0x10\n', b'./missing(+0x1)[0x2]\n', b'last\n']:
            running.stdin.write(line)
            running.stdin.flush()
            assert running.stdout.readline() == line
            checks += 1
        running.stdin.close()


def controls():
    """A path that would end a line or speak to a terminal does neither."""
    global checks
    with open('evil.c', 'w') as source:
        source.write('#line 7 "a\\nFORGED\\033[31m.c"\nint main(void) { __builtin_trap(); }\n')
    subprocess.run(['gcc', '-g', '-no-pie', 'evil.c', '-o', 'evil'], check=True)
    address = int(subprocess.run("nm evil | awk '$3 == \"main\" {print $1}'", shell=True, capture_output=True).stdout, 16) + 4
    out = trace(f'./evil[{address + 1:#x}]\n'.encode())[0]
    assert b'?FORGED?[31m.c:7' in out and out.count(b'\n') == 2 and b'\x1b' not in out, out
    checks += 1


for check in [modules, build_ids, texts, hostile, pipe, controls]:
    check()
print(f'{checks} logs came out whole')
