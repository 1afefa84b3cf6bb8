#!/usr/bin/env bash
# Makes files that are meant to ruin their reader (hostile.py), of 100 KB, 1 MB and 10 MB, or of the sizes that the
# words say, and prints the time and the peak memory of a listing and of one address, with the memory for each byte of
# the file. It fails where memory passes 64 bytes for each byte of the file and 16 MB, or where a kind whose work is
# linear takes more than 2.6 times as long for twice the bytes. Kinds of square time run up to 1 MB, and so does one
# whose answer is longer than its file, for which memory may be more; many_units_that_take_turns_by_ways, a span with as
# many borders as the square of the file and a line table at each, runs up to 100 KB. Two spans with so many borders take
# some minutes each for 1 MB. Run it after `rt run` in crates/a2l has built the program. It needs python3.
. "$(dirname "$0")/programs.sh"
need_a2l

cat > measure.py <<'END'
import math, os, resource, signal, subprocess, sys, time
a2l, hostile, *sizes = sys.argv[1:]
SIZES = [int(size) for size in sizes] or [100_000, 1_000_000, 10_000_000]
SMALL = {'borders': [20_000, 100_000]}
SLOPE, MOST = math.log2(2.6), 1800


def run(words, path):
    """The seconds and the peak memory of a run, or None where it was given up."""
    with open(path) as addresses, open(os.devnull, 'w') as out:
        begun = time.monotonic()
        child = subprocess.Popen([a2l, *words], stdin=addresses, stdout=out, stderr=subprocess.PIPE,
                                 preexec_fn=lambda: resource.setrlimit(resource.RLIMIT_AS, (12 << 30, 12 << 30)))
        signal.signal(signal.SIGALRM, lambda *_: child.kill())
        signal.alarm(MOST)
        told = child.stderr.read()
        _, status, used = os.wait4(child.pid, 0)
        signal.alarm(0)
    if status & 0x7f or status >> 8 > 2:
        return None, told.decode().strip() or 'given up'
    return time.monotonic() - begun, used.ru_maxrss * 1024


failed = 0
for line in subprocess.run(['python3', hostile], capture_output=True, text=True, check=True).stdout.splitlines():
    kind, growth, limit = line.split()
    before = {}
    for size in SMALL.get(growth) or (size for size in SIZES if growth == 'linear' or size <= 1_000_000):
        with open('addresses', 'w') as out:
            subprocess.run(['python3', hostile, kind, str(size), 'file'], stdout=out, check=True)
        size = os.path.getsize('file')
        for what, words in ('listing', ['-e', 'file', '--units']), ('address', ['-e', 'file', '-f', '-i']):
            seconds, memory = run(words, 'addresses')
            if seconds is None:
                failed += 1
                print(f'{kind} of {size} bytes, {what}: {memory} FAILED', flush=True)
                continue
            wrong = ' TOO MUCH MEMORY' if memory > int(limit) * size + (16 << 20) else ''
            # what takes less than a fifth of a second is no measure
            if growth == 'linear' and what in before and seconds > 0.2:
                last, its = before[what]
                slope = math.log(seconds / max(last, 0.02)) / math.log(size / its)
                wrong += f' TOO SLOW, {2 ** slope:.1f} times for twice the bytes' if slope > SLOPE else ''
            before[what] = seconds, size
            failed += bool(wrong)
            print(f'{kind} of {size} bytes, {what}: {seconds:.2f} s, {memory / 1e6:.0f} MB, {memory / size:.0f} a byte{wrong}', flush=True)
print(f'{failed} of these are too much' if failed else 'no file costs too much')
sys.exit(failed > 0)
END
python3 measure.py "$a2l" "$here/tests/hostile.py" "$@"
