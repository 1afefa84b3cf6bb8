#!/usr/bin/env bash
# Runs of random shapes beside work that keeps all processors busy, half of them on one processor: each ends within ten
# times the time that it takes without that work, or five seconds where that is more, since a short run may wait for a
# processor alone; and all write the same bytes. The words are how many runs, 100 without; a seed, which is printed; and
# the seconds that each run may take at any rate, 5 without. `tests/waits.sh 1000 1 0` has nothing but ten times, and
# wants a machine without other work. Run it after `rt run` in crates/a2l has built the program.
. "$(dirname "$0")/programs.sh"
need_a2l

write_large 20
build_units program
objdump -h program | awk '$2 == ".text" { print $4, $3 }' > text
cat > waits.py <<'END_PY'
import os, random, subprocess, sys, time

tool, count, seed, least = sys.argv[1], int(sys.argv[2]), int(sys.argv[3]), float(sys.argv[4])
draws = random.Random(seed)
begin, size = (int(word, 16) for word in open('text').read().split())
addresses = '\n'.join(f'{begin + draws.randrange(size):x}' for _ in range(20_000)) + '\n'
only = min(os.sched_getaffinity(0))

def run(shape, limit=None):
    """What a run writes, and its seconds."""
    workers, senders, is_alone = shape
    pin = (lambda: os.sched_setaffinity(0, {only})) if is_alone else None
    words = [tool, '-e', 'program', '-fia', '--workers', str(workers), '--senders', str(senders)]
    began = time.monotonic()
    done = subprocess.run(words, input=addresses.encode(), capture_output=True, preexec_fn=pin, timeout=limit)
    assert done.returncode == 0, (shape, done)
    return done.stdout, time.monotonic() - began

def drawn():
    return draws.randint(1, 64), draws.choice((1, 1, draws.randint(2, 64))), draws.random() < 0.5

wanted, _ = run((1, 1, False))
shapes = [drawn() for _ in range(count)]
quiet = [min(run(shape)[1] for _ in range(2)) for shape in shapes]
load = [subprocess.Popen([sys.executable, '-c', 'while True: pass']) for _ in range(os.cpu_count())]
most = 0
try:
    for shape, alone in zip(shapes, quiet):
        try:
            found, seconds = run(shape, max(10 * alone, least))
        except subprocess.TimeoutExpired:
            sys.exit(f'{shape[0]} workers, {shape[1]} senders{", one processor" * shape[2]}: '
                     f'not within ten times {alone:.3f} s, nor {least:g} s (seed {seed})')
        assert found == wanted, (shape, 'other bytes', seed)
        most = max(most, seconds / alone)
finally:
    for work in load:
        work.kill()
print(f'{count} runs of random shapes beside other work wrote the same bytes, each within {most:.1f} times its own time '
      f'(seed {seed})')
END_PY
python3 waits.py "$a2l" "${1:-100}" "${2:-$RANDOM}" "${3:-5}"
