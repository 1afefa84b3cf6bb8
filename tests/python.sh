#!/usr/bin/env bash
# The module for Python, python/a2l: its doctest and its unittest tests, by each Python that is here, python3 and
# /usr/bin/python3; then what it tells of programs, as text, beside what `a2l` writes, to the byte: frames, locations
# and spans of each sample program and sample file, and of 10,000 random addresses of a large program; arrays of numpy,
# where it is here; four threads; and memory that runs out in a question, after which the next one is answered. The
# large program is built of six units of templates, or it is the one that a word names. At last it asks through what
# `make install` puts in place. Run it after `rt run` in crates/a2l has built the program; the library is built here.
# The last line counts what agrees.
. "$(dirname "$0")/programs.sh"
need_a2l

need_library library shared
names=$(nm -D --defined-only "$here/out/liba2l.so" | awk 'NF == 3 { print $3 }' | sort)
[ "$names" = "$(nm -g --defined-only "$here/out/liba2l.a" | awk 'NF == 3 { print $3 }' | sort)" ] ||
    { echo "the shared object has other names than the library: $names"; exit 1; }

pythons=(python3)
[ ! -x /usr/bin/python3 ] || [ "$(command -v python3)" = /usr/bin/python3 ] || pythons+=(/usr/bin/python3)
tests=0
for python in "${pythons[@]}"; do
    (cd "$here" && PYTHONPATH=python "$python" -c 'import a2l, doctest, sys; sys.exit(doctest.testmod(a2l).failed)') || { echo "$python: the doctest fails"; exit 1; }
    "$python" "$here/python/test_a2l.py" > "$work/unittest.log" 2>&1 || { cat unittest.log; exit 1; }
    tests=$((tests + $(sed -nE 's/^Ran ([0-9]+) tests? .*/\1/p' unittest.log)))
    sed -nE "s|^.*skipped=.*|skipped, a C compiler is wanted: structs by $python|p" unittest.log
done

write_sources
build_levels
need_large "${1:-6}"

cat > compare.py << 'END_PY'
"""compare.py PROGRAM FILE..: what python/a2l tells of files, and what the program writes of them, to the byte."""
import random
import re
import subprocess
import sys
import threading
import a2l

def written(path, words, addresses):
    """What the program writes."""
    text = ''.join(f'{word}\n' for word in addresses).encode()
    ran = subprocess.run([sys.argv[1], '-e', path, *words], input=text, capture_output=True, check=False)
    assert ran.returncode in (0, 1), ran
    return ran.stdout

def lines(answer, names):
    """The lines of an answer."""
    if answer.fault:
        return [f'!unit {answer.fault.unit:#x} fault {answer.fault.number}']
    if not answer.frames:
        return ['??'] * names + ['??:0']
    return [line for frame in answer.frames for line in [frame.function or '??'] * names + [str(frame.location)]]

def told(addresses, answers):
    """What `-a -f -i` writes."""
    out = [line for a, answer in zip(addresses, answers) for line in [f'{a:#018x}'] + lines(answer, 1)]
    return ''.join(f'{line}\n' for line in out).encode('utf-8', 'surrogateescape')

def drawn(path, count):
    """Random addresses: of the code, and some beside it."""
    shown = subprocess.run(['readelf', '-SW', path], check=True, capture_output=True, text=True).stdout
    found = re.search(r'\] \.text +PROGBITS +(\w+) \w+ (\w+)', shown)
    begin, size = (int(n, 16) for n in found.groups()) if found else (0x401000, 16)
    draws = random.Random(path)
    return [draws.randrange(begin, begin + size) for _ in range(count)] + [0, 1, begin - 1, begin + size, 2 ** 64 - 1]

def compare(path, count):
    addresses = drawn(path, count)
    words = [f'{a:x}' for a in addresses]
    with a2l.open(path) as program:
        found = told(addresses, program.frames_of(addresses))
        assert found == written(path, ['-a', '-f', '-i'], words), f'other frames of {path}'
        some = ''.join(f'{line}\n' for answer in program.locations_of(addresses) for line in lines(answer, 0))
        assert some.encode('utf-8', 'surrogateescape') == written(path, [], words), f'other locations of {path}'
        for a in addresses[:5]:
            assert program.frames(a) == list(program.frames_of([a])[0].frames), f'one address of {path}'
        spans = [(a, a + 500) for a in addresses[:20] if a + 500 < 2 ** 64]
        pieces = []
        for low, high in spans:
            found_here = program.pieces(low, high)
            pieces += [f'{piece.begin:#018x}-{piece.end:#018x} {piece.location}\n' for piece in found_here]
            # a span without pieces has a line too
            pieces += [] if found_here else ['??:0\n']
        wanted = written(path, [], [f'{low:x}-{high:x}' for low, high in spans])
        assert ''.join(pieces).encode('utf-8', 'surrogateescape') == wanted, f'other pieces of {path}'
        return found.count(b'\n'), len(addresses), len(pieces)

def threads(path):
    """Four threads: two of one program, two of another handle over it."""
    addresses = drawn(path, 1000)
    with a2l.open(path) as program, program.beside() as other:
        wanted = program.frames_of(addresses)
        found = []
        asking = [threading.Thread(target=lambda one=one: found.append(one.frames_of(addresses) == wanted))
                  for one in (program, program, other, other)]
        for thread in asking:
            thread.start()
        for thread in asking:
            thread.join()
    assert found == [True] * 4

rows = [compare(path, 10000 if path == sys.argv[-1] else 300) for path in sys.argv[2:]]
threads(sys.argv[-1])
print('%d lines of %d addresses, and %d pieces' % tuple(map(sum, zip(*rows))))
END_PY
export PYTHONPATH=$here/python
agreed=$(python3 compare.py "$a2l" "$here"/samples/*.elf "${programs[@]}" "$program")

cat > memory.py << 'END_PY'
"""memory.py FILE: a question for which memory runs out changes nothing, and is answered when there is some again."""
import resource
import subprocess
import sys
import a2l

def used():
    with open('/proc/self/statm', encoding='ascii') as file:
        return int(file.read().split()[0]) * resource.getpagesize()

shown = subprocess.run(['readelf', '-SW', sys.argv[1]], check=True, capture_output=True, text=True).stdout
begin, size = (int(n, 16) for n in shown.split('] .text ')[1].split()[1:4:2])
addresses = list(range(begin, begin + size, max(size // 3000, 1)))
program = a2l.open(sys.argv[1])
wanted = program.frames_of(addresses)
refused, answers = 0, None
for room in [0] + [1 << k for k in range(16, 32)]:
    if answers == wanted:
        break
    resource.setrlimit(resource.RLIMIT_AS, (used() + room, resource.RLIM_INFINITY))
    try:
        answers = program.beside().frames_of(addresses)
    except a2l.OutOfMemory:
        answers, refused = None, refused + 1
    except (MemoryError, SystemError) as error:
        # of Python itself: where 3.11 has no memory for a frame of its own, it raises a SystemError that says only this
        assert isinstance(error, MemoryError) or str(error) == 'error return without exception set', error
        answers = None
    resource.setrlimit(resource.RLIMIT_AS, (resource.RLIM_INFINITY, resource.RLIM_INFINITY))
    assert program.frames_of(addresses[:50]) == wanted[:50]
assert refused > 0 and answers == wanted, 'memory never ran out, or never was enough'
print(f'{refused} questions out of memory')
END_PY
# large blocks by mappings of their own would leave room in the heap, of which the limit knows nothing
refusals=$(MALLOC_TRIM_THRESHOLD_=0 MALLOC_TOP_PAD_=0 MALLOC_ARENA_MAX=1 python3 memory.py "$program")

# Arrays of numpy, of each kind of number, also with steps and of another byte order.
numpy=
for python in "${pythons[@]}"; do
    "$python" -c 'import numpy' 2> /dev/null && numpy=$python
done
if [ -n "$numpy" ]; then
    "$numpy" - "$here/samples/inlined.elf" << 'END_PY' || { echo "numpy: another answer"; exit 1; }
import sys
import a2l
import numpy
with a2l.open(sys.argv[1]) as program:
    wanted = program.frames_of([0x401004, 0, 0x401000])
    for kind in ('uint64', 'int64', 'uint32', 'int32', '>u8', '<u8', '>i4'):
        array = numpy.array([0x401004, 0, 0x401000], dtype=kind)
        assert program.frames_of(array) == wanted, kind
        assert program.frames_of(numpy.repeat(array, 2)[::2]) == wanted, kind
    assert program.frames(array[0]) == list(wanted[0].frames)
    for wrong in (numpy.array([-1]), numpy.array([1.0]), numpy.array([[1]]), numpy.array(['1'])):
        try:
            program.frames_of(wrong)
        except (ValueError, TypeError):
            continue
        raise SystemExit(f'{wrong!r} is accepted')
END_PY
else
    echo "skipped, no numpy here: arrays of numpy"
fi

# What is installed is enough.
make -s -C "$here" install-files DESTDIR="$work/root" PREFIX=/opt/a2l PROGRAM="$a2l" > make.log 2>&1 ||
    { cat make.log; exit 1; }
installed=$(cd / && PYTHONPATH=$work/root/opt/a2l/lib/a2l/python python3 -c '
import sys, a2l
with a2l.open(sys.argv[1]) as program:
    print(a2l.__file__, *(frame.function for frame in program.frames(0x401004)))' "$here/samples/inlined.elf")
[ "$installed" = "$work/root/opt/a2l/lib/a2l/python/a2l/__init__.py leaf mid main" ] || { echo "installed: $installed"; exit 1; }

echo "$tests tests pass; $agreed are the program's; $refusals"
