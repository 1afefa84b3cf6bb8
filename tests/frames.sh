#!/usr/bin/env bash
# Compares each answer of a2l with what readelf and llvm-dwarfdump show of the DWARF itself, on programs of gcc, clang
# and rustc at -O0 and -O2: the names of functions (by references, linkage names and own names), the functions inlined
# there, where each was called, files and lines. It asks every address at which a row, or a range of a unit or of a
# function, begins or ends, and the address before (of more than 20,000 it picks so many). tests/answers.py makes the
# expected answers by the rules of docs/MEANING.md. tests/real.sh compares with other symbolizers. Run it after `rt run`
# in crates/a2l has built a2l. It needs python3 and LLVM's tools, and says which compilers it lacks. It fails where an
# answer differs; its last line counts the answers and the frames that agree. Further programs may be named as words.
. "$(dirname "$0")/programs.sh"
need_a2l
write_sources
build_levels

cat > compare.py <<'END_PY'
import os, random, sys
sys.path.insert(0, sys.argv[1])
import answers

def addresses(program):
    asked = set()
    for unit in program.units:
        if unit.is_read():
            todo = [unit.root, *unit.subprograms]
            while todo:
                entry = todo.pop()
                todo += entry.inlined
                asked.update(a for pair in program.ranges[entry.offset] for a in pair)
    for table in program.tables.values():
        for starts, _ in table.sequences:
            asked.update(starts)
    asked = sorted({a for end in asked for a in (end - 1, end) if 0 <= a < 2 ** 64})
    random.seed(program.path)
    return sorted(random.sample(asked, min(len(asked), 20000)))

count, frames, inlined = 0, 0, 0
for path in sys.argv[3:]:
    program = answers.Program(path)
    asked = addresses(program)
    program.ask(asked)
    named = 0
    for a, got in zip(asked, answers.a2l(sys.argv[2], path, asked)):
        wanted = program.frames(a)
        if got != wanted:
            sys.exit(f'{path} {a:#x}:\na2l {got}\nbut the file shows {wanted}')
        named += sum(frame[0] != '??' for frame in got)
        frames += len(got)
        inlined += len(got) - 1
    count += len(asked)
    assert named > 0, path
    print(f'{os.path.basename(path)}: {len(asked)} addresses, {named} names', flush=True)
print(f'{count} answers of {frames} frames agree with readelf and llvm-dwarfdump, {inlined} of them callers of inlined functions')
END_PY
python3 compare.py "$here/tests" "$a2l" "${programs[@]}" "$@"
