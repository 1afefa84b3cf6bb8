#!/usr/bin/env bash
# Compares the answers of a2l with those of GNU addr2line and llvm-symbolizer on programs of this machine's
# compilers: C, C++ and Rust, at -O0 and -O2, of the 32-bit and the 64-bit format, and linked in many ways. Of each program it asks addresses at which
# rows begin, random ones in its code and some outside, for functions, files, lines and inlined callers. Each
# difference has to have a reason of tests/reasons.py, which the file itself bears out; and each answer has to be
# the one that readelf and llvm-dwarfdump show by tests/answers.py. Further programs may be named as words. Run it
# after `rt run` in crates/a2l has built a2l. It needs python3 and LLVM's tools, and says which compilers it lacks.
# It lists the reasons with their counts; it fails at a difference without one. It takes some minutes.
. "$(dirname "$0")/programs.sh"
need_a2l
write_sources
cat > twiced.s <<'END_S'
    .text
    .globl twiced
    .type twiced, @function
twiced:
    lea (%rdi,%rdi), %eax
    ret
    .size twiced, .-twiced
    .section .note.GNU-stack, "", @progbits
END_S

programs=()
# the program that a command makes; its first word is the program's name
add() {
    local name=$1
    shift
    if "$@" -o "$name" 2> log; then programs+=("$name"); else echo "skipped, not built here: $*"; fi
}
c='calls.c other.c'
five='-g -gdwarf-5'
for cc in gcc clang; do
    has "programs of $cc" "$cc" || continue
    add $cc-O0 $cc $five -O0 $c
    add $cc-O2 $cc $five -O2 $c
    add $cc-dropped $cc $five -O2 -ffunction-sections -Wl,--gc-sections $c
    add $cc-lld $cc $five -O2 -fuse-ld=lld -ffunction-sections -Wl,--gc-sections $c
    add $cc-gold $cc $five -O2 -fuse-ld=gold -ffunction-sections -Wl,--gc-sections,--icf=all $c
    add $cc-fixed $cc $five -O2 -no-pie $c
    add $cc-static $cc $five -O2 -static $c
    add $cc-shared $cc $five -O2 -shared -fPIC $c
    add $cc-split $cc $five -O2 -gsplit-dwarf $c
    add $cc-few $cc -g1 -gdwarf-5 -O2 $c
    $cc $five -O2 -c calls.c -o calls5.o
    $cc -g -gdwarf-4 -O2 -c other.c -o other4.o
    $cc -g -gdwarf-5 -c twiced.s -o twiced.o
    add $cc-mixed $cc calls5.o other4.o twiced.o
done
for cc in gcc clang; do
    has "the 64-bit format of $cc" "$cc" || continue
    for level in 0 2; do
        add $cc-wide-O$level $cc $five -gdwarf64 -O$level $c
        $cc $five -gdwarf64 -O$level -c calls.c -o $cc-wide-O$level.o
        $cc $five -O$level -c other.c -o $cc-narrow-O$level.o
    done
done
if has "both formats in one program" gcc clang; then
    for level in 0 2; do
        add gcc-and-clang-O$level gcc gcc-wide-O$level.o clang-narrow-O$level.o
        add clang-and-gcc-O$level clang clang-wide-O$level.o gcc-narrow-O$level.o
    done
fi
if has "link-time optimization of gcc" gcc; then add gcc-lto gcc $five -O2 -flto $c; fi
if has "link-time optimization of clang" clang ld.lld; then add clang-lto clang $five -O2 -flto -fuse-ld=lld $c; fi
if has "a range for each block" clang++ ld.lld; then add clang++-blocks clang++ $five -O2 -fbasic-block-sections=all -fuse-ld=lld sizes.cc; fi
for cc in g++ clang++; do
    has "programs of $cc" "$cc" || continue
    add $cc-O0 $cc $five -O0 sizes.cc
    add $cc-O2 $cc $five -O2 sizes.cc
    add $cc-parts $cc $five -O2 -ffunction-sections -Wl,--gc-sections sizes.cc
    add $cc-types $cc $five -O2 -fdebug-types-section sizes.cc
    add $cc-wide $cc $five -gdwarf64 -O2 sizes.cc
done
if has "templates of many units" g++; then
    write_large 2
    build_units g++-units
    programs+=(g++-units)
    if has "partial units, and a supplementary file" dwz; then
        cp g++-units dwz-units
        dwz dwz-units
        readelf --wide --debug-dump=info dwz-units | grep DW_TAG_partial_unit > log || { echo "dwz made no partial unit"; exit 1; }
        cp g++-units dwz-one
        cp g++-O2 dwz-other
        dwz -m dwz-common dwz-one dwz-other
        programs+=(dwz-units dwz-one)
    fi
fi
if has "programs of rustc" rustc; then
    for level in 0 2; do add rustc-O$level rustc -g -C dwarf-version=5 -C opt-level=$level words.rs; done
    add rustc-lto rustc -g -C dwarf-version=5 -C opt-level=3 -C lto=fat words.rs
    add rustc-lines rustc -C debuginfo=line-tables-only -C dwarf-version=5 -C opt-level=2 words.rs
fi
if has "the C library, and a compressed program" gcc; then
    # the C library's debug information stands in a file of its own, where it is installed
    id=$(readelf --notes "$(gcc -print-file-name=libc.so.6)" | sed -n 's/.*Build ID: //p')
    debug=/usr/lib/debug/.build-id/${id:0:2}/${id:2}.debug
    if [ -e "$debug" ]; then
        objcopy --decompress-debug-sections "$debug" library.debug 2> log
        programs+=(library.debug)
    else
        echo "skipped, its debug information isn't installed: the C library"
    fi
    gcc $five -gz=zlib $c -o compressed
    if "$a2l" -e compressed 0 > got 2> told; then echo "a compressed program is accepted"; exit 1; fi
    [ "$(cat told)" = "a2l: file refused: 6 Compressed .debug_info" ] || { cat told; exit 1; }
fi
for word in "$a2l" "$@"; do
    if readelf --wide --section-headers "$word" 2> /dev/null | grep ' \.debug_info ' > log; then programs+=("$word"); fi
done

cat > compare.py <<'END_PY'
import collections, os, random, sys
sys.path.insert(0, sys.argv[1])
import answers, reasons

def addresses(program):
    random.seed(program.path)
    at = {a for table in program.tables.values() for starts, _ in table.sequences for a in starts}
    asked = set(random.sample(sorted(at), min(len(at), 2000)))
    size = sum(end - begin for begin, end in program.code)
    for begin, end in program.code:
        asked.update(random.randrange(begin, end) for _ in range(1 + 1000 * (end - begin) // size))
    asked.update(random.randrange(2 ** 22) for _ in range(50))
    return sorted(asked | {0, 1, 2 ** 63, 2 ** 64 - 1})

unknown, totals, same = 0, {'gnu': collections.Counter(), 'llvm': collections.Counter()}, collections.Counter()
for path in sys.argv[3:]:
    program = answers.Program(path)
    asked = addresses(program)
    program.ask(asked)
    ours = answers.a2l(sys.argv[2], path, asked)
    shown = [program.frames(a) for a in asked]
    for a, mine, other in zip(asked, ours, shown):
        if mine != other:
            unknown += 1
            print(f'{path} {a:#x}: a2l {mine}, but the file shows {other}')
    told = []
    for peer, ask in (('gnu', answers.gnu), ('llvm', answers.llvm)):
        of_program, alike = collections.Counter(), 0
        for a, mine, theirs in zip(asked, ours, ask(path, asked)):
            why = [] if mine == theirs else reasons.reasons(peer, program, a, mine, theirs)
            if mine == theirs:
                alike += 1
            elif not why:
                unknown += 1
                if unknown <= 20:
                    print(f'{path} {a:#x}: a2l {mine}, but {peer} {theirs}')
            of_program.update(set(why))
        totals[peer] += of_program
        same[peer] += alike
        told.append(f'{peer} {alike} alike')
    same['asked'] += len(asked)
    print(f'{os.path.basename(path)}: {len(asked)} addresses, {", ".join(told)}', flush=True)
for peer in totals:
    print(f'\n{peer}: {same[peer]} of {same["asked"]} answers alike; of the others (some for two reasons)')
    for why, count in totals[peer].most_common():
        print(f'{count:7} {why}: {reasons.SAID[why]}')
print()
if unknown:
    sys.exit(f'{unknown} differences without a reason')
print(f'{same["asked"]} answers are those that readelf and llvm-dwarfdump show; no difference without a reason')
END_PY
python3 compare.py "$here/tests" "$a2l" "${programs[@]}"
