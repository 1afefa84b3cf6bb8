#!/usr/bin/env bash
# Asks a2l_why about programs that are built here, of which each has something that puzzles users: units of older
# versions, split, compressed, wide or stripped debug information, functions that a linker dropped, and damages of single
# fields. The finding, its counts, its places and its remedy have to be what readelf and the builds say. Then it asks
# 1,000 random addresses of each of some larger programs: the last lines of each have to be what a2l -f -i writes. At
# last it asks damaged files (tests/fuzz), each of which has to end with a report or a refusal, and with a2l's status
# where that is a refusal. Words: how many damaged files (300 without a word), and a seed (a new one without a word).
# Run it after `rt run` in crates/a2l and in crates/a2l_why has built both. It needs python3, gcc and readelf, and says
# which compilers and linkers it lacks. Its last line counts findings, addresses and files.
. "$(dirname "$0")/programs.sh"
need_a2l
why=${A2L_WHY:-$here/crates/a2l_why/out/a2l_why}
[ -x "$why" ] || { echo "skipped, a2l_why is not built: cd crates/a2l_why && rt run"; exit 0; }
count=${1:-300}
seed=${2:-$(od -An -N4 -tu4 /dev/urandom | tr -d ' ')}
echo "$count damaged files of seed $seed"
write_sources
five='-g -gdwarf-5 -O1'

for cc in gcc clang; do
    has "programs of $cc" $cc || continue
    $cc $five calls.c other.c -o $cc-clean
    $cc -g -gdwarf-4 -O1 calls.c other.c -o $cc-old
    $cc $five -c calls.c -o $cc-calls.o
    $cc -g -gdwarf-4 -O1 -c other.c -o $cc-other4.o
    $cc $cc-calls.o $cc-other4.o -o $cc-mixed
    $cc $five -gdwarf64 calls.c other.c -o $cc-wide
    $cc $five -gsplit-dwarf calls.c other.c -o $cc-split
    $cc $five -gz calls.c other.c -o $cc-compressed
    $cc -g -gdwarf-4 -gdwarf64 -O1 calls.c other.c -o $cc-wide4
done
objcopy --decompress-debug-sections gcc-compressed gcc-decompressed
if has 'type units' g++; then g++ $five -fdebug-types-section sizes.cc -o types; fi

# a program and its debug information in two files, with a link and without
gcc $five -Wl,--build-id calls.c other.c -o pair
objcopy --only-keep-debug pair pair.debug
strip -g pair -o pair.stripped
objcopy --add-gnu-debuglink=pair.debug pair.stripped pair.linked
gcc -Wl,--build-id=none calls.c other.c -o pair.bare

# a function of 12 KB that the linker drops, so that its range begins at 0 and lies over the code of a program that
# begins there: in the unit of that code, and in a unit before it
cat > kept.c <<'END_C'
void dropped(void);
#ifdef BEFORE
void dropped(void) { __asm__(".skip 12288"); }
#endif
__attribute__((noinline)) int first(int x) { return x * 7 + 1; }
__attribute__((noinline)) int second(int x) { return first(x) - x; }
int main(int argc, char **argv) { return second(argc) + !argv; }
#ifdef BEHIND
void dropped(void) { __asm__(".skip 12288"); }
#endif
END_C
echo 'void dropped(void) { __asm__(".skip 12288"); }' > dropped.c
pie="$five -fPIE -pie -ffunction-sections -Wl,--gc-sections"
# gcc tells functions from the last one to the first
gcc $pie -DBEHIND kept.c -o dropped-one
gcc $pie dropped.c kept.c -o dropped-two
gcc $pie -no-pie dropped.c kept.c -o dropped-fixed
if has 'programs of lld' ld.lld clang; then
    clang $pie -fuse-ld=lld -DBEFORE kept.c -o dropped-lld
    clang $pie -fuse-ld=lld -Wl,-z,dead-reloc-in-nonalloc='.debug_*=0xffffffffffffffff' -DBEFORE kept.c -o dropped-marked
fi

# units by hand: one without ranges, and one whose names stand in a supplementary file
cat > unit.s <<'END_S'
        .section .note.GNU-stack,"",@progbits
        .text
        .globl hand
hand:   nop
        ret
hand_end:
        .section .debug_abbrev,"",@progbits
        .uleb128 1
        .uleb128 0x11
        .byte 1
        .uleb128 0x03, NAME_FORM, 0, 0
        .uleb128 2
        .uleb128 0x2e
        .byte 0
        .uleb128 0x11, 0x01, 0x12, 0x07, 0, 0
        .byte 0
        .section .debug_info,"",@progbits
        .long unit_end - unit_begin
unit_begin:
        .short 5
        .byte 1, 8
        .long .debug_abbrev
        .uleb128 1
        NAME
        .uleb128 2
        .quad hand, hand_end - hand
        .byte 0
unit_end:
        .section .gnu_debugaltlink,"",@progbits
        .string "hand.sup"
END_S
sed 's/NAME_FORM/0x08/; s/^ *NAME$/.string "hand.c"/' unit.s > without.s
sed 's/NAME_FORM/0x1f21/; s/^ *NAME$/.long 0/' unit.s > supplied.s
echo 'int main(void) { return 0; }' > bare.c
gcc -c bare.c -o bare.o
for name in without supplied; do
    gcc -c $name.s -o $name.o
    gcc bare.o $name.o -o $name
done
if has 'a supplementary file of dwz' dwz; then
    cp gcc-clean dwz-one
    cp gcc-clean dwz-three
    dwz -5 -m dwz.sup dwz-one dwz-three || rm -f dwz-one
fi

ar rc library.a gcc-calls.o
echo '#!/bin/sh' > script
gcc -g -gdwarf-5 -gdwarf64 -O1 $(python3 - <<'END_PY'
import random
draw = random.Random(1)
for file in range(6):
    with open(f'large{file}.c', 'w') as out:
        out.write('extern int sink;\nstatic inline int small(int x) { return x * 3 + sink; }\n')
        for n in range(100):
            out.write(f'int f{file}_{n}(int x) {{\n    int y = small(x);\n    for (int i = 0; i < x; i++)\n'
                      f'        y += small(i) % {draw.randrange(2, 99)};\n    return y;\n}}\n')
        if file == 0:
            out.write('int sink;\nint main(void) { return f0_1(3); }\n')
    print(f'large{file}.c')
END_PY
) -o large-wide
gcc -g -gdwarf-5 -O1 large*.c -o large
larger=(large large-wide gcc-mixed dropped-two)
if command -v g++ > /dev/null; then g++ -g -gdwarf-5 -O2 sizes.cc -o sizes-gcc && larger+=(sizes-gcc); fi
if command -v clang++ > /dev/null; then clang++ -g -gdwarf-5 -O1 sizes.cc -o sizes-clang && larger+=(sizes-clang); fi
if command -v rustc > /dev/null; then rustc -g -C dwarf-version=5 words.rs -o words-rust && larger+=(words-rust); fi
python3 "$here/tests/why.py" "$a2l" "$why" "$here/samples" "$count" "$seed" "${larger[@]}"
