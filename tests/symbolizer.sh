#!/usr/bin/env bash
# What must not break a conversation with a2l-symbolizer: lines and files of all kinds, files that
# change while they are open, 10,000 of them in one conversation, names with line breaks, a client
# that ends (tests/symbolizer); and lines drawn from the grammar and from noise, as many as the word
# says (100,000 without), in lockstep, of which each reply is framed as its kind demands and, where
# llvm-symbolizer 19 is here, each of 10,000 is its reply to the byte, or differs for a reason that the
# file bears out (tests/clients/noise.py). The second word is the seed of the lines, a new one without;
# it is printed. Then 2,000 damaged relocatable files in both protocols (tests/clients/damaged.py), and
# what `make install` puts in place, and its removal.
. "$(dirname "$0")/programs.sh"
need_symbolizer
count=${1:-100000} seed=${2:-$RANDOM}
export A2L_SYMBOLIZER=$symbolizer A2L_SAMPLE=$here/samples/inlined.elf
python3 -m unittest discover -s "$here/tests/symbolizer" > tests.log 2>&1 || { cat tests.log; exit 1; }
sed -n 's/^.*skipped .\(.*\)./skipped, \1/p' tests.log

write_sources
gcc -g -gdwarf-5 -O1 calls.c other.c -o calls
tool=("$symbolizer" --as=llvm-symbolizer --demangle --inlines)
echo "seed $seed"
python3 "$here/tests/clients/noise.py" "$count" "$seed" "$work/calls" "${tool[@]}" > noise.log || {
    cat noise.log
    exit 1
}
tail -n 1 noise.log
if has "the same lines beside llvm-symbolizer" llvm-symbolizer-19; then
    python3 "$here/tests/clients/noise.py" 10000 "$seed" "$work/calls" "${tool[@]}" -- \
        llvm-symbolizer-19 --demangle --inlines > peer.log || { cat peer.log; exit 1; }
    tail -n 1 peer.log
fi

# Damaged relocatable files, with relocations among what is damaged.
objects=()
for flags in "-gdwarf-5 -O2 -ffunction-sections" "-gdwarf-4 -O2" "-m32 -gdwarf-5 -O2" "-gdwarf-5 -O0 -gz=zlib"; do
    # shellcheck disable=SC2086
    if gcc -g $flags -c calls.c -o "object${#objects[@]}.o" 2> log; then objects+=("$work/object${#objects[@]}.o"); fi
done
if has "damaged objects of RISC-V" clang-19; then
    clang-19 --target=riscv64-linux-gnu -g -gdwarf-5 -O2 -c other.c -o riscv.o
    objects+=("$work/riscv.o")
fi
python3 "$here/tests/clients/damaged.py" 2000 "$seed" "$symbolizer" "${objects[@]}" > damaged.log || {
    cat damaged.log
    exit 1
}
tail -n 1 damaged.log

# What is installed speaks as its names say, and its removal leaves nothing.
make -s -C "$here" install-symbolizer DESTDIR="$work/root" PREFIX=/opt/a2l SYMBOLIZER="$symbolizer" > make.log 2>&1 || {
    cat make.log
    exit 1
}
installed=$work/root/opt/a2l
for name in bin/llvm-symbolizer-a2l lib/a2l/tools/llvm-symbolizer; do
    found=$("$installed/$name" -e "$A2L_SAMPLE" 0x401004 | tr '\n' ' ')
    [ "$found" = "leaf /w/a.c:4:0 mid /w/a.c:30:0 main /w/z.c:20:7  " ] || { echo "$name: $found"; exit 1; }
done
found=$("$installed/lib/a2l/tools/addr2line" -fi -e "$A2L_SAMPLE" 401004 | tr '\n' ' ')
[ "$found" = "leaf /w/a.c:4 mid /w/a.c:30 main /w/z.c:20 " ] || { echo "addr2line: $found"; exit 1; }
make -s -C "$here" uninstall DESTDIR="$work/root" PREFIX=/opt/a2l > make.log 2>&1 || { cat make.log; exit 1; }
left=$(find "$work/root" ! -type d)
[ -z "$left" ] || { echo "left behind: $left"; exit 1; }

echo "$(grep -oE 'Ran [0-9]+ tests' tests.log) and $count lines in lockstep"
