#!/usr/bin/env bash
# Compares what a2l writes for whole programs, its listings and its answers, with what the model of tests/model does,
# byte for byte: programs of gcc, clang and rustc, built and linked in several ways, at every address at which a row,
# or a range of a unit or of a function, begins or ends, and the address before (of more than 2,000 it picks so many);
# and 100 spans between such addresses, and that of all addresses. The first word may say how many addresses; further
# words may name more programs. Run it after `rt run` in crates/a2l has built a2l. It needs python3, and says which
# compilers it lacks. It fails where a byte differs; its last line counts the answers.
. "$(dirname "$0")/programs.sh"
need_a2l
write_sources
most=${1:-2000}
shift || true
programs=()
# the program that a command makes; its first word is the program's name
add() {
    local name=$1
    shift
    if "$@" -o "$name" 2> log; then programs+=("$name"); else echo "not built here: $*"; fi
}
for cc in gcc clang; do
    has "programs of $cc" $cc || continue
    five='-g -gdwarf-5'
    for level in 0 2; do add $cc-O$level $cc $five -O$level calls.c other.c; done
    add $cc-dropped $cc $five -O2 -ffunction-sections -Wl,--gc-sections calls.c other.c
    add $cc-shared $cc $five -O2 -shared -fPIC calls.c other.c
    add $cc-split $cc $five -O2 -gsplit-dwarf calls.c other.c
    add $cc-few $cc -g1 -gdwarf-5 -O2 calls.c other.c
    for level in 0 2; do add $cc-wide-O$level $cc $five -gdwarf64 -O$level calls.c other.c; done
    $cc $five -gdwarf64 -O2 -c calls.c -o calls64.o
    add $cc-both $cc $five -O2 calls64.o other.c
    $cc -g -gdwarf-4 -O2 -c other.c -o other4.o
    add $cc-mixed $cc $five -O2 calls.c other4.o
done
for cc in g++ clang++; do
    has "programs of $cc" $cc || continue
    for level in 0 2; do add $cc-O$level $cc -g -gdwarf-5 -O$level sizes.cc; done
    add $cc-types $cc -g -gdwarf-5 -O2 -fdebug-types-section sizes.cc
done
if has "programs of rustc" rustc; then
    for level in 0 2; do add rustc-O$level rustc -g -C dwarf-version=5 -C opt-level=$level words.rs; done
fi
python3 "$here/tests/fuzz/whole.py" "$a2l" "$most" "${programs[@]}" "$@"
