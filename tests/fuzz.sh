#!/usr/bin/env bash
# Damages files by their structure, and compares all that a2l writes of each, its listing and its answers, byte for
# byte and with the status, with what a model in Python does (tests/model, made from docs/MEANING.md; it reads the
# bytes itself). What is damaged are the samples, small programs of the compilers that are here, and files that are
# made at random: numbers, lengths, offsets, forms, LEB128 numbers and texts are changed, exchanged, dropped and
# doubled, units and sections too, and files are cut (tests/fuzz). Words: how many files (2,000 without a word), and a
# seed (a new one without a word), which is printed; the same seed gives the same files, where the compilers are the
# same. It runs on all processors that it may use. Run it after `rt run` in crates/a2l has built the program. It needs
# python3. Its last line counts the files that were answered, refused, and had a fault. It fails where a file differs,
# or where one of the three is less than a tenth; it keeps a file that differs, and prints what was damaged and what
# both wrote.
kept=${TMPDIR:-/tmp}
# where there is a file system in memory, files are written there
if [ -w /dev/shm ]; then export TMPDIR=/dev/shm; fi
. "$(dirname "$0")/programs.sh"
need_a2l
count=${1:-2000}
seed=${2:-$(od -An -N4 -tu4 /dev/urandom | tr -d ' ')}
echo "$count files of seed $seed"

cat > small.c <<'END_C'
static inline int twice(int x) { return x > 5 ? x + x : x * 3; }
static inline __attribute__((always_inline)) int deep(int x) { return twice(x) + 1; }
__attribute__((cold)) int rare(int x) { return deep(x) * 7; }
int each(int x) {
    int sum = 0;
    for (int i = 0; i < x; i++) {
        sum += twice(i);
        if (sum & 1) sum += rare(sum);
    }
    return deep(sum);
}
int other(int);
int _start(int a) { return each(a) + other(a); }
END_C
cat > other.c <<'END_C'
static inline int thrice(int x) { return 3 * x; }
int other(int x) { return thrice(x) + x; }
END_C
cat > small.cc <<'END_CC'
namespace shapes {
struct Shape { virtual int size() const; };
template <int n> struct Sum { static inline int of(int x) { return x % n ? Sum<n - 1>::of(x / 2) : n; } };
template <> struct Sum<0> { static inline int of(int x) { return x; } };
int Shape::size() const { return Sum<3>::of(reinterpret_cast<long>(this) & 0xff); }
}
extern "C" int _start(shapes::Shape *shape) { return shape->size() + shapes::Sum<2>::of(7); }
END_CC
cat > small.rs <<'END_RS'
#![no_std]
#![no_main]
#[panic_handler]
fn panic(_: &core::panic::PanicInfo) -> ! { loop {} }
trait Shape { fn size(&self) -> usize; }
struct Big(usize);
impl Shape for Big { #[inline(always)] fn size(&self) -> usize { self.0.wrapping_mul(3) } }
#[inline(always)]
fn total(shapes: &[Big]) -> usize {
    let mut sum = 0usize;
    for shape in shapes { sum = sum.wrapping_add(shape.size()); }
    sum
}
#[no_mangle]
pub extern "C" fn _start(a: usize) -> usize { total(&[Big(a), Big(a ^ 5)]) }
END_RS

programs=()
# the program that a command makes; its first word is the program's name
add() {
    local name=$1
    shift
    if "$@" -o "$name" 2> log; then programs+=("$name"); else echo "not built here: $*"; fi
}
alone='-nostdlib -static'
for cc in gcc clang; do
    has "programs of $cc" $cc || continue
    for level in 0 2; do add $cc-O$level $cc -g -gdwarf-5 -O$level $alone small.c other.c; done
    add $cc-parts $cc -g -gdwarf-5 -O2 -ffunction-sections -Wl,--gc-sections $alone small.c other.c
    add $cc-split $cc -g -gdwarf-5 -O2 -gsplit-dwarf $alone small.c other.c
    add $cc-wide $cc -g -gdwarf-5 -gdwarf64 -O2 $alone small.c other.c
    $cc -g -gdwarf-5 -gdwarf64 -O2 -c other.c -o other64.o
    add $cc-both $cc -g -gdwarf-5 -O2 $alone small.c other64.o
    $cc -g -gdwarf-4 -O2 -c other.c -o other4.o
    add $cc-mixed $cc -g -gdwarf-5 -O2 $alone small.c other4.o
done
for cc in g++ clang++; do
    has "programs of $cc" $cc || continue
    add $cc-O2 $cc -g -gdwarf-5 -O2 -fno-rtti $alone small.cc
    add $cc-types $cc -g -gdwarf-5 -O2 -fno-rtti -fdebug-types-section $alone small.cc
done
if has "programs of rustc" rustc; then
    rust='-g -C dwarf-version=5 -C panic=abort -C link-arg=-nostdlib -C link-arg=-static -C relocation-model=static'
    for level in 0 2; do add rustc-O$level rustc $rust -C opt-level=$level small.rs; done
fi
python3 "$here/tests/fuzz" "$a2l" "$here/samples" "$count" "$seed" "$kept" "${programs[@]}"
