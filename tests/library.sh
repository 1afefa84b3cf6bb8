#!/usr/bin/env bash
# The library for C: its only global names are those of the header, and it calls nothing but memory; the examples are
# built with warnings as errors; what they tell of a sample and of themselves is what `a2l` writes, to the byte, and so is
# why a file is refused; one address a question gives the same frames as all in one; a program that crashes tells where;
# each number that a call returns, each allocation refused in turn and four threads with a handle each, also under
# valgrind (tests/library/calls.c); the tests of the Rust crate; and what `make install` puts in place is enough for a
# program. Run it after `make library` and after `rt run` in crates/a2l has built the program.
. "$(dirname "$0")/programs.sh"
need_a2l
flags=(-std=gnu11 -O2 -gdwarf-5 -Wall -Wextra -Wpedantic -Werror)

need_library library shared
library=$here/out/liba2l.a

# The global names of the library, and those that it wants of others.
names=$(nm -g --defined-only "$library" | awk 'NF == 3 { print $3 }' | sort)
declared=$(grep -oE '\ba2l_[a-z_]+\(' "$here/include/a2l.h" | tr -d '(' | sort -u)
[ "$names" = "$declared" ] || { echo "the library has other names than the header: $names"; exit 1; }
wanted=$(nm -u "$library" | awk 'NF == 2 { print $2 }' | sort | tr '\n' ' ')
for name in $wanted; do
    case $name in
    malloc | realloc | free | memcpy | memmove | memset | memcmp | bcmp | strlen) ;;
    *) echo "the library calls $name"; exit 1 ;;
    esac
done

make -s -C "$here/examples" OUT="$work/out" "$work/out/addresses" "$work/out/crash" "$work/out/frames" > make.log 2>&1 ||
    { cat make.log; exit 1; }

# a2l_file.h is taken by each standard of C and C++ that its users may have, and waits for no pipe.
cat > map.c << 'END_C'
#include <stdio.h>
#include "a2l_file.h"
int main(int count, char **words)
{
    a2l_file file;
    errno = 0;
    if (count == 2 && a2l_file_map(words[1], &file))
        a2l_file_unmap(&file);
    printf("%d\n", errno == EINVAL ? 1 : errno == EISDIR ? 2 : errno == 0 ? 0 : 3);
    return 0;
}
END_C
mkfifo fifo
for standard in c11 c17 gnu11 c++11; do
    language=c
    [ "${standard#c++}" = "$standard" ] || language=c++
    "${CC:-cc}" -x $language -std=$standard -Wall -Wextra -Wpedantic -Werror -I"$here/include" -o map map.c ||
        { echo "a2l_file.h: $standard"; exit 1; }
    [ "$(timeout 10 ./map fifo; ./map "$work"; ./map map.c)" = "$(printf '1\n2\n0')" ] ||
        { echo "a2l_file.h, by $standard: another outcome for a pipe, a folder or a file"; exit 1; }
done

# The addresses of .text of a file, every so many of them.
addresses_of() {
    local begin size
    read -r begin size < <(readelf -SW "$1" | sed -n 's/^.* \.text  *PROGBITS  *\([0-9a-f]*\) [0-9a-f]* \([0-9a-f]*\) .*$/\1 \2/p')
    seq $((16#$begin)) "$2" $((16#$begin + 16#$size)) | xargs printf '%x\n'
}

# What the example prints of a file is what the program writes.
compare() {
    "$a2l" -e "$1" -f -i -a < "$2" > wanted || [ $? = 1 ]
    "$work/out/addresses" "$1" < "$2" > found
    cmp wanted found || { echo "other frames of $1"; exit 1; }
    compared=$((compared + $(wc -l < "$2")))
}

compared=0
seq $((0x400ff0)) $((0x401030)) | xargs printf '%x\n' > sample.list
compare "$here/samples/inlined.elf" sample.list
for program in addresses crash; do
    addresses_of "$work/out/$program" 7 > "$program.list"
    compare "$work/out/$program" "$program.list"
done
"${CC:-cc}" "${flags[@]}" -I"$here/include" -o calls "$here/tests/library/calls.c" "$library" \
    -Wl,--wrap=malloc,--wrap=realloc -pthread
addresses_of calls 7 > calls.list
compare calls calls.list
[ "$("$work/out/frames" "$here/samples/inlined.elf" 401004 | head -n 1)" = "leaf at /w/a.c:4" ] || { echo "C++: other frames"; exit 1; }

# 10,000 addresses of a program in C++, all in one question, one a question of one handle, and one a question of a handle
# that has read no unit: the same bytes. How long each way takes is printed.
"${CC:-cc}" "${flags[@]}" -I"$here/include" -o asks "$here/bench/library/a2l.c" "$library"
addresses_of "$work/out/frames" 1 |
    awk 'BEGIN { srand(1) } { lines[NR] = $0 } END { for (i = 0; i < 10000; i++) print lines[1 + int(NR * rand())] }' > asks.list
declare -A took
for way in all each anew; do
    begin=$EPOCHREALTIME
    ./asks "$work/out/frames" "$way" < asks.list > "asks.$way"
    took[$way]=$(awk -v begin="$begin" -v end="$EPOCHREALTIME" 'BEGIN { print end - begin }')
    cmp asks.all "asks.$way" || { echo "other frames, one address a question: $way"; exit 1; }
done
[ -s asks.all ] || { echo "no frames of 10,000 addresses"; exit 1; }
ways=$(awk -v all="${took[all]}" -v each="${took[each]}" -v anew="${took[anew]}" 'BEGIN {
    printf "one a question takes %.1f times as long as all in one, and a unit read for each %.0f times", each / all, anew / all }')

# A file that is cut, one without bytes, and a folder.
refused=0
: > empty
for n in 0 1 63 64 200 400 600 685; do
    head -c "$n" "$here/samples/inlined.elf" > cut.elf
    "$a2l" -e cut.elf 401004 2> wanted && { echo "a file of $n bytes is accepted"; exit 1; }
    "$work/out/addresses" cut.elf 401004 2> found && { echo "a file of $n bytes is accepted"; exit 1; }
    sed -i 's/^a2l: //' wanted
    cmp wanted found || { echo "another refusal of $n bytes"; exit 1; }
    refused=$((refused + 1))
done
"$work/out/addresses" "$work" 401004 2> found && { echo "a folder is accepted"; exit 1; }
grep -q 'Is a directory' found || { echo "a folder: $(cat found)"; exit 1; }

# A program that crashes tells in which functions it stands, and the signal has its way.
(ulimit -c 0; "$work/out/crash" > found 2> /dev/null) && { echo "the program doesn't crash"; exit 1; }
[ "$(sed -n '1p;3p;5p' found | tr '\n' ' ')" = "store crash main " ] || { echo "a crash: $(cat found)"; exit 1; }
[ "$(grep -c "crash.c:[0-9]" found)" = 3 ] || { echo "a crash: $(cat found)"; exit 1; }

# The calls, on the sample and on the program itself.
main=$(nm calls | awk '$3 == "test_numbers" || $3 == "main" { print $1 }' | head -n 1)
calls=$(./calls "$here/samples/inlined.elf" 401004)
./calls calls "$main" > own
if has "the calls under valgrind" valgrind; then
    for words in "$here/samples/inlined.elf 401004" "calls $main"; do
        # shellcheck disable=SC2086
        valgrind -q --leak-check=full --show-leak-kinds=all --errors-for-leak-kinds=all --error-exitcode=9 \
            ./calls $words > under 2>&1 || { cat under; exit 1; }
    done
    valgrind -q --leak-check=full --error-exitcode=9 "$work/out/addresses" "$here/samples/inlined.elf" 401004 > under 2>&1 ||
        { cat under; exit 1; }
fi

if has_crates "the Rust crate"; then
    A2L_LIB_DIR=$here/out CARGO_TARGET_DIR=$work/target "$here/rust/cargo.sh" test --quiet --package a2l \
        > cargo.log 2>&1 || { cat cargo.log; exit 1; }
fi

# What is installed is enough for a program.
make -s -C "$here" install-files DESTDIR="$work/root" PREFIX=/opt/a2l PROGRAM="$a2l" > make.log 2>&1 || { cat make.log; exit 1; }
for file in bin/a2l lib/liba2l.a lib/pkgconfig/a2l.pc include/a2l.h include/a2l_file.h share/man/man1/a2l.1 \
    share/man/man3/liba2l.3 lib/a2l/python/a2l/__init__.py lib/a2l/python/a2l/__main__.py lib/a2l/python/a2l/liba2l.so; do
    [ -s "$work/root/opt/a2l/$file" ] || { echo "not installed: $file"; exit 1; }
done
[ "$(find "$work/root" -type f | wc -l)" = 11 ] || { echo "more is installed"; exit 1; }
"${CC:-cc}" "${flags[@]}" -I"$work/root/opt/a2l/include" -I"$here/examples" -o installed "$here/examples/addresses.c" \
    -L"$work/root/opt/a2l/lib" -la2l
./installed "$here/samples/inlined.elf" 401004 > found
grep -q '^leaf$' found || { echo "the installed library: $(cat found)"; exit 1; }

echo "frames of $compared addresses and $refused refusals agree; $calls; $ways"
