#!/usr/bin/env bash
# How long liba2l takes, and how much memory, beside libdw of elfutils and gcc's libbacktrace: one address of a program, and
# 10,000 in order and in random order, also one a question. A run that takes more than 60 seconds is ended, and told as
# such. The word is the path of a program or library with DWARF 5 that isn't compressed; it has to stand at the addresses
# that it names. Each task is run three times, and the least time counts. It says which
# libraries are missing (libdw-dev, and a gcc with its libbacktrace), prints a table and tests nothing. Run it after
# `make library`.
. "$(dirname "$0")/../tests/programs.sh"
program=${1:?the path of a program}
"${CC:-cc}" -O2 -I"$here/include" -o a2l "$here/bench/library/a2l.c" "$here/out/liba2l.a"
"${CC:-cc}" -O2 -no-pie -o backtrace "$here/bench/library/backtrace.c" -lbacktrace 2> log || echo "no libbacktrace here"
# shellcheck disable=SC2086
"${CC:-cc}" -O2 ${DW_FLAGS:-} -o dw "$here/bench/library/dw.c" ${DW_LIBRARY:--ldw} 2> log || echo "no libdw here"
read -r begin size < <(readelf -SW "$program" | sed -n 's/^.* \.text  *PROGBITS  *\([0-9a-f]*\) [0-9a-f]* \([0-9a-f]*\) .*$/\1 \2/p')
python3 - "$begin" "$size" << 'END'
import random
import sys
begin, size = (int(word, 16) for word in sys.argv[1:])
draws = random.Random(1)
addresses = [begin + draws.randrange(size) for _ in range(10000)]
for name, some in (('one', addresses[:1]), ('in-order', sorted(addresses)), ('at-random', addresses)):
    with open(name, 'w', encoding='ascii') as file:
        file.writelines(f'{address:x}\n' for address in some)
END
# A task of a tool: its name, the input, and the command.
measure() {
    for _ in 1 2 3; do
        timeout 60 /usr/bin/time -q -f '%U %S %M' -o time "${@:3}" < "$2" > output || { echo "$1: more than 60 s" >&2; break; }
        cat time
    done | awk -v what="$1" '{ t = $1 + $2; if (NR == 1 || t < least) least = t; if ($3 > most) most = $3 }
        END { if (NR > 0) printf "%s: %.2f s of processor time, %d MB\n", what, least, most / 1024 }'
}
for task in one in-order at-random; do
    for tool in a2l backtrace dw; do
        [ ! -x "$tool" ] || measure "$task $tool" "$task" "./$tool" "$program"
    done
done
measure 'at-random a2l, one a question' at-random ./a2l "$program" each
