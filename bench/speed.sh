#!/usr/bin/env bash
# How long `a2l --units` takes on a large program, beside reading the file and beside readelf. It builds the
# program of as many C++ units as its word says (60 without), which takes some minutes. Run it after `rt run`
# in crates/a2l has built a2l. It prints times and ratios of one run, and tests nothing.
. "$(dirname "$0")/../tests/programs.sh"
need_a2l
write_large "${1:-60}"
build_units large

# the least of five times, in milliseconds
least() {
    for _ in 1 2 3 4 5; do
        start=$(date +%s%N)
        "$@" > /dev/null 2>&1
        echo $((($(date +%s%N) - start) / 1000000))
    done | sort -n | head -1
}
size=$(stat -c %s large)
info=$((16#$(objdump -h large | awk '$2 == ".debug_info" { print $3 }')))
reads=$(least dd if=large of=/dev/null bs=16M)
lists=$(least "$a2l" -e large --units)
shows=$(least readelf --wide --debug-dump=info large)
echo "a program of $((size / 1000000)) MB with $((info / 1000000)) MB of .debug_info"
echo "dd reads it in $reads ms, a2l --units takes $lists ms, readelf --debug-dump=info $shows ms"
awk -v r="$reads" -v l="$lists" -v s="$shows" 'BEGIN { printf "a2l: %.1f times dd, %.3f times readelf\n", l / (r > 0 ? r : 1), l / s }'
