#!/usr/bin/env bash
# Searches for files that a2l answers wrongly, that crash it, or that cost too much, by what they reach in the library
# for C: libFuzzer changes files by their structure (tests/coverage/mutate.c), keeps those that pass an edge of the
# program, or cost as much, as none before, and changes these again. What is asked of each, and what is wrong, stands at
# the head of tests/coverage/search.c. All that was kept is then compared with the model (tests/model): listings,
# addresses and spans, byte for byte. Words: how many seconds to search, on all processors that it may use, and a folder
# in which what is kept stays from one run to the next; with 0 seconds only the files of the folder are tried. Without a
# word it makes as many changes as take some five minutes, the same for the same library wherever it runs. Run it after
# `rt run` in crates/a2l has built the program and `rt lib` in crates/a2l_c the library. It needs clang with
# libclang-rt-14-dev, binutils and python3. A file with a finding is kept, what is wrong with it is printed, and the
# script fails. The variable A2L_COVERAGE names a folder in which the build stays, and is taken from.
kept=${TMPDIR:-/tmp}
. "$(dirname "$0")/programs.sh"
need_a2l
seconds=${1:-}
corpus=$(realpath -m "${2:-$work/corpus}")
build=$(realpath -m "${A2L_COVERAGE:-$work/build}")
most=8192
[ -f "$(clang -print-file-name=libclang_rt.fuzzer-x86_64.a)" ] ||
    { echo "skipped, no libFuzzer here (libclang-rt-14-dev)"; exit 0; }
mkdir -p "$corpus" "$build" seeds

# Compiles the module once more, with a count of each edge, and links the search to it. The library's own calls for
# memory go to the heap of the search.
build_search() {
    local kit name words
    kit=$(dirname "$(rt doc)")
    if [ ! -s "$build/module.bc" ]; then
        lay_out_toolchain "$build"
        rm -f "$here/crates/a2l_c/out/liba2l_c.a"
        (cd "$here/crates/a2l_c" && "$work/kit/bin/rt" lib)
    fi
    # without those that name the module and the object
    mapfile -t words < <(grep -vxE -e '-c|-x|ir|module\.bc|-o|module\.o|-Werror|-' "$build/words")
    [ "$build/counted.o" -nt "$build/module.bc" ] ||
        "$kit/toolchain/bin/clang" "${words[@]}" -fsanitize-coverage=inline-8bit-counters,pc-table,trace-pc-guard \
            -c -x ir "$build/module.bc" -o "$build/counted.o"
    ld -r -o "$build/library.o" "$build/counted.o" --whole-archive "$kit/c/liblibc_c.a"
    objcopy --redefine-sym malloc=heap_malloc --redefine-sym realloc=heap_realloc --redefine-sym free=heap_free \
        --redefine-sym __sanitizer_cov_trace_pc_guard=passed_edge \
        --redefine-sym __sanitizer_cov_trace_pc_guard_init=begin_edges "$build/library.o"
    for name in search heap mutate; do
        clang -std=gnu11 -O2 -g -Wall -Wextra -Werror -I"$here/include" -c "$here/tests/coverage/$name.c" -o $name.o
    done
    clang -fsanitize=fuzzer -o "$build/search" search.o heap.o mutate.o "$build/library.o"
}

build_search > build.log 2>&1 || { tail -n 20 build.log; exit 1; }
findings=$(mktemp -d "$kept/coverage-XXXXXX")
trap 'rmdir "$findings" 2> /dev/null; rm -rf "$work"' EXIT
failed=0
cores=$(nproc)
case $seconds in
'') how=(-runs=400000 -seed=1 -reload=0 -jobs=1) ;;
0) how=(-runs=0 -jobs=1) ;;
*) how=(-max_total_time="$seconds" -jobs="$cores" -workers="$cores") ;;
esac
# by their names: the order of a folder differs from one file system to another
if [ "$seconds" != 0 ]; then
    python3 "$here/tests/coverage/seeds.py" seeds "$here/samples" $most
    printf '%s,' seeds/* > seed_names
    how+=(-seed_inputs=@seed_names)
fi

# on a stack of a megabyte
(ulimit -c 0 -s 1024; "$build/search" "$corpus" "${how[@]}" -max_len=$most -timeout=600 -report_slow_units=600 \
    -rss_limit_mb=2048 -print_final_stats=1 -artifact_prefix="$findings/") > jobs.log 2>&1 || failed=1
[ -e fuzz-0.log ] || { cat jobs.log; exit 1; }
# where it was, without libFuzzer's own calls
[ $failed = 0 ] || grep -hE '^FOUND|ERROR: |^ +#[0-9]+ .* in [a-zA-Z]|Test unit written' fuzz-*.log |
    grep -vE ' in (fuzzer::|raise|abort|main )'
python3 "$here/tests/coverage/against_model.py" "$a2l" "$corpus" "$findings" || failed=1

# What the logs say: how near calls came to their limits, of which files costs are known, how often a file was tried,
# and how many edges were passed.
grep -h '^used: ' fuzz-0.log || true
cat fuzz-*.log | awk -v kept="$(find "$corpus" -type f | wc -l)" -v findings="$(find "$findings" -type f | wc -l)" '
    /^known: / { many = $2; sub(/^known: [0-9]+ /, ""); known[$0] += many }
    /^stat::number_of_executed_units: / { executions += $2 }
    match($0, /cov: [0-9]+/) { cov = substr($0, RSTART + 5, RLENGTH - 5) + 0; if (cov > edges) edges = cov }
    END {
        for (reason in known) print "not told of " known[reason] " " reason
        print executions + 0 " executions, " edges + 0 " edges, " kept " files kept, " findings " findings" }' > told
[ -z "$(ls "$findings")" ] || echo "what was found is kept; to try it again: tests/coverage.sh 0 $findings"
cat told
[ $failed = 0 ]
