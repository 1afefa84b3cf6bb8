#!/usr/bin/env bash
# Refuses the Nth allocation, for N from 1 on, in each test named `each_allocation_refused`, until it passes without a
# refusal. It has to pass each time. The words are crates; without any they are the crates of tests. Run it after
# `rt test` in each of these has built its tests.
. "$(dirname "$0")/programs.sh"
[ $# -gt 0 ] || set -- reader_tests answer_tests board_tests
build_refuser

# Refuses each allocation of a test in turn: the built tests of a crate, and its name.
refuse() {
    local n=0
    while :; do
        n=$((n + 1))
        rm -f mark
        timeout 60 env REFUSE=$n MARK=$work/mark LD_PRELOAD=$work/refuse.so "$1" "$2" > log 2>&1 \
            || { echo "$2: fails where allocation $n is refused"; cat log; exit 1; }
        [ -e mark ] || break
    done
    echo "$2: $((n - 1)) allocations refused in turn"
}

for crate in "$@"; do
    tests=$here/crates/$crate/out/${crate}_tests
    [ -x "$tests" ] || { echo "build the tests first: cd crates/$crate && rt test"; exit 1; }
    names=$("$tests" --list | grep -o '[a-z_:]*each_allocation_refused') || { echo "$crate: no such test"; exit 1; }
    for name in $names; do refuse "$tests" "$name"; done
done
