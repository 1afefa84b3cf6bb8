#!/usr/bin/env bash
# How the time of the core grows with its queries: runs the tests of 50,000 and of 100,000 queries, five
# times each, and prints the quicker time of each and their ratio, which is about 2. Run it after `rt test`
# in crates/board_tests has built the tests.
set -euo pipefail
here=$(cd "$(dirname "$0")/.." && pwd)
tests=$here/crates/board_tests/out/board_tests_tests
[ -x "$tests" ] || { echo "build the tests first: cd crates/board_tests && rt test"; exit 1; }

# the least of five times, in microseconds
quickest() {
    local least=
    for _ in 1 2 3 4 5; do
        local begin end
        begin=$(date +%s%N)
        "$tests" "$1" > /dev/null
        end=$(date +%s%N)
        local time=$(((end - begin) / 1000))
        if [ -z "$least" ] || [ "$time" -lt "$least" ]; then least=$time; fi
    done
    echo "$least"
}

half=$(quickest runs::fifty_thousand_queries)
whole=$(quickest runs::a_hundred_thousand_queries)
echo "50000 queries: $half us, 100000 queries: $whole us, ratio $(awk "BEGIN { printf \"%.2f\", $whole / $half }")"
