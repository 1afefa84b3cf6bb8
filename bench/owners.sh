#!/usr/bin/env bash
# How the times of the index of least owners grow: for 1,000, 10,000 and 100,000 ranges that lie in one
# another, and that lie anyhow, prints the time in which the index is built and that in which 100,000
# addresses are looked for. Run it after `rt test` in crates/reader_tests has built the tests.
set -euo pipefail
here=$(cd "$(dirname "$0")/.." && pwd)
tests=$here/crates/reader_tests/out/reader_tests_tests
[ -x "$tests" ] || { echo "build the tests first: cd crates/reader_tests && rt test"; exit 1; }
"$tests" growth::nested_ranges
"$tests" growth::drawn_ranges
