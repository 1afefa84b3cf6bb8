#!/usr/bin/env bash
# Existing tools that start a symbolizer, with a2l-symbolizer in its place, beside the one that they
# have otherwise: clang's sanitizers with llvm-symbolizer and with addr2line, asan_symbolize, a crash
# of clang, perf, pprof of Google and of gperftools, boost::stacktrace, mtrace, the kernel's
# decode_stacktrace.sh and faddr2line. What each writes has to be the same, but for the reasons that
# tests/clients/reports.py and beside.py name. Then debug information that stands in other files, and
# replies beside llvm-symbolizer's, of programs that a2l reads and of programs that it doesn't. It
# says which clients are missing here. The word is a pattern: then only such clients are tried.
. "$(dirname "$0")/programs.sh"
need_symbolizer
only=${1:-.}
clients=$here/tests/clients
five='-g -gdwarf-5 -O2'
passed=0
failures=0

# shellcheck source=/dev/null
for part in tools sanitizers profilers traces debug_files programs; do . "$clients/$part.sh"; done
make_tools
write_sources
sanitizers
profilers
traces
debug_files
programs

echo "$passed clients have the same from a2l-symbolizer, $failures have not"
[ "$passed" -gt 0 ] && [ "$failures" = 0 ]
