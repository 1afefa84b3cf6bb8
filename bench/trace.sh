#!/usr/bin/env bash
# How long a2l-trace takes for a log of 1 GB without frames, and for one of 100,000 frames of twenty modules: see
# bench/trace.py. It needs g++, clang-19's asan_symbolize and llvm-symbolizer-19, and some GB in the folder for what is
# temporary.
. "$(dirname "$0")/../tests/programs.sh"
need_trace
write_large 1
g++ -std=c++17 -g -gdwarf-5 -O1 -fPIC -shared unit1.cc -o large.so
python3 "$here/bench/trace.py" "$trace" "$work"
