#!/usr/bin/env bash
# Crash logs through a2l-trace: programs of C, C++ and Rust that crash in inlined code, in a shared library, in its
# constructor, in a signal handler and in a thread, by gcc and clang, position-independent and not, with debug
# information in the program, in a separate file, and with segments that aren't at their offset. Each runs in gdb, and
# what glibc, the sanitizers, systemd-coredump, eu-stack, gdb itself and Rust's standard library wrote of that process goes
# through a2l-trace; each frame has to have the functions, files and lines of gdb's backtrace. LLVM's markup and
# the kernel's form are made of the same addresses, and judged by llvm-symbolizer and decode_stacktrace.sh too. Then
# what has to come out whole. It says which producers are missing here; systemd-coredump isn't among tests/packages, since
# its package changes kernel.core_pattern. The word is a pattern: then only such programs are tried.
. "$(dirname "$0")/programs.sh"
need_trace
has "frames as gdb has them" gdb gcc readelf python3 || exit 0
traces=$here/tests/trace

# Builds a program that crashes, as `crash-NAME`, with the library beside it: its name, compiler, source and options.
build_crash() {
    local name=$1 compiler=$2 source=$3
    shift 3
    "$compiler" -g -O2 "$traces/$source" "$@" -o "crash-$name" -L. -lread -lpthread -Wl,-rpath,"\$ORIGIN"
}

build_all() {
    gcc -g -O2 -fPIC -shared "$traces/report.c" -o libreport.so
    # its handler is there before the constructor of the other one
    gcc -g -O2 -fPIC -shared "$traces/library.c" -o libread.so -Wl,-Ttext-segment=0x3000000 -L. -Wl,--no-as-needed -lreport \
        -Wl,-rpath,'$ORIGIN'
    build_crash gcc gcc crash.c
    build_crash gcc-fixed gcc crash.c -no-pie
    build_crash gcc-hole gcc crash.c -Wl,-z,noseparate-code -Wl,-Ttext=0x205000
    cp "$traces/crash.c" crash.cc
    traces=. build_crash g++ g++ crash.cc
    build_crash separate gcc crash.c
    objcopy --only-keep-debug crash-separate separate.debug
    objcopy --strip-all --add-gnu-debuglink=separate.debug crash-separate
    if has "programs of clang" clang-19 clang++-19; then
        build_crash clang clang-19 crash.c -O1
        traces=. build_crash clang++ clang++-19 crash.cc -no-pie
    fi
    if has "segments of lld" clang-19 ld.lld; then
        build_crash lld clang-19 crash.c -fuse-ld=lld
    fi
}

# systemd-coredump reads them as another user
chmod 755 "$work"
build_all
python3 "$traces/whole.py" "$trace" "$work"
python3 "$traces/run.py" "$trace" "$work" "${1:-.}"
