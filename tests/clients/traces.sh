# shellcheck shell=bash
# Sourced by tests/clients.sh: clients that print a stack or a place, and start addr2line for each.

traces() {
    client "boost::stacktrace" g++ setarch -- stack_of_boost
    client "mtrace" mtrace gcc -- leaks_of_mtrace
    client "decode_stacktrace.sh" nm xz -- stack_of_kernel
    client "faddr2line" nm xz -- places_of_kernel
    client "faddr2line of a module" nm xz gcc ld -- places_of_module
}

# It starts the addr2line of the path that it was built with.
stack_of_boost() {
    [ -e /usr/include/boost/stacktrace.hpp ] || {
        echo "skipped, libboost-stacktrace-dev isn't here: boost::stacktrace"
        return 0
    }
    g++ $five -no-pie -DBOOST_STACKTRACE_USE_ADDR2LINE -DBOOST_STACKTRACE_ADDR2LINE_LOCATION="$work/boost/addr2line" \
        "$clients/traces.cc" -o traces -ldl
    same 'traces::middle\(int\) at .*traces\.cc:[0-9]+' \
        bash -c 'ln -sfn "$(dirname "$(command -v addr2line)")" boost; setarch -R ./traces'
}

build_leaks() { [ -e leaks ] || gcc -g -gdwarf-5 -O1 "$clients/leaks.c" -o leaks; }

# Its status says that memory is lost.
leaks_of_mtrace() {
    build_leaks
    MALLOC_TRACE=leaks.log LD_PRELOAD=libc_malloc_debug.so.0 ./leaks
    same 'leaks\.c:[0-9]+' bash -c 'mtrace ./leaks leaks.log; true'
}

# The kernel's scripts, from Debian's package of its source.
kernel_scripts() {
    build_leaks
    [ ! -e scripts ] || return 0
    local source name
    source=$(ls /usr/src/linux-source-*.tar.xz) || {
        echo "skipped, linux-source isn't here: the kernel's scripts"
        return 1
    }
    name=$(basename "$source" .tar.xz)
    tar -xJf "$source" --strip-components=1 "$name/scripts/decode_stacktrace.sh" "$name/scripts/faddr2line"
}
stack_of_kernel() {
    kernel_scripts || return 0
    local size
    size=$(nm -S leaks | awk '$4 == "main" { sub(/^0*/, "", $2); print $2 }')
    printf '[    1.000000]  main+0x1c/0x%s\n[    1.000000]  main+0xd/0x%s\n' "$size" "$size" > kernel.log
    same 'main \(?.*leaks\.c:[0-9]+' bash -c 'bash scripts/decode_stacktrace.sh ./leaks auto < kernel.log'
}
places_of_kernel() {
    kernel_scripts || return 0
    same 'lose at .*leaks\.c:[0-9]+' bash scripts/faddr2line ./leaks lose+0x8 lose+0x4
}

# Functions of a module in several sections, of which the script names each.
places_of_module() {
    kernel_scripts || return 0
    cat > module.c << 'END_C'
volatile int count;
static inline __attribute__((always_inline)) int inner(int x) { count = x; return count + 1; }
int run(int x) { return inner(x) * count; }
__attribute__((section(".init.text"))) int begin(int x) {
    return inner(x) + count;
}
__attribute__((section(".exit.text"))) int end(int x) {
    return inner(x) * 2;
}
END_C
    gcc $five -c module.c -o module.o
    ld -r module.o -o module.ko
    same 'begin at .*module\.c:[45]' bash scripts/faddr2line ./module.ko run+0x4 begin+0x8 end+0x8
    same 'end at .*module\.c:[78]' bash scripts/faddr2line ./module.ko end+0x4
}
