# shellcheck shell=bash
# Sourced by tests/clients.sh: reports of sanitizers, when they are written and after the fact, and
# of a crash of clang.

faults="heap freed twice stack global hidden named inlined chain vector sorted text overflow shift outside null
    threaded leaked copied"

sanitizers() {
    local compiler tool program
    export -f report
    for compiler in clang++-14 clang++-19; do
        client "sanitizers of $compiler" "$compiler" setarch theirs/llvm-symbolizer -- reports_beside "$compiler"
        client "sanitizers of $compiler by addr2line" "$compiler" setarch -- reports_by_addr2line "$compiler"
    done
    for tool in asan_symbolize-14 asan_symbolize-19; do
        for compiler in clang++-14 g++; do
            client "$tool of $compiler" $tool $compiler setarch theirs/llvm-symbolizer -- after_the_fact $tool $compiler
        done
    done
    for compiler in clang-14 clang-19; do
        client "a crash of $compiler" $compiler theirs/llvm-symbolizer -- crash_of_clang $compiler
    done
}

# Builds the programs with faults, by a compiler and at a level; the library's path has a blank.
build_faults() {
    local compiler=$1 level=$2 flags="-g -gdwarf-5 -O$2 -std=c++17 -pthread"
    local library="with blank/$1-$2.so"
    [ ! -e "faults-$compiler-$level" ] || return 0
    mkdir -p "with blank"
    $compiler $flags -fsanitize=address,undefined -shared -fPIC "$clients/library.cc" -o "$library"
    $compiler $flags -fsanitize=address,undefined "$clients/faults.cc" "$library" -o "faults-$compiler-$level"
    [ "$compiler" != g++ ] || return 0
    $compiler $flags -fsanitize=memory "$clients/unset.cc" -o "unset-$compiler-$level"
    $compiler $flags -fsanitize=thread "$clients/races.cc" -o "races-$compiler-$level"
}

# One report: a program, the fault, the folder for it, and the name of the symbolizer. Programs lie
# where they were linked to be, so that addresses are the same from run to run.
report() {
    local tool=$PWD/tool/$4
    # as long as the other's, so that stacks lie where they lay
    [ "$4" = llvm-symbolizer ] || tool=$PWD/tool/./././$4
    export ASAN_SYMBOLIZER_PATH=$tool MSAN_SYMBOLIZER_PATH=$tool
    export UBSAN_OPTIONS=print_stacktrace=1 TSAN_OPTIONS=external_symbolizer_path=$tool
    timeout 60 setarch -R "./$1" "$2" > "$3/$1-$2" 2>&1
    [ $? != 124 ] || echo "$1 $2 waits for ever" >> "$3.hung"
}

# All reports of a compiler's programs: into which folder, and with which symbolizer of which tools.
reports_of() {
    local compiler=$1 folder=$2 tools=$3 name=$4 level fault
    rm -rf "$folder" "$folder.hung"
    mkdir "$folder"
    ln -sfn "$tools" tool
    for level in 0 2; do
        build_faults "$compiler" $level
        for fault in $faults; do echo "faults-$compiler-$level $fault $folder $name"; done
        for fault in heap stack; do
            echo "unset-$compiler-$level $fault $folder $name"
            echo "races-$compiler-$level $fault $folder $name"
        done
    done | xargs -P 4 -L 1 bash -c 'report "$@"' report
    if [ -e "$folder.hung" ]; then cat "$folder.hung"; return 1; fi
}

reports_beside() {
    reports_of "$1" "$1.theirs" theirs llvm-symbolizer && reports_of "$1" "$1.ours" ours llvm-symbolizer &&
        python3 "$clients/reports.py" "$1.theirs" "$1.ours"
}

# Which frames GNU addr2line knows of clang's programs differs from version to version, so the frames
# that the runtime has by our addr2line are compared with those that it has by our llvm-symbolizer.
reports_by_addr2line() {
    reports_of "$1" "$1.ours" ours llvm-symbolizer && reports_of "$1" "$1.gnu" ours addr2line &&
        python3 "$clients/reports.py" --gnu "$1.ours" "$1.gnu"
}

# Reports that were written without a symbolizer, and are read by asan_symbolize.
after_the_fact() {
    local tool=$1 program=faults-$2-2 fault
    build_faults "$2" 2
    for fault in heap freed inlined sorted threaded; do
        ASAN_OPTIONS=symbolize=0 setarch -R "./$program" "$fault" > "$program-$fault.raw" 2>&1 || true
        grep -q '#0 0x' "$program-$fault.raw" || { echo "no report of $program $fault"; return 1; }
        same '#[0-9] 0x.*faults\.cc:[0-9]+' "$tool" -l "$program-$fault.raw" || return 1
    done
}

# clang that crashes: its own stack, by symbols, since it has no debug information.
crash_of_clang() {
    echo '#pragma clang __debug crash' > crash.c
    same 'clang::' bash -c 'setarch -R "$0" -c crash.c -fno-crash-diagnostics 2>&1 | grep -E "^ *#[0-9]+ 0x"; true' "$1"
}
