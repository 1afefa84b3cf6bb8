#!/usr/bin/env bash
# Programs, objects and modules of many kinds, built here by each compiler that is here, of which all
# addresses of code are asked for in both protocols, beside llvm-symbolizer 19 and GNU addr2line 2.40.
# What both say of a function, its file or its line, a2l-symbolizer has to say, but for the reasons in
# tests/clients/agreed.py, each with its evidence in the file. The kinds stand in the table below:
# another kind is another line. It says which compilers are missing here. The word is a pattern: then
# only cases whose names it matches are tried.
. "$(dirname "$0")/programs.sh"
need_symbolizer
has "all of it" llvm-symbolizer-19 addr2line || exit 0
only=${1:-.}
passed=0
failures=0

# Sources of C without headers, so that each compiler for another machine takes them.
write_plain_sources() {
    cat > one.c <<'END_C'
volatile int count;
int two(int x);
static inline __attribute__((always_inline)) int inner(int x) { count = x; return count + 1; }
static int middle(int x) {
    if (x > 9)
        return inner(x) * two(x);
    return inner(x + 1);
}
#ifdef SECTIONS
static __thread int own;
int each_thread(void) { return ++own; }
__attribute__((section(".init.text"))) int begin(int x) {
    return inner(x) + two(x);
}
__attribute__((section(".exit.text"))) int end(int x) {
    for (int i = 0; i < x; i++) count += middle(i);
    return inner(x);
}
#endif
__attribute__((noinline)) int once(int x) { return middle(x) + inner(2 * x); }
int main(int argc, char **argv) {
    return once(argc) + (argv[0] != 0);
}
END_C
    cat > two.c <<'END_C'
extern volatile int count;
static inline __attribute__((always_inline)) int deep(int x) { return x * count; }
static inline __attribute__((always_inline)) int deeper(int x) {
    return deep(x) + deep(x + 1);
}
int two(int x) {
    count = x;
    return deeper(x);
}
__attribute__((cold)) int rare(int x) { return deeper(count) - x; }
END_C
}

# How files are built. The words: the name, and the compiler with its flags. Each leaves the file to ask in `file`, and
# may leave more words for agreed.py in `options`.

build_linked() {
    local name=$1
    shift
    file=$name
    "$@" -nostdlib -static -Wl,-e,main one.c two.c -o "$name"
}

build_object() {
    local name=$1
    shift
    file=$name.o
    "$@" -c one.c -o "$name.o" && link_twin "$name"
}

build_cxx() {
    local name=$1
    shift
    file=$name.o
    "$@" -c -x c++ sizes.cc -o "$name.o" && link_twin "$name"
}

# Names of C++, in a program without a library.
build_names() {
    local name=$1
    shift
    file=$name
    "$@" -fno-rtti -fno-exceptions -nostdlib -static -Wl,-e,main -x c++ "$here/tests/clients/names.cc" -o "$name"
}

# Names of Rust, in a program and in an object; the last flag is the scheme of names.
build_rust() {
    local name=$1 scheme="symbol-mangling-version=${*: -1}"
    file=$name
    RUSTC_BOOTSTRAP=1 rustc "${@:3:$#-3}" -C panic=abort -Z unstable-options -C "$scheme" --emit=obj \
        "$here/tests/clients/names.rs" -o "$name.o" &&
        "${linker[@]}" -e run --gc-sections --noinhibit-exec --unresolved-symbols=ignore-all "$name.o" -o "$name"
}

# Several objects in one, as a kernel module is.
build_joined() {
    local name=$1
    shift
    file=$name.o
    "$@" -DSECTIONS -c one.c -o "$name-one.o" && "$@" -c two.c -o "$name-two.o" &&
        "${linker[@]}" -r "$name-one.o" "$name-two.o" -o "$name.o" && link_twin "$name"
}

# The debug information of a joined one is in a file of its own.
build_apart() {
    build_joined "$@" && "$objcopy" --only-keep-debug "$1.o" "$1.debug" && "$strip" -g "$1.o" -o "$1-cut.o" &&
        "$objcopy" --add-gnu-debuglink="$1.debug" "$1-cut.o"
    file=$1-cut.o
}

# The same as Fedora has it: relocations between sections of debug information are applied, and taken away.
build_resolved() {
    build_joined "$@" && eu-strip --strip-debug --reloc-debug-sections -f "$1.debug" -o "$1-cut.o" "$1.o"
    file=$1-cut.o
}

# That file, which has no byte of code.
build_kept() {
    build_joined "$@" && "$objcopy" --only-keep-debug "$1.o" "$1.debug"
    file=$1.debug
}

# Its units are split; those of its twin, which has the same code, are not.
build_split() {
    local name=$1 source
    shift
    for source in one two; do "$@" -gsplit-dwarf -c $source.c -o "$name-$source.o"; done
    "$@" -nostdlib -static -Wl,-e,main "$name-one.o" "$name-two.o" -o "$name" && ls "$name-one.dwo" "$name-two.dwo" &&
        build_linked "$name.whole" "$@" && "$objcopy" -O binary -j .text "$name" "$name.code" &&
        "$objcopy" -O binary -j .text "$name.whole" "$name.whole.code" && cmp "$name.code" "$name.whole.code"
    file=$name options+=(--twin "$name.whole")
}

# The split units are in a package alone, by binutils or by LLVM. That of version 19 doesn't end for some files of gcc.
build_dwp() { build_split "$@" && dwp -e "$1" -o "$1.dwp" && rm "$1"-*.dwo; }
build_llvm_dwp() { build_split "$@" && timeout 20 llvm-dwp-19 -e "$1" -o "$1.dwp" && rm "$1"-*.dwo; }

# Sections are compressed by zstd, of which not all compilers know.
build_zstd() { build_linked "$@" && "$objcopy" --compress-debug-sections=zstd "$1"; }
build_joined_zstd() { build_joined "$@" && "$objcopy" --compress-debug-sections=zstd "$1.o"; }

# The twin of an object: linked, with each section at addresses of its own.
link_twin() {
    readelf -SW "$1.o" | python3 -c '
import re, sys
names = dict.fromkeys(re.findall(r"\] (\S+) +\w+ +\w+ \w+ \w+ \w\w +\w*A\w* ", sys.stdin.read()))
places = (f"{name} {0x10000 * (place + 1):#x} : {{ *({name}) }}" for place, name in enumerate(names))
print("SECTIONS {", *places, "}")' > "$1.ld"
    "${linker[@]}" -T "$1.ld" -e 0 --no-relax --noinhibit-exec --unresolved-symbols=ignore-all \
        "$1.o" -o "$1.twin" || true
    options+=(--twin "$1.twin")
}

# The words that start a compiler for a machine, and the tools for what it writes; fails where they aren't here. GNU's
# older than 2.41 don't link what clang 19 writes for RISC-V.
choose() {
    local compiler=$1 machine=$2 tools=
    words=("$compiler")
    case $machine in
    x86-64) ;;
    narrow) words+=(-m32) ;;
    *)
        tools=$machine-linux-gnu-
        if [ "$compiler" = gcc ]; then words=("${tools}gcc"); else words+=(--target="$machine-linux-gnu"); fi
        ;;
    esac
    linker=("${tools}ld") objcopy=${tools}objcopy strip=${tools}strip gnu=${tools}addr2line
    case $compiler-$machine in
    *-narrow) linker+=(-m elf_i386) ;;
    clang-19-riscv64)
        linker=(ld.lld-19 -m elf64lriscv) objcopy=llvm-objcopy-19 strip=llvm-strip-19
        words+=(-fuse-ld=lld-19)
        ;;
    esac
    has "$compiler for $machine" "${words[0]}" "${linker[0]}" "$objcopy" "$strip" "$gnu" > missing && return
    grep -qxFf missing told || tee -a told < missing
    return 1
}

# Builds one case and compares. The words: its name, how it is built, the compiler, the machine, and the flags.
try() {
    local name=$1 how=$2 file options=()
    [[ $name =~ $only ]] || return 0
    choose "$3" "$4" || return 0
    "build_$how" "$name" "${words[@]}" "${@:5}" > build.log 2>&1 ||
        { echo "skipped, not built here: $name"; tail -n 3 build.log; return 0; }
    if python3 "$here/tests/clients/agreed.py" --tool "$symbolizer" --gnu "$gnu" \
        ${options[0]+"${options[@]}"} "$name" "$file"; then
        passed=$((passed + 1))
    else
        failures=$((failures + 1))
        echo "$name FAILED"
    fi
}

# The kinds: a name, how it is built, the compilers, the machines, and the flags, of which each set after
# a comma is another case.
table() {
    cat << 'END'
linked  linked      gcc,clang-14,clang-19  x86-64,narrow,aarch64,riscv64  -g -gdwarf-5 -O0,-g -gdwarf-5 -O2
linked  linked      gcc,clang-14,clang-19  x86-64,narrow,aarch64,riscv64  -g -gdwarf-5 -O2 -flto
object  object      gcc,clang-14,clang-19  x86-64,narrow,aarch64,riscv64  -g -gdwarf-5 -O0,-g -gdwarf-5 -O2
object  object      gcc,clang-14,clang-19  x86-64,narrow,aarch64,riscv64  -g -gdwarf-5 -O2 -ffunction-sections
fat     object      gcc                    x86-64                         -g -gdwarf-5 -O2 -flto -ffat-lto-objects
joined  joined      gcc,clang-14,clang-19  x86-64,narrow,aarch64,riscv64  -g -gdwarf-5 -O0,-g -gdwarf-5 -O2
joined  joined      gcc,clang-14,clang-19  x86-64,narrow,aarch64,riscv64  -g -gdwarf-5 -O2 -ffunction-sections
older   joined      gcc,clang-14,clang-19  x86-64,aarch64,riscv64         -g -gdwarf-4 -O2
packed  joined      gcc,clang-14,clang-19  x86-64,aarch64,riscv64         -g -gdwarf-5 -O2 -gz=zlib
zstd    zstd        gcc,clang-14,clang-19  x86-64,narrow,aarch64,riscv64  -g -gdwarf-5 -O2
zstd-r  joined_zstd gcc,clang-14,clang-19  x86-64,narrow                  -g -gdwarf-5 -O2
split   split       gcc,clang-14,clang-19  x86-64,narrow,aarch64          -g -gdwarf-4 -O0,-g -gdwarf-4 -O2
split   split       gcc,clang-14,clang-19  x86-64,narrow,aarch64          -g -gdwarf-5 -O0,-g -gdwarf-5 -O2
dwp     dwp         gcc,clang-14,clang-19  x86-64,narrow                  -g -gdwarf-4 -O2
llvmdwp llvm_dwp    gcc,clang-14,clang-19  x86-64,narrow                  -g -gdwarf-4 -O2,-g -gdwarf-5 -O2
apart   apart       gcc,clang-14,clang-19  x86-64,narrow,aarch64,riscv64  -g -gdwarf-5 -O2
apart   apart       gcc,clang-14,clang-19  x86-64,narrow,aarch64,riscv64  -g -gdwarf-5 -O2 -gz=zlib
fedora  resolved    gcc,clang-14,clang-19  x86-64                         -g -gdwarf-5 -O2
divided joined      gcc,clang-14,clang-19  x86-64                         -g -gdwarf-5 -O2 -gsplit-dwarf
kept    kept        gcc,clang-14,clang-19  x86-64,narrow,aarch64,riscv64  -g -gdwarf-5 -O2
classes cxx         gcc,clang-14,clang-19  x86-64                         -g -gdwarf-5 -O2
classes cxx         gcc,clang-14,clang-19  x86-64                         -g -gdwarf-5 -O2 -fdebug-types-section
names   names       gcc                    x86-64                         -g -gdwarf-5 -O0,-g -gdwarf-5 -O2
names   names       gcc                    x86-64                         -g -gdwarf-5 -O2 -flto
names   names       clang-14,clang-19      x86-64,aarch64                 -g -gdwarf-5 -O0,-g -gdwarf-5 -O2
names   names       clang-14,clang-19      x86-64,aarch64                 -g -gdwarf-5 -O2 -flto
rust    rust        rustc                  x86-64                         -g -C dwarf-version=5 legacy
rust    rust        rustc                  x86-64                         -g -O -C dwarf-version=5 v0
END
}

write_sources
write_plain_sources
: > told
while read -r kind how compilers machines flags; do
    for compiler in ${compilers//,/ }; do
        for machine in ${machines//,/ }; do
            while read -r -a set; do
                label=$(IFS=; echo "$kind-$compiler-$machine${set[*]:1}")
                try "$label" "$how" "$compiler" "$machine" "${set[@]}"
            done < <(tr , '\n' <<< "$flags")
        done
    done
done < <(table)

echo "$passed cases say what both originals say, $failures don't"
[ "$passed" -gt 0 ] && [ "$failures" = 0 ]
