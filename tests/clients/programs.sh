# shellcheck shell=bash
# Sourced by tests/clients.sh: programs of all kinds, of which the same addresses are asked for beside
# llvm-symbolizer; names as llvm-cxxfilt and c++filt write them; and the program's own check.

programs() {
    client "replies of programs that a2l reads" theirs/llvm-symbolizer -- newer_programs
    client "replies of programs that it doesn't read" theirs/llvm-symbolizer -- older_programs
    client "readable names" c++filt llvm-cxxfilt-19 g++ -- readable_names
    client "self-check" gcc -- self_checks
}

newer_programs() {
    build_levels
    build_sorts
    python3 "$clients/beside.py" 2000 theirs/llvm-symbolizer ours/llvm-symbolizer \
        "${programs[@]/#/$work/}" "$work/sorts"
}

older_programs() {
    build_others
    python3 "$clients/beside.py" --lines 2000 theirs/llvm-symbolizer ours/llvm-symbolizer "${others[@]}"
}

# A program that the further words build.
other() {
    local name=$1
    shift
    if "$@" -o "$name" 2> log; then others+=("$work/$name"); else echo "skipped, not built here: $*"; fi
}

# Older versions, split units, compressed sections, a relocatable and a 32-bit file, type units, units
# of two versions, a supplementary file, and Rust's library as it is shipped.
build_others() {
    local c='calls.c other.c' cc version
    others=()
    for cc in gcc clang; do
        has "older programs of $cc" $cc || continue
        for version in 2 3 4; do other $cc-dwarf$version $cc -g -gdwarf-$version -O2 $c; done
        other $cc-split $cc $five -gsplit-dwarf $c
        other $cc-split4 $cc -g -gdwarf-4 -O2 -gsplit-dwarf $c
        other $cc-zlib $cc $five -gz=zlib $c
        other $cc-narrow $cc -m32 $five $c
        other $cc-object.o $cc $five -c calls.c
        $cc -g -gdwarf-4 -O2 -c other.c -o $cc-other4.o
        other $cc-mixed $cc $five calls.c $cc-other4.o
    done
    for cc in g++ clang++; do
        has "older programs of $cc" $cc || continue
        other $cc-dwarf4 $cc -g -gdwarf-4 -O2 sizes.cc
        other $cc-types $cc $five -fdebug-types-section sizes.cc
    done
    if has "Rust's library" rustc; then other rustc-library rustc -g -C opt-level=2 words.rs; fi
    if has "a supplementary file" dwz g++; then
        g++ $five sizes.cc -o dwz-one
        g++ -g -gdwarf-5 -O1 sizes.cc -o dwz-two
        dwz -m dwz-common dwz-one dwz-two
        others+=("$work/dwz-one")
    fi
}

readable_names() {
    build_sorts
    build_faults g++ 2
    local library libraries=(/usr/lib/x86_64-linux-gnu/libLLVM.so.19.1)
    [ -e "${libraries[0]}" ] || { echo "skipped, no ${libraries[0]} here: its names"; libraries=(); }
    for library in libstdc++.so.6 libstdc++.a; do libraries+=("$(realpath "$(g++ -print-file-name=$library)")"); done
    set -- sorts faults-g++-2 "${libraries[@]}"
    if has "names of Rust" rustc; then
        rustc -g -C opt-level=2 words.rs -o names-legacy
        rustc -g -C opt-level=2 -C symbol-mangling-version=v0 words.rs -o names-v0
        set -- "$@" names-legacy names-v0
    fi
    python3 "$clients/names.py" "$symbolizer" "$@"
}

self_checks() {
    build_sorts
    g++ $five -gz=zlib sizes.cc -o packed
    g++ $five -ffunction-sections -c sizes.cc -o sizes.o
    local file
    for file in sorts packed sizes.o; do
        "$symbolizer" --self-check -e $file > checked || { cat checked; return 1; }
        grep -E '[0-9]' checked
    done
}
