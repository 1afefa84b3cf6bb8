# shellcheck shell=bash
# Sourced by the other scripts, and run by none: it names the repository (`here`), makes a folder for what a
# script makes (`work`), goes there, and removes it at the end. It has the sample programs that they share, and
# what else several of them do.
set -euo pipefail
here=$(cd "$(dirname "${BASH_SOURCE[0]}")/.." && pwd)
work=$(mktemp -d)
trap 'rm -rf "$work"' EXIT
cd "$work"
export PYTHONDONTWRITEBYTECODE=1

# The built program, as `a2l`. The variable A2L names another one.
need_a2l() {
    a2l=${A2L:-$here/crates/a2l/out/a2l}
    [ -x "$a2l" ] || { echo "build the program first: cd crates/a2l && rt run"; exit 1; }
}

# Builds the targets of the Makefile that the words name. Where they aren't built yet, all that they stand on is proved.
need_library() {
    timeout 2700 make -s -C "$here" "$@" > make.log 2>&1 || {
        [ $? = 124 ] && { echo "skipped, the library is not built within 45 minutes"; exit 0; }
        cat make.log
        exit 1
    }
}

# Whether cargo finds all crates that those in rust/ stand on. Where it doesn't, what is skipped for want of which package of
# tests/packages is said; where each of these is installed, it isn't skipped.
has_crates() {
    local what=$1 package
    has "$what" cargo || return 1
    "$here/rust/cargo.sh" fetch > fetch.log 2>&1 && return
    for package in $("$here/tests/packages" | grep '^librust-'); do
        dpkg-query -W -f '${db:Status-Status}' "$package" 2> /dev/null | grep -qx installed || {
            echo "skipped, $package isn't installed: $what"
            return 1
        }
    done
}

# The program for other tools, as `symbolizer`, which is built where it isn't yet. The variable A2L_SYMBOLIZER names another.
need_symbolizer() {
    symbolizer=${A2L_SYMBOLIZER:-$here/rust/target/release/a2l-symbolizer}
    [ -n "${A2L_SYMBOLIZER:-}" ] || {
        has_crates "the symbolizer" || exit 0
        need_library symbolizer
    }
    [ -x "$symbolizer" ] || { echo "no program $symbolizer"; exit 1; }
}

# The program for crash logs, as `trace`, in the same way. The variable A2L_TRACE names another.
need_trace() {
    trace=${A2L_TRACE:-$here/rust/target/release/a2l-trace}
    [ -n "${A2L_TRACE:-}" ] || {
        has_crates "the program for crash logs" || exit 0
        need_library trace
    }
    [ -x "$trace" ] || { echo "no program $trace"; exit 1; }
}

# Whether all commands are there; else says what is skipped for want of which.
has() {
    local what=$1 command
    shift
    for command in "$@"; do
        command -v "$command" > /dev/null || { echo "skipped, no ${command##*/} here: $what"; return 1; }
    done
}

# The toolchain by links, in the folder `kit`, but for its clang: it leaves the module that it compiled last, and the words
# for that, in the folder that the word names.
lay_out_toolchain() {
    local kept=$1 kit file
    kit=$(dirname "$(rt doc)")
    mkdir -p kit/bin kit/toolchain/bin
    for file in "$kit"/*; do [[ ${file##*/} = @(bin|toolchain) ]] || ln -s "$file" kit/; done
    for file in "$kit"/bin/*; do [[ ${file##*/} = @(rt|rtlib.py) ]] || ln -s "$file" kit/bin/; done
    for file in "$kit"/toolchain/bin/*; do [ "${file##*/}" = clang ] || ln -s "$file" kit/toolchain/bin/; done
    cp "$kit/bin/rt" "$kit/bin/rtlib.py" kit/bin/
    ln -s "$kit/toolchain/lib" kit/toolchain/
    cat > kit/toolchain/bin/clang <<END_CLANG
#!/usr/bin/env bash
for word in "\$@"; do
    [[ \$word != *.bc ]] || { cp "\$word" "$kept/module.bc"; printf '%s\n' "\$@" > "$kept/words"; }
done
exec -a "\$0" "$kit/toolchain/bin/clang" "\$@"
END_CLANG
    chmod +x kit/toolchain/bin/clang
}

# Writes the sources: calls.c with other.c, one program of C; sizes.cc of C++, and words.rs of Rust. They have
# functions inlined in one another, functions in several ranges, a header in a folder, and templates.
write_sources() {
    mkdir -p inc
    echo 'static inline int four(int x) { int y = x; for (int i = 0; i < 3; i++) y += x; return y; }' > inc/four.h
    cat > calls.c <<'END_C'
#include <stdio.h>
#include <stdlib.h>
#include "inc/four.h"
int other(int);
static inline int twice(int x) { return x > 5 ? x + x : abs(x) * 3; }
static int rare(int x) {
    if (x > 100) {
        fprintf(stderr, "big\n");
        abort();
    }
    return twice(x) + twice(x + 1);
}
__attribute__((cold)) void fail(const char *text) { fprintf(stderr, "%s\n", text); }
static inline __attribute__((always_inline)) int deep(int x) { return four(twice(x)) + 1; }
int each(int x) {
    for (int i = 0; i < x; i++) {
        int y = twice(i);
        if (y & 1) printf("%d\n", rare(y));
    }
    return deep(x);
}
int unused(int x) { return deep(x) + other(x); }
int main(int argc, char **argv) {
    if (argc > 3) fail(argv[1]);
    printf("%d %d %d\n", twice(argc), four(argc), other(argc));
    return each(argc) & 1;
}
END_C
    cat > other.c <<'END_C'
#include "inc/four.h"
static inline int thrice(int x) { return 3 * x; }
int other(int x) { return thrice(x) + four(x); }
END_C
    cat > sizes.cc <<'END_CC'
#include <algorithm>
#include <map>
#include <stdexcept>
#include <string>
#include <vector>
namespace shapes {
struct Shape { virtual ~Shape() {} virtual int size() const { return 1; } };
struct Big : Shape {
    int count;
    explicit Big(int n) : count(n) { if (n > 100) throw std::runtime_error("too big"); }
    int size() const override { return count; }
};
}
template <int n> struct Sum { static int of(int x) { return x % n ? Sum<n - 1>::of(x / 2) : n; } };
template <> struct Sum<0> { static int of(int x) { return x; } };
int main(int argc, char **argv) {
    std::map<std::string, int> sizes;
    std::vector<std::string> words(argv, argv + argc);
    std::sort(words.begin(), words.end(), [](const std::string &a, const std::string &b) { return b < a; });
    for (auto &word : words) sizes[word] = Sum<60>::of(shapes::Big(argc).size());
    return static_cast<int>(sizes.size()) - 1;
}
END_CC
    cat > words.rs <<'END_RS'
use std::collections::BTreeMap;
trait Shape { fn size(&self) -> usize; }
struct Big(usize);
impl Shape for Big { #[inline] fn size(&self) -> usize { self.0.wrapping_mul(3) } }
fn total(shapes: &[Box<dyn Shape>]) -> usize { shapes.iter().map(|shape| shape.size()).sum() }
fn main() {
    let mut sizes = BTreeMap::new();
    for word in std::env::args() {
        *sizes.entry(word.len()).or_insert(0u64) += 1;
    }
    let mut sorted: Vec<_> = sizes.into_iter().collect();
    sorted.sort_by_key(|pair| std::cmp::Reverse(pair.1));
    let shapes: Vec<Box<dyn Shape>> = sorted.iter().map(|pair| Box::new(Big(pair.0)) as Box<dyn Shape>).collect();
    println!("{sorted:?} {}", total(&shapes));
}
END_RS
}

# Writes a C++ program of many units of templates: `unit1.cc` and so on as many as the first word says, and `main.cc`.
write_large() {
    local count=$1 i
    for i in $(seq "$count"); do
        cat > unit$i.cc <<END_CC
#include <algorithm>
#include <iostream>
#include <map>
#include <regex>
#include <sstream>
#include <string>
#include <unordered_map>
#include <vector>
namespace n$i {
struct Item { int a; std::string b; std::map<std::string, std::vector<int>> c; };
int run(int count) {
    std::unordered_map<std::string, Item> found;
    std::vector<Item> items;
    for (int i = 0; i < count; i++) {
        Item item{i, std::to_string(i), {}};
        item.c[item.b].push_back(i);
        items.push_back(item);
        found[item.b] = item;
    }
    std::sort(items.begin(), items.end(), [](const Item &p, const Item &q) { return p.b < q.b; });
    std::ostringstream out;
    for (auto &item : items)
        if (std::regex_match(item.b, std::regex("a(b|c)*$i"))) out << item.a;
    std::cout << out.str();
    return static_cast<int>(found.size());
}
}
END_CC
        echo "namespace n$i { int run(int); }" >> main.cc
    done
    echo 'int main(int argc, char **) { return 0' >> main.cc
    for i in $(seq "$count"); do echo "+ n$i::run(argc)" >> main.cc; done
    echo '; }' >> main.cc
}

# Builds a program of `unit1.cc` and so on, and `main.cc`, under the name that the word says.
build_units() {
    printf '%s\n' ./unit*.cc main.cc | xargs -P "$(nproc)" -I{} g++ -std=c++17 -g -gdwarf-5 -O1 -c {} -o {}.o
    # as a response file, since there may be many
    ls ./unit*.cc.o main.cc.o > objects
    g++ @objects -o "$1"
}

# Copies crates into copy/crates, so that a script may add to them: their code, definitions and proofs, and their
# lines of crates.txt.
copy_crates() {
    local crate part
    mkdir -p copy/crates
    cp "$here/HANDLES" copy/
    for crate in "$@"; do
        grep "^$crate:" "$here/crates.txt" >> copy/crates.txt
        mkdir copy/crates/$crate
        for part in src specs proofs; do
            [ ! -d "$here/crates/$crate/$part" ] || cp -r "$here/crates/$crate/$part" copy/crates/$crate/
        done
    done
}

# The same with what was proved of them already.
copy_proved() {
    local crate
    copy_crates "$@"
    for crate in "$@"; do
        [ -d "$here/crates/$crate/out" ] || { echo "build the crates first: cd crates/a2l && rt run"; exit 1; }
        cp -r "$here/crates/$crate/out" copy/crates/$crate/
    done
}

# Builds refuse.so. A program that is run with it, by LD_PRELOAD, is refused the allocation or thread that REFUSE counts,
# from 1, and the file MARK is there then.
build_refuser() {
    cat > "$work/refuse.c" <<'END_C'
/* Refuses the allocation or thread that REFUSE counts, from 1, and leaves a mark where it did. */
#define _GNU_SOURCE
#include <dlfcn.h>
#include <errno.h>
#include <fcntl.h>
#include <pthread.h>
#include <stdlib.h>
#include <unistd.h>
static _Atomic long count;
static int refused(void) {
    const char *wanted = getenv("REFUSE");
    if (!wanted || ++count != atol(wanted)) return 0;
    int mark = open(getenv("MARK"), O_CREAT | O_WRONLY, 0600);
    if (mark >= 0) close(mark);
    errno = ENOMEM;
    return 1;
}
void *malloc(size_t n) { static void *(*next)(size_t); if (!next) next = dlsym(RTLD_NEXT, "malloc"); return refused() ? 0 : next(n); }
void *realloc(void *p, size_t n) { static void *(*next)(void *, size_t); if (!next) next = dlsym(RTLD_NEXT, "realloc"); return refused() ? 0 : next(p, n); }
int posix_memalign(void **p, size_t a, size_t n) { static int (*next)(void **, size_t, size_t); if (!next) next = dlsym(RTLD_NEXT, "posix_memalign"); return refused() ? ENOMEM : next(p, a, n); }
void *aligned_alloc(size_t a, size_t n) { static void *(*next)(size_t, size_t); if (!next) next = dlsym(RTLD_NEXT, "aligned_alloc"); return refused() ? 0 : next(a, n); }
int pthread_create(pthread_t *t, const pthread_attr_t *a, void *(*f)(void *), void *x) { static int (*next)(pthread_t *, const pthread_attr_t *, void *(*)(void *), void *); if (!next) next = dlsym(RTLD_NEXT, "pthread_create"); return refused() ? EAGAIN : next(t, a, f, x); }
END_C
    cc -shared -fPIC -o "$work/refuse.so" "$work/refuse.c" -ldl
}

# A large program, as `program`: the one whose path is the word, where it is there; for the word `many` one of 530 units of
# very different sizes, which takes some minutes; else one of as many units of one size as the word says.
need_large() {
    program=$work/large
    if [ -e "$1" ]; then program=$(realpath "$1"); return; fi
    if [ "$1" = many ]; then python3 "$here/bench/many_units.py" 530; else write_large "$1"; fi
    build_units large
}

# Builds a program over the Rust crate of a name, from Debian's packages, in the folder of that name. Its source comes
# from the input, and what Cargo.toml has to say of the crates that it stands on is the second word. What is missing
# is said.
build_peer() {
    local registry=/usr/share/cargo/registry what="the Rust crate $1"
    has "$what" cargo || return 1
    ls -d $registry/"$1"-* > /dev/null 2>&1 || { echo "skipped, librust-$1-dev isn't installed: $what"; return 1; }
    mkdir -p "$1/src" "$1/.cargo"
    printf '[source.crates-io]\nreplace-with = "debian"\n[source.debian]\ndirectory = "%s"\n' $registry > "$1/.cargo/config.toml"
    printf '[package]\nname = "peer"\nversion = "0.1.0"\nedition = "2021"\n[dependencies]\n%s\n' "$2" > "$1/Cargo.toml"
    cat > "$1/src/main.rs"
    (cd "$1" && cargo build --release --offline) > log 2>&1 || { echo "skipped, it can't be built here: $what"; tail -3 log; return 1; }
}

# Builds the sample programs with each compiler that is here, without optimization and with it; their names are `programs`.
build_levels() {
    local level cc
    programs=()
    for level in 0 2; do
        for cc in gcc clang; do
            has "programs of $cc" $cc || continue
            $cc -g -gdwarf-5 -O$level calls.c other.c -o $cc-O$level
            programs+=($cc-O$level)
        done
        for cc in g++ clang++; do
            has "programs of $cc" $cc || continue
            $cc -g -gdwarf-5 -O$level sizes.cc -o $cc-O$level
            programs+=($cc-O$level)
        done
        if has "programs of rustc" rustc; then
            rustc -g -C dwarf-version=5 -C opt-level=$level words.rs -o rustc-O$level
            programs+=(rustc-O$level)
        fi
    done
}
