#!/usr/bin/env bash
# A release, of what is built. The version is one and the same wherever it stands: in VERSION, the header, the
# library, the manual, pkg-config, Cargo, the wheel and the packages. Two clones of the last commit, of which the
# second lies elsewhere, has files of other times and modes, and links the shared library and the symbolizer itself,
# give the same tarball, packages and wheel, byte for byte, without a path of this machine in them. The tarball's sums
# are right, and what is in it answers: both programs, the symbolizer under each name, the examples and that of the
# manual in C, the module for Python, and the crate of Rust, beside the library and by pkg-config. The manual declares
# what the header does. Each file that a document names is there, in the tarball and in the package. lintian finds no
# error in the packages, which are installed, answer, and are removed without a trace; so is what `make install` puts
# in place. pip makes a wheel of the repository and of the tarball, which answers where it is installed; mypy finds its
# types, and twine nothing wrong. A clean system of Debian (by debootstrap) has the packages, the wheel and the tarball
# at last: they are installed, used and removed without network. Run it after `rt run` in crates/a2l and in crates/a2l_why has built both programs;
# the library and the symbolizer are built here where they aren't yet.
. "$(dirname "$0")/programs.sh"
need_a2l
parts=(crates/a2l/out/a2l crates/a2l_why/out/a2l_why out/liba2l.a out/liba2l.so
    rust/target/release/{a2l-symbolizer,a2l-trace})
[ -x "$here/${parts[1]}" ] || { echo "skipped, a2l_why is not built: cd crates/a2l_why && rt run"; exit 0; }
has_crates "a release" || exit 0
for part in "${parts[@]}"; do [ -e "$here/$part" ] || need_library shared symbolizer trace; done
unset SOURCE_DATE_EPOCH
version=$(cat "$here/VERSION")
name=a2l-$version-$(uname -m)-linux

# Runs a command, of whose output nobody wants to know unless it fails.
quietly() {
    "$@" > "$work/quiet.log" 2>&1 || { cat "$work/quiet.log"; echo "failed: $*"; exit 1; }
}

# What is to be answered of the sample, by hand. readelf shows its two units, of which the second is partial.
sample=$here/samples/inlined.elf
printf '%s\n' 0x0000000000401004 leaf /w/a.c:4 mid /w/a.c:30 main /w/z.c:20 > lines
printf '%s\n' leaf /w/a.c:4:0 mid /w/a.c:30:0 main /w/z.c:20:7 '' > reply
printf '%s\n' 'leaf /w/a.c:4' 'mid /w/a.c:30' 'main /w/z.c:20' > frames
echo 'no findings in 2 units: 1 answer addresses, 1 partial, 0 skipped' > findings

# Runs a command, whose output has to be that of a file.
answers=0
answer() {
    local wanted=$work/$1
    shift
    "$@" > found || { echo "status $?: $*"; exit 1; }
    cmp "$wanted" found || { echo "another answer: $*"; exit 1; }
    answers=$((answers + 1))
}

# The programs that are installed below a folder, under each name.
answer_programs() {
    answer lines "$1/bin/a2l" -e "$sample" -a -f -i 0x401004
    answer findings "$1/bin/a2l_why" -e "$sample"
    answer reply "$1/bin/llvm-symbolizer-a2l" -e "$sample" 0x401004
    answer reply "$1/lib/a2l/tools/llvm-symbolizer" -e "$sample" 0x401004
    printf '%s[0x401004]\n' "$sample" > log
    "$1/bin/a2l-trace" --json --module x=y log | grep -q '"form":"glibc"' || { echo "no row of a2l-trace"; exit 1; }
    answer lines "$1/lib/a2l/tools/addr2line" -a -f -i -e "$sample" 401004
}

# The module for Python in a folder.
cat > frames.py << 'END_PY'
"""frames.py FOLDER FILE: the frames of an address, by the module that is in the folder."""
import os
import sys
import a2l
assert os.path.dirname(a2l.__file__) == os.path.join(os.path.realpath(sys.argv[1]), 'a2l'), a2l.__file__
with a2l.open(sys.argv[2]) as program:
    for frame in program.frames(0x401004):
        print(frame.function, frame.location)
END_PY
answer_module() {
    answer frames env PYTHONPATH="$1" python3 frames.py "$1" "$sample"
}

# The manual of the library declares what the header does: the compiler takes both, and they have the same names.
names_of() { grep -oE '\ba2l_[a-z_]+\(' "$1" | sort -u; }
sed -n '/^\.SH SYNOPSIS$/,/^\.fi$/s/^\.BI* //p' "$here/docs/liba2l.3" | tr -d '"' > synopsis.c
"${CC:-cc}" -std=gnu11 -I"$here/include" -fsyntax-only synopsis.c
[ "$(names_of synopsis.c)" = "$(names_of "$here/include/a2l.h")" ] || { echo "other names in docs/liba2l.3"; exit 1; }

# A program in C, which is the example of the manual, with some words of the compiler.
sed -n '/^#include <stdio.h>$/,/^\.fi$/p' "$here/docs/liba2l.3" | sed -e '/^\.fi$/d' -e 's/\\e/\\/g' > manual.c
answer_library() {
    "${CC:-cc}" -std=gnu11 -Wall -Wextra -Wpedantic -Werror -o manual manual.c "$@"
    answer frames ./manual "$sample" 401004
}

# The files that the documents in a folder name have to be there, or in a second folder.
references=0
follow_references() {
    local page path
    while read -r page; do
        while read -r path; do
            [ -e "$1/$path" ] || [ -e "${2:-$1}/$path" ] || { echo "$page names $path, which isn't there"; exit 1; }
            references=$((references + 1))
        done < <(grep -oE '\b(bench|bin|crates|docs|examples|include|python|release|rust|samples|tests)/[A-Za-z0-9_./-]*[A-Za-z0-9_]' "$page")
    done < <(find "$1" -maxdepth 2 -name '*.md' ! -path '*/python/*')
}

# A version that stands somewhere has to be that of the file VERSION. The first are those that somebody writes.
versions=0
agree() {
    [ "$2" = "$version" ] || { echo "$1 has the version $2, and VERSION has $version"; exit 1; }
    versions=$((versions + 1))
}
numbers() { printf '%d.%d.%d' $(($1 >> 16)) $(($1 >> 8 & 255)) $(($1 & 255)); }
agree include/a2l.h "$(numbers "$(sed -nE 's/^#define A2L_VERSION (0x[0-9a-f]+)u$/\1/p' "$here/include/a2l.h")")"
agree python/a2l "$(sed -nE "s/^__version__ = '([0-9.]+)'\$/\1/p" "$here/python/a2l/__init__.py")"
agree docs/PROMISES.md "$(sed -nE 's/^\| The version is ([0-9.]+)\. .*/\1/p' "$here/docs/PROMISES.md")"
[ ! -e "$here/CHANGELOG.md" ] || agree CHANGELOG.md "$(sed -nE '/^## /{s/^## ([0-9.]+).*/\1/p;q}' "$here/CHANGELOG.md")"
crates=$("$here/rust/cargo.sh" metadata --no-deps --format-version 1 | grep -oE '"version":"[^"]*"' | cut -d '"' -f 4)
[ "$(wc -l <<< "$crates")" = 3 ] || { echo "other versions of the crates: $crates"; exit 1; }
for crate in $crates; do agree rust "$crate"; done

# Two clones, and what each packs.
for clone in one elsewhere/two; do
    git clone -q "$here" $clone
    (cd "$here" && cp --parents "${parts[@]}" "$work/$clone/")
done
mkdir -p elsewhere/two/rust/target
cp -a "$here/rust/target/release" elsewhere/two/rust/target/
rm -rf elsewhere/two/out/liba2l.so elsewhere/two/rust/target/release/{a2l-symbolizer,a2l-trace,.fingerprint/a2l-*,deps/*a2l*}
quietly make -C elsewhere/two -o library shared symbolizer trace
grep -q 'Compiling a2l-symbolizer' quiet.log || { echo "the symbolizer is not built again"; exit 1; }
find elsewhere/two -type f -exec touch -d 2001-02-03 {} +
chmod -R go-rwx elsewhere/two
quietly make -C one dist
(umask 077 && TZ=Asia/Tokyo quietly make -C elsewhere/two dist)
packages=$(cd one/out/release && ls)
[ "$(wc -l <<< "$packages")" = 5 ] || { echo "other files of a release: $packages"; exit 1; }
for file in $packages; do
    cmp "one/out/release/$file" "elsewhere/two/out/release/$file" || { echo "another $file of another clone"; exit 1; }
done
echo >> elsewhere/two/README.md
make -s -C elsewhere/two dist > quiet.log 2>&1 && { echo "a release has what is in no commit"; exit 1; }

# The tarball.
tar -xzf "one/out/release/$name.tar.gz"
release=$work/$name
(cd "$name" && quietly sha256sum --check --strict SHA256SUMS)
sums=$(wc -l < "$name/SHA256SUMS")
[ "$sums" = $(($(find "$name" -type f | wc -l) - 1)) ] || { echo "files without a sum"; exit 1; }
follow_references "$name"
paths=$(grep -rlaF -e "$here/" -e "$work/" -e "${HOME:-/root}/" "$name") &&
    { echo "a path of this machine: $paths"; exit 1; }
answer_programs "$release"
answer_module "$release/python"
agree a2l_version "$(PYTHONPATH=$release/python python3 -c 'import a2l; print(a2l.version())')"
agree a2l-trace "$("$release/bin/a2l-trace" --version | sed -nE 's/^a2l-trace ([0-9.]+)$/\1/p')"
agree a2l-symbolizer "$("$release/bin/a2l-symbolizer" --version | sed -nE 's/^a2l-symbolizer ([0-9.]+),.*/\1/p')"
export PKG_CONFIG_PATH=$release/lib/pkgconfig
# shellcheck disable=SC2046
answer_library $(pkg-config --cflags --libs a2l)
agree a2l.pc "$(pkg-config --modversion a2l)"
quietly make -C "$name/examples"
answer lines "$release/examples/out/addresses" "$sample" 401004

# The crate of Rust: in the tarball, and without a library beside it.
mkdir alone
cp -a "$name/rust" "$name/samples" alone/
for folder in "$name" alone; do
    rm -rf target/debug/build/a2l-*
    CARGO_TARGET_DIR=$work/target quietly env -u A2L_LIB_DIR "$folder/rust/cargo.sh" test --package a2l
    linked=$(sed -n 's/^cargo:rustc-link-search=native=//p' target/debug/build/a2l-*/output)
    [ "$(realpath "$linked")" = "$release/lib" ] || { echo "$folder: the library of $linked"; exit 1; }
done

# The packages.
for file in one/out/release/*.deb; do dpkg-deb -x "$file" unpacked; done
follow_references unpacked/usr/share/doc/a2l unpacked/usr
mkdir -p root/var/lib/dpkg/{info,updates}
touch root/var/lib/dpkg/{status,available}
apart=(dpkg --root="$work/root" --force-script-chrootless --force-depends --log=/dev/null)
quietly "${apart[@]}" --install one/out/release/*.deb
answer_programs "$work/root/usr"
answer_module "$work/root/usr/lib/python3/dist-packages"
answer_library -I"$work/root/usr/include" -L"$(dirname "$(find root -name liba2l.a)")" -la2l
for package in a2l liba2l-dev python3-a2l; do
    agree $package "$(dpkg-query --admindir=root/var/lib/dpkg -W -f '${Version}' $package)"
done
quietly "${apart[@]}" --purge a2l liba2l-dev python3-a2l
left=$(find root -path root/var -prune -o ! -path root -print)
[ -z "$left" ] || { echo "the packages leave: $left"; exit 1; }
if has "errors of packages" lintian; then quietly lintian --no-cfg --fail-on error one/out/release/*.deb; fi

# Wheels, of the repository and of the tarball.
for python in python3 /usr/bin/python3 ''; do
    [ "$python" ] || { echo "skipped, no Python here has pip, setuptools and wheel: wheels"; break; }
    "$python" -c 'import setuptools, wheel, pip' 2> /dev/null && break
done
for folder in ${python:+one "$name"}; do
    quietly "$python" -m pip install --no-build-isolation --no-index --no-deps --target "wheel/$folder" \
        "./$folder/python"
    answer_module "$work/wheel/$folder"
    agree "the wheel of $folder" "$(sed -n 's/^Version: //p' "wheel/$folder"/*.dist-info/METADATA)"
done

# A user's file has the types of the module, and the wheel's description can be shown.
cat > user.py << 'END_PY'
import a2l
from typing import List


def names(path: str) -> List[str]:
    with a2l.open(path) as program:
        return [frame.function or '' for frame in program.frames(1)]
END_PY
if has "types of the module" mypy && [ "$python" ]; then
    MYPYPATH=$work/wheel/one quietly mypy --strict --no-site-packages user.py
fi
if has "the wheel's description" twine; then quietly twine check --strict one/out/release/*.whl; fi

# In a clean system, without network.
answer_in_chroot() {
    cat > chroot/tmp/answers << 'END_SH'
set -eu
cd /tmp
answer() { "$@" > found && cmp found "$wanted" || { echo "another answer: $*"; exit 1; }; }
dpkg -i ./*.deb
wanted=lines answer a2l -e inlined.elf -a -f -i 0x401004
wanted=lines answer /usr/lib/a2l/tools/addr2line -a -f -i -e inlined.elf 401004
wanted=findings answer a2l_why -e inlined.elf
wanted=lines answer python3 -m a2l inlined.elf 401004
dpkg --purge a2l liba2l-dev python3-a2l
python3 -c 'import a2l' 2> /dev/null && { echo "the module is still there"; exit 1; }
python3 -m venv venv
venv/bin/pip install --quiet --no-index ./*.whl
wanted=lines answer venv/bin/python -m a2l inlined.elf 401004
venv/bin/pip uninstall --quiet --yes a2l
tar -xzf ./*.tar.gz
wanted=lines answer ./a2l-*/bin/a2l -e inlined.elf -a -f -i 0x401004
wanted=reply answer ./a2l-*/bin/llvm-symbolizer-a2l -e inlined.elf 0x401004
END_SH
    cp one/out/release/* "$sample" lines findings reply chroot/tmp/
    quietly unshare --net chroot chroot sh /tmp/answers
    answers=$((answers + 7))
}
if has "a clean system" debootstrap && [ "$(id -u)" = 0 ]; then
    if debootstrap --variant=minbase --include=python3-venv bookworm chroot > debootstrap.log 2>&1; then
        answer_in_chroot
    else
        echo "skipped, debootstrap reaches no mirror: a clean system"
    fi
fi

# What `make install` puts in place goes again, with what Python has made of it.
place=(DESTDIR="$work/place" PREFIX=/opt/a2l)
quietly make -C one -o library -o shared -o program -o why -o symbolizer install "${place[@]}"
answer_programs "$work/place/opt/a2l"
env -u PYTHONDONTWRITEBYTECODE PYTHONPATH="$work/place/opt/a2l/lib/a2l/python" python3 -c 'import a2l'
for page in place/opt/a2l/share/man/man?/*; do
    agree "${page##*/}" "$(sed -nE 's/^\.TH .* "a2l ([^"]*)" .*$/\1/p' "$page")"
done
quietly make -C one uninstall "${place[@]}"
left=$(find place ! -type d -o -path '*/a2l/*a2l*')
[ -z "$left" ] || { echo "make uninstall leaves: $left"; exit 1; }

sizes=$(cd one/out/release && stat -c '%n %s' -- * | paste -sd , | sed 's/,/, /g')
echo "$versions places have version $version, $answers answers are right, $references files are where documents name them;" \
    "bytes: $sizes"
