#!/usr/bin/env bash
# Packs a release of what is built: out/release/a2l-VERSION-x86_64-linux.tar.gz. It has what `make install` puts in
# place, the module for Python as pip takes it, the crates of Rust, which find the library in ../lib, the examples, the
# documents for users, the notices of all parts, and the sums of all files. One commit, built by the same tools, gives
# the same bytes: all files have the time of the commit and no owner, and stand in order. The last line is the sum of
# the tarball.
# shellcheck source-path=SCRIPTDIR
. "$(dirname "$0")/stage.sh"
name=a2l-$version-$(uname -m)-linux

stage PREFIX=/usr/local
mv root/usr/local "$name"
# it may be unpacked anywhere
# shellcheck disable=SC2016
sed -i 's|^prefix=.*|prefix=${pcfiledir}/../..|' "$name/lib/pkgconfig/a2l.pc"
add_sources "$name" VERSION LICENSE python rust
add_documents "$name"
# once, beside what makes a wheel of it
mv "$name/lib/a2l/python/a2l/liba2l.so" "$name/python/a2l/"
rm -r "$name/lib/a2l/python"

(cd "$name" && find . -type f -printf '%P\n' | sort | xargs -d '\n' sha256sum) > SHA256SUMS
mv SHA256SUMS "$name/"
tar --sort=name --format=ustar --mtime="@$SOURCE_DATE_EPOCH" --owner=0 --group=0 --numeric-owner --mode=u=rwX,go=rX \
    -cf - "$name" | gzip -n9 > "$name.tar.gz"
mv "$name.tar.gz" "$out/"
cd "$out" && sha256sum "$name.tar.gz"
