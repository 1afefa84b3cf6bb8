#!/usr/bin/env bash
# Packs what is built for Debian, as `a2l` (the programs), `liba2l-dev` (the library for C) and `python3-a2l`, into
# out/release. As of tarball.sh, one commit gives the same bytes. The last lines are the sums of the packages.
# shellcheck source-path=SCRIPTDIR
. "$(dirname "$0")/stage.sh"
machine=$(dpkg --print-architecture)
libraries=usr/lib/$(dpkg-architecture -qDEB_HOST_MULTIARCH)
maintainer=$(git -C "$here" log -1 --format='%an <%ae>')

# Moves paths of `root` into the tree of a package.
take() {
    local package=debian/$1 path
    shift
    mkdir -p "$package/DEBIAN"
    for path in "$@"; do
        mkdir -p "$package/$(dirname "$path")"
        mv "root/$path" "$package/$path"
    done
}

# What Debian wants to read of a package: its changes, who may copy it, and the notices of its parts.
describe() {
    local package=$1 folder=debian/$1/usr/share/doc/$1
    mkdir -p "$folder"
    printf '%s (%s) unstable; urgency=medium\n\n  * Version %s.\n\n -- %s  %s\n' "$package" "$version" "$version" \
        "$maintainer" "$(date -R -d "@$SOURCE_DATE_EPOCH")" | gzip -n9 > "$folder/changelog.gz"
    {
        printf 'Copyright (C) %s the authors of a2l\n\n' "$(date -d "@$SOURCE_DATE_EPOCH" +%Y)"
        git -C "$here" show HEAD:LICENSE 2> /dev/null || echo 'License: none is stated.'
    } > "$folder/copyright"
    cp notices/* "$folder/"
    gzip -n9 "$folder"/{NOTICES,a2l.spdx.json}
    [ ! -d "debian/$package/usr/share/man" ] || find "debian/$package/usr/share/man" -type f -exec gzip -n9 {} +
}

# The packages of Debian that have the libraries which the programs of a package load.
needed_by() {
    local binaries
    mapfile -t binaries < <(find "debian/$1" -type f \( -path '*/bin/*' -o -name '*.so' \))
    dpkg-shlibdeps -O "${binaries[@]}" | sed -n 's/^shlibs:Depends=//p'
}

# Packs the tree of a package. The lines of its `control` that no other package has come from the input.
pack() {
    local package=$1 tree=debian/$1 size
    size=$(find "$tree" -type f -printf '%s\n' | awk '{ size += $1 } END { print int(size / 1024) + 1 }')
    {
        printf 'Package: %s\nVersion: %s\nArchitecture: %s\nMaintainer: %s\nPriority: optional\nInstalled-Size: %s\n' \
            "$package" "$version" "$machine" "$maintainer" "$size"
        cat
    } > "$tree/DEBIAN/control"
    (cd "$tree" && find usr -type f | sort | xargs -d '\n' md5sum > DEBIAN/md5sums)
    dpkg-deb --root-owner-group -Zxz --threads-max=1 --build "$tree" "$out/${package}_${version}_$machine.deb" \
        > /dev/null
}

# Has Python compile the module when it is installed, and remove what it made of it before it goes.
add_scripts() {
    local folder=debian/python3-a2l/DEBIAN pair
    for pair in postinst:py3compile prerm:py3clean; do
        cat > "$folder/${pair%:*}" << END
#!/bin/sh
set -e
if [ -z "\$DPKG_ROOT" ] && command -v ${pair#*:} > /dev/null; then ${pair#*:} -p python3-a2l; fi
END
        chmod 755 "$folder/${pair%:*}"
    done
}

stage PREFIX=/usr LIBDIR="${libraries#usr/}"
mkdir -p root/usr/lib/python3
mv root/usr/lib/a2l/python root/usr/lib/python3/dist-packages
take a2l usr/bin usr/lib/a2l usr/share/man/man1
take liba2l-dev usr/include "$libraries" usr/share/man/man3
take python3-a2l usr/lib/python3
left=$(find root ! -type d)
[ -z "$left" ] || { echo "in no package: $left" >&2; exit 1; }

printf 'Source: a2l\n\nPackage: a2l\nArchitecture: any\n' > debian/control
mkdir -p notices documents debian/a2l/usr/share/doc
add_notices notices
add_documents documents
rm documents/CHANGELOG.md $(cd notices && printf 'documents/%s ' *)
mv documents debian/a2l/usr/share/doc/a2l
# the samples are programs that the documents show
mkdir -p debian/a2l/usr/share/lintian/overrides
for tag in arch-dependent-file-in-usr-share statically-linked-binary unstripped-binary-or-object; do
    echo "a2l: $tag [usr/share/doc/a2l/samples/*]"
done > debian/a2l/usr/share/lintian/overrides/a2l
for package in a2l liba2l-dev python3-a2l; do describe $package; done
add_scripts
pack a2l << END
Section: devel
Depends: $(needed_by a2l)
Description: functions, files and lines of addresses, by DWARF 5
 a2l turns addresses of a program into function, file and line, with the
 functions inlined there. a2l_why says why an address has no answer. Sanitizers,
 perf and others start a2l-symbolizer in the place of llvm-symbolizer or
 addr2line. a2l-trace puts functions, files and lines into crash logs.
END
pack liba2l-dev << END
Section: libdevel
Description: functions, files and lines of addresses, for programs in C
 The library of a2l, to be linked into a program, with its header.
END
pack python3-a2l << END
Section: python
Depends: python3 (>= 3.8), $(needed_by python3-a2l)
Description: functions, files and lines of addresses, for Python
 The module a2l, with the library that it loads.
END
cd "$out" && sha256sum ./*_"${version}_$machine.deb"
