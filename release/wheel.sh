#!/usr/bin/env bash
# Packs the module for Python with the library in it: out/release/a2l-VERSION-py3-none-manylinux_.._x86_64.whl, which pip
# installs without network. As of tarball.sh, one commit gives the same bytes. The last line is the sum of the wheel.
# shellcheck source-path=SCRIPTDIR
. "$(dirname "$0")/stage.sh"

for python in python3 /usr/bin/python3 ''; do
    [ "$python" ] || { echo "no Python here has pip, setuptools and wheel" >&2; exit 1; }
    "$python" -c 'import setuptools, wheel, pip' 2> /dev/null && break
done
add_sources . python
add_notices python
install -m 644 "$here/out/liba2l.so" python/a2l/
strip --strip-unneeded python/a2l/liba2l.so
"$python" -m pip wheel --quiet --no-build-isolation --no-index --no-deps --wheel-dir wheel ./python
mv wheel/*.whl "$out/"
cd "$out" && sha256sum a2l-"$version"-*.whl
