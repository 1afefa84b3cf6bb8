# shellcheck shell=bash disable=SC2034
# Sourced by tarball.sh, deb.sh and wheel.sh: a folder for what is packed (`work`), which is removed at the end, the version, and the
# time that all files get, which is that of the last commit.
set -euo pipefail
here=$(cd "$(dirname "${BASH_SOURCE[0]}")/.." && pwd)
work=$(mktemp -d)
trap 'rm -rf "$work"' EXIT
umask 022
export LC_ALL=C TZ=UTC
version=$(cat "$here/VERSION")
out=$here/out/release
mkdir -p "$out"
cd "$work"

git -C "$here" diff --quiet HEAD || { echo "commit first: a release is of a commit" >&2; exit 1; }
SOURCE_DATE_EPOCH=${SOURCE_DATE_EPOCH:-$(git -C "$here" log -1 --format=%ct)}
export SOURCE_DATE_EPOCH

# Installs what is built below `root`, with some words of make, and without the names that only a debugger reads.
stage() {
    make -s -C "$here" install-files install-why install-symbolizer install-trace DESTDIR="$work/root" "$@"
    find root -type f \( -path '*/bin/*' -o -name '*.so' \) -exec strip --strip-unneeded {} +
    find root -name '*.a' -exec strip --strip-debug {} +
}

# What the release is made of, and under which licences, in a folder: NOTICES and a2l.spdx.json.
add_notices() { python3 "$here/release/notices.py" "$1" > /dev/null; }

# What users read, with the examples and samples that it names, in a folder. The README ends there before what only the sources have.
add_documents() {
    add_sources "$1" CHANGELOG.md README.md SECURITY.md docs/ADDRESSES.md docs/SCALE.md docs/WHY.md examples samples
    sed -i '/^## From the sources$/,$d' "$1/README.md"
    add_notices "$1"
}

# The files in git below the paths that the words name, into a folder. A path may be missing.
add_sources() {
    local folder=$1 files
    shift
    mapfile -t files < <(git -C "$here" ls-files -- "$@")
    git -C "$here" archive HEAD -- "${files[@]}" | tar -x --no-same-permissions -C "$folder"
}
