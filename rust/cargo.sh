#!/bin/sh
# cargo.sh COMMAND ..: cargo for this workspace. Where Debian's packages have all of its crates (librust-*-dev, of
# tests/packages), the first call writes a .cargo/config.toml that has cargo take them, and nothing from elsewhere; after
# that plain `cargo` does so too. It isn't kept in git, since with it nothing is built on a machine without them: there
# cargo takes its registry.
registry=/usr/share/cargo/registry
cd "$(dirname "$0")" || exit
if [ -d "$registry" ] && [ ! -e .cargo/config.toml ]; then
    mkdir -p .cargo
    cat > .cargo/config.toml << END
[source.crates-io]
replace-with = "debian"

[source.debian]
directory = "$registry"

[net]
offline = true
END
    cargo metadata --format-version 1 > /dev/null 2>&1 || {
        rm .cargo/config.toml
        echo "cargo.sh: Debian's crates aren't all here (tests/packages): cargo takes its registry" >&2
    }
fi
exec cargo "$@"
