# shellcheck shell=bash
# Sourced by tests/clients.sh: debug information that stands in another file, which is found by build
# id, by a link with a checksum, and through a server. Each way gives the lines of the whole program.

debug_files() {
    client "debug files by build id" gcc objcopy strip -- by_build_id
    client "debug files by link" gcc objcopy strip -- by_link
    client "debuginfod" gcc objcopy strip debuginfod debuginfod-find -- by_server
}

# Builds `whole`, and from it `cut/calls` without debug information, which stands in `debug` by its
# build id; `id`, the request `ask` and what it is answered of the whole program, `wanted`.
build_whole() {
    gcc $five -Wl,--build-id calls.c other.c -o whole
    id=$(readelf -n whole | sed -n 's/.*Build ID: //p')
    main=$(nm whole | awk '$3 == "main" { print $1 }')
    wanted=$(replies "whole 0x$main")
    grep -q 'calls\.c:[1-9]' <<< "$wanted" || { echo "no line of the whole program: $wanted"; return 1; }
    mkdir -p "debug/.build-id/${id:0:2}" cut
    objcopy --only-keep-debug --compress-debug-sections=zlib whole "debug/.build-id/${id:0:2}/${id:2}.debug"
    strip whole -o cut/calls
}

replies() { printf '%s\n' "$1" | ours/llvm-symbolizer "${@:2}"; }

# A way, and what it gave.
expect() { [ "$2" = "$wanted" ] || { printf '%s: %s\n' "$1" "$2"; return 1; }; }

by_build_id() {
    build_whole || return 1
    local folder=--debug-file-directory=$work/debug
    expect "by build id" "$(replies "cut/calls 0x$main" "$folder")" &&
        expect "the build id alone" "$(replies "BUILDID:$id 0x$main" "$folder")" &&
        echo "the same frames by a file's build id and by the build id alone"
}

by_link() {
    build_whole || return 1
    mkdir -p linked
    objcopy --remove-section=.note.gnu.build-id cut/calls linked/calls
    objcopy --only-keep-debug whole linked/calls.debug
    (cd linked && objcopy --add-gnu-debuglink=calls.debug calls)
    expect "by link" "$(replies "linked/calls 0x$main")" || return 1
    printf 'x' >> linked/calls.debug
    if replies "linked/calls 0x$main" | grep 'calls\.c:[1-9]'; then
        echo "a file of another checksum is taken"
        return 1
    fi
    echo "the same frames by a link, and none by a link to a file of another checksum"
}

by_server() {
    build_whole || return 1
    local port=$((20000 + RANDOM % 20000)) server status=0
    export DEBUGINFOD_CACHE_PATH=$work/cache
    debuginfod -F -p "$port" -d "$work/served.sqlite" "$work/debug" > server.log 2>&1 &
    server=$!
    DEBUGINFOD_URLS=http://127.0.0.1:$port through_server || status=1
    kill $server
    wait $server || true
    [ "$status" = 0 ] || return 1
    rm -rf cache
    export DEBUGINFOD_URLS=http://127.0.0.1:$port
    timeout 30 bash -c 'echo "cut/calls 0x10" | ours/llvm-symbolizer' > gone.out || {
        echo "it waits for a server that is gone"
        return 1
    }
    unset DEBUGINFOD_URLS
    echo "the same frames through a server, and a reply where it is gone"
}
through_server() {
    for _ in $(seq 100); do
        debuginfod-find debuginfo "$id" > find.log 2>&1 && break
        sleep 0.2
    done
    rm -rf cache
    expect "through a server" "$(replies "cut/calls 0x$main")" &&
        expect "the build id through a server" "$(replies "BUILDID:$id 0x$main")"
}
