# shellcheck shell=bash
# Sourced by tests/clients.sh: folders with symbolizers for PATH, and how what a client writes with
# each of them is compared.

# Makes the folders: `theirs` has the symbolizers that are here, `other` llvm-addr2line as addr2line,
# `ours` a2l-symbolizer under their names. Each start of ours is recorded in `started`.
make_tools() {
    local name
    mkdir theirs other ours
    first_of theirs/llvm-symbolizer llvm-symbolizer-19 llvm-symbolizer-14 llvm-symbolizer
    first_of theirs/addr2line addr2line
    first_of other/llvm-symbolizer llvm-symbolizer-19 llvm-symbolizer-14 llvm-symbolizer
    first_of other/addr2line llvm-addr2line-19 llvm-addr2line-14 llvm-addr2line addr2line
    for name in llvm-symbolizer addr2line; do
        cat > ours/$name << END
#!/bin/bash
echo "$name \$*" >> "$work/started"
exec -a "\$0" "$symbolizer" "\$@"
END
        chmod +x ours/$name
    done
    : > started
    SYMBOLS=$(symbols_of_libraries)
    export SYMBOLS
}

# Links the first command that is here.
first_of() {
    local command
    for command in "${@:2}"; do
        if command -v "$command" > found; then
            ln -s "$(cat found)" "$1"
            return
        fi
    done
}

# Says how a client fares, and counts it. The words: its name, the commands that it needs, `--`, and
# the function that tries it, whose last line is what it found.
client() {
    local name=$1 needs=()
    shift
    while [ "$1" != -- ]; do needs+=("$1"); shift; done
    shift
    [[ $name =~ $only ]] || return 0
    has "$name" ${needs[0]+"${needs[@]}"} || return 0
    if "$@" > found 2>&1; then
        passed=$((passed + 1))
        sed -n '/^skipped/p' found
        echo "$name: $(tail -n 1 found)"
    else
        failures=$((failures + 1))
        head -n 80 found
        echo "$name FAILED"
    fi
}

# What a client writes with each folder first in PATH: with ours the same as with theirs or, since
# GNU addr2line and llvm-addr2line know different things of a library, as with the other, but for the
# reasons of differences.py. One line has to be as the first word describes, which only a symbolizer
# that answered can bring about; and ours has to have been started. Words with dashes before that one
# are those of lines.py.
same() {
    local how=() wanted begun folder
    while [[ $1 == --* ]]; do how+=("$1"); shift; done
    wanted=$1
    shift
    for folder in theirs other ours; do
        begun=$(wc -l < started)
        PATH=$work/$folder:$PATH "$@" > "$folder.out" 2> "$folder.err" || { cat "$folder.err"; return 1; }
        # perf ends a report with a tip, which varies; GNU addr2line has places with an empty path
        grep -vE '^# \(Tip: |^  :0$' "$folder.out" > "$folder.lines" || true
    done
    [ "$(wc -l < started)" -gt "$begun" ] || { echo "a2l-symbolizer wasn't started: $*"; return 1; }
    grep -qE -- "$wanted" ours.lines || { echo "nothing like '$wanted' in"; cat ours.lines; return 1; }
    diff theirs.err ours.err || { echo "other errors: $*"; return 1; }
    python3 "$clients/lines.py" ${how[0]+"${how[@]}"} ours.lines theirs.lines other.lines
}

# The symbol tables of the libraries that programs here have, for differences.py.
symbols_of_libraries() {
    local library id
    for library in "$(gcc -print-file-name=libc.so.6)" "$(gcc -print-file-name=libasan.so)"; do
        id=$(readelf -n "$library" 2> found | sed -n 's/.*Build ID: //p')
        printf '%s\n' "$library" "/usr/lib/debug/.build-id/${id:0:2}/${id:2}.debug"
    done
}
