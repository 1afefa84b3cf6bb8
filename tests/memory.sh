#!/usr/bin/env bash
# Lets the Nth allocation or start of a thread fail, for each N until a run meets no refusal: each run ends with status 3 and
# `a2l: out of memory`, after a beginning of its output, or as if nothing had been refused. Run it after `rt run` in
# crates/a2l has built the program; where a2l_why is built too, the same is tried with it.
. "$(dirname "$0")/programs.sh"
need_a2l

build_refuser

# Each allocation of one command line of a program refused in turn; the program by its name and its path.
refuse() {
    local name=$1 program=$2 n=0 wanted status
    shift 2
    "$program" "$@" > "$work/whole" 2> "$work/whole.errors" && wanted=0 || wanted=$?
    while :; do
        n=$((n + 1))
        rm -f "$work/mark"
        REFUSE=$n MARK=$work/mark LD_PRELOAD=$work/refuse.so "$program" "$@" > "$work/out" 2> "$work/errors" && status=0 || status=$?
        if [ "$status" = 3 ] && [ "$(cat "$work/errors")" = "$name: out of memory" ]; then
            cmp -s -n "$(stat -c %s "$work/out")" "$work/out" "$work/whole" || { echo "$name, refusal $n: other output"; exit 1; }
        elif [ "$status" != "$wanted" ] || ! cmp -s "$work/out" "$work/whole" || ! cmp -s "$work/errors" "$work/whole.errors"; then
            echo "$name, refusal $n: status $status"
            cat "$work/errors"
            exit 1
        fi
        [ -e "$work/mark" ] || break
    done
    echo "$((n - 1)) allocations and threads refused in turn: $name $*"
}

refuse a2l "$a2l" -e "$here/samples/mixed.elf" --units
refuse a2l "$a2l" -e "$here/samples/mixed.elf" --units --workers 3 -fia 401000 401004
head -c 685 "$here/samples/inlined.elf" > "$work/cut.elf"
refuse a2l "$a2l" -e "$work/cut.elf" --units
refuse a2l "$a2l" -e "$here/samples/inlined.elf" -fia --workers 1 401000 401004 zz
refuse a2l "$a2l" -e "$here/samples/inlined.elf" -fia --workers 3 --senders 2 401000 401004 zz
refuse a2l "$a2l" -e "$here/samples/inlined.elf" -a --workers 2 401003 400000-500000 401002-401006 401006-401002
refuse a2l "$a2l" -x

why=${A2L_WHY:-$here/crates/a2l_why/out/a2l_why}
if [ -x "$why" ]; then
    refuse a2l_why "$why" -e "$here/samples/mixed.elf"
    refuse a2l_why "$why" -e "$here/samples/mixed.elf" --json
    refuse a2l_why "$why" -e "$here/samples/inlined.elf" 401000 401004 400000 zz
    refuse a2l_why "$why" -e "$here/samples/inlined.elf" --json 401004 400000-500000
    refuse a2l_why "$why" -e "$work/cut.elf"
    refuse a2l_why "$why" -x
else
    echo "skipped, a2l_why is not built: refused allocations of it"
fi
