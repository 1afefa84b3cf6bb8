#!/usr/bin/env bash
# Builds a2l without any proof, and as fast as the proved program: so a change is measured before it is proved, and beside
# any other commit. The first word names the program to write; the second the checkout, this one without. It takes the
# module that `rt try` makes, leaves out the checks there, gives each function the inlining hint of its source, which
# `rt try` drops, and compiles it as `rt run` does: callgrind counts as many instructions as of the proved program, to
# 1 in 100. It takes two minutes, and nothing is known of what it builds but what tests show.
. "$(dirname "$0")/../tests/programs.sh"
[ $# -ge 1 ] || { echo "usage: bench/unproved.sh PROGRAM [CHECKOUT]"; exit 2; }
program=$(cd "$OLDPWD" && realpath -m "$1")
checkout=$(cd "$OLDPWD" && realpath "${2:-$here}")
kit=$(dirname "$(rt doc)")

lay_out_toolchain "$work"
(cd "$checkout/crates/a2l" && "$work/kit/bin/rt" try > "$work/try.log" 2>&1) || { tail -n 20 try.log; exit 1; }
mapfile -t words < <(grep -vxE -e '-c|-x|ir|module\.bc|-o|module\.o|-Werror|-O0|-fsanitize=address|-' words)
"$kit/toolchain/bin/clang" "${words[@]}" -S -emit-llvm -O0 -x ir module.bc -o tried.ll

python3 - "$checkout/crates" "$kit/rattle" <<'END_PY'
import pathlib, re, sys
hint = re.compile(r'#\[(?:inline\((always|never)\)|(inline)|(cold))\]')
function = re.compile(r'(?:pub(?:\([a-z ]+\))? |final |const |unsafe |extern "C" )*fn (\w+)')
words = {'always': 'alwaysinline', 'never': 'noinline', 'inline': 'inlinehint', 'cold': 'cold'}
hints = {}
for root in sys.argv[1:]:
    for source in pathlib.Path(root).glob('*/src/**/*.rt'):
        parts = source.relative_to(root).with_suffix('').parts
        module = '::'.join(part for part in parts[:1] + parts[2:] if part not in ('lib', 'main', 'mod'))
        given = None
        for line in map(str.strip, source.read_text(errors='replace').splitlines()):
            if found := hint.match(line):
                given = words[next(filter(None, found.groups()))]
            elif found := function.match(line):
                if given:
                    hints.setdefault((module, found[1]), given)
                given = None
            elif line and not line.startswith(('#', '//')):
                given = None


def hint_of(name):
    """The hint of the function of a name, which is that of its module, of a type perhaps, and its own."""
    *above, own = re.sub(r"::<#[0-9a-f]+>|'\d+$", '', name).split('::')
    modules = ('::'.join(above[:n]) for n in range(len(above), 0, -1))
    return next((hints[module, own] for module in modules if (module, own) in hints), None)


with open('tried.ll', errors='replace') as tried, open('module.ll', 'w') as out:
    for line in tried:
        if 'call void @llvm.trap()' in line:
            continue
        if found := re.match(r'define [^@]*@"([^"]+)"\(.*\) (#\d+) ', line):
            given = hint_of(found[1])
            if given:
                line = line[: found.end(2)] + ' ' + given + line[found.end(2) :]
        elif line.startswith('attributes #'):
            line = re.sub(r'sanitize_address|"frame-pointer"="all"', '', line)
            line = re.sub(r'\{ *\}', '{ nounwind }', line)
        out.write(line)
END_PY

"$kit/toolchain/bin/clang" "${words[@]}" -c -O3 -x ir module.ll -o module.o
"$kit/bin/rattle-link" --target x86_64-unknown-linux-gnu --toolchain "$kit/toolchain" -o "$program" module.o \
    "$kit/c/libos_c.a" "$kit/c/liblibc_c.a" > link.log
echo "built, without proof: $program"
