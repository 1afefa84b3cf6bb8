#!/usr/bin/env bash
# Compares the declarations of .debug_abbrev with readelf on programs of this machine's compilers: the
# same codes, tags, children, names, forms and numbers, at each table. It adds a test to a copy of the
# crates and runs it. Tags and names are compared where `dw_model` has a constant for them. It needs
# python3. Its last line counts the declarations that agree.
. "$(dirname "$0")/programs.sh"
write_sources

gcc -g -gdwarf-5 -O2 calls.c other.c -o gcc
clang -g -gdwarf-5 -O2 calls.c other.c -o clang
g++ -g -gdwarf-5 -O2 sizes.cc -o g++
gcc -g -gdwarf-5 -static calls.c other.c -o static
rustc -g -C dwarf-version=5 words.rs -o rustc

copy_crates dw_model dw_bytes dw_forms

cat > rows.py <<'END'
import re, subprocess, sys
constants = dict(
    (name, int(value, 16))
    for name, value in re.findall(r'pub const (DW_\w+): u\d+ = (0x[0-9a-f_]+);', open(sys.argv[1]).read()))
declarations = 0
for program in sys.argv[2:]:
    subprocess.run(['objcopy', '-O', 'binary', '--only-section=.debug_abbrev',
                    '--set-section-flags', '.debug_abbrev=alloc', program, 'section'], check=True)
    section = open('section', 'rb').read()
    shown = subprocess.run(['readelf', '--wide', '--debug-dump=abbrev', program],
                           check=True, capture_output=True, text=True).stdout
    tables = []
    for line in shown.splitlines():
        words = line.split()
        if words[:2] == ['Number', 'TAG']:
            tables.append((int(words[2].strip('()'), 16), []))
        elif len(words) > 2 and words[0].isdigit():
            tables[-1][1].append((int(words[0]), constants.get(words[1], 0), words[2] == '[has', []))
        elif words and words[0].startswith('DW_AT') and words[1:2] != ['value:']:
            number = f'Some({words[2]})' if len(words) > 2 else 'None'
            tables[-1][1][-1][3].append((constants.get(words[0], 0), constants[words[1].rstrip(':')], number))
    rows = []
    for offset, table in tables:
        for code, tag, children, specs in table:
            declarations += 1
            pairs = ', '.join(f'({name}, {form}, {number})' for name, form, number in specs)
            rows.append(f'    ({offset}, {code}, {tag}, {str(children).lower()}, &[{pairs}]),')
    name = re.sub(r'\W', '_', program)
    print(f'const {name.upper()}: &[u8] = &[{", ".join(map(str, section))}];')
    print(f'const {name.upper()}_ROWS: &[Row] = &[')
    print('\n'.join(rows))
    print('];')
    print(f'#[test]\nfn agrees_{name}(rt: HostRuntime) {{\n    assert_eq!(rt; differs(rt.alloc(), {name.upper()}, {name.upper()}_ROWS), None);\n}}')
print(f'{declarations} declarations agree with readelf', file=sys.stderr)
END
cat > copy/crates/dw_forms/src/readelf.rt <<'END'
use crate::Abbrevs;
use std::alloc::Global;

/// A declaration: where its table begins, its code, its tag and its children, and its pairs.
type Row = (u64, u64, u64, bool, &'static [(u64, u64, Option<i64>)]);

/// The table and the code of the first declaration that differs.
fn differs(alloc: Global, section: &[u8], rows: &[Row]) -> Option<(u64, u64)> {
    let mut at = u64::MAX;
    let mut table = None;
    for (offset, code, tag, children, pairs) in rows {
        if at != *offset {
            at = *offset;
            table = Abbrevs::read(alloc, section, at).ok();
        }
        let Some(declarations) = &table else {
            return Some((*offset, 0));
        };
        let Some(found) = declarations.get(*code) else {
            return Some((*offset, *code));
        };
        let mut specs = found.specs.fork();
        if found.children != *children || (*tag != 0 && found.tag != *tag) || specs.len() != pairs.len() {
            return Some((*offset, *code));
        }
        for (name, form, number) in pairs.iter() {
            let Some(spec) = specs.take_first() else {
                return Some((*offset, *code));
            };
            if (*name != 0 && spec.name != *name) || spec.form != *form || spec.implicit != *number {
                return Some((*offset, *code));
            }
        }
    }
    None
}

END
python3 rows.py "$here/crates/dw_model/src/dwarf.rt" gcc clang g++ static rustc \
    >> copy/crates/dw_forms/src/readelf.rt 2> count
printf '#[cfg(test)]\nmod readelf;\n' >> copy/crates/dw_forms/src/lib.rt
cd copy/crates/dw_forms
rt try --test > log 2>&1 || { cat log; exit 1; }
[ "$(grep -c '^test readelf::agrees_.* ok$' log)" = 5 ] || { cat log; exit 1; }
cat "$work/count"
