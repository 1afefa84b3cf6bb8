#!/usr/bin/env bash
# Compares the ranges of entries with those that llvm-dwarfdump and readelf show, on programs of this
# machine's compilers: those of each entry of a unit of version 5 that has DW_AT_ranges, or DW_AT_low_pc
# and DW_AT_high_pc. llvm-dwarfdump shows the ranges of every list; `readelf --debug-dump=Ranges` shows
# those of fewer, and without the base of a unit, so it has to agree where a list sets its own base. The
# script adds a test to a copy of the crates and runs it on the programs. It needs python3. Its last line
# counts the entries that agree.
. "$(dirname "$0")/programs.sh"
write_sources

gcc -g -gdwarf-5 -O2 -ffunction-sections calls.c other.c -o gcc
clang -g -gdwarf-5 -O2 -ffunction-sections calls.c other.c -o clang
g++ -g -gdwarf-5 -O2 -ffunction-sections sizes.cc -o g++
clang -g -gdwarf-5 -O2 calls.c other.c -o clang_based
clang++ -g -gdwarf-5 -O2 sizes.cc -o clang++
# one unit of version 5, since readelf 2.40 looks up the bases of all units among the addresses of the first one
rustc -g -O -C dwarf-version=5 -C codegen-units=1 words.rs -o rustc

copy_crates dw_model dw_index dw_bytes dw_elf dw_forms dw_units dw_ranges
sed -i 's/^dw_ranges:/dw_ranges: dw_elf/' copy/crates.txt

cat > rows.py <<'END'
import re, subprocess, sys

def shown(program, what):
    return subprocess.run(['readelf', '--wide', f'--debug-dump={what}', program],
                          check=True, capture_output=True, text=True).stdout.splitlines()

def lists(program):
    """The ranges that readelf shows of each list that sets its own base, by its offset, without empty ones."""
    found, ranges = {}, None
    for line in shown(program, 'Ranges'):
        words = line.split()
        if words[:1] == ['Offset:']:
            start, ranges = int(words[1].rstrip(','), 16), []
        elif line.startswith('Contents of the '):
            ranges = None
        elif 'base address' in line and ranges == []:
            found[start] = ranges
        elif ranges is not None and re.match(r'\s+[0-9a-f]{8} [0-9a-f]{16} [0-9a-f]{16}', line):
            begin, end = int(words[1], 16), int(words[2], 16)
            if begin < end:
                ranges.append((begin, end))
    return found

def dumped(program):
    """The ranges that llvm-dwarfdump shows of each entry with DW_AT_ranges, by its offset."""
    lines = subprocess.run(['llvm-dwarfdump', '--debug-info', program], check=True, capture_output=True, text=True).stdout
    found, ranges = {}, None
    for line in lines.splitlines():
        entry = re.match(r'0x(\w+): +DW_TAG', line)
        pair = re.match(r'\s+\[0x(\w+), 0x(\w+)\)', line)
        if entry:
            at, ranges = int(entry[1], 16), None
        elif 'DW_AT_ranges' in line:
            ranges = found[at] = []
        elif pair and ranges is not None:
            begin, end = int(pair[1], 16), int(pair[2], 16)
            if begin < end:
                ranges.append((begin, end))
        else:
            ranges = None
    return found

def units(program):
    """The entries of each unit: the offset of each, and its attributes by name as pairs of form and text."""
    found, version = [], 0
    for line in shown(program, 'info'):
        entry = re.match(r' <\w+><(\w+)>: Abbrev Number: [1-9]', line)
        attribute = re.match(r'\s+<\w+>\s+(DW_AT_\w+)\s*: \((\w+)\) (.*)', line)
        if 'Compilation Unit @ offset' in line:
            found.append([])
        elif line.startswith('   Version:'):
            version = int(line.split()[1])
        elif entry and version == 5:
            found[-1].append((int(entry[1], 16), {}))
        elif attribute and version == 5:
            found[-1][-1][1][attribute[1]] = (attribute[2], attribute[3])
    return found

def number(attribute):
    """The address or the number that readelf shows of an attribute."""
    form, text = attribute
    indexed = form.startswith('addrx') or form == 'rnglistx'
    return int(text.split()[-1 if indexed else 0], 0)

agreed = of_readelf = 0
for program in sys.argv[1:]:
    name = re.sub(r'\W', 'p', program).upper()
    by_readelf, by_llvm = lists(program), dumped(program)
    rows = []
    for place, entries in enumerate(units(program)):
        for at, entry in entries:
            if 'DW_AT_ranges' in entry:
                wanted, of_list = by_llvm[at], number(entry['DW_AT_ranges'])
                if of_list in by_readelf:
                    assert by_readelf[of_list] == wanted, (program, hex(at))
                    of_readelf += 1
            elif 'DW_AT_low_pc' in entry and 'DW_AT_high_pc' in entry:
                begin, end = number(entry['DW_AT_low_pc']), number(entry['DW_AT_high_pc'])
                if not entry['DW_AT_high_pc'][0].startswith('addr'):
                    end += begin
                wanted = [(begin, end)] if begin < end else []
            else:
                continue
            pairs = ', '.join(f'({begin}, {end})' for begin, end in wanted)
            rows.append(f'    ({place}, {at}, &[{pairs}]),')
    assert rows, program
    agreed += len(rows)
    print(f'const {name}_ROWS: &[Row] = &[\n' + '\n'.join(rows) + '\n];')
    print(f'#[test]\nfn agrees_{name.lower()}(rt: HostRuntime) -> Result<(), Fail> {{\n    let file = fs::read(&rt, "{program}")?;\n    assert_eq!(rt; differs(rt.alloc(), &file, {name}_ROWS), None);\n    Ok(())\n}}')
print(f'{agreed} entries agree, {of_readelf} of them by lists that readelf shows too', file=sys.stderr)
END
cat > copy/crates/dw_ranges/src/shown.rt <<'END'
use crate::ranges_of;
use dw_elf::Elf;
use dw_units::Units;
use std::alloc::Global;
use std::fs;
use std::test::Fail;

/// An entry, by the place of its unit and its offset, and its ranges.
type Row = (usize, u64, &'static [(u64, u64)]);

fn agrees(alloc: Global, units: &Units<'_>, row: &Row) -> bool {
    let (place, offset, wanted) = *row;
    let Ok(Some(entry)) = units.entry(alloc, place, offset) else {
        return false;
    };
    let Ok(found) = ranges_of(alloc, &entry, units.unit(place), units.tables()) else {
        return false;
    };
    found.len() == wanted.len()
        && found.iter().zip(wanted).all(|(range, pair)| range.begin == pair.0 && range.end == pair.1)
}

/// The offset of the first entry that differs.
fn differs(alloc: Global, file: &[u8], rows: &[Row]) -> Option<u64> {
    let Ok(elf) = Elf::open(file) else {
        return Some(0);
    };
    let Ok(units) = Units::read(alloc, &elf) else {
        return Some(0);
    };
    rows.iter().find(|row| !agrees(alloc, &units, row)).map(|row| row.1)
}

END
python3 rows.py gcc clang clang_based g++ clang++ rustc >> copy/crates/dw_ranges/src/shown.rt 2> count || { cat count; exit 1; }
printf '\n#[cfg(test)]\nmod shown;\n' >> copy/crates/dw_ranges/src/lib.rt
cd copy/crates/dw_ranges
rt try --test --data gcc="$work/gcc" --data clang="$work/clang" --data clang_based="$work/clang_based" \
    --data g++="$work/g++" --data clang++="$work/clang++" --data rustc="$work/rustc" > log 2>&1 || { cat log; exit 1; }
[ "$(grep -c '^test shown::agrees_.* ok$' log)" = 6 ] || { cat log; exit 1; }
cat "$work/count"
