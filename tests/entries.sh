#!/usr/bin/env bash
# Walks every entry of every unit that isn't skipped, on programs of this machine's compilers, and compares
# offset, depth and tag with readelf. It builds a small program over a copy of the crates, without proof. It
# needs python3. Its last line counts the entries that agree; it fails where one differs.
. "$(dirname "$0")/programs.sh"
write_sources

for cc in gcc clang; do
    for level in 0 2; do
        "$cc" -g -gdwarf-5 -O$level calls.c other.c -o $cc-O$level
    done
    "$cc" -g -gdwarf-5 -c calls.c -o calls5.o
    "$cc" -g -gdwarf-4 -c other.c -o other4.o
    "$cc" calls5.o other4.o -o $cc-mixed
    "$cc" -g -gdwarf-5 -static calls.c other.c -o $cc-static
done
g++ -g -gdwarf-5 -O0 -fdebug-types-section sizes.cc -o g++-types
g++ -g -gdwarf-5 -O2 -ffunction-sections sizes.cc -o g++-sections
clang++ -g -gdwarf-5 -O2 sizes.cc -o clang++
rustc -g -C dwarf-version=5 words.rs -o rustc-O0
rustc -g -O -C dwarf-version=5 words.rs -o rustc-O2

copy_crates dw_model dw_bytes dw_elf dw_forms dw_units
mkdir -p copy/crates/walk/src
echo 'walk: dw_model dw_elf dw_units' >> copy/crates.txt
cat > copy/crates/walk/src/main.rt <<'END'
//! Prints each entry of the files of the command line: offset, depth and tag.
#![tactic(auto)]

use dw_elf::Elf;
use dw_units::Units;
use std::io::Write;
use std::process::ExitCode;
use std::{env, fs, io};

/// The entries of a unit, in order. `None` where one can't be read or written.
fn walk<W: Write>(rt: &HostRuntime, units: &Units<'_>, i: usize, out: &mut W) -> Option<()> {
    let mut offset = units.unit(i).first_entry;
    let mut depth: usize = 0;
    while offset < units.unit(i).end {
        let entry = units.entry(rt.alloc(), i, offset).ok()?;
        match entry {
            Some(entry) => {
                let tag = entry.tag;
                writeln!(out, "{offset:x} {depth} {tag:x}").ok()?;
                offset = entry.next;
                if entry.children {
                    depth += 1;
                }
            }
            None => {
                offset = units.past_null(i, offset);
                depth -= 1;
            }
        }
        if depth == 0 {
            return Some(());
        }
    }
    Some(())
}

fn list<W: Write>(rt: &HostRuntime, path: &str, out: &mut W) -> Option<()> {
    let file = fs::read(rt, path).ok()?;
    let elf = Elf::open(&file).ok()?;
    let units = Units::read(rt.alloc(), &elf).ok()?;
    for i in 0..units.len() {
        if !units.unit(i).kind.is_skipped() {
            walk(rt, &units, i, out)?;
        }
    }
    Some(())
}

fn main(rt: HostRuntime) -> ExitCode {
    let Ok(words) = env::args(&rt) else {
        return ExitCode::from(2);
    };
    let mut out = io::writer(&rt);
    for word in words.skip(1) {
        if list(&rt, &word, &mut out).is_none() {
            return ExitCode::from(1);
        }
    }
    ExitCode::from(0)
}
END

cat > wanted.py <<'END'
import re, subprocess, sys
names = '''array_type 01 class_type 02 entry_point 03 enumeration_type 04 formal_parameter 05 imported_declaration 08
label 0a lexical_block 0b member 0d pointer_type 0f reference_type 10 compile_unit 11 string_type 12
structure_type 13 subroutine_type 15 typedef 16 union_type 17 unspecified_parameters 18 variant 19 common_block 1a
common_inclusion 1b inheritance 1c inlined_subroutine 1d module 1e ptr_to_member_type 1f set_type 20
subrange_type 21 with_stmt 22 access_declaration 23 base_type 24 catch_block 25 const_type 26 constant 27
enumerator 28 file_type 29 friend 2a namelist 2b namelist_item 2c packed_type 2d subprogram 2e
template_type_param 2f template_value_param 30 thrown_type 31 try_block 32 variant_part 33 variable 34
volatile_type 35 dwarf_procedure 36 restrict_type 37 interface_type 38 namespace 39 imported_module 3a
unspecified_type 3b partial_unit 3c imported_unit 3d condition 3f shared_type 40 type_unit 41
rvalue_reference_type 42 template_alias 43 coarray_type 44 generic_subrange 45 dynamic_type 46 atomic_type 47
call_site 48 call_site_parameter 49 skeleton_unit 4a immutable_type 4b
GNU_template_template_param 4106 GNU_template_parameter_pack 4107 GNU_formal_parameter_pack 4108
GNU_call_site 4109 GNU_call_site_parameter 410a'''.split()
tags = dict(zip(names[::2], names[1::2]))
shown = subprocess.run(['readelf', '--wide', '--debug-dump=no-follow-links', '--debug-dump=info', sys.argv[1]],
                       check=True, capture_output=True, text=True, errors='replace').stdout
of_info = kept = done = False
for line in shown.splitlines():
    if line.startswith('Contents of the '):
        of_info = line.split()[3] == '.debug_info'
    elif 'Compilation Unit @ offset' in line:
        version = kind = None
    elif line.startswith('   Version:'):
        version = line.split()[1]
        kept, done = False, False
    elif line.startswith('   Unit Type:'):
        kept = version == '5' and line.split()[2] in ('DW_UT_compile', 'DW_UT_partial', 'DW_UT_skeleton')
    elif of_info and kept:
        found = re.match(r' <(\d+)><([0-9a-f]+)>: Abbrev Number: (\d+)(?: \(DW_TAG_(\w+)\))?', line)
        if found and found[3] != '0':
            depth, offset, _, name = found.groups()
            print(offset, int(depth), tags[name].lstrip('0'))
END

cd copy/crates/walk
agreed=0
# walks some programs at one time, whose entries fit what `rt try` lets a program write (1 MiB)
agree() {
    rt try -- "$@" > "$work/got" 2> "$work/told" || { cat "$work/told"; exit 1; }
    : > "$work/wanted"
    for program in "$@"; do
        python3 "$work/wanted.py" "$program" > "$work/of_one"
        count=$(wc -l < "$work/of_one")
        [ "$count" -gt 0 ] || { echo "$program: no entries"; exit 1; }
        agreed=$((agreed + count))
        echo "$(basename "$program"): $count entries"
        cat "$work/of_one" >> "$work/wanted"
    done
    if ! cmp -s "$work/wanted" "$work/got"; then
        echo "$* differ:"
        diff "$work/wanted" "$work/got" | head -20
        exit 1
    fi
}
agree "$work"/{gcc,clang}-{O0,O2,mixed,static} "$work"/g++-{types,sections} "$work/clang++"
agree "$work"/rustc-O{0,2}
for program in "$@"; do agree "$program"; done
echo "$agreed entries agree with readelf"
