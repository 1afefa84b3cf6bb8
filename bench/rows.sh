#!/usr/bin/env bash
# How long a row of a line program takes while a table is read (`Lines::read`), beside the Rust crate gimli, and how long a
# row is searched for (`Lines::row`), all in one run: over the line tables of a large program, and over one table of 7.75 MB
# that is made of their programs. The first word is as for bench.sh; tables of version 5 count alone. Each run is a process
# of its own, in turn, and is made as often as the second word says (15 without); the least time counts, without that of a
# run that only goes over the lengths of the tables, and memory with what the section takes. `Lines::read` keeps checkpoints
# and makes the index of the sequences, gimli keeps nothing of a row. gimli is built from Debian's packages
# (librust-gimli-dev). Run it after `rt run` in crates/a2l has built the crates. It prints a table, and tests that as many
# checkpoints are kept as follow from gimli's rows.
. "$(dirname "$0")/../tests/programs.sh"
large=${1:-60}
times=${2:-15}
[ -x /usr/bin/time ] || { echo "no /usr/bin/time here, which measures memory"; exit 1; }
need_large "$large"

# the tables of version 5, the one that is made of their programs, those of the first header's kind, again and again, and
# random addresses of the code
objcopy -O binary --only-section=.debug_line --set-section-flags .debug_line=alloc,readonly "$program" section
cat > tables.py <<'END_PY'
import random, re, struct, subprocess, sys
section = open('section', 'rb').read()
at, tables = 0, []
while at < len(section):
    length, version = struct.unpack_from('<IH', section, at)
    if version == 5:
        tables.append(section[at:at + 4 + length])
    at += 4 + length
def parts(table):
    header_length, = struct.unpack_from('<I', table, 8)
    return table[:12 + header_length], table[12 + header_length:]
front, _ = parts(tables[0])
programs = [program for header, program in map(parts, tables) if header[12:19] == front[12:19]]
made, size = [], 0
while size < 7_750_000:
    for program in programs:
        made.append(program)
        size += len(program)
        if size >= 7_750_000:
            break
with open('all', 'wb') as out:
    out.writelines(tables)
with open('one', 'wb') as out:
    out.write(struct.pack('<I', len(front) - 4 + size) + front[4:])
    out.writelines(made)
random.seed(1)
shown = subprocess.run(['readelf', '--wide', '--section-headers', sys.argv[1]], check=True, capture_output=True, text=True).stdout
begin, size = (int(n, 16) for n in re.search(r'\] \.text +PROGBITS +(\w+) \w+ (\w+)', shown).groups())
with open('addresses', 'wb') as out:
    out.writelines(struct.pack('<Q', random.randrange(begin, begin + size)) for _ in range(100_000))
END_PY
python3 tables.py "$program"

copy_proved dw_model dw_index dw_bytes dw_forms dw_line
mkdir -p copy/crates/rows/src
echo 'rows: dw_bytes dw_forms dw_line' >> copy/crates.txt
cat > copy/crates/rows/src/main.rt <<'END'
//! Goes over the line tables of a section in one way: `open`, or `rows`, which reads each of them, or `find`, which also
//! finds the rows of addresses, of 8 bytes each in a file.
#![tactic(auto)]

use dw_bytes::{Cursor, Width};
use dw_forms::{Bases, Tables};
use dw_line::Lines;
use std::io::Write;
use std::process::ExitCode;
use std::{env, fs, io};

/// How many of these addresses have a row.
fn found(lines: &Lines<'_>, addresses: &[u8]) -> usize {
    let mut cursor = Cursor::new(addresses);
    let mut count: usize = 0;
    for _ in 0..addresses.len() / 8 {
        let Some(address) = cursor.u64() else {
            return count;
        };
        if let Some(_) = lines.row(address) {
            count = count.wrapping_add(1);
        }
    }
    count
}

/// How many tables there are, how many checkpoints are kept of them, and how many rows are found.
fn read(
    rt: &HostRuntime,
    how: &str,
    path: &str,
    addresses: &[u8],
) -> Option<(usize, usize, usize)> {
    let section = fs::read(rt, path).ok()?;
    let tables = Tables { str: &[], line_str: &[], str_offsets: &[], addr: &[], rnglists: &[] };
    let bases = Bases { str_offsets: None, addr: None, rnglists: None, width: Width::Four };
    let mut cursor = Cursor::new(&section);
    let mut count: usize = 0;
    let mut kept: usize = 0;
    let mut rows: usize = 0;
    for _ in 0..u64::MAX {
        if cursor.left() == 0 {
            break;
        }
        let offset = cursor.at() as u64;
        let len = cursor.u32()?;
        let _table = cursor.take(len as usize)?;
        count = count.wrapping_add(1);
        if how != "open" {
            let lines = Lines::read(rt.alloc(), &section, &tables, &bases, None, offset).ok()?;
            kept = kept.wrapping_add(lines.kept());
            if how == "find" {
                rows = rows.wrapping_add(found(&lines, addresses));
            }
        }
    }
    Some((count, kept, rows))
}

fn main(rt: HostRuntime) -> io::Result<ExitCode> {
    let words: Vec<String> = env::args(&rt)?.skip(1).collect(rt.alloc())?;
    if words.len() != 3 {
        return Ok(ExitCode::from(2));
    }
    let addresses = fs::read(&rt, words[2].as_str())?;
    let Some((count, kept, rows)) = read(&rt, &words[0], &words[1], &addresses) else {
        return Ok(ExitCode::from(1));
    };
    let mut out = io::writer(&rt);
    writeln!(out, "{count} {kept} {rows}")?;
    Ok(ExitCode::from(0))
}
END
(cd copy/crates/rows && rt run -- open "$work/all" "$work/addresses") > log 2>&1 || { tail -20 log; exit 1; }
ours=$work/copy/crates/rows/out/rows

build_peer gimli 'gimli = { version = "*", default-features = false, features = ["std", "read"] }' << 'END_RS' || exit 0
use gimli::{DebugLine, DebugLineOffset, LittleEndian};
fn main() -> Result<(), Box<dyn std::error::Error>> {
    let mut args = std::env::args().skip(1);
    let how = args.next().ok_or("no way")?;
    let section = std::fs::read(args.next().ok_or("no file")?)?;
    let lines = DebugLine::new(&section, LittleEndian);
    let (mut offset, mut count, mut rows, mut sum, mut kept) = (0, 0u64, 0u64, 0u64, 0usize);
    while offset < section.len() {
        let length = u32::from_le_bytes(section[offset..offset + 4].try_into()?) as usize;
        count += 1;
        if how != "open" {
            let mut machine = lines.program(DebugLineOffset(offset), 8, None, None)?.rows();
            let mut sequence = vec![];
            while let Some((_, row)) = machine.next_row()? {
                rows += 1;
                sum = sum.wrapping_add(row.address());
                if how == "count" {
                    sequence.push(row.address());
                    if row.end_sequence() {
                        if sequence.is_sorted() && sequence.first() < sequence.last() {
                            kept += (sequence.len() - 1).div_ceil(64);
                        }
                        sequence.clear();
                    }
                }
            }
        }
        offset += 4 + length;
    }
    println!("{count} {kept} {rows} {sum}");
    Ok(())
}
END_RS
peer=$work/gimli/target/release/peer

cat > measure.py <<'END_PY'
import os, subprocess, sys, time
tools, times = {'dw_line': [sys.argv[1]], 'gimli': [sys.argv[2]]}, int(sys.argv[3])
least, told = {}, {}
def words(tool, how, name):
    return tools[tool] + [how, name] + ['addresses'] * (tool == 'dw_line')
def run(*key):
    begin = time.perf_counter()
    shown = subprocess.run(words(*key), check=True, capture_output=True, text=True).stdout
    least[key] = min(least.get(key, 1e9), time.perf_counter() - begin)
    told[key] = list(map(int, shown.split()))
def megabytes(*key):
    shown = subprocess.run(['/usr/bin/time', '-f', '%M'] + words(*key), check=True, capture_output=True, text=True).stderr
    return int(shown) / 1000
for _ in range(times):
    for name in ('all', 'one'):
        for key in (('dw_line', 'open'), ('gimli', 'open'), ('dw_line', 'rows'), ('gimli', 'rows'), ('dw_line', 'find')):
            run(*key, name)
print(f'the least of {times} times')
print(f'{"tables":28} {"rows":>10} {"tool":8} {"ms":>8} {"ns a row":>9} {"ratio":>6} {"MB":>6} {"section, MB":>12}')
for name in ('all', 'one'):
    run('gimli', 'count', name)
    count, kept, rows, _ = told['gimli', 'count', name]
    if told['dw_line', 'rows', name] != [count, kept, 0]:
        raise SystemExit('other checkpoints are kept than follow from the rows of gimli')
    taken = {tool: least[tool, 'rows', name] - least[tool, 'open', name] for tool in tools}
    what = f'{count} tables' if name == 'all' else f'one of {os.path.getsize(name) / 1e6:.2f} MB'
    for tool in tools:
        print(f'{what:28} {rows:10} {tool:8} {taken[tool] * 1e3:8.2f} {taken[tool] / rows * 1e9:9.1f} '
              f'{taken[tool] / taken["gimli"]:6.2f} {megabytes(tool, "rows", name):6.1f} {os.path.getsize(name) / 1e6:12.1f}')
asked = os.path.getsize('addresses') // 8
searched = least['dw_line', 'find', 'one'] - least['dw_line', 'rows', 'one']
print(f'{told["dw_line", "find", "one"][2]} rows of {asked} random addresses found in the one table: {searched / asked * 1e9:.0f} ns each')
END_PY
python3 measure.py "$ours" "$peer" "$times"
