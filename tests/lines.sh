#!/usr/bin/env bash
# Compares dw_line with llvm-dwarfdump on programs of this machine's compilers, at -O0 and -O2: the row at
# each address of each used sequence of each table, at the addresses before and at its end, and the path of
# each file. Tables of another version have to be bad. It adds a program to a copy of the crates and runs it.
# It needs python3. Its last line counts the rows and the paths that agree.
. "$(dirname "$0")/programs.sh"
write_sources

programs=()
for level in 0 2; do
    gcc -g -gdwarf-5 -O$level calls.c other.c -o gcc$level
    gcc -g -gdwarf-5 -O$level -ffunction-sections -Wl,--gc-sections calls.c other.c -o gcc_sections$level
    clang -g -gdwarf-5 -O$level calls.c other.c -o clang$level
    g++ -g -gdwarf-5 -O$level sizes.cc -o gxx$level
    clang++ -g -gdwarf-5 -O$level -ffunction-sections sizes.cc -o clangxx$level
    rustc -g -C dwarf-version=5 -C opt-level=$level words.rs -o rustc$level
    programs+=(gcc$level gcc_sections$level clang$level gxx$level clangxx$level rustc$level)
done

# what llvm-dwarfdump shows, as lines that the program reads: the rows at all addresses that matter, by the
# rules of section 6.2, and the paths
cat > wanted.py <<'END'
import os.path, re, subprocess, sys
counts = [0, 0, 0]
for program in sys.argv[1:]:
    shown = subprocess.run(['llvm-dwarfdump', '--debug-line', program], check=True, capture_output=True, text=True).stdout
    with open(program + '.wanted', 'w') as out:
        for table in re.split(r'^debug_line\[', shown, flags=re.M)[1:]:
            offset = int(table[:table.index(']')], 16)
            version = int(re.search(r'version: (\d+)', table)[1])
            counts[0] += 1
            if version != 5:
                print('bad', offset, file=out)
                continue
            print('table', offset, file=out)
            directories = re.findall(r'^include_directories\[ *\d+\] = "(.*)"$', table, re.M)
            files = re.findall(r'^file_names\[ *\d+\]:\n +name: "(.*)"\n +dir_index: (\d+)$', table, re.M)
            for n, (name, directory) in enumerate(files):
                path = directories[0]
                if int(directory) > 0:
                    path = os.path.join(path, directories[int(directory)])
                print('path', n, os.path.join(path, name), file=out)
                counts[2] += 1
            sequences, rows = [], []
            for line in re.findall(r'^0x[0-9a-f]{16} .*$', table, re.M):
                words = line.split()
                rows.append((int(words[0], 16), int(words[3]), int(words[1]), int(words[2])))
                if 'end_sequence' in words:
                    sequences.append(rows)
                    rows = []
            addresses = [[row[0] for row in rows] for rows in sequences]
            used = [(at, rows) for at, rows in zip(addresses, sequences) if at == sorted(at) and at[0] < at[-1]]
            asked = set()
            for at, rows in used:
                asked.update(at)
                asked.update(address - 1 for address in at if address > 0)
                asked.add(at[-1] + 1)
            row_at = {}
            for at, rows in reversed(used):
                place = 0
                for address in sorted(address for address in asked if at[0] <= address < at[-1]):
                    while at[place + 1] <= address:
                        place += 1
                    row_at[address] = rows[place]
            for address in sorted(asked):
                found = row_at.get(address)
                print('row', address, *(found[1:] if found else ['none']), file=out)
                counts[1] += 1
print(f'{counts[1]} rows and {counts[2]} paths of {counts[0]} tables agree with llvm-dwarfdump')
END
python3 wanted.py "${programs[@]}" > count

copy_crates dw_model dw_index dw_bytes dw_elf dw_forms dw_line
echo 'line_rows: dw_bytes dw_forms dw_line' >> copy/crates.txt
mkdir -p copy/crates/line_rows/src
cat > copy/crates/line_rows/src/main.rt <<'END'
//! Compares the tables of one program with the lines of a file.
#![tactic(auto)]

use dw_bytes::Width;
use dw_forms::{Bases, Tables};
use dw_line::{LineFault, Lines, Row};
use std::process::ExitCode;
use std::{env, fs, io};

/// The number that a word is.
fn number(word: Option<&str>) -> Option<u64> {
    word?.parse::<u64>().ok()
}

/// Whether the table's row or path is the one that a line names.
fn agrees(rt: &HostRuntime, lines: &Lines<'_>, line: &str) -> Option<bool> {
    let mut words = line.splitn(3, ' ');
    let kind = words.next()?;
    let n = number(words.next())?;
    let rest = words.next()?;
    if kind == "path" {
        let path = lines.path(rt.alloc(), n).ok()??;
        return Some(path.as_slice() == rest.as_bytes());
    }
    if rest == "none" {
        return Some(lines.row(n).is_none());
    }
    let mut words = rest.split(' ');
    let row = Row {
        file: number(words.next())?,
        line: number(words.next())?,
        column: number(words.next())?,
    };
    Some(lines.row(n) == Some(row))
}

/// The line of a program's file with which its tables don't agree.
fn differs(rt: &HostRuntime, words: &[String]) -> io::Result<Option<String>> {
    let section = fs::read(rt, words[0].as_str())?;
    let line_str = fs::read(rt, words[1].as_str())?;
    let str = fs::read(rt, words[2].as_str())?;
    let wanted = fs::read_to_string(rt, words[3].as_str())?;
    let tables = Tables { str: &str, line_str: &line_str, str_offsets: &[], addr: &[], rnglists: &[] };
    let bases = Bases { str_offsets: None, addr: None, rnglists: None, width: Width::Four };
    let mut table = None;
    for line in wanted.lines() {
        let mut words = line.split(' ');
        let kind = words.next().unwrap_or("");
        let n = number(words.next()).unwrap_or(u64::MAX);
        if kind == "table" || kind == "bad" {
            match Lines::read(rt.alloc(), &section, &tables, &bases, None, n) {
                Ok(lines) if kind == "table" => table = Some(lines),
                Err(LineFault::Bad) if kind == "bad" => {}
                _ => return Ok(Some(String::from_str(rt.alloc(), line)?)),
            }
            continue;
        }
        let agreed = match &table {
            Some(lines) => agrees(rt, lines, line) == Some(true),
            None => false,
        };
        if !agreed {
            return Ok(Some(String::from_str(rt.alloc(), line)?));
        }
    }
    Ok(None)
}

fn main(rt: HostRuntime) -> io::Result<ExitCode> {
    let words: Vec<String> = env::args(&rt)?.skip(1).collect(rt.alloc())?;
    for words in words.chunks(4) {
        if let Some(line) = differs(&rt, words)? {
            println!(rt; "{}: {}", words[3].as_str(), line.as_str())?;
            return Ok(ExitCode::from(1));
        }
    }
    rt.println("all agree")?;
    Ok(ExitCode::from(0))
}
END
words=()
for program in "${programs[@]}"; do
    for section in line line_str str; do
        : > copy/crates/line_rows/$program.$section
        objcopy -O binary --only-section=.debug_$section --set-section-flags .debug_$section=alloc $program copy/crates/line_rows/$program.$section 2> /dev/null
        words+=($program.$section)
    done
    cp $program.wanted copy/crates/line_rows/
    words+=($program.wanted)
done
cd copy/crates/line_rows
rt try -- "${words[@]}" > log 2>&1 || { cat log; exit 1; }
grep -q '^all agree$' log || { cat log; exit 1; }
cat "$work/count"
