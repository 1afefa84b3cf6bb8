#!/usr/bin/env bash
# How long a span of all addresses of a large program takes, beside reading the line tables of the program alone; and one
# of a program of three units, beside the ranges of its units, each asked by itself. The first word is as for bench.sh, best
# `many`. Each run is a process of its own, in turn, and is made as often as the second word says (10 without); the least
# time counts. Times are taken within the process, around the calls: without opening the file, and without what is released
# after the answer. Spans are asked by a context that keeps all units, so nothing is read twice. Run it after `rt run` in
# crates/a2l has built the crates. It prints a table, and tests that as many addresses are in the pieces of all ranges of the
# three units as in those of the span.
. "$(dirname "$0")/../tests/programs.sh"
need_a2l
large=${1:-60}
times=${2:-10}
[ -x /usr/bin/time ] || { echo "no /usr/bin/time here, which measures memory"; exit 1; }
need_large "$large"
mkdir three
(cd three && write_large 2 && build_units ../three-units)

copy_proved dw_model dw_index dw_bytes ticket_core dw_elf dw_forms dw_units dw_ranges dw_line dw_frames dw_symbols
mkdir -p copy/crates/pieces_time/src
echo 'pieces_time: dw_bytes dw_elf dw_forms dw_line dw_symbols' >> copy/crates.txt
cat > copy/crates/pieces_time/src/main.rt <<'END_RT'
//! Opens a file and does one thing with it, as often as the second word says: `open`, nothing; `tables`, reads all line
//! tables; `spans`, asks spans, each of two further words, by one context. It says how many tables or pieces there were,
//! how many addresses were in pieces, and how many nanoseconds the calls took.
#![tactic(auto)]

use dw_bytes::{Cursor, Width};
use dw_elf::{Elf, Name};
use dw_forms::{Bases, Tables};
use dw_line::Lines;
use dw_symbols::{Answer, Context, Image};
use std::io::Write;
use std::num::NonZeroUsize;
use std::process::ExitCode;
use std::time::{Duration, Instant};
use std::{env, fs, io};

/// What was done, and how long it took.
#[derive(Clone, Copy)]
struct Outcome {
    count: u64,
    size: u64,
    took: Duration,
}

/// How many tables of the 32-bit format and version 5 a section has, all of which are read.
fn tables(rt: &HostRuntime, section: &[u8]) -> Option<u64> {
    let tables = Tables { str: &[], line_str: &[], str_offsets: &[], addr: &[], rnglists: &[] };
    let bases = Bases { str_offsets: None, addr: None, rnglists: None, width: Width::Four };
    let mut cursor = Cursor::new(section);
    let mut count: u64 = 0;
    for _ in 0..u64::MAX {
        if cursor.left() == 0 {
            break;
        }
        let offset = cursor.at() as u64;
        let len = cursor.u32()?;
        let table = cursor.take(len as usize)?;
        if table.starts_with(&[5, 0]) {
            let _lines = Lines::read(rt.alloc(), section, &tables, &bases, None, offset).ok()?;
            count = count.wrapping_add(1);
        }
    }
    Some(count)
}

/// The same, with the time.
fn timed_tables(rt: &HostRuntime, section: &[u8]) -> Option<Outcome> {
    let begin = Instant::now(rt).ok()?;
    let count = tables(rt, section)?;
    let took = begin.elapsed(rt).ok()?;
    Some(Outcome { count, size: 0, took })
}

/// The pieces of a span, with the time.
fn pieces(rt: &HostRuntime, context: &mut Context<'_, '_>, low: u64, high: u64) -> Option<Outcome> {
    let begin = Instant::now(rt).ok()?;
    let answer = context.find_location_range(low, high).ok()?;
    let took = begin.elapsed(rt).ok()?;
    let Answer::Pieces(pieces) = answer else {
        return None;
    };
    let mut size: u64 = 0;
    for piece in &pieces {
        size = size.wrapping_add(piece.end.wrapping_sub(piece.begin));
    }
    Some(Outcome { count: pieces.len() as u64, size, took })
}

/// The same of some spans.
fn spans(rt: &HostRuntime, image: &Image<'_>, words: &[String]) -> Option<Outcome> {
    let capacity = NonZeroUsize::MIN.saturating_add(1_000_000);
    let mut context = Context::new(rt.alloc(), image, capacity).ok()?;
    let mut all = Outcome { count: 0, size: 0, took: Duration::ZERO };
    for pair in words.chunks_exact(2) {
        let (Some(low), Some(high)) = (pair.first(), pair.get(1)) else {
            return None;
        };
        let low = low.parse::<u64>().ok()?;
        let high = high.parse::<u64>().ok()?;
        let found = pieces(rt, &mut context, low, high)?;
        all = both(all, found)?;
    }
    Some(all)
}

/// What was done in two steps.
fn both(first: Outcome, second: Outcome) -> Option<Outcome> {
    Some(Outcome {
        count: first.count.wrapping_add(second.count),
        size: first.size.wrapping_add(second.size),
        took: first.took.checked_add(second.took)?,
    })
}

/// One way, once.
fn done(rt: &HostRuntime, file: &[u8], how: &str, words: &[String]) -> Option<Outcome> {
    let image = Image::open(rt.alloc(), file).ok()?;
    if how == "spans" {
        return spans(rt, &image, words);
    }
    if how == "tables" {
        let elf = Elf::open(file).ok()?;
        return timed_tables(rt, elf.section(Name::DebugLine));
    }
    Some(Outcome { count: 0, size: 0, took: Duration::ZERO })
}

fn main(rt: HostRuntime) -> io::Result<ExitCode> {
    let words: Vec<String> = env::args(&rt)?.skip(1).collect(rt.alloc())?;
    if words.len() < 3 {
        return Ok(ExitCode::from(2));
    }
    let file = fs::read(&rt, words[2].as_str())?;
    let Ok(times) = words[1].parse::<u64>() else {
        return Ok(ExitCode::from(2));
    };
    let mut last = Outcome { count: 0, size: 0, took: Duration::ZERO };
    let mut took = Duration::ZERO;
    for _ in 0..times {
        let Some(found) = done(&rt, &file, &words[0], words.split_at(3).1) else {
            return Ok(ExitCode::from(1));
        };
        took = took.saturating_add(found.took);
        last = found;
    }
    let mut out = io::writer(&rt);
    writeln!(out, "{} {} {}", last.count, last.size, took.as_nanos())?;
    Ok(ExitCode::from(0))
}
END_RT
(cd copy/crates/pieces_time && rt run -- open 1 "$work/three-units") > log 2>&1 || { tail -20 log; exit 1; }

cat > measure.py <<'END_PY'
import os, subprocess, sys
sys.path.insert(0, sys.argv[1])
import answers
tool, large, times = sys.argv[2], sys.argv[3], int(sys.argv[4])
ALL = ['0', str(2 ** 64 - 1)]
three = answers.Program('three-units')


def apart(ranges):
    """Ranges with the same addresses that don't overlap: those of code that the linker has dropped all begin at 0."""
    found = []
    for begin, end in sorted(ranges):
        if found and begin < found[-1][1]:
            found[-1][1] = max(end, found[-1][1])
        else:
            found.append([begin, end])
    return found


RANGES = [str(end) for pair in apart(pair for unit in three.units if unit.is_read() for pair in three.ranges[unit.root.offset])
          for end in pair]
least, told = {}, {}

def words(how, path, spans=(), count=1):
    return [tool, how, str(count), path, *spans]

def run(name, *key, **more):
    shown = subprocess.run(words(*key, **more), check=True, capture_output=True, text=True).stdout
    *told[name], took = map(int, shown.split())
    least[name] = min(least.get(name, 1e9), took / 1e6)

def megabytes(*key):
    shown = subprocess.run(['/usr/bin/time', '-f', '%M'] + words(*key), check=True, capture_output=True, text=True).stderr
    return int(shown) / 1000

MANY = 20
for _ in range(times):
    run('tables', 'tables', large)
    run('span', 'spans', large, ALL)
    for name, spans in (('all of three', ALL), ('each of three', RANGES)):
        run(name, 'spans', 'three-units', spans, count=MANY)
opened = megabytes('open', large)
tables, span = least['tables'], least['span']
print(f'the least of {times} times; a program of {os.path.getsize(large) / 1e6:.0f} MB, opened: {opened:.0f} MB')
print(f'{told["tables"][0]} line tables read: {tables:.1f} ms, {megabytes("tables", large) - opened:.1f} MB')
print(f'the span of all addresses: {span:.1f} ms, {megabytes("spans", large, ALL) - opened:.1f} MB, {told["span"][0]} pieces, '
      f'so {span / tables:.2f} of that time')
whole, each = (least[name] / MANY for name in ('all of three', 'each of three'))
print(f'three units, all addresses: {whole:.2f} ms; the {len(RANGES) // 2} ranges of the units one by one: '
      f'{each:.2f} ms, so {whole / each:.2f}')
if told['all of three'][1] != told['each of three'][1]:
    raise SystemExit('other addresses are in pieces than in those of the units by themselves')
END_PY
python3 measure.py "$here/tests" copy/crates/pieces_time/out/pieces_time "$program" "$times"
"$a2l" -e "$program" 0-ffffffffffffffff > whole
/usr/bin/time -f 'a2l -e PROGRAM 0-ffffffffffffffff: %e s, %M KB' "$a2l" -e "$program" 0-ffffffffffffffff > whole
echo "it writes $(wc -l < whole) lines, $(stat -c %s whole) bytes"
