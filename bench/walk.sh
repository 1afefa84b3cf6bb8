#!/usr/bin/env bash
# How long the functions of all units of a program are read (`Tree::read`), beside walks over the same entries:
# this project's, which passes over all values, one that reads all values of each entry, and those of the Rust crate
# gimli with and without values, all in one run. The first word is as for bench.sh. Each walk goes over the program
# once, in a process of its own, as a user's does, and is run as often as the second word says (15 without); the least
# time counts, without that of a run which opens the file alone. gimli is built from Debian's packages (librust-gimli-dev,
# librust-object-dev). Run it after `rt run` in crates/a2l has built the crates. It prints a table.
. "$(dirname "$0")/../tests/programs.sh"
large=${1:-60}
times=${2:-15}
need_large "$large"

info=$((16#$(objdump -h "$program" | awk '$2 == ".debug_info" { print $3 }')))

copy_proved dw_model dw_index dw_bytes dw_elf dw_forms dw_units dw_ranges dw_frames
mkdir -p copy/crates/walk/src
echo 'walk: dw_model dw_elf dw_units dw_frames' >> copy/crates.txt
cat > copy/crates/walk/src/main.rt <<'END'
//! Reads all units of a file in one way: `open`, `functions`, `entries` or `trees`.
#![tactic(auto)]

ghost use Rattle.std.specs.Prelude.{◌<◌, length};
ghost use Rattle.dw_model.specs.Unit as cut;

use dw_elf::Elf;
use dw_frames::Tree;
use dw_units::{Entry, Next, Units};
use std::io::Write;
use std::process::ExitCode;
use std::sync::Arc;
use std::{env, fs, io};

/// Walks over the entries of a unit; how many entries there are.
fn functions(units: &Units<'_>, i: usize) -> Option<usize>
    requires within { i < length (cut.units units.now.info) }
{
    let mut entries = units.entries(i)?;
    let mut count: usize = 0;
    for _ in 0..u64::MAX {
        if entries.is_done() {
            break;
        }
        match entries.next_function().ok()? {
            Next::Null => {}
            _ => count = count.wrapping_add(1),
        }
    }
    Some(count)
}

/// Reads all entries of a unit with all their values; how many entries there are.
fn entries(rt: &HostRuntime, units: &Units<'_>, i: usize) -> Option<usize>
    requires within { i < length (cut.units units.now.info) }
{
    let mut kept = Entry::unread(rt.alloc());
    let mut offset = units.unit(i).first_entry;
    let mut count: usize = 0;
    for _ in 0..u64::MAX {
        if offset >= units.unit(i).end {
            break;
        }
        if units.read_entry(i, offset, &mut kept).ok()? {
            count = count.wrapping_add(1);
            offset = kept.next;
        } else {
            offset = offset.checked_add(1)?;
        }
    }
    Some(count)
}

fn one(rt: &HostRuntime, how: &str, units: &Arc<Units<'_>>, i: usize) -> Option<usize>
    requires within { i < length (cut.units units.now.value.info) }
{
    match how {
        "functions" => functions(units, i),
        "entries" => entries(rt, units, i),
        "trees" => {
            if units.unit(i).kind.is_skipped() {
                return Some(0);
            }
            let _tree = Tree::read(rt.alloc(), units, i).ok()?;
            Some(0)
        }
        _ => Some(0),
    }
}

fn read(rt: &HostRuntime, how: &str, path: &str) -> Option<usize> {
    let file = fs::read(rt, path).ok()?;
    let elf = Elf::open(&file).ok()?;
    let units = Arc::new(rt.alloc(), Units::read(rt.alloc(), &elf).ok()?).ok()?;
    let mut count: usize = 0;
    for i in 0..units.len() {
        if !units.unit(i).kind.is_skipped() {
            count = count.wrapping_add(one(rt, how, &units, i)?);
        }
    }
    Some(count)
}

fn main(rt: HostRuntime) -> ExitCode {
    let Ok(mut words) = env::args(&rt) else {
        return ExitCode::from(2);
    };
    let mut out = io::writer(&rt);
    words.next();
    let Some(how) = words.next() else {
        return ExitCode::from(2);
    };
    let Some(path) = words.next() else {
        return ExitCode::from(2);
    };
    let Some(count) = read(&rt, &how, &path) else {
        return ExitCode::from(1);
    };
    if writeln!(out, "{count}").is_err() {
        return ExitCode::from(1);
    }
    ExitCode::from(0)
}
END
(cd copy/crates/walk && rt run -- open "$program") > log 2>&1 || { tail -20 log; exit 1; }
walk=$work/copy/crates/walk/out/walk

tools=(walk)
needs='gimli = { version = "*", default-features = false, features = ["std", "read"] }
object = { version = "*", default-features = false, features = ["std", "read_core", "elf"] }'
if build_peer gimli "$needs" << 'END_RS'
use gimli::{EndianSlice, LittleEndian};
use object::{Object, ObjectSection};
fn main() -> Result<(), Box<dyn std::error::Error>> {
    let mut args = std::env::args().skip(1);
    let how = args.next().ok_or("no way")?;
    let bytes = std::fs::read(args.next().ok_or("no file")?)?;
    let file = object::File::parse(&*bytes)?;
    let dwarf = gimli::Dwarf::load(|id: gimli::SectionId| -> Result<_, gimli::Error> {
        let data = file.section_by_name(id.name()).and_then(|s| s.data().ok()).unwrap_or(&[]);
        Ok(EndianSlice::new(data, LittleEndian))
    })?;
    let (mut entries, mut names) = (0u64, 0u64);
    let mut headers = dwarf.units();
    while let Some(header) = headers.next()? {
        let unit = dwarf.unit(header)?;
        let mut cursor = unit.entries();
        while how != "open" {
            let Some((_, entry)) = cursor.next_dfs()? else { break };
            entries += 1;
            let mut attributes = entry.attrs();
            while how == "values" {
                let Some(attribute) = attributes.next()? else { break };
                names = names.wrapping_add(attribute.name().0.into());
            }
        }
    }
    println!("{entries} {names}");
    Ok(())
}
END_RS
then
    tools+=(gimli)
fi
command_of() {
    case $1 in
        walk) echo "$walk" ;;
        gimli) echo gimli/target/release/peer ;;
    esac
}

declare -A least
measure() {
    local begin=$EPOCHREALTIME seconds
    $(command_of "$1") "$2" "$program" > counted || { echo "$1 $2 fails"; exit 1; }
    seconds=$(awk -v begin="$begin" -v end="$EPOCHREALTIME" 'BEGIN { printf "%.6f", end - begin }')
    least[$1.$2]=$(printf '%s\n%s\n' "${least[$1.$2]:-$seconds}" "$seconds" | sort -n | head -1)
}
ways_of() {
    case $1 in
        walk) echo open trees functions entries ;;
        gimli) echo open entries values ;;
    esac
}
for n in $(seq "$times"); do
    for tool in "${tools[@]}"; do
        for way in $(ways_of "$tool"); do measure "$tool" "$way"; done
    done
done
show() {
    awk -v what="$1" -v a="${least[$2]}" -v open="${least[${2%%.*}.open]}" -v trees="${least[walk.trees]}" -v opened="${least[walk.open]}" \
        'BEGIN { printf "%-58s %8.4f %8.2f\n", what, a - open, (trees - opened) / (a - open) }'
}
echo "$((info / 1000000)) MB of .debug_info; the least of $times times"
printf '%-58s %8s %8s\n' what seconds ratio
show 'the functions of all units read' walk.trees
show 'a walk over all entries' walk.functions
show 'each entry read with all its values' walk.entries
if [ ${#tools[@]} -gt 1 ]; then
    show 'gimli: a walk over all entries' gimli.entries
    show 'gimli: a walk over all entries that reads all values' gimli.values
fi
echo "ratio: the time in which all functions are read by that of the walk"
