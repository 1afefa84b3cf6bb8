//! The sanitizers of clang and gcc where they don't symbolize (symbolize=0): `#1 0x55.. (PATH+0x1199)
//! (BuildId: ..)`, with ` in NAME` where only a symbol was found, and ThreadSanitizer's `#1 <null>
//! <null> (NAME+0x1199)`.
//!
//! The address is one of the call already: `StackTrace::PrintTo` (sanitizer_common,
//! sanitizer_stacktrace_libcdep.cpp) and ThreadSanitizer's `SymbolizeStack` subtract 1 from each
//! (`GetPreviousInstructionPc`), and the report of a signal adds 1 to its first one before
//! (`GetNextInstructionPc`). Both do so below a signal handler too, where it is no return address.
//! The offset counts from `dlpi_addr`, so it is an address of the file.

use std::borrow::Cow;

use crate::forms::{build_id, Numbered};
use crate::scan::{prefixed, split, split_last};
use crate::sighting::{Form, Kind, Place, Sighting};

/// The frame, where it has this form.
pub fn find<'l>(frame: &Numbered<'l>) -> Option<Sighting<'l>> {
    let process = prefixed(frame.rest);
    let text = process.map_or(frame.rest, |(_, rest)| rest);
    let (before_id, _) = split(text, b" (BuildId: ").unwrap_or((text, b""));
    let (before, number) = split_last(before_id, b"+0x")?;
    let number = &before_id[before_id.len() - number.len() - 2..];
    let (address, rest) = prefixed(number)?;
    rest.starts_with(b")").then_some(())?;
    let has_name = process.is_none() || before.starts_with(b" in ");
    let (name, module) = if has_name { split_last(before, b" (") } else { split(before, b" (") }?;
    // ThreadSanitizer has the place there, where it is known.
    (process.is_some() || name.ends_with(b" <null>")).then_some(())?;
    let end = match split(text, b" (BuildId: ") {
        Some((_, id)) => id.len() - id.iter().position(|&byte| byte == b')').map_or(id.len(), |at| at + 1),
        None => rest.len() - 1,
    };
    Some(Sighting {
        form: Form::Sanitizer,
        number: Some(frame.number),
        module: Some(module).filter(|module| !module.is_empty()).map(Cow::Borrowed),
        build_id: build_id(text),
        place: Place::Address(address),
        process: process.map(|(process, _)| process),
        kind: Kind::Subtracted,
        span: frame.start..frame.line.len() - end,
    })
}

#[cfg(test)]
mod tests {
    use crate::forms::numbered;
    use crate::sighting::{Form, Place};

    #[track_caller]
    fn check(line: &str, module: &str, address: u64, id: Option<&[u8]>) {
        let found = numbered(line.as_bytes()).expect("a frame");
        assert_eq!((found.form, found.module.as_deref()), (Form::Sanitizer, Some(module.as_bytes())), "{line}");
        assert_eq!((found.place, found.build_id.as_deref()), (Place::Address(address), id), "{line}");
        assert_eq!(&line[found.span], line.trim(), "{line}");
    }

    #[test]
    fn what_they_write() {
        check(
            "    #1 0x55a6a28ef07b  (/tmp/a b/asan+0xdf07b) (BuildId: 157e)",
            "/tmp/a b/asan",
            0xdf07b,
            Some(&[0x15, 0x7e]),
        );
        check("    #0 0x55d3918072f1  (/tmp/asan-gcc+0x12f1)", "/tmp/asan-gcc", 0x12f1, None);
        check("    #2 0x55a in f(int, (x)) (/tmp/p+0x10)", "/tmp/p", 16, None);
        check("    #0 <null> <null> (race+0xe45a6) (BuildId: 3597)", "race", 0xe45a6, Some(&[0x35, 0x97]));
        check("    #1 main <null> (race+0x122e)", "race", 0x122e, None);
    }

    #[test]
    fn what_has_a_line_already() {
        for line in ["    #0 0x55 in main /tmp/a.c:3:4", "    #0 main /tmp/race.c:4 (race+0x122e)", "#1 0x (a+0x1)"] {
            assert!(numbered(line.as_bytes()).is_none_or(|found| found.form != Form::Sanitizer), "{line}");
        }
    }
}
