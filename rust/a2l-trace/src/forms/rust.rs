//! The backtrace of Rust's standard library, in full: `   4:     0x55d0a5d2e3f4 - <unknown>`, with a
//! name where there is a symbol.
//!
//! The address is what the unwinder returns (`_Unwind_GetIP`, library/backtrace
//! src/backtrace/libunwind.rs): a return address, in the first frame too, since the standard library
//! calls the unwinder; where a signal came, the address that it interrupted. It is one of the process.

use memchr::memmem;

use crate::scan::{decimal, offset_in, prefixed};
use crate::sighting::{Form, Kind, Place, Sighting};

/// The first frame of a line.
pub fn find(line: &[u8]) -> Option<Sighting<'_>> {
    memmem::find_iter(line, b"0x").find_map(|at| {
        let (process, rest) = prefixed(&line[at..])?;
        rest.starts_with(b" - ").then_some(())?;
        let before = line[..at].trim_ascii_end().strip_suffix(b":").filter(|before| before.len() + 1 < at)?;
        let start = before.len() - before.iter().rev().take_while(|byte| byte.is_ascii_digit()).count();
        let (number, b"") = decimal(&before[start..])? else { return None };
        Some(Sighting {
            form: Form::Rust,
            number: Some(number),
            module: None,
            build_id: None,
            place: Place::Process,
            process: Some(process),
            kind: Kind::Return,
            span: start..offset_in(line, rest) + rest.len(),
        })
    })
}

#[cfg(test)]
mod tests {
    use super::*;

    #[test]
    fn what_it_writes() {
        for (line, number, process) in [
            ("   0:     0x5620fd56b37a - <unknown>", 0, 0x5620fd56b37a),
            ("  11:     0x563833be6266 - p::f::hacfae2f81296ddb8", 11, 0x563833be6266),
            ("  20:                0x0 - <unknown>", 20, 0),
        ] {
            let found = find(line.as_bytes()).expect("a frame");
            assert_eq!((found.number, found.process, found.kind), (Some(number), Some(process), Kind::Return));
            assert_eq!(&line[found.span], line.trim_start());
        }
        for line in ["0x10 - x", ": 0x10 - x", "a: 0x10 - x", "1: 0x10", "1 0x10 - x"] {
            assert!(find(line.as_bytes()).is_none(), "{line}");
        }
    }
}
