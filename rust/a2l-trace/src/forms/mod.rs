//! The forms of frames, one file for each producer. A matcher is given a line without its end, and
//! looks at each byte of it a bounded number of times.

pub mod bare;
pub mod coredump;
pub mod eu_stack;
pub mod gdb;
pub mod glibc;
pub mod kernel;
pub mod maps;
pub mod markup;
pub mod rust;
pub mod sanitizer;
pub mod tombstone;

use memchr::memchr_iter;

use crate::scan::{after_blanks, bytes, decimal, split};
use crate::sighting::Sighting;

/// A frame that begins with `#` and a number.
#[derive(Debug, Clone, Copy)]
pub struct Numbered<'l> {
    pub line: &'l [u8],
    /// Where the `#` is.
    pub start: usize,
    pub number: u64,
    /// What follows the number and blanks.
    pub rest: &'l [u8],
}

/// The first frame of a line that has a number, by the producer whose form it has.
pub fn numbered(line: &[u8]) -> Option<Sighting<'_>> {
    let frame = memchr_iter(b'#', line).find_map(|start| {
        let (number, rest) = decimal(&line[start + 1..])?;
        let frame = Numbered { line, start, number, rest: after_blanks(rest) };
        let begins = [&b"0x"[..], b"pc "].iter().any(|begin| frame.rest.starts_with(begin));
        // ThreadSanitizer has a name there, which can be anything; it is the first of its line.
        let may_be_named = || line[..start].iter().all(|&byte| byte == b' ');
        (frame.rest.len() < rest.len() && (begins || may_be_named())).then_some(frame)
    })?;
    let finders = [tombstone::find, sanitizer::find, coredump::find, gdb::find, eu_stack::find];
    finders.iter().find_map(|find| find(&frame))
}

/// The build id that ` (BuildId: HEX)` has at the end of a frame.
fn build_id(text: &[u8]) -> Option<Vec<u8>> {
    let (_, rest) = split(text, b"(BuildId: ")?;
    bytes(&rest[..rest.iter().position(|&byte| byte == b')')?])
}
