//! Addresses of a process whose mappings are known, wherever they stand in a line: `0x55d0a5d2e3f4`.
//!
//! Each is taken for a return address, as traces have them, where the file has a call before it; else
//! for one of an instruction, as that of a function is.

use memchr::memmem;

use crate::scan::{offset_in, prefixed};
use crate::sighting::{Form, Kind, Place, Sighting};

/// A number with fewer digits is no address of code.
const FEWEST: usize = 5;

/// All numbers of a line that can be addresses of code.
pub fn find(line: &[u8]) -> impl Iterator<Item = Sighting<'_>> {
    memmem::find_iter(line, b"0x").filter_map(|at| {
        let (process, rest) = prefixed(&line[at..])?;
        let end = offset_in(line, rest);
        let is_word = at == 0 || !line[at - 1].is_ascii_alphanumeric();
        (is_word && end - at >= FEWEST + 2).then_some(Sighting {
            form: Form::Bare,
            number: None,
            module: None,
            build_id: None,
            place: Place::Process,
            process: Some(process),
            kind: Kind::Return,
            span: at..end,
        })
    })
}

#[cfg(test)]
mod tests {
    use super::*;

    #[test]
    fn addresses() {
        let found: Vec<_> = find(b"at 0x55d0a5d2e3f4, x0x55d0a5d2e3f4 0x10 (0x401000)").collect();
        let numbers: Vec<_> = found.iter().map(|it| (it.process, it.span.clone())).collect();
        assert_eq!(numbers, [(Some(0x55d0a5d2e3f4), 3..17), (Some(0x401000), 41..49)]);
    }
}
