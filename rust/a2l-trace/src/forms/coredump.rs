//! systemd-coredump's message (src/shared/elf-util.c): `#0  0x00007f.. raise (libc.so.6 + 0x3cebb)`,
//! and `Module libc.so.6 with build-id ..` before that.
//!
//! The address is the program counter as libdw has it: of the first frame, and below a signal handler,
//! the instruction; of the others a return address. The offset counts from the begin of the module in
//! memory (`dwfl_module_info`).

use std::borrow::Cow;

use crate::forms::Numbered;
use crate::scan::{bytes, offset_in, prefixed, split, split_last};
use crate::sighting::{Form, Kind, Place, Sighting};

/// The frame, where it has this form.
pub fn find<'l>(frame: &Numbered<'l>) -> Option<Sighting<'l>> {
    let (process, rest) = prefixed(frame.rest)?;
    let (_, inner) = split(rest, b" (")?;
    let (module, number) = split_last(inner, b" + ")?;
    let (offset, after) = prefixed(number)?;
    after.starts_with(b")").then_some(())?;
    Some(Sighting {
        form: Form::Coredump,
        number: Some(frame.number),
        module: Some(Cow::Borrowed(module)),
        build_id: None,
        place: Place::FromStart(offset),
        process: Some(process),
        kind: if frame.number == 0 { Kind::Exact } else { Kind::Return },
        span: frame.start..offset_in(frame.line, after) + 1,
    })
}

/// The module and the build id of a line that has them.
pub fn build_id(line: &[u8]) -> Option<(&[u8], Vec<u8>)> {
    let (before, id) = split(line, b" with build-id ")?;
    let (_, module) = split_last(before, b"Module ")?;
    Some((module, bytes(id.strip_suffix(b".").unwrap_or(id).trim_ascii_end())?))
}

#[cfg(test)]
mod tests {
    use super::*;
    use crate::forms::numbered;

    #[test]
    fn what_it_writes() {
        let line = b"                #0  0x00007f3f9a2a5ebb raise (libc.so.6 + 0x3cebb)";
        let found = numbered(line).expect("a frame");
        assert_eq!((found.form, found.kind), (Form::Coredump, Kind::Exact));
        assert_eq!((found.module.as_deref(), found.place), (Some(&b"libc.so.6"[..]), Place::FromStart(0x3cebb)));
        let line = b"#12 0x0000556979e1a1b3 n/a (/tmp/a (b)/prog + 0x11b3)";
        let found = numbered(line).expect("a frame");
        assert_eq!((found.module.as_deref(), found.kind), (Some(&b"/tmp/a (b)/prog"[..]), Kind::Return));
        assert_eq!(&line[found.span], line);
    }

    #[test]
    fn build_ids() {
        assert_eq!(build_id(b"  Module libdeep.so with build-id 45b4"), Some((&b"libdeep.so"[..], vec![0x45, 0xb4])));
        assert_eq!(build_id(b"Module libdeep.so without build-id."), None);
    }
}
