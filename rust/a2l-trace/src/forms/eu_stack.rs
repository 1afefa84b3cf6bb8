//! elfutils' eu-stack (src/stack.c): `#1  0x0000563f.. outer`, with `-m` also ` - MODULE`, and with
//! `-b` a second line `[BUILD ID]@0x563f..+0x119e`.
//!
//! The address of the first line is the program counter: of the first frame, and below a signal
//! handler, the instruction; of the others a return address (`-a` writes `- 1` behind those). The
//! offset of the second line is one of the call already, and counts from the begin of the module in
//! memory (`dwfl_module_info`).

use std::borrow::Cow;

use crate::forms::Numbered;
use crate::scan::{after_blanks, bytes, digits, offset_in, prefixed, split_last};
use crate::sighting::{Form, Kind, Place, Sighting};

/// The first line of a frame. Nothing but a name and a module follows its address.
pub fn find<'l>(frame: &Numbered<'l>) -> Option<Sighting<'l>> {
    let (process, rest) = prefixed(frame.rest)?;
    let is_of_gdb = rest.starts_with(b" in ");
    (rest.is_empty() || rest.starts_with(b" ") && !is_of_gdb).then_some(())?;
    let module = split_last(rest, b" - ").map(|(_, module)| module).filter(|&module| module != b"1");
    Some(Sighting {
        form: Form::EuStack,
        number: Some(frame.number),
        module: module.map(Cow::Borrowed),
        build_id: None,
        place: Place::Process,
        process: Some(process),
        kind: if frame.number == 0 { Kind::Exact } else { Kind::Return },
        span: frame.start..frame.line.len(),
    })
}

/// The second line of a frame. Its module is that of the first one.
pub fn second(line: &[u8]) -> Option<Sighting<'_>> {
    let text = after_blanks(line);
    let (id, rest) = digits(text.strip_prefix(b"[")?);
    let (start, rest) = prefixed(rest.strip_prefix(b"]@")?)?;
    let (offset, rest) = prefixed(rest.strip_prefix(b"+")?)?;
    Some(Sighting {
        form: Form::EuStack,
        number: None,
        module: None,
        build_id: Some(bytes(id)?),
        place: Place::FromStart(offset),
        process: start.checked_add(offset),
        kind: Kind::Call,
        span: offset_in(line, text)..offset_in(line, rest),
    })
}

#[cfg(test)]
mod tests {
    use super::*;
    use crate::forms::numbered;

    #[test]
    fn first_lines() {
        for (line, module, kind) in [
            ("#0  0x00007f5b5524f109 deep", None, Kind::Exact),
            ("#1  0x00007f5b5524f118 lib_enter - libdeep.so", Some("libdeep.so"), Kind::Return),
            ("#2  0x0000556979e1a1b3 - 1", None, Kind::Return),
            ("#3  0x0000556979e1a1b3 - 1 main - /tmp/prog", Some("/tmp/prog"), Kind::Return),
            ("#4  0x0000556979e1a1b3", None, Kind::Return),
        ] {
            let found = numbered(line.as_bytes()).expect("a frame");
            assert_eq!((found.form, found.kind, found.place), (Form::EuStack, kind, Place::Process), "{line}");
            assert_eq!(found.module.as_deref(), module.map(str::as_bytes), "{line}");
        }
    }

    #[test]
    fn second_lines() {
        let found = second(b"    [45b4]@0x7f5b5524e000+0x1117").expect("a frame");
        assert_eq!((found.build_id, found.place), (Some(vec![0x45, 0xb4]), Place::FromStart(0x1117)));
        assert_eq!((found.process, found.kind), (Some(0x7f5b5524f117), Kind::Call));
        assert!(second(b"[45b4]@0x7f5b5524e000").is_none() && second(b"[x]@0x1+0x2").is_none());
    }
}
