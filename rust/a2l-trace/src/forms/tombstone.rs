//! Android's tombstones (libunwindstack, `Unwinder::FormatFrame`): `#01 pc 0000000000001199
//! /path/libfoo.so (fn+20) (BuildId: ..)`, for a library inside of an archive `base.apk!libfoo.so` and
//! `(offset 0x..)`.
//!
//! The address is one of the call already: the unwinder subtracts what a call takes from all but the
//! first frame and those that a signal interrupted (`GetPcAdjustment`). It is an address of the file.

use std::borrow::Cow;

use crate::forms::{build_id, Numbered};
use crate::scan::{after_blanks, hexadecimal, split};
use crate::sighting::{Form, Kind, Place, Sighting};

/// The frame, where it has this form.
pub fn find<'l>(frame: &Numbered<'l>) -> Option<Sighting<'l>> {
    let (address, rest) = hexadecimal(frame.rest.strip_prefix(b"pc ")?.trim_ascii_start())?;
    rest.starts_with(b" ").then_some(())?;
    let text = after_blanks(rest);
    let (module, _) = split(text, b" (").unwrap_or((text.trim_ascii_end(), b""));
    Some(Sighting {
        form: Form::Tombstone,
        number: Some(frame.number),
        module: Some(module).filter(|module| !module.is_empty()).map(Cow::Borrowed),
        build_id: build_id(text),
        place: Place::Address(address),
        process: None,
        kind: Kind::Call,
        span: frame.start..frame.line.len(),
    })
}

#[cfg(test)]
mod tests {
    use super::*;
    use crate::forms::numbered;

    #[test]
    fn what_it_writes() {
        for (line, module, address, id) in [
            (
                "      #01 pc 0000000000001199  /d/libfoo.so (fn+20) (BuildId: 0aff)",
                "/d/libfoo.so",
                0x1199,
                Some(vec![10, 255]),
            ),
            ("  #00 pc 000a1b8  /system/lib/libc.so (abort+164)", "/system/lib/libc.so", 0xa1b8, None),
            ("F DEBUG   :     #02 pc 10  /d/app", "/d/app", 16, None),
            ("#03 pc 10  /a/base.apk!libfoo.so (offset 0x1000) (fn+4)", "/a/base.apk!libfoo.so", 16, None),
        ] {
            let found = numbered(line.as_bytes()).expect("a frame");
            assert_eq!((found.form, found.kind, found.place), (Form::Tombstone, Kind::Call, Place::Address(address)));
            assert_eq!((found.module.as_deref(), found.build_id), (Some(module.as_bytes()), id), "{line}");
        }
        assert!(numbered(b"#01 pc zz /x").is_none());
    }
}
