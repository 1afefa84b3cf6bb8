//! gdb's `bt` of a program without debug information: `#1  0x000055.. in main ()`, perhaps with `from
//! FILE`, and `#1  <signal handler called>`.
//!
//! The address is the program counter (gdb/stack.c, `print_frame`): of the first frame, and after a
//! signal handler, the instruction; of the others a return address. It is an address of the process.

use std::borrow::Cow;

use memchr::memmem;

use crate::forms::Numbered;
use crate::scan::{prefixed, split_last};
use crate::sighting::{Form, Kind, Place, Sighting};

/// The frame, where it has this form and no line yet.
pub fn find<'l>(frame: &Numbered<'l>) -> Option<Sighting<'l>> {
    let (process, rest) = prefixed(frame.rest)?;
    let rest = rest.strip_prefix(b" in ")?;
    memmem::find(rest, b" (")?;
    if has_place(frame.line) {
        return None;
    }
    Some(Sighting {
        form: Form::Gdb,
        number: Some(frame.number),
        module: split_last(rest, b") from ").map(|(_, module)| Cow::Borrowed(module)),
        build_id: None,
        place: Place::Process,
        process: Some(process),
        kind: if frame.number == 0 { Kind::Exact } else { Kind::Return },
        span: frame.start..frame.line.len(),
    })
}

/// The line is a frame that has its place already.
pub fn has_place(line: &[u8]) -> bool {
    line.trim_ascii_start().starts_with(b"#") && memmem::find(line, b") at ").is_some()
}

/// The line stands for the frame that the system makes for a signal.
pub fn is_signal(line: &[u8]) -> bool {
    memmem::find(line, b"<signal handler called>").is_some()
}

#[cfg(test)]
mod tests {
    use super::*;
    use crate::forms::numbered;

    #[test]
    fn what_it_writes() {
        let found = numbered(b"#0  0x00007ffff7e5b2d4 in ?? () from /lib/libc.so.6").expect("a frame");
        assert_eq!((found.form, found.kind, found.process), (Form::Gdb, Kind::Exact, Some(0x7ffff7e5b2d4)));
        assert_eq!(found.module.as_deref(), Some(&b"/lib/libc.so.6"[..]));
        let found = numbered(b"#3  0x0000556979e1a1b3 in main ()").expect("a frame");
        assert_eq!((found.form, found.kind, found.module), (Form::Gdb, Kind::Return, None));
    }

    #[test]
    fn what_has_a_line_already() {
        let line = b"#3  0x0000556979e1a1b3 in mid (p=0x0) at main.c:8";
        assert!(numbered(line).is_none_or(|found| found.form != Form::Gdb));
        assert!(is_signal(b"#1  <signal handler called>"));
    }
}
