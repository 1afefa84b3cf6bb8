//! glibc's backtrace_symbols and backtrace_symbols_fd (debug/backtracesyms.c): `PATH(+0x1199)
//! [0x55..]`, `PATH(NAME+0x1f)[0x55..]`, and of a file that isn't moved `PATH[0x401236]`.
//!
//! The address is what the unwinder returns (`_Unwind_GetIP`): a return address, in the first frame
//! too, since `backtrace` was called there; where a signal came, the address that it interrupted.
//! Without a name the offset counts from what the loader adds to all addresses of the file
//! (`l_addr`), so it is an address of the file; a name is of the dynamic symbol table.

use std::borrow::Cow;

use memchr::memmem;

use crate::scan::{offset_in, prefixed, split_last};
use crate::sighting::{Form, Kind, Place, Sighting};

/// So many addresses of a line are looked at; a frame is the first, unless a prefix has one.
const MOST: usize = 4;

/// The first frame of a line.
pub fn find(line: &[u8]) -> Option<Sighting<'_>> {
    memmem::find_iter(line, b"[0x").take(MOST).find_map(|at| {
        let (process, rest) = prefixed(&line[at + 1..])?;
        rest.starts_with(b"]").then_some(())?;
        let before = line[..at].strip_suffix(b" ").unwrap_or(&line[..at]);
        let (module, place) = match before.strip_suffix(b")") {
            Some(inner) => in_parentheses(inner, process)?,
            None => (module(&line[..at])?, Place::Unmoved(process)),
        };
        let span = offset_in(line, module)..line.len() - rest.len() + 1;
        let process = Some(process);
        let sighting = Sighting {
            form: Form::Glibc,
            number: None,
            module: Some(Cow::Borrowed(module)),
            build_id: None,
            place,
            process,
            kind: Kind::Return,
            span,
        };
        Some(sighting)
    })
}

/// The module, and what is between the parentheses behind it.
fn in_parentheses(text: &[u8], process: u64) -> Option<(&[u8], Place<'_>)> {
    let (before, inner) = split_last(text, b"(")?;
    let module = module(before)?;
    if inner.is_empty() {
        return Some((module, Place::Unmoved(process)));
    }
    if let Some((symbol, number)) = split_last(inner, b"+") {
        let (offset, b"") = prefixed(number)? else { return None };
        let place = if symbol.is_empty() { Place::Address(offset) } else { Place::FromDynamic { symbol, offset } };
        return Some((module, place));
    }
    let (symbol, number) = split_last(inner, b"-")?;
    let (offset, b"") = prefixed(number)? else { return None };
    Some((module, Place::FromDynamic { symbol, offset: offset.wrapping_neg() }))
}

/// The path at the end of a text: all of it where it begins with one, else its last word.
fn module(text: &[u8]) -> Option<&[u8]> {
    let is_path = [&b"/"[..], b"./", b"../"].iter().any(|begin| text.starts_with(begin));
    let word = text.rsplit(|&byte| byte == b' ').next()?;
    Some(if is_path { text } else { word }).filter(|module| !module.is_empty())
}

#[cfg(test)]
mod tests {
    use super::*;

    fn borrowed(module: Cow<'_, [u8]>) -> &[u8] {
        match module {
            Cow::Borrowed(module) => module,
            Cow::Owned(module) => panic!("{module:?}"),
        }
    }

    fn place(line: &str) -> Option<(&str, Place<'_>)> {
        let found = find(line.as_bytes())?;
        Some((std::str::from_utf8(borrowed(found.module?)).ok()?, found.place))
    }

    #[test]
    fn what_glibc_writes() {
        assert_eq!(place("./prog(+0x1199) [0x55d32d04d199]"), Some(("./prog", Place::Address(0x1199))));
        assert_eq!(place("./prog(+0x1199)[0x55d32d04d199]"), Some(("./prog", Place::Address(0x1199))));
        assert_eq!(place("./nopie[0x401181]"), Some(("./nopie", Place::Unmoved(0x401181))));
        assert_eq!(place("./nopie() [0x401181]"), Some(("./nopie", Place::Unmoved(0x401181))));
        let symbol = &b"__libc_start_main"[..];
        let libc = "/lib/x86_64-linux-gnu/libc.so.6";
        let line = format!("Dec 01 host p[7]: {libc}(__libc_start_main+0x85)[0x7f9dc9086305]");
        assert_eq!(place(&line), Some((libc, Place::FromDynamic { symbol, offset: 0x85 })));
        assert_eq!(place("/a b/c(+0x10)[0x20]"), Some(("/a b/c", Place::Address(16))));
        assert_eq!(place("./p(f-0x1)[0x20]"), Some(("./p", Place::FromDynamic { symbol: b"f", offset: u64::MAX })));
    }

    #[test]
    fn what_it_does_not() {
        for line in ["[0x1", "[0x10]", "a(+0x)[0x10]", "a(+0x10 [0x10]", "(+0x10)[0x10]", "a(+10)[0x10]", "a(b)[0x1]"] {
            assert_eq!(place(line), None, "{line}");
        }
    }

    #[test]
    fn the_span_is_the_frame() {
        let line = b"x: ./p(+0x10) [0x20] y";
        let span = find(line).expect("a frame").span;
        assert_eq!(&line[span], b"./p(+0x10) [0x20]");
    }
}
