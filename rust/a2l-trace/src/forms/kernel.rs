//! An oops of the kernel (`%pS`, kernel/kallsyms.c): `func+0x1a/0x40 [mod]`, with the build id of the
//! module where the kernel writes it, and `RIP: 0010:func+0x1a/0x40`.
//!
//! The address is a return address (arch/x86/kernel/dumpstack.c), but for that behind `RIP:`, `EIP:`
//! or `pc :`, which is the instruction. It counts from a symbol, whose size stands behind the slash.

use std::borrow::Cow;

use memchr::memmem;

use crate::scan::{bytes, hexadecimal, offset_in, prefixed};
use crate::sighting::{Form, Kind, Place, Sighting};

/// All frames of a line.
pub fn find(line: &[u8]) -> Vec<Sighting<'_>> {
    let (mut found, mut from) = (Vec::new(), 0);
    for at in memmem::find_iter(line, b"+0x") {
        if let Some(frame) = frame(line, from, at) {
            from = frame.span.end;
            found.push(frame);
        }
    }
    found
}

/// The frame whose offset is at a place, and whose symbol begins after another one.
fn frame(line: &[u8], from: usize, at: usize) -> Option<Sighting<'_>> {
    let (offset, rest) = prefixed(&line[at + 1..])?;
    let (size, rest) = prefixed(rest.strip_prefix(b"/")?)?;
    let before = line.get(from..at)?;
    let is_of_name = |&byte: &u8| byte.is_ascii_alphanumeric() || matches!(byte, b'_' | b'.' | b'$');
    let start = at - before.iter().rev().take(MOST).take_while(|byte| is_of_name(byte)).count();
    let symbol = Some(&line[start..at]).filter(|symbol| !symbol.is_empty())?;
    let (module, build_id) = module(rest).unzip();
    let ahead = &line[from..start];
    let is_exact = |register: &&[u8]| ends_with_register(ahead, register);
    let kind = if [&b"RIP"[..], b"EIP", b"pc"].iter().any(is_exact) { Kind::Exact } else { Kind::Return };
    Some(Sighting {
        form: Form::Kernel,
        number: None,
        module: Some(Cow::Borrowed(module.unwrap_or(b"vmlinux"))),
        build_id: build_id.flatten(),
        place: Place::FromFunction { symbol, offset, size },
        process: None,
        kind,
        span: start..offset_in(line, rest),
    })
}

/// The longest name of a symbol (`KSYM_NAME_LEN`).
const MOST: usize = 512;

/// The name in brackets, and the build id there.
fn module(rest: &[u8]) -> Option<(&[u8], Option<Vec<u8>>)> {
    let inner = rest.strip_prefix(b" [")?;
    let inner = &inner[..inner.iter().take(MOST).position(|&byte| byte == b']')?];
    let mut words = inner.split(|&byte| byte == b' ');
    let name = words.next().filter(|name| !name.is_empty())?;
    Some((name, words.next().and_then(bytes)))
}

/// A text ends with `REGISTER: SEGMENT:`, or without a segment.
fn ends_with_register(text: &[u8], register: &[u8]) -> bool {
    let text = text.trim_ascii_end();
    let text = match text.strip_suffix(b":") {
        Some(rest) if rest.len() >= 4 && matches!(hexadecimal(&rest[rest.len() - 4..]), Some((_, b""))) => {
            rest[..rest.len() - 4].trim_ascii_end()
        }
        _ => text,
    };
    text.strip_suffix(b":").is_some_and(|text| text.trim_ascii_end().ends_with(register))
}

#[cfg(test)]
mod tests {
    use super::*;

    type Row<'l> = (&'l str, u64, u64, Kind, String, Option<Vec<u8>>);

    fn found(line: &str) -> Vec<Row<'_>> {
        let text = |bytes| std::str::from_utf8(bytes).expect("ASCII");
        let row = |it: Sighting<'static>| {
            let Place::FromFunction { symbol, offset, size } = it.place else { panic!("{it:?}") };
            (
                text(symbol),
                offset,
                size,
                it.kind,
                String::from_utf8(it.module.expect("a module").into_owned()).expect("ASCII"),
                it.build_id,
            )
        };
        find(line.to_owned().leak().as_bytes()).into_iter().map(row).collect()
    }

    #[test]
    fn what_it_writes() {
        for (line, row) in [
            ("[    1.2] RIP: 0010:fn.cold+0x1a/0x40", ("fn.cold", 0x1a, 0x40, Kind::Exact, "vmlinux".into(), None)),
            ("[    1.2]  ? fn+0x1a/0x40 [mod]", ("fn", 0x1a, 0x40, Kind::Return, "mod".into(), None)),
            ("[    1.2]  fn+0x1a/0x40 [mod 0aff]", ("fn", 0x1a, 0x40, Kind::Return, "mod".into(), Some(vec![10, 255]))),
            (" [<ffffffff81234567>] fn+0x1a/0x40", ("fn", 0x1a, 0x40, Kind::Return, "vmlinux".into(), None)),
            ("[    1.2] EIP: fn+0x1/0x2", ("fn", 1, 2, Kind::Exact, "vmlinux".into(), None)),
            ("[    1.2] pc : fn+0x1/0x2", ("fn", 1, 2, Kind::Exact, "vmlinux".into(), None)),
            ("[    1.2] lr : fn+0x1/0x2 [m]", ("fn", 1, 2, Kind::Return, "m".into(), None)),
        ] {
            assert_eq!(found(line), [row], "{line}");
        }
        assert_eq!(found("a+0x1/0x2 b+0x3/0x4").len(), 2);
        assert!(["+0x1/0x2", "a+0x1", "a+0x/0x1", "a+0x1/2"].iter().all(|line| found(line).is_empty()));
    }
}
