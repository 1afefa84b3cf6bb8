//! What LLVM's tools have of their own: how requests are spelled, and how replies are written. In
//! LLVM's style a reply ends with an empty line, and has no other one.

use std::ffi::OsStr;
use std::os::unix::ffi::OsStrExt;
use std::path::PathBuf;

use crate::numbers::{hexadecimal_bytes, number, Spelling};
use crate::reply::{Frame, Reply};
use crate::request::{Kind, Module, Request, Target};
use crate::shape::Shape;
use crate::writer::Writer;

/// Writes a reply in LLVM's style; its answer is as the shape shows it.
pub fn write(shape: &Shape, reply: &Reply<'_>, out: &mut Vec<u8>) {
    let mut writer = Writer::new(shape, out);
    address(&mut writer, reply);
    writer.answer(&reply.answer, place, |writer| unknown(writer, "??:0:0"));
    writer.bytes(b"\n");
}

/// Writes a reply in GNU's style as LLVM's tools do; its answer is as the shape shows it.
pub fn write_short(shape: &Shape, reply: &Reply<'_>, out: &mut Vec<u8>) {
    let mut writer = Writer::new(shape, out);
    address(&mut writer, reply);
    writer.answer(&reply.answer, short_place, |writer| unknown(writer, "??:0"));
}

fn unknown(writer: &mut Writer<'_>, place: &str) {
    let details = "  Filename: ??\n  Line: 0\n  Column: 0";
    writer.unknown(" at ", if writer.is_verbose() { details } else { place });
}

/// The address of a request, which isn't padded; nothing where the line has none.
fn address(writer: &mut Writer<'_>, reply: &Reply<'_>) {
    if let Some(Target::Address(address)) = reply.request.map(|request| &request.target) {
        writer.address(format_args!("{address:#x}"));
    }
}

fn place(writer: &mut Writer<'_>, frame: &Frame) {
    if writer.is_verbose() {
        return details(writer, frame, frame.start.address);
    }
    writer.bytes(frame.path.as_deref().unwrap_or(b"??"));
    let (line, column) = if frame.path.is_some() { (frame.line, frame.column) } else { (0, 0) };
    let mark = if frame.is_approximate { " (approximate)" } else { "" };
    writer.text(format_args!(":{line}:{column}{mark}\n"));
    writer.context(frame);
}

fn short_place(writer: &mut Writer<'_>, frame: &Frame) {
    if writer.is_verbose() {
        return details(writer, frame, None);
    }
    writer.short_place(frame);
    writer.context(frame);
}

/// All that is known of a place, a line each.
fn details(writer: &mut Writer<'_>, frame: &Frame, begin: Option<u64>) {
    let mut line = |name: &str, value: &[u8]| {
        writer.text(format_args!("  {name}: "));
        writer.bytes(value);
        writer.bytes(b"\n");
    };
    line("Filename", frame.path.as_deref().unwrap_or(b"??"));
    if frame.start.line > 0 {
        line("Function start filename", frame.start.path.as_deref().unwrap_or_default());
        line("Function start line", frame.start.line.to_string().as_bytes());
    }
    if let Some(begin) = begin {
        line("Function start address", format!("{begin:#x}").as_bytes());
    }
    line("Line", frame.line.to_string().as_bytes());
    line("Column", frame.column.to_string().as_bytes());
    if frame.discriminator > 0 {
        line("Discriminator", frame.discriminator.to_string().as_bytes());
    }
    if frame.is_approximate {
        line("Approximate", b"true");
    }
}

/// The request of a line without its end; none where it has no number that fits into 64 bits, or no
/// module. `given` is the module that the command line has, if it has one: then a line has no
/// module.
pub fn parse(spelling: Spelling, given: Option<&Module>, line: &[u8]) -> Option<Request> {
    let (kind, rest) = kind(line);
    let rest = rest.trim_ascii_start();
    if let Some(module) = given {
        return Some(Request { kind, module: module.clone(), target: first_target(spelling, rest)? });
    }
    let (rest, by_build_id) = match (rest.strip_prefix(b"FILE:"), rest.strip_prefix(b"BUILDID:")) {
        (Some(rest), _) => (rest, false),
        (_, Some(rest)) => (rest, true),
        _ => (rest, false),
    };
    let (name, target) = name_and_target(spelling, rest.trim_ascii_start())?;
    let module = if by_build_id {
        Module::BuildId(hexadecimal_bytes(name)?)
    } else {
        Module::Path(PathBuf::from(OsStr::from_bytes(without_architecture(name))))
    };
    Some(Request { kind, module, target })
}

/// The module of a line that asks for nothing, as far as it has one.
pub fn module_of(line: &[u8]) -> &[u8] {
    let (_, rest) = kind(line);
    first_word(rest.trim_ascii_start()).map_or(b"", |(name, _)| name)
}

/// The word before the module, if it is there.
fn kind(line: &[u8]) -> (Kind, &[u8]) {
    let words: [(&[u8], Kind); 3] = [(b"CODE ", Kind::Code), (b"DATA ", Kind::Data), (b"FRAME ", Kind::Frame)];
    let found = words.into_iter().find_map(|(word, kind)| Some((kind, line.strip_prefix(word)?)));
    found.unwrap_or((Kind::Code, line))
}

/// The name of the module and what is asked for in it.
fn name_and_target(spelling: Spelling, text: &[u8]) -> Option<(&[u8], Target)> {
    let (name, rest) = first_word(text)?;
    let mut found = first_target(spelling, rest).map(|target| (name, target));
    if !matches!(found, Some((_, Target::Address(_)))) {
        found = quoted_name(spelling, text).map(|(name, address)| (name, Target::Address(address))).or(found);
    }
    found.filter(|(name, _)| !name.is_empty())
}

/// The first word, or what stands in quotes, and what follows it.
fn first_word(text: &[u8]) -> Option<(&[u8], &[u8])> {
    match text.first()? {
        quote @ (b'"' | b'\'') => {
            let end = 1 + text[1..].iter().position(|byte| byte == quote)?;
            Some((&text[1..end], &text[end + 1..]))
        }
        _ => Some(text.split_at(text.iter().position(|&byte| byte == b' ').unwrap_or(text.len()))),
    }
}

/// A name in quotes that has such quotes itself, which LLVM can't spell: it ends at the last one,
/// and a number follows.
fn quoted_name(spelling: Spelling, text: &[u8]) -> Option<(&[u8], u64)> {
    let quote = text.first().filter(|first| matches!(first, b'"' | b'\''))?;
    let end = text.iter().rposition(|byte| byte == quote).filter(|&end| end > 0)?;
    match first_target(spelling, &text[end + 1..])? {
        Target::Address(address) => Some((&text[1..end], address)),
        Target::Symbol { .. } => None,
    }
}

/// What the first word of a text asks for; whatever follows it doesn't count.
fn first_target(spelling: Spelling, text: &[u8]) -> Option<Target> {
    let word = text.trim_ascii().split(|&byte| byte == b' ').next()?;
    if let Some(address) = number(spelling, word) {
        return Some(Target::Address(address));
    }
    if word.first()?.is_ascii_digit() {
        return None;
    }
    let plus = word.iter().rposition(|&byte| byte == b'+').filter(|&plus| plus > 0);
    let (name, offset) =
        plus.and_then(|plus| Some((&word[..plus], number(Spelling::OfC, &word[plus + 1..])?))).unwrap_or((word, 0));
    Some(Target::Symbol { name: name.to_vec(), offset })
}

/// A name of a module without the architecture that clang's runtimes may append.
fn without_architecture(name: &[u8]) -> &[u8] {
    const ARCHITECTURES: [&[u8]; 9] =
        [b"x86_64", b"x86_64h", b"i386", b"i686", b"aarch64", b"arm64", b"arm", b"riscv64", b"ppc64le"];
    match name.iter().rposition(|&byte| byte == b':') {
        Some(colon) if colon > 0 && ARCHITECTURES.contains(&&name[colon + 1..]) => &name[..colon],
        _ => name,
    }
}

#[cfg(test)]
mod tests {
    use super::*;

    /// The kind, path and address of a line.
    fn asked(line: &str) -> Option<(Kind, String, u64)> {
        let Request { kind, module: Module::Path(path), target: Target::Address(address) } =
            parse(Spelling::OfC, None, line.as_bytes())?
        else {
            return None;
        };
        Some((kind, path.display().to_string(), address))
    }

    #[test]
    fn modules() {
        for (line, kind, path) in [
            (r#"CODE "a b" 0x10"#, Kind::Code, "a b"),
            (r#""a b" 0x10"#, Kind::Code, "a b"),
            ("'a b' 16", Kind::Code, "a b"),
            (r#"DATA "a" 0x10 trailing"#, Kind::Data, "a"),
            ("FRAME a 0x10", Kind::Frame, "a"),
            ("FILE:a 0x10", Kind::Code, "a"),
            (r#"CODE FILE: "a" 0x10"#, Kind::Code, "a"),
            (r#"CODE "a:x86_64" 0x10"#, Kind::Code, "a"),
            ("a:b 0x10", Kind::Code, "a:b"),
            (r#"CODE "a"b" 0x10"#, Kind::Code, r#"a"b"#),
        ] {
            assert_eq!(asked(line), Some((kind, path.to_owned(), 16)), "{line}");
        }
    }

    #[test]
    fn no_requests() {
        for line in ["", " ", "CODE", "garbage", "CODE a 0x", "a 0xfffffffffffffffff", r#"CODE "a"#, r#"CODE "" 0x10"#]
        {
            assert_eq!(parse(Spelling::OfC, None, line.as_bytes()), None, "{line}");
        }
    }

    #[test]
    fn build_ids_and_symbols() {
        let request = parse(Spelling::OfC, None, b"BUILDID:0aff 0x10").expect("a request");
        assert_eq!(request.module, Module::BuildId(vec![0x0a, 0xff]));
        assert_eq!(parse(Spelling::OfC, None, b"BUILDID:zz 0x10"), None);
        let request = parse(Spelling::OfC, None, b"a main 0x10").expect("a request");
        assert_eq!(request.target, Target::Symbol { name: b"main".to_vec(), offset: 0 });
        let request = parse(Spelling::OfC, None, b"a main+0x10").expect("a request");
        assert_eq!(request.target, Target::Symbol { name: b"main".to_vec(), offset: 16 });
    }

    #[test]
    fn numbers_alone() {
        let module = Module::Path(PathBuf::from("a"));
        let request = parse(Spelling::OfC, Some(&module), b"CODE 0x10").expect("a request");
        assert_eq!((request.module, request.target), (module, Target::Address(16)));
    }
}
