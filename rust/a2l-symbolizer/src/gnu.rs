//! What GNU's addr2line has of its own: how requests are spelled, and how replies are written, a
//! line for each name and each place. `??` with `??:0` is a whole reply alone, by which clients find
//! its end, and never a part of another one.

use std::path::Path;

use crate::arguments::Arguments;
use crate::identity::Identity;
use crate::numbers::digits_of;
use crate::reply::Reply;
use crate::request::{Kind, Module, Request, Target};
use crate::shape::Shape;
use crate::writer::Writer;

/// The formats of ELF files in GNU's tools, and those without a machine.
const TARGETS: [&str; 32] = [
    "default",
    "elf32-bigarm",
    "elf32-bigriscv",
    "elf32-i386",
    "elf32-iamcu",
    "elf32-littlearm",
    "elf32-littleriscv",
    "elf32-powerpc",
    "elf32-powerpcle",
    "elf32-s390",
    "elf32-x86-64",
    "elf32-big",
    "elf32-little",
    "elf64-big",
    "elf64-bigaarch64",
    "elf64-bigriscv",
    "elf64-little",
    "elf64-littleaarch64",
    "elf64-littleriscv",
    "elf64-loongarch",
    "elf64-powerpc",
    "elf64-powerpcle",
    "elf64-s390",
    "elf64-x86-64",
    "binary",
    "ihex",
    "plugin",
    "srec",
    "symbolsrec",
    "tekhex",
    "verilog",
    "pei-x86-64",
];

/// Refuses a format that isn't there, as GNU's addr2line does. One that is there changes nothing.
pub fn check_target(identity: Identity, arguments: &Arguments) -> Result<(), String> {
    match &arguments.target {
        Some(target) if identity == Identity::Addr2line && !TARGETS.contains(&target.as_str()) => {
            let file = arguments.object.as_deref().unwrap_or(Path::new("a.out"));
            Err(format!("{}: invalid bfd target", file.display()))
        }
        _ => Ok(()),
    }
}

/// The request of a line without its end, about the module of the command line; none where it has
/// neither a number nor a name.
pub fn parse(module: Option<&Module>, line: &[u8]) -> Option<Request> {
    Some(Request { kind: Kind::Code, module: module?.clone(), target: target(line.trim_ascii_start())? })
}

/// What a text asks for: a number in hexadecimal digits, or a name, which no decimal digit begins. A
/// name that a hexadecimal digit begins has to be followed by a plus and an offset, as any other may
/// be. An offset without a name is a number in C's spelling.
fn target(text: &[u8]) -> Option<Target> {
    let first = *text.first()?;
    let plus = text.iter().position(|&byte| byte == b'+');
    if first.is_ascii_digit() || first == b'-' || (plus.is_none() && first.is_ascii_hexdigit()) {
        return number(text).map(Target::Address);
    }
    let offset = plus.map_or(0, |plus| signed_number(&text[plus + 1..]));
    let end = text.iter().position(|&byte| byte == b'+' || byte.is_ascii_whitespace()).unwrap_or(text.len());
    match &text[..end] {
        b"" => Some(Target::Address(offset)),
        // What perf sends to find the end of a reply.
        b"," => None,
        name => Some(Target::Symbol { name: name.to_vec(), offset }),
    }
}

/// The number at the front of a text, in hexadecimal digits; none where there is no digit. A number
/// that doesn't fit is the greatest one.
fn number(text: &[u8]) -> Option<u64> {
    let digits = match text {
        [b'0', b'x' | b'X', digits @ ..] => digits,
        digits => digits,
    };
    leading_digits(digits, 16)
}

/// The number at the front of a text in C's spelling, after a sign or without; 0 where there is
/// none.
fn signed_number(text: &[u8]) -> u64 {
    let text = text.trim_ascii_start();
    let (is_negative, text) = match text {
        [b'-', rest @ ..] => (true, rest),
        [b'+', rest @ ..] => (false, rest),
        _ => (false, text),
    };
    let number = match text {
        [b'0', b'x' | b'X', digits @ ..] => leading_digits(digits, 16),
        [b'0', ..] => leading_digits(text, 8),
        _ => leading_digits(text, 10),
    };
    let number = number.unwrap_or(0);
    if is_negative {
        number.wrapping_neg()
    } else {
        number
    }
}

/// The number of the digits at the front of a text; none where there is no digit. A number that
/// doesn't fit is the greatest one.
fn leading_digits(text: &[u8], radix: u32) -> Option<u64> {
    let end = text.iter().position(|&byte| !char::from(byte).is_digit(radix)).unwrap_or(text.len());
    (end > 0).then(|| digits_of(&text[..end], radix).unwrap_or(u64::MAX))
}

/// Writes a reply, whose answer is as the shape shows it.
pub fn write(shape: &Shape, reply: &Reply<'_>, out: &mut Vec<u8>) {
    let mut writer = Writer::new(shape, out);
    // 0 where the line has neither a number nor a name that is known.
    writer.address(format_args!("0x{:016x}", reply.address.unwrap_or(0)));
    writer.answer(&reply.answer, Writer::short_place, |writer| writer.unknown(" ", "??:0"));
}

#[cfg(test)]
mod tests {
    use super::*;
    use a2l::Tools;

    use crate::arguments::Functions;
    use crate::reply::{Answer, Frame};
    use crate::shape::Frames;

    fn written(pretty: bool, frames: Vec<Frame>) -> String {
        let functions = Functions::Linkage;
        let (frames_shown, addresses, demangles, basenames) = (Frames::All, false, false, false);
        let tools = Tools::Gnu;
        let shape = Shape {
            functions,
            frames: frames_shown,
            addresses,
            pretty,
            demangles,
            tools,
            basenames,
            verbose: false,
            context: 0,
        };
        let reply = Reply { line: b"10", request: None, address: None, failure: None, answer: Answer::Frames(frames) };
        let mut out = Vec::new();
        write(&shape, &reply, &mut out);
        String::from_utf8(out).expect("UTF-8")
    }

    fn frame(name: Option<&str>, path: Option<&str>, line: u64) -> Frame {
        Frame { name: name.map(Into::into), path: path.map(Into::into), line, ..Frame::default() }
    }

    #[test]
    fn the_sentinel_is_no_part_of_a_reply() {
        let frames = vec![frame(Some("f"), None, 0), frame(None, Some("a.c"), 0), frame(None, None, 7)];
        assert_eq!(written(false, frames), "f\n??:?\n??\na.c:?\n??\n??:?\n");
        assert_eq!(written(false, Vec::new()), "??\n??:0\n");
    }

    #[test]
    fn an_unknown_address_on_one_line() {
        assert_eq!(written(true, Vec::new()), "?? ??:0\n");
    }

    /// What addr2line 2.40 asks for.
    #[test]
    fn requests_of_gnu() {
        let symbol = |name: &str, offset| Some(Target::Symbol { name: name.into(), offset });
        for (line, wanted) in [
            ("0000000000001129", Some(Target::Address(0x1129))),
            ("0x1129 trailing", Some(Target::Address(0x1129))),
            ("  12zz", Some(Target::Address(0x12))),
            ("1149+4", Some(Target::Address(0x1149))),
            ("-1", None),
            ("ffffffffffffffff", Some(Target::Address(u64::MAX))),
            ("fffffffffffffffff", Some(Target::Address(u64::MAX))),
            ("", None),
            ("0x", None),
            ("count", Some(Target::Address(0xc))),
            ("count+0", symbol("count", 0)),
            (",", None),
            ("x", symbol("x", 0)),
            (" main + 4 trailing", symbol("main", 4)),
            ("main+010", symbol("main", 8)),
            ("main+0x10+4", symbol("main", 16)),
            ("main+-4", symbol("main", 4_u64.wrapping_neg())),
            ("main+zz", symbol("main", 0)),
            ("main+99999999999999999999999", symbol("main", u64::MAX)),
            ("main\t+4", symbol("main", 4)),
            ("+0x10", Some(Target::Address(16))),
            ("+1149", Some(Target::Address(1149))),
            ("+", Some(Target::Address(0))),
        ] {
            assert_eq!(target(line.as_bytes().trim_ascii_start()), wanted, "{line}");
        }
    }
}
