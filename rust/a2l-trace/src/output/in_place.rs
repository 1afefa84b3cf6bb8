//! Each frame as its producer would have written it with debug information.

use a2l_symbolizer::Frame;

use crate::log::Row;
use crate::modules::Reason;
use crate::output::{name, place, say, Line};
use crate::scan::{split, split_last};
use crate::sighting::{Form, Sighting};

/// Writes a line with its frames. A frame in which functions are inlined takes a line for each.
pub fn write(line: &Line<'_>, rows: &[Row<'_>], out: &mut Vec<u8>) {
    let mut from = 0;
    for row in rows {
        let span = row.sighting.span.clone();
        out.extend_from_slice(&line.text[from..span.start]);
        let text = &line.text[span.clone()];
        match &row.outcome {
            Ok(answer) if !answer.frames.is_empty() => {
                frames(&Rewritten { row, text, before: &line.text[..span.start] }, &answer.frames, out);
            }
            Err(why) if !matches!(why, Reason::NoModule | Reason::NoFile(_)) => {
                renumbered(row, text, out);
                say(out, format_args!(" ({why})"));
            }
            _ => renumbered(row, text, out),
        }
        from = span.end;
    }
    out.extend_from_slice(&line.text[from..]);
    out.extend_from_slice(line.end);
}

/// A frame that is written anew.
struct Rewritten<'r> {
    row: &'r Row<'r>,
    /// Its text in the log.
    text: &'r [u8],
    /// What stands before it in its line.
    before: &'r [u8],
}

fn frames(it: &Rewritten<'_>, frames: &[Frame], out: &mut Vec<u8>) {
    let sighting = &it.row.sighting;
    match sighting.form {
        Form::Kernel | Form::Bare => return in_one_line(it, frames, out),
        Form::EuStack if sighting.number.is_none() => return below_it(it, frames, out),
        _ => {}
    }
    for (index, frame) in frames.iter().enumerate() {
        if index > 0 {
            out.push(b'\n');
            out.extend_from_slice(it.before);
        }
        let number = sighting.number.unwrap_or(0) + it.row.inlined + index as u64;
        one(it, number, index == 0, frame, out);
    }
}

/// A line that follows that of the frame, and what would follow it.
fn below_it(it: &Rewritten<'_>, frames: &[Frame], out: &mut Vec<u8>) {
    out.extend_from_slice(it.text);
    for frame in frames {
        out.push(b'\n');
        out.extend_from_slice(it.before);
        out.extend_from_slice(name(frame));
        place(" ", frame, out);
    }
}

/// A frame of a form that has all functions in one line.
fn in_one_line(it: &Rewritten<'_>, frames: &[Frame], out: &mut Vec<u8>) {
    let text = if it.row.sighting.form == Form::Kernel { split(it.text, b"+0x").map(|(name, _)| name) } else { None };
    out.extend_from_slice(text.unwrap_or(it.text));
    out.extend_from_slice(b" (");
    for (index, frame) in frames.iter().enumerate() {
        out.extend_from_slice(if index > 0 { b" " } else { b"" });
        if it.row.sighting.form == Form::Bare {
            out.extend_from_slice(name(frame));
            place(" at ", frame, out);
        } else {
            place("", &without_column(frame), out);
        }
    }
    out.push(b')');
}

/// One function of a frame, which has a number in forms that count.
fn one(it: &Rewritten<'_>, number: u64, is_first: bool, frame: &Frame, out: &mut Vec<u8>) {
    let sighting = &it.row.sighting;
    let process = sighting.process.unwrap_or(0);
    match sighting.form {
        Form::Glibc => glibc(it.text, frame, out),
        Form::Sanitizer if sighting.process.is_some() => {
            say(out, format_args!("#{number} {process:#x} in "));
            out.extend_from_slice(name(frame));
            place(" ", frame, out);
        }
        Form::Sanitizer => {
            say(out, format_args!("#{number} "));
            out.extend_from_slice(name(frame));
            place(" ", frame, out);
            let module = split_last(it.text, b" (BuildId").map_or(it.text, |(text, _)| text);
            say_rest(" (", split_last(module, b" ("), out);
        }
        Form::Coredump | Form::EuStack => {
            say(out, format_args!("#{number:<2} {process:#018x} "));
            out.extend_from_slice(name(frame));
            say_rest(" (", split(it.text, b" ("), out);
            place(" ", frame, out);
        }
        Form::Gdb => gdb(number, process, is_first, frame, out),
        Form::Tombstone => {
            say(out, format_args!("#{number:02}"));
            let rest = it.text.iter().position(|&byte| byte == b' ').map_or(it.text, |at| &it.text[at..]);
            let rest = split(rest, b" (").map_or(rest, |(rest, _)| rest);
            out.extend_from_slice(rest);
            out.extend_from_slice(b" (");
            out.extend_from_slice(name(frame));
            out.push(b')');
            place(" ", frame, out);
        }
        Form::Markup => markup(sighting, number, frame, out),
        Form::Rust => {
            say(out, format_args!("{number}:     {process:#x} - "));
            out.extend_from_slice(name(frame));
            place("\n                               at ", frame, out);
        }
        Form::Kernel | Form::Bare => {}
    }
}

/// What follows some text, where it is there.
fn say_rest(before: &str, found: Option<(&[u8], &[u8])>, out: &mut Vec<u8>) {
    if let Some((_, rest)) = found {
        out.extend_from_slice(before.as_bytes());
        out.extend_from_slice(rest);
    }
}

/// The name of the function in the parentheses, and the place behind the address.
fn glibc(text: &[u8], frame: &Frame, out: &mut Vec<u8>) {
    let (before, address) = split_last(text, b"[").unwrap_or((text, b""));
    let blank = before.len() - before.trim_ascii_end().len();
    let before = before.trim_ascii_end();
    let module = before.strip_suffix(b")").and_then(|inner| split_last(inner, b"(")).map_or(before, |(path, _)| path);
    out.extend_from_slice(module);
    out.push(b'(');
    out.extend_from_slice(name(frame));
    out.push(b')');
    out.extend_from_slice(if blank > 0 { b" [" } else { b"[" });
    out.extend_from_slice(address);
    place(" ", frame, out);
}

/// gdb writes an address for the innermost function alone, and no columns.
fn gdb(number: u64, process: u64, is_first: bool, frame: &Frame, out: &mut Vec<u8>) {
    say(out, format_args!("#{number:<2} "));
    if is_first {
        say(out, format_args!("{process:#018x} in "));
    }
    out.extend_from_slice(name(frame));
    out.extend_from_slice(b" ()");
    place(" at ", &without_column(frame), out);
}

fn without_column(frame: &Frame) -> Frame {
    Frame { column: 0, ..frame.clone() }
}

/// As LLVM's filter writes elements: a frame has a number, an instruction its place in brackets.
fn markup(sighting: &Sighting<'_>, number: u64, frame: &Frame, out: &mut Vec<u8>) {
    if sighting.number.is_some() {
        say(out, format_args!("   #{number:<4} {:#018x} in ", sighting.process.unwrap_or(0)));
        out.extend_from_slice(name(frame));
        return place(" ", frame, out);
    }
    out.extend_from_slice(name(frame));
    out.push(b'[');
    place("", frame, out);
    out.push(b']');
}

/// The text of a frame of which nothing is known, with the number that it has behind inlined ones.
fn renumbered(row: &Row<'_>, text: &[u8], out: &mut Vec<u8>) {
    let sighting = &row.sighting;
    let (Some(number), 1..) = (sighting.number, row.inlined) else {
        return out.extend_from_slice(text);
    };
    let mark = text.iter().take_while(|&&byte| byte == b'#').count();
    let digits = text[mark..].iter().take_while(|byte| byte.is_ascii_digit()).count();
    if digits == 0 || sighting.form == Form::Markup {
        return out.extend_from_slice(text);
    }
    out.extend_from_slice(&text[..mark]);
    say(out, format_args!("{:01$}", number + row.inlined, if text[mark] == b'0' { digits } else { 0 }));
    out.extend_from_slice(&text[mark + digits..]);
}
