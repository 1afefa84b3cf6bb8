//! How frames are written.

pub mod below;
pub mod in_place;
pub mod json;

use std::io::Write;

use a2l_symbolizer::Frame;

use crate::log::Row;

/// Where what is known of a frame is written.
#[derive(Debug, Clone, Copy, PartialEq, Eq)]
pub enum Output {
    Below,
    InPlace,
    Json,
}

/// A line of the log.
#[derive(Debug, Clone, Copy)]
pub struct Line<'l> {
    /// The name of the log, where it has one.
    pub log: Option<&'l [u8]>,
    /// Counted from 1.
    pub number: u64,
    pub text: &'l [u8],
    /// What ends it; nothing where the log ends in the line.
    pub end: &'l [u8],
}

impl Output {
    /// Writes a line with its frames.
    pub fn write(self, line: &Line<'_>, rows: &[Row<'_>], out: &mut Vec<u8>) {
        match self {
            Output::Below => below::write(line, rows, out),
            Output::InPlace => in_place::write(line, rows, out),
            Output::Json => json::write(line, rows, out),
        }
    }

    /// The text is passed through.
    pub fn has_text(self) -> bool {
        self != Output::Json
    }
}

/// A name, or what stands where none is known.
fn name(frame: &Frame) -> &[u8] {
    frame.name.as_deref().unwrap_or(b"??")
}

/// The path, line and column, as far as they are known, after some words; nothing without a path.
fn place(before: &str, frame: &Frame, out: &mut Vec<u8>) {
    let Some(path) = &frame.path else {
        return;
    };
    out.extend_from_slice(before.as_bytes());
    out.extend_from_slice(path);
    if frame.line > 0 {
        say(out, format_args!(":{}", frame.line));
    }
    if frame.line > 0 && frame.column > 0 {
        say(out, format_args!(":{}", frame.column));
    }
}

/// Writes into memory, which can't fail.
fn say(out: &mut Vec<u8>, text: std::fmt::Arguments<'_>) {
    out.write_fmt(text).expect("memory takes all that is written");
}
