//! What both styles write in the same way: names, variables, and what stands between them.

use std::fmt::Arguments;
use std::io::Write;

use crate::arguments::Functions;
use crate::reply::{Answer, Frame, Variable};
use crate::shape::Shape;
use crate::source_lines::around;

/// Writes a reply to the end of some bytes.
pub struct Writer<'w> {
    shape: &'w Shape,
    out: &'w mut Vec<u8>,
}

impl<'w> Writer<'w> {
    pub fn new(shape: &'w Shape, out: &'w mut Vec<u8>) -> Writer<'w> {
        Writer { shape, out }
    }

    pub fn bytes(&mut self, bytes: &[u8]) {
        self.out.extend_from_slice(bytes);
    }

    pub fn text(&mut self, text: Arguments<'_>) {
        self.out.write_fmt(text).expect("memory takes all that is written");
    }

    /// What is known, with the place of each frame in a style of its own; `unknown` where that is
    /// nothing.
    pub fn answer(&mut self, answer: &Answer, place: fn(&mut Self, &Frame), unknown: fn(&mut Self)) {
        match answer {
            Answer::Frames(frames) | Answer::Places(frames) if frames.is_empty() => unknown(self),
            Answer::Frames(frames) | Answer::Places(frames) => {
                let are_inlined = matches!(answer, Answer::Frames(_));
                for (index, frame) in frames.iter().enumerate() {
                    self.name(frame, are_inlined && index > 0);
                    place(self, frame);
                }
            }
            Answer::Variable(variable) => self.variable(variable.as_ref()),
            Answer::Locals => self.bytes(b"??\n"),
        }
    }

    /// The address of a request, where addresses are shown: `digits` is its text.
    pub fn address(&mut self, digits: Arguments<'_>) {
        if self.shape.addresses {
            let end = if self.shape.pretty { ": " } else { "\n" };
            self.text(format_args!("{digits}{end}"));
        }
    }

    /// What is written of a place of which nothing is known: `between` stands before the place
    /// where both are on one line.
    pub fn unknown(&mut self, between: &str, place: &str) {
        let between = if self.shape.pretty { between } else { "\n" };
        if self.shape.functions != Functions::None {
            self.text(format_args!("??{between}"));
        }
        self.text(format_args!("{place}\n"));
    }

    /// The source around a place, where it is shown and can be read.
    pub fn context(&mut self, frame: &Frame) {
        let context = self.shape.context;
        let lines = frame.path.as_ref().filter(|_| context > 0).and_then(|path| around(path, frame.line, context));
        lines.into_iter().for_each(|lines| self.bytes(&lines));
    }

    /// Whether what is known of a frame stands on lines of its own.
    pub fn is_verbose(&self) -> bool {
        self.shape.verbose
    }

    /// The path and the line of a frame, as GNU's style has them, and `?` where the line isn't known.
    pub fn short_place(&mut self, frame: &Frame) {
        match &frame.path {
            Some(path) if frame.line > 0 => {
                self.bytes(path);
                self.text(format_args!(":{}\n", frame.line));
            }
            path => {
                self.bytes(path.as_deref().unwrap_or(b"??"));
                self.bytes(b":?\n");
            }
        }
    }

    /// The name of a frame, where names are shown, with what stands between it and the place.
    fn name(&mut self, frame: &Frame, is_caller: bool) {
        if self.shape.functions == Functions::None {
            return;
        }
        if self.shape.pretty && is_caller {
            self.bytes(b" (inlined by) ");
        }
        self.bytes(frame.name.as_deref().unwrap_or(b"??"));
        self.bytes(if self.shape.pretty { b" at " } else { b"\n" });
    }

    /// The name of a variable, where it begins and its size, and where it is declared.
    fn variable(&mut self, variable: Option<&Variable>) {
        let Some(variable) = variable else {
            return self.bytes(b"??\n0 0\n??:?\n");
        };
        self.bytes(&variable.name);
        self.text(format_args!("\n{} {}\n", variable.start, variable.size));
        match &variable.path {
            Some(path) => {
                self.bytes(path);
                self.text(format_args!(":{}\n", variable.line));
            }
            None => self.bytes(b"??:?\n"),
        }
    }
}
