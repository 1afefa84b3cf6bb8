//! The text that comes in goes out, line by line, while it comes.

use std::io::{self, Read, Write};
use std::rc::Rc;

use memchr::memmem::Finder;
use memchr::{memchr, memchr3_iter, memchr_iter, memrchr};

use crate::log::{Log, Row};
use crate::modules::Modules;
use crate::output::{Line, Output};
use crate::process::Process;
use crate::reports::Reports;

/// So many bytes are asked for at a time.
const BLOCK: usize = 256 << 10;
/// A line that is longer is passed through, and no frame is looked for in it.
const LONGEST: usize = 1 << 20;

/// What works on a text.
pub struct Stream<'s> {
    pub modules: &'s mut Modules,
    pub reports: &'s mut Reports,
    pub output: Output,
    log: Log,
    name: Option<Vec<u8>>,
    build_id: Rc<Finder<'static>>,
    /// So many lines were passed, where rows want it.
    lines: u64,
}

impl<'s> Stream<'s> {
    /// For a log that may have a name, of a process that may be known.
    pub fn new(
        modules: &'s mut Modules,
        reports: &'s mut Reports,
        output: Output,
        name: Option<Vec<u8>>,
        process: Option<Process>,
    ) -> Stream<'s> {
        let build_id = Rc::new(Finder::new(" with build-id "));
        Stream { modules, reports, output, log: Log::new(process), name, build_id, lines: 0 }
    }

    /// Passes the text until it ends.
    pub fn run(&mut self, mut input: impl Read, mut output: impl Write) -> io::Result<()> {
        let (mut bytes, mut used, mut is_in_long) = (vec![0; 2 * BLOCK], 0, false);
        loop {
            if bytes.len() - used < BLOCK {
                bytes.resize(used + BLOCK, 0);
            }
            let count = match input.read(&mut bytes[used..]) {
                Err(why) if why.kind() == io::ErrorKind::Interrupted => continue,
                count => count?,
            };
            let (before, all) = (used, used + count);
            // What was there before has no end of a line.
            let whole = memrchr(b'\n', &bytes[before..all]).map_or(0, |at| before + at + 1);
            let whole = if count == 0 { all } else { whole };
            let mut from = 0;
            if is_in_long && whole > 0 {
                from = memchr(b'\n', &bytes[..whole]).map_or(whole, |at| at + 1);
                self.pass(&bytes[..from], &mut output)?;
                is_in_long = false;
            }
            self.lines(&bytes[from..whole], &mut output)?;
            if count == 0 {
                return Ok(());
            }
            let mut rest = whole;
            if is_in_long || all - whole > LONGEST {
                self.pass(&bytes[whole..all], &mut output)?;
                (is_in_long, rest) = (true, all);
            }
            bytes.copy_within(rest..all, 0);
            used = all - rest;
        }
    }

    /// Passes bytes in which nothing is looked for.
    fn pass(&mut self, bytes: &[u8], output: &mut impl Write) -> io::Result<()> {
        self.count(bytes);
        if self.output.has_text() {
            output.write_all(bytes)?;
        }
        output.flush()
    }

    /// Passes whole lines, of which the last one may have no end where the text ends.
    fn lines(&mut self, text: &[u8], output: &mut impl Write) -> io::Result<()> {
        let (mut out, mut written, mut done) = (Vec::new(), 0, 0);
        let build_id = Rc::clone(&self.build_id);
        self.modules.begin();
        let mut places = Places::new(&build_id, text);
        while let Some(at) = places.next(done) {
            let begin = memrchr(b'\n', &text[done..at]).map_or(done, |end| done + end + 1);
            let end = memchr(b'\n', &text[at..]).map_or(text.len(), |end| at + end + 1);
            if begin > done {
                self.log.pass();
                self.count(&text[done..begin]);
            }
            let line = &text[begin..end];
            self.lines += 1;
            let rows = self.log.read(without_end(line), self.modules);
            if !rows.is_empty() {
                if self.output.has_text() {
                    out.extend_from_slice(&text[written..begin]);
                }
                self.reports.note(&rows);
                self.write(line, &rows, &mut out);
                written = end;
            }
            done = end;
        }
        if done == 0 {
            self.log.pass();
        }
        self.count(&text[done..]);
        output.write_all(&out)?;
        if self.output.has_text() {
            output.write_all(&text[written..])?;
        }
        output.flush()
    }

    /// Counts lines, where rows want it.
    fn count(&mut self, text: &[u8]) {
        if !self.output.has_text() {
            self.lines += memchr_iter(b'\n', text).count() as u64;
        }
    }

    /// Writes a line that has frames.
    fn write(&self, line: &[u8], rows: &[Row<'_>], out: &mut Vec<u8>) {
        let text = without_end(line);
        let line = Line { log: self.name.as_deref(), number: self.lines, text, end: &line[text.len()..] };
        self.output.write(&line, rows, out);
    }
}

fn without_end(line: &[u8]) -> &[u8] {
    let text = line.strip_suffix(b"\n").unwrap_or(line);
    text.strip_suffix(b"\r").unwrap_or(text)
}

/// The places of a text where something may be said.
struct Places<'t> {
    build_id: &'t Finder<'static>,
    text: &'t [u8],
    /// The next line with a build id, or the end of the text.
    next: usize,
}

impl<'t> Places<'t> {
    fn new(build_id: &'t Finder<'static>, text: &'t [u8]) -> Places<'t> {
        Places { build_id, text, next: build_id.find(text).unwrap_or(text.len()) }
    }

    /// The first place from some place on.
    fn next(&mut self, from: usize) -> Option<usize> {
        if self.next < from {
            self.next = self.build_id.find(&self.text[from..]).map_or(self.text.len(), |at| from + at);
        }
        let mut rare = memchr3_iter(b'x', b'#', b'{', &self.text[from..self.next]);
        let found = rare.find(|&at| says(self.text, from + at)).map(|at| from + at);
        found.or(Some(self.next).filter(|&at| at < self.text.len()))
    }
}

/// Whether the word around a byte is one that all lines have which say anything: `0x`, the end of the
/// flags of an executable mapping, the number of a frame, or the begin of markup.
fn says(text: &[u8], at: usize) -> bool {
    let after = &text[at + 1..];
    match text[at] {
        b'x' => text[..at].ends_with(b"0") || after.starts_with(b"p ") || after.starts_with(b"s "),
        b'#' => after.first().is_some_and(u8::is_ascii_digit),
        _ => after.starts_with(b"{{"),
    }
}

#[cfg(test)]
mod tests {
    use super::*;
    use crate::answers::Answers;
    use crate::modules::Places as Files;

    /// A text that comes in pieces of so many bytes.
    struct Pieces<'t>(&'t [u8], usize);

    impl Read for Pieces<'_> {
        fn read(&mut self, out: &mut [u8]) -> io::Result<usize> {
            let count = self.1.min(self.0.len()).min(out.len());
            out[..count].copy_from_slice(&self.0[..count]);
            self.0 = &self.0[count..];
            Ok(count)
        }
    }

    fn passed(text: &[u8], piece: usize, output: Output) -> Vec<u8> {
        let (mut modules, mut out) = (Modules::new(Files::default(), Answers::new(&[], false)), Vec::new());
        let mut reports = Reports::silent();
        let mut stream = Stream::new(&mut modules, &mut reports, output, None, None);
        stream.run(Pieces(text, piece), &mut out).expect("memory");
        out
    }

    #[test]
    fn texts_come_out_whole() {
        let long = [&b"0x".repeat(LONGEST)[..], b"\n./p(+0x10)[0x20]"].concat();
        for text in [
            &b""[..],
            b"\n",
            b"a\nb",
            b"./p(+0x10)[0x20]\r\n\xff\xfe 0x\n#1 0x",
            b"{{{\n0x\0\n  1: 0x10 - ",
            &long,
            b"x: 1-2 r-xp 0 0:0 0 [x]\n 0x1 \n",
        ] {
            for piece in [1, 7, 1 << 16] {
                if piece * 1000 > text.len() {
                    assert!(passed(text, piece, Output::Below) == text, "{} bytes by {piece}", text.len());
                    assert!(passed(text, piece, Output::InPlace) == text, "{} bytes by {piece}", text.len());
                }
            }
        }
    }

    #[test]
    fn what_says_something() {
        for text in [
            "a 0x1",
            "1-2 r-xp 0",
            "#1 pc 10",
            "#1  <signal handler called>",
            "{{{reset}}}",
            "Module a with build-id 0a",
        ] {
            let finder = Finder::new(" with build-id ");
            assert!(Places::new(&finder, text.as_bytes()).next(0).is_some(), "{text}");
        }
        let finder = Finder::new(" with build-id ");
        let mut places = Places::new(&finder, b"axe x y, issue # {{ max with build-ids");
        assert_eq!(places.next(0), None);
    }

    #[test]
    fn rows_have_numbers_of_lines() {
        let rows = passed(b"a\n\n./nowhere(+0x10)[0x20]\nb\n#1 0x10 (/nowhere+0x1)\n", 3, Output::Json);
        let rows = String::from_utf8(rows).expect("UTF-8");
        let lines: Vec<&str> = rows.lines().collect();
        assert_eq!(lines.len(), 2);
        assert!(lines[0].contains("\"line\":3") && lines[1].contains("\"line\":5"), "{rows}");
    }
}
