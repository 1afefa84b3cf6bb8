//! What of an answer is shown, and how names and paths are.

use std::borrow::Cow;

use a2l::Tools;

use crate::arguments::Functions;
use crate::names::{Length, Names};
use crate::plain::without_controls;
use crate::reply::{Answer, Frame, Start, Variable};

/// Which of the frames are shown.
#[derive(Debug, Clone, Copy, PartialEq, Eq)]
pub enum Frames {
    All,
    /// The innermost one, as GNU's addr2line shows it.
    Innermost,
    /// The function that was compiled, at the place of the innermost one, as llvm-symbolizer shows
    /// it.
    Compiled,
}

/// What is shown.
#[derive(Debug, Clone)]
pub struct Shape {
    pub functions: Functions,
    pub frames: Frames,
    pub addresses: bool,
    pub pretty: bool,
    pub demangles: bool,
    /// Whose readable names are shown.
    pub tools: Tools,
    pub basenames: bool,
    /// What is known of a frame stands on lines of its own, as LLVM's tools write it.
    pub verbose: bool,
    /// So many lines of the source are shown around each place.
    pub context: usize,
}

impl Shape {
    /// The names that are shown.
    pub fn names(&self) -> Names {
        Names::new(self.tools, if self.functions == Functions::Short { Length::Short } else { Length::Whole })
    }

    /// The answer as it is written: no name and no path has a control character but tab.
    pub fn shown(&self, names: &mut Names, answer: Answer) -> Answer {
        match answer {
            Answer::Frames(frames) => {
                Answer::Frames(self.chosen(frames).into_iter().map(|frame| self.frame(names, frame)).collect())
            }
            Answer::Places(places) => {
                Answer::Places(places.into_iter().map(|frame| self.frame(names, frame)).collect())
            }
            Answer::Variable(Some(variable)) => {
                let name = self.name(names, &variable.name);
                Answer::Variable(Some(Variable { name, path: variable.path.map(|path| self.path(&path)), ..variable }))
            }
            other => other,
        }
    }

    fn chosen(&self, mut frames: Vec<Frame>) -> Vec<Frame> {
        match self.frames {
            Frames::All => frames,
            Frames::Innermost => {
                frames.truncate(1);
                frames
            }
            Frames::Compiled => compiled(frames).into_iter().collect(),
        }
    }

    fn frame(&self, names: &mut Names, frame: Frame) -> Frame {
        let name = frame.name.map(|name| self.name(names, &name));
        let path = frame.path.map(|path| self.path(&path));
        let start = Start { path: frame.start.path.map(|path| self.path(&path)), ..frame.start };
        Frame { name, path, start, ..frame }
    }

    fn path(&self, path: &[u8]) -> Vec<u8> {
        without_controls(if self.basenames { basename(path) } else { path })
    }

    fn name(&self, names: &mut Names, name: &[u8]) -> Vec<u8> {
        let is_readable = self.demangles || self.functions == Functions::Short;
        without_controls(&if is_readable { Cow::Owned(names.readable(name)) } else { Cow::Borrowed(name) })
    }
}

/// The function that was compiled, at the place of the innermost one; none where there is none.
pub fn compiled(frames: Vec<Frame>) -> Option<Frame> {
    let Frame { name, start, .. } = frames.last().cloned()?;
    Some(Frame { name, start, ..frames.into_iter().next()? })
}

/// The last part of a path; the path where it ends with a slash.
fn basename(path: &[u8]) -> &[u8] {
    path.rsplit(|&byte| byte == b'/').next().filter(|last| !last.is_empty()).unwrap_or(path)
}

#[cfg(test)]
mod tests {
    use super::*;

    fn frame(name: &str, path: &str, line: u64) -> Frame {
        Frame { name: Some(name.into()), path: Some(path.into()), line, ..Frame::default() }
    }

    fn shown(frames: Frames, basenames: bool) -> Vec<Frame> {
        let functions = Functions::Linkage;
        let tools = Tools::Llvm;
        let shape = Shape {
            functions,
            frames,
            addresses: false,
            pretty: false,
            demangles: true,
            tools,
            basenames,
            verbose: false,
            context: 0,
        };
        let answer = Answer::Frames(vec![frame("_Z1fi", "/a/b.c", 1), frame("two\nlines", "c\r\x1b/d", 2)]);
        match shape.shown(&mut shape.names(), answer) {
            Answer::Frames(frames) => frames,
            other => panic!("{other:?}"),
        }
    }

    #[test]
    fn no_control_characters() {
        assert_eq!(shown(Frames::All, false), [frame("f(int)", "/a/b.c", 1), frame("two?lines", "c??/d", 2)]);
    }

    #[test]
    fn frames_that_are_chosen() {
        assert_eq!(shown(Frames::Innermost, true), [frame("f(int)", "b.c", 1)]);
        assert_eq!(shown(Frames::Compiled, false), [frame("two?lines", "/a/b.c", 1)]);
    }

    #[test]
    fn last_parts_of_paths() {
        for (path, last) in [("/a/b", "b"), ("b", "b"), ("a/", "a/"), ("/", "/")] {
            assert_eq!(basename(path.as_bytes()), last.as_bytes());
        }
    }
}
