//! Safe Rust over liba2l, with the types and names that users of the addr2line crate know: a
//! [`Context`] over the bytes of a file, whose frames and locations are asked for by address.
//!
//! ```no_run
//! let file = std::fs::read("program").unwrap();
//! let mut context = a2l::Context::new(&file).unwrap();
//! for frame in context.find_frames(0x401004).unwrap() {
//!     println!("{:?} {:?}", frame.function_name(), frame.location);
//! }
//! ```

mod cut_off;
#[cfg(feature = "cxx-names")]
mod cxx_name;
mod ffi;
mod file;
mod program;

pub use cut_off::end_where_cut_off;
#[cfg(feature = "cxx-names")]
pub use cxx_name::{demangle_cxx, Tools};
pub use file::{File, Part};
pub use program::{Program, UnitFrames};

use std::fmt;
use std::marker::PhantomData;
use std::ptr::null_mut;

/// How many units a context keeps, where nothing else is said.
const CAPACITY: usize = 1024;

/// The number of the refusal of a relocatable file.
pub const RELOCATABLE: u32 = 3;
/// The number of the refusal of a file whose sections are compressed.
pub const COMPRESSED: u32 = 6;

/// Why a file or an address isn't answered.
#[derive(Debug, Clone, PartialEq, Eq)]
pub enum Error {
    /// The file is refused: the reason's number and name, and the section or the offset of the unit
    /// of which it speaks.
    Refused { number: u32, name: String, section: Option<String>, offset: u64 },
    /// A unit can't be read: its offset in .debug_info and the number of the fault, from 1 to 4.
    Fault { unit: u64, number: u32 },
    /// Out of memory. The same call may be made again.
    Memory,
}

impl fmt::Display for Error {
    fn fmt(&self, f: &mut fmt::Formatter<'_>) -> fmt::Result {
        match self {
            Error::Refused { number, name, section: Some(section), .. } => {
                write!(f, "file refused: {number} {name} {section}")
            }
            Error::Refused { number, name, offset, .. } if *number >= 7 => {
                write!(f, "file refused: {number} {name} {offset:#x}")
            }
            Error::Refused { number, name, .. } => write!(f, "file refused: {number} {name}"),
            Error::Fault { unit, number } => write!(f, "unit {unit:#x} fault {number}"),
            Error::Memory => write!(f, "out of memory"),
        }
    }
}

impl std::error::Error for Error {}

/// Where in the source an address comes from, as far as that is known.
#[derive(Debug, Clone, Default, PartialEq, Eq)]
pub struct Location {
    /// The path, by its bytes.
    pub file: Option<Vec<u8>>,
    /// The line, counted from 1.
    pub line: Option<u64>,
    /// The column; 0 is the left edge of the line.
    pub column: Option<u64>,
}

/// A function at an address. `'a` is that of the bytes of the file.
#[derive(Debug, Clone, PartialEq, Eq)]
pub struct Frame<'a> {
    /// The function's name, by its bytes, as it stands in the file.
    pub function: Option<&'a [u8]>,
    pub location: Location,
}

impl Frame<'_> {
    /// The function's name, where it is UTF-8.
    pub fn function_name(&self) -> Option<&str> {
        std::str::from_utf8(self.function?).ok()
    }
}

/// Addresses from `begin` on and below `end`, which have one location.
#[derive(Debug, Clone, PartialEq, Eq)]
pub struct LocationRange {
    pub begin: u64,
    pub end: u64,
    pub location: Location,
}

/// An open file.
pub struct Context<'a> {
    handle: ffi::Handle,
    file: PhantomData<&'a [u8]>,
}

// SAFETY: the header allows a handle to be used by any thread, in one call at a time, and `&mut
// self` sees to that.
unsafe impl Send for Context<'_> {}

fn closed<'a>() -> Context<'a> {
    Context { handle: ffi::Handle { open: false, session: null_mut() }, file: PhantomData }
}

/// The text of a part of a refusal.
fn text(bytes: *const std::os::raw::c_char, length: usize) -> String {
    if bytes.is_null() || length == 0 {
        return String::new();
    }
    // SAFETY: the library gives a text of its own, which stays.
    let bytes = unsafe { std::slice::from_raw_parts(bytes.cast::<u8>(), length) };
    String::from_utf8_lossy(bytes).into_owned()
}

fn known<T>(is_known: bool, value: T) -> Option<T> {
    is_known.then_some(value)
}

/// Calls with a buffer for a path, and again with a longer one where the path doesn't fit.
fn with_path(path: &mut Vec<u8>, mut call: impl FnMut(&mut Vec<u8>) -> (u32, usize)) -> u32 {
    loop {
        let (status, length) = call(path);
        if status != ffi::SHORT {
            return status;
        }
        path.resize(length, 0);
    }
}

fn location(told: &ffi::Location, path: &[u8]) -> Location {
    Location {
        file: known(told.path_known, path).map(|path| path[..told.path_length].to_vec()),
        line: known(told.line_known, told.line),
        column: known(told.column_known, told.column),
    }
}

impl<'a> Context<'a> {
    /// Opens a file by its bytes.
    pub fn new(file: &'a [u8]) -> Result<Self, Error> {
        Self::with_capacity(file, CAPACITY)
    }

    /// The same, which keeps the functions of so many units; 0 counts as 1.
    pub fn with_capacity(file: &'a [u8], capacity: usize) -> Result<Self, Error> {
        let mut context = closed();
        let mut why = ffi::Refusal {
            name: null_mut(),
            name_length: 0,
            section: null_mut(),
            section_length: 0,
            offset: 0,
            number: 0,
        };
        // SAFETY: the handle is of zeros, and the bytes outlive it, by `'a`.
        match unsafe { ffi::a2l_open(file.as_ptr(), file.len(), capacity.max(1), &mut context.handle, &mut why) } {
            ffi::DONE => Ok(context),
            ffi::REFUSED => Err(Error::Refused {
                number: why.number,
                name: text(why.name, why.name_length),
                section: known(why.section_length > 0, text(why.section, why.section_length)),
                offset: why.offset,
            }),
            _ => Err(Error::Memory),
        }
    }

    /// A second context over the same file, for another thread. Nothing is read.
    pub fn beside(&mut self) -> Result<Context<'a>, Error> {
        let mut other = closed();
        // SAFETY: the one handle is open, the other one of zeros.
        match unsafe { ffi::a2l_beside(&mut self.handle, CAPACITY, &mut other.handle) } {
            ffi::DONE => Ok(other),
            _ => Err(Error::Memory),
        }
    }

    /// The functions at an address, innermost first; none where no unit covers it.
    pub fn find_frames(&mut self, address: u64) -> Result<FrameIter<'_, 'a>, Error> {
        self.find_all_frames(&[address])?;
        self.frames(0)
    }

    /// Asks about many addresses in one question. `frames` gives what was found.
    pub fn find_all_frames(&mut self, addresses: &[u64]) -> Result<(), Error> {
        // SAFETY: the handle is open.
        match unsafe { ffi::a2l_find_frames(&mut self.handle, addresses.as_ptr(), addresses.len()) } {
            ffi::DONE => Ok(()),
            _ => Err(Error::Memory),
        }
    }

    /// The functions at the address at a place of the last question.
    pub fn frames(&mut self, place: usize) -> Result<FrameIter<'_, 'a>, Error> {
        let answer = self.answer(place)?;
        let count = if answer.kind == ffi::FRAMES { answer.count } else { 0 };
        Ok(FrameIter { context: self, place, next: 0, count, path: Vec::new() })
    }

    /// Where an address comes from, by line tables alone; nothing where no unit covers it.
    pub fn find_location(&mut self, address: u64) -> Result<Option<Location>, Error> {
        self.find_all_locations(&[address])?;
        Ok(self.frames(0)?.next().map(|frame| frame.location))
    }

    /// Asks where many addresses come from, in one question. `frames` gives what was found, a frame
    /// without a name each.
    pub fn find_all_locations(&mut self, addresses: &[u64]) -> Result<(), Error> {
        // SAFETY: the handle is open.
        match unsafe { ffi::a2l_find_locations(&mut self.handle, addresses.as_ptr(), addresses.len()) } {
            ffi::DONE => Ok(()),
            _ => Err(Error::Memory),
        }
    }

    /// The unit that has the answer at a place of the last question, by its offset in .debug_info.
    pub fn unit_of(&mut self, place: usize) -> Result<Option<u64>, Error> {
        let answer = self.answer(place)?;
        Ok(known(answer.kind == ffi::FRAMES, answer.unit))
    }

    /// The locations of all addresses from `low` on and below `high`, in order of address.
    pub fn find_location_range(&mut self, low: u64, high: u64) -> Result<Vec<LocationRange>, Error> {
        // SAFETY: the handle is open.
        if unsafe { ffi::a2l_find_pieces(&mut self.handle, low, high) } != ffi::DONE {
            return Err(Error::Memory);
        }
        let count = self.answer(0)?.count;
        let mut path = Vec::new();
        Ok((0..count).map(|j| self.piece(j, &mut path)).collect())
    }

    fn piece(&mut self, j: usize, path: &mut Vec<u8>) -> LocationRange {
        let mut piece = ffi::Piece::default();
        with_path(path, |path| {
            // SAFETY: the handle is open, and the buffer has its length.
            let status =
                unsafe { ffi::a2l_piece_at(&mut self.handle, j, path.as_mut_ptr().cast(), path.len(), &mut piece) };
            (status, piece.location.path_length)
        });
        LocationRange { begin: piece.begin, end: piece.end, location: location(&piece.location, path) }
    }

    /// What an answer is, or its fault.
    fn answer(&mut self, place: usize) -> Result<ffi::Answer, Error> {
        let mut answer = ffi::Answer::default();
        // SAFETY: the handle is open. An answer that isn't there stays of zeros.
        unsafe { ffi::a2l_answer_at(&mut self.handle, place, &mut answer) };
        if answer.kind == ffi::FAULT {
            return Err(Error::Fault { unit: answer.unit, number: answer.fault });
        }
        Ok(answer)
    }
}

impl Drop for Context<'_> {
    fn drop(&mut self) {
        // SAFETY: the handle is open, or of zeros.
        unsafe { ffi::a2l_close(&mut self.handle) };
    }
}

/// The functions at an address, innermost first.
pub struct FrameIter<'c, 'a> {
    context: &'c mut Context<'a>,
    place: usize,
    next: usize,
    count: usize,
    path: Vec<u8>,
}

impl<'a> Iterator for FrameIter<'_, 'a> {
    type Item = Frame<'a>;

    fn next(&mut self) -> Option<Frame<'a>> {
        if self.next == self.count {
            return None;
        }
        let (handle, i, j) = (&mut self.context.handle, self.place, self.next);
        let mut frame =
            ffi::Frame { name: null_mut(), name_length: 0, location: ffi::Location::default(), name_known: false };
        let status = with_path(&mut self.path, |path| {
            // SAFETY: the handle is open, and the buffer has its length.
            let status = unsafe { ffi::a2l_frame_at(handle, i, j, path.as_mut_ptr().cast(), path.len(), &mut frame) };
            (status, frame.location.path_length)
        });
        if status != ffi::DONE {
            return None;
        }
        self.next += 1;
        // SAFETY: a name that is known points into the bytes of the file, which live for `'a`.
        let function =
            frame.name_known.then(|| unsafe { std::slice::from_raw_parts(frame.name.cast::<u8>(), frame.name_length) });
        Some(Frame { function, location: location(&frame.location, &self.path) })
    }
}

/// The version of the library's interface.
pub fn version() -> u32 {
    // SAFETY: the call takes nothing.
    unsafe { ffi::a2l_version() }
}
