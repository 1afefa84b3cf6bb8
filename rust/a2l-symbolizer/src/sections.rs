//! Sections of debug information: found and decompressed.

use std::fmt;
use std::sync::Arc;

use a2l::{File, Part};
use object::{Object, ObjectSection};

use crate::compression::{size_of, Packed};

/// Why sections can't be decompressed.
#[derive(Debug)]
pub enum Error {
    Object(object::Error),
    Dwarf(gimli::Error),
    /// Compressed sections claim far more bytes than they have.
    TooLong,
    /// The sections take more bytes than are allowed or, with their relocations, than the file has.
    TooMany,
    /// A relocation of debug information is of a kind that isn't known.
    Relocation,
    /// Bytes that are neither zlib nor zstd, or another number of them than the section claims.
    Damaged,
}

impl fmt::Display for Error {
    fn fmt(&self, f: &mut fmt::Formatter<'_>) -> fmt::Result {
        match self {
            Error::Object(why) => write!(f, "{why}"),
            Error::Dwarf(why) => write!(f, "{why}"),
            Error::TooLong => write!(f, "a compressed section claims far more bytes than it has"),
            Error::Relocation => write!(f, "a relocation of debug information is of a kind that isn't known"),
            Error::Damaged => write!(f, "a compressed section is damaged, or neither of zlib nor of zstd"),
            Error::TooMany => write!(f, "the sections take more memory than is allowed, or than the file has bytes"),
        }
    }
}

impl From<gimli::Error> for Error {
    fn from(why: gimli::Error) -> Self {
        Error::Dwarf(why)
    }
}

impl From<object::Error> for Error {
    fn from(why: object::Error) -> Self {
        Error::Object(why)
    }
}

/// A file has entries of debug information, whatever their form. A file whose sections can't be
/// found counts as such, so that the library says why.
pub fn has_debug_info(file: &File) -> bool {
    object::File::parse(&**file).map_or(true, |object| object.section_by_name(".debug_info").is_some())
}

/// A file has names in a file of dwz's.
pub fn has_supplement(file: &File) -> bool {
    object::File::parse(&**file).is_ok_and(|object| object.section_by_name(".gnu_debugaltlink").is_some())
}

/// What follows `.debug_` in the name of a section of debug information, or `.zdebug_` where it is
/// compressed in GNU's older form.
pub fn name_of_debug_section(name: &[u8]) -> Option<&[u8]> {
    name.strip_prefix(b".debug_").or_else(|| name.strip_prefix(b".zdebug_"))
}

/// A section of a file, by its bytes; empty where the file doesn't have it.
pub fn part(file: &Arc<File>, object: &object::File<'_>, name: &str) -> Result<Part, Error> {
    let Some(section) = object.section_by_name(name) else {
        return Ok(Part::whole(File::from(Vec::new())));
    };
    let packed = Packed::of(object, &section)?;
    let range = section.file_range().filter(|_| packed.is_whole());
    let range = range.map(|(begin, size)| begin as usize..begin.saturating_add(size) as usize);
    if let Some(part) = range.and_then(|range| Part::new(file, range)) {
        return Ok(part);
    }
    size_of(file, [packed])?;
    let mut bytes = Vec::new();
    packed.append_to(&mut bytes)?;
    Ok(Part::whole(File::from(bytes)))
}
