//! Files whose bytes stay in memory for as long as anything reads them: mapped, read, or made.

use std::fs::{Metadata, OpenOptions};
use std::io::{self, Read};
use std::ops::{Deref, Range};
use std::os::unix::fs::OpenOptionsExt;
use std::path::Path;
use std::sync::Arc;

use memmap2::Mmap;
use stable_deref_trait::{CloneStableDeref, StableDeref};

/// The bytes of a file.
#[derive(Debug)]
pub struct File(Bytes);

#[derive(Debug)]
enum Bytes {
    Mapped(Mmap),
    Owned(Vec<u8>),
}

/// Opens a regular file. Nothing else is waited for, as a FIFO would be.
fn open(path: &Path) -> io::Result<(std::fs::File, Metadata)> {
    let file = OpenOptions::new().read(true).custom_flags(libc::O_NONBLOCK).open(path)?;
    let about = file.metadata()?;
    if about.is_dir() {
        return Err(io::Error::from_raw_os_error(libc::EISDIR));
    }
    if !about.is_file() {
        return Err(io::Error::new(io::ErrorKind::InvalidInput, "Not a regular file"));
    }
    Ok((file, about))
}

impl File {
    /// Maps a regular file, and returns what the system knew of it then.
    ///
    /// Bytes that another process cuts off while the file is mapped raise SIGBUS where they are
    /// read, which ends this process: see [`end_where_cut_off`](crate::end_where_cut_off).
    ///
    /// # Safety
    ///
    /// Nobody writes to the file for as long as the `File` lives, which nothing here can check:
    /// Rust and the library may read a byte twice, and rely on finding the same. A new file that is
    /// put at the path, as linkers and package managers do, is no such write.
    pub unsafe fn map(path: &Path) -> io::Result<(File, Metadata)> {
        let (file, about) = open(path)?;
        if about.len() == 0 {
            return Ok((File::from(Vec::new()), about));
        }
        // SAFETY: the mapping is only read, and the caller promises that nobody writes the file.
        let mapped = unsafe { Mmap::map(&file) }?;
        Ok((File(Bytes::Mapped(mapped)), about))
    }

    /// Reads a regular file whole, and returns what the system knew of it before.
    pub fn read(path: &Path) -> io::Result<(File, Metadata)> {
        let (mut file, about) = open(path)?;
        let mut bytes = Vec::new();
        file.read_to_end(&mut bytes)?;
        Ok((File::from(bytes), about))
    }
}

impl From<Vec<u8>> for File {
    fn from(bytes: Vec<u8>) -> Self {
        File(Bytes::Owned(bytes))
    }
}

impl Deref for File {
    type Target = [u8];

    fn deref(&self) -> &[u8] {
        match &self.0 {
            Bytes::Mapped(mapped) => mapped,
            Bytes::Owned(bytes) => bytes,
        }
    }
}

/// A part of a file, which keeps the file. Readers of DWARF that own their bytes take it, as
/// gimli's `EndianReader` does.
#[derive(Debug, Clone)]
pub struct Part {
    file: Arc<File>,
    range: Range<usize>,
}

impl Part {
    /// The bytes of a range of a file; none where they aren't all there.
    pub fn new(file: &Arc<File>, range: Range<usize>) -> Option<Part> {
        file.get(range.clone())?;
        Some(Part { file: Arc::clone(file), range })
    }

    /// All bytes of a file.
    pub fn whole(file: File) -> Part {
        let range = 0..file.len();
        Part { file: Arc::new(file), range }
    }
}

impl Deref for Part {
    type Target = [u8];

    fn deref(&self) -> &[u8] {
        &self.file[self.range.clone()]
    }
}

// SAFETY: the bytes of a `File` stay at their address, whoever moves it, and a part keeps the file
// by an `Arc`.
unsafe impl StableDeref for Part {}
// SAFETY: a clone is a part of the same file.
unsafe impl CloneStableDeref for Part {}
