//! Files by their paths, and whether they are still what they were.

use std::fs::Metadata;
use std::io;
use std::os::unix::fs::MetadataExt;
use std::path::{Path, PathBuf};
use std::sync::Arc;

use a2l::File;

/// How files are brought into memory.
#[derive(Debug, Clone, Copy, PartialEq, Eq)]
pub enum Opener {
    /// Whoever starts the program sees to it that nobody writes to files that are asked about.
    Map,
    Read,
}

impl Opener {
    #[expect(unsafe_code, reason = "only who starts the program knows whether files are written to")]
    pub fn open(self, path: &Path) -> io::Result<OpenFile> {
        let (file, about) = match self {
            // SAFETY: the manual asks this of whoever doesn't say --no-mmap.
            Opener::Map => unsafe { File::map(path) }?,
            Opener::Read => File::read(path)?,
        };
        Ok(OpenFile { path: path.to_owned(), file: Arc::new(file), stamp: Stamp::of(&about) })
    }
}

/// A file that is in memory.
#[derive(Debug, Clone)]
pub struct OpenFile {
    pub path: PathBuf,
    pub file: Arc<File>,
    stamp: Stamp,
}

impl OpenFile {
    /// Another file has come to its path, or its bytes were changed. A path that leads nowhere now
    /// changes nothing.
    pub fn has_changed(&self) -> bool {
        std::fs::metadata(&self.path).is_ok_and(|about| Stamp::of(&about) != self.stamp)
    }
}

/// What differs where a file isn't the one that it was.
#[derive(Debug, Clone, Copy, PartialEq, Eq)]
struct Stamp {
    device: u64,
    inode: u64,
    size: u64,
    /// When it was changed, in seconds and nanoseconds.
    changed: (i64, i64),
}

impl Stamp {
    fn of(about: &Metadata) -> Stamp {
        let changed = (about.ctime(), about.ctime_nsec());
        Stamp { device: about.dev(), inode: about.ino(), size: about.size(), changed }
    }
}
