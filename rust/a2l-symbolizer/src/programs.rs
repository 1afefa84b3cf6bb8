//! The files that are open: those that were used last, as many as may be.

use lru::LruCache;

use crate::open_file::{OpenFile, Opener};
use crate::program::{Program, Sources};
use crate::request::Module;

/// How much of files stays open.
#[derive(Debug, Clone, Copy, PartialEq, Eq)]
pub struct CacheSize {
    pub files: usize,
    pub bytes: u64,
}

/// Open files.
pub struct Programs {
    pub sources: Sources,
    opener: Opener,
    size: CacheSize,
    open: LruCache<Module, Program>,
}

impl Programs {
    /// No file is open yet.
    pub fn new(sources: Sources, opener: Opener, size: CacheSize) -> Programs {
        Programs { sources, opener, size, open: LruCache::unbounded() }
    }

    /// A file that is open and still what it was; else it is opened. The text of an error says why
    /// it can't be.
    pub fn get(&mut self, module: &Module) -> Result<Opened<'_>, String> {
        if self.open.get(module).is_none_or(Program::has_changed) {
            self.open.pop(module);
            let program = Program::open(self.open_file(module)?, &self.sources);
            self.make_room(program.bytes());
            self.open.put(module.clone(), program);
        }
        let program = self.open.get_mut(module).expect("it was opened just now");
        Ok(Opened { program, sources: &self.sources })
    }

    fn open_file(&self, module: &Module) -> Result<OpenFile, String> {
        let file = match module {
            Module::Path(path) => self.opener.open(path).map_err(|why| reason(&why))?,
            Module::BuildId(id) => self.sources.debug_files.by_build_id(id).ok_or("could not find build ID")?,
        };
        if !file.file.starts_with(b"\x7fELF") {
            return Err("The file was not recognized as a valid object file".to_owned());
        }
        Ok(file)
    }

    /// Closes files that were used longest ago, until there is room for one more of so many bytes.
    fn make_room(&mut self, bytes: u64) {
        let mut all = bytes.saturating_add(self.open.iter().map(|(_, program)| program.bytes()).sum());
        while self.open.len() >= self.size.files || all > self.size.bytes {
            let Some((_, gone)) = self.open.pop_lru() else {
                break;
            };
            all = all.saturating_sub(gone.bytes());
        }
    }
}

/// A file that is open.
pub struct Opened<'p> {
    pub program: &'p mut Program,
    pub sources: &'p Sources,
}

/// Why a file can't be opened, without the number that the system has for it.
fn reason(why: &std::io::Error) -> String {
    let text = why.to_string();
    text.split(" (os error").next().unwrap_or(&text).to_owned()
}
