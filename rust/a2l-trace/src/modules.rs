//! The files of modules: which file a name or a build id of a log means, and that it is the one.

use std::cell::OnceCell;
use std::collections::HashSet;
use std::ffi::OsStr;
use std::fmt;
use std::os::unix::ffi::OsStrExt;
use std::path::{Path, PathBuf};
use std::rc::Rc;
use std::sync::Arc;

use a2l::File;
use a2l_symbolizer::{Frame, Module};
use lru::LruCache;

use crate::answers::Answers;
use crate::layout::Layout;
use crate::scan::basename;
use crate::signals::Signals;
use crate::symbols::{Symbol, Symbols};

/// Why there is no answer.
#[derive(Debug, Clone, PartialEq, Eq, Hash)]
pub enum Reason {
    /// The file can't be opened, for this reason.
    NoFile(String),
    /// The log has this build id, and the file that one or none.
    BuildIdDiffers { log: Vec<u8>, file: Option<Vec<u8>> },
    /// The line has no module, or the address is in none that is known.
    NoModule,
    /// The program headers of the file don't lead to the address, or lead to several.
    NoAddress,
    /// The symbol isn't in the file, or isn't of that size there.
    NoSymbol,
    /// Several symbols have the name.
    ManySymbols,
    /// The log has an address of a file that isn't moved, and this file has no code there.
    Moved,
}

impl fmt::Display for Reason {
    fn fmt(&self, f: &mut fmt::Formatter<'_>) -> fmt::Result {
        match self {
            Reason::NoFile(why) => f.write_str(why),
            Reason::BuildIdDiffers { log, file: Some(file) } => {
                write!(f, "build id differs: {} in the log, {} in the file", hexadecimal(log), hexadecimal(file))
            }
            Reason::BuildIdDiffers { log, file: None } => {
                write!(f, "build id differs: {} in the log, none in the file", hexadecimal(log))
            }
            Reason::NoModule => f.write_str("no module is known there"),
            Reason::NoAddress => f.write_str("its program headers don't lead to one address"),
            Reason::NoSymbol => f.write_str("it has no such symbol of that size"),
            Reason::ManySymbols => f.write_str("several symbols have this name"),
            Reason::Moved => f.write_str("the file isn't at the addresses that it has, as it is in the log"),
        }
    }
}

/// Bytes as they are written.
pub fn hexadecimal(bytes: &[u8]) -> String {
    bytes.iter().map(|byte| format!("{byte:02x}")).collect()
}

/// Where files are.
#[derive(Debug, Default, Clone)]
pub struct Places {
    /// Names or paths of the log, and the files that are meant.
    pub given: Vec<(Vec<u8>, PathBuf)>,
    /// The folder in which the paths of the log begin.
    pub sysroot: Option<PathBuf>,
}

/// A file that is the one of the log.
#[derive(Clone)]
pub struct Found {
    pub module: Module,
    pub file: Arc<File>,
    pub layout: Rc<Layout>,
    signals: Option<Rc<Signals>>,
    /// Made when they are first needed.
    dynamic: Rc<OnceCell<Symbols>>,
    all: Rc<OnceCell<Symbols>>,
}

impl Found {
    /// Whether the code at an address is that to which a signal handler returns.
    pub fn is_signal(&self, address: u64) -> bool {
        self.signals.as_ref().is_some_and(|signals| signals.has(&self.file, address))
    }

    /// The symbols that a loader sees.
    pub fn dynamic_symbols(&self) -> &Symbols {
        self.dynamic.get_or_init(|| Symbols::dynamic(&self.file))
    }

    /// All symbols.
    pub fn all_symbols(&self) -> &Symbols {
        self.all.get_or_init(|| Symbols::all(&self.file))
    }

    /// The path of the file, or its build id.
    pub fn name(&self) -> Vec<u8> {
        match &self.module {
            Module::Path(path) => path.as_os_str().as_bytes().to_vec(),
            Module::BuildId(id) => hexadecimal(id).into_bytes(),
        }
    }
}

/// What a log says of a module.
#[derive(Debug, Clone, PartialEq, Eq, Hash)]
pub struct Wanted {
    pub name: Vec<u8>,
    pub build_id: Option<Vec<u8>>,
    /// The folder in which the paths of the process begin, where it runs.
    pub root: Option<PathBuf>,
}

/// The files that were asked for.
pub struct Modules {
    places: Places,
    answers: Answers,
    found: LruCache<Wanted, Result<Found, Reason>>,
    /// Those that were found or compared since the text was last read.
    fresh: HashSet<Wanted>,
}

/// So many files are known at most.
const KEPT: usize = 128;

impl Modules {
    pub fn new(places: Places, answers: Answers) -> Modules {
        Modules { places, answers, found: LruCache::new(KEPT), fresh: HashSet::new() }
    }

    /// More of the text was read, so that files may have changed since.
    pub fn begin(&mut self) {
        self.fresh.clear();
    }

    /// The functions at an address of a file, innermost first.
    pub fn find_frames(&mut self, found: &Found, address: u64) -> Vec<Frame> {
        self.answers.find_frames(&found.module, address)
    }

    /// Where an offset from a symbol is, as the addresses above are.
    pub fn place_of_symbol(&mut self, found: &Found, symbol: &Symbol, offset: u64) -> Result<u64, Reason> {
        self.answers.place_of_symbol(&found.module, symbol, offset).ok_or(Reason::NoAddress)
    }

    /// The variable at an address of a file.
    pub fn find_variable(&mut self, found: &Found, address: u64) -> Vec<Frame> {
        self.answers.find_variable(&found.module, address)
    }

    /// The file of a module, which has the build id that the log has.
    pub fn find(&mut self, wanted: &Wanted) -> Result<Found, Reason> {
        match self.found.get(wanted) {
            Some(Err(why)) => return Err(why.clone()),
            // A file that was changed since is opened again, and isn't the same then.
            Some(Ok(found)) if self.fresh.contains(wanted) => return Ok(found.clone()),
            Some(Ok(found)) if self.answers.file(&found.module).is_ok_and(|file| Arc::ptr_eq(&file, &found.file)) => {
                self.fresh.insert(wanted.clone());
                return Ok(found.clone());
            }
            _ => {}
        }
        let found = self.look_for(wanted);
        self.found.put(wanted.clone(), found.clone());
        found
    }

    fn look_for(&mut self, wanted: &Wanted) -> Result<Found, Reason> {
        let by_path = match wanted.name.as_slice() {
            b"" => Err(Reason::NoModule),
            _ => self.open(Module::Path(self.path(wanted)), wanted),
        };
        let (Err(why), Some(id)) = (&by_path, &wanted.build_id) else {
            return by_path;
        };
        self.open(Module::BuildId(id.clone()), wanted).map_err(|_| why.clone())
    }

    /// Opens a file, and compares its build id.
    fn open(&mut self, module: Module, wanted: &Wanted) -> Result<Found, Reason> {
        let file = self.answers.file(&module).map_err(Reason::NoFile)?;
        let layout = Layout::of_file(&file);
        match &wanted.build_id {
            Some(id) if layout.build_id.as_ref() != Some(id) => {
                Err(Reason::BuildIdDiffers { log: id.clone(), file: layout.build_id })
            }
            _ => {
                let signals = Signals::of_file(&file).map(Rc::new);
                let (dynamic, all) = Default::default();
                Ok(Found { module, file, layout: Rc::new(layout), signals, dynamic, all })
            }
        }
    }

    /// The path of the file that a name means.
    fn path(&self, wanted: &Wanted) -> PathBuf {
        let name = wanted.name.as_slice();
        let exact = self.places.given.iter().find(|(given, _)| given == name);
        let by_last = || self.places.given.iter().find(|(given, _)| is_same_module(given, name));
        if let Some((_, path)) = exact.or_else(by_last) {
            return path.clone();
        }
        let path = Path::new(OsStr::from_bytes(name));
        let folder = self.places.sysroot.as_deref().or(wanted.root.as_deref());
        folder.map_or_else(|| path.to_owned(), |folder| folder.join(path.strip_prefix("/").unwrap_or(path)))
    }
}

/// One of the two is the last part of the other one. The kernel writes `_` for `-` in names.
fn is_same_module(given: &[u8], name: &[u8]) -> bool {
    let same = |a: &[u8], b: &[u8]| {
        let plain = |byte: &u8| if *byte == b'-' { b'_' } else { *byte };
        a.len() == b.len() && a.iter().map(plain).eq(b.iter().map(plain))
    };
    same(given, basename(name)) || same(basename(given), name)
}

#[cfg(test)]
mod tests {
    use super::*;

    fn path(places: Places, name: &str, root: Option<&str>) -> PathBuf {
        let modules = Modules::new(places, Answers::new(&[], false));
        modules.path(&Wanted { name: name.into(), build_id: None, root: root.map(PathBuf::from) })
    }

    #[test]
    fn paths() {
        let given = vec![(b"prog".to_vec(), PathBuf::from("/x/prog.debug")), (b"my-mod".to_vec(), "/x/m.ko".into())];
        let places = Places { given, sysroot: Some(PathBuf::from("/sys")) };
        for (name, found) in
            [("prog", "/x/prog.debug"), ("/a/prog", "/x/prog.debug"), ("my_mod", "/x/m.ko"), ("/a/b", "/sys/a/b")]
        {
            assert_eq!(path(places.clone(), name, None), Path::new(found));
        }
        assert_eq!(path(Places::default(), "/a/b", Some("/their/files")), Path::new("/their/files/a/b"));
        assert_eq!(path(Places::default(), "./a", None), Path::new("./a"));
    }
}
