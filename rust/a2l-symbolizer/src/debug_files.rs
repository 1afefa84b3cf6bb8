//! Where the debug information of a program is, if the program itself has none: a file named by the
//! build id, by the link in the program, or by debuginfod.

use std::ffi::{OsStr, OsString};
use std::os::unix::ffi::{OsStrExt, OsStringExt};
use std::path::{Path, PathBuf};
use std::process::{Command, Stdio};
use std::sync::Arc;

use a2l::File;
use object::Object;

use crate::open_file::{OpenFile, Opener};
use crate::sections::has_debug_info;

/// Where debug files are looked for.
#[derive(Debug, Clone)]
pub struct DebugFiles {
    /// Folders that have files by build id (.build-id) and by path.
    folders: Vec<PathBuf>,
    /// The package of split units of all programs.
    package: Option<PathBuf>,
    /// debuginfod may be asked.
    asks: bool,
    opener: Opener,
}

const USUAL_FOLDER: &str = "/usr/lib/debug";

impl DebugFiles {
    /// Looks in these folders and then in the usual one, and asks debuginfod where its servers are
    /// set.
    pub fn new(folders: &[PathBuf], may_ask: bool, opener: Opener) -> DebugFiles {
        let folders = folders.iter().cloned().chain([PathBuf::from(USUAL_FOLDER)]).collect();
        let servers = std::env::var_os("DEBUGINFOD_URLS").is_some_and(|urls| !urls.is_empty());
        DebugFiles { folders, package: None, asks: may_ask && servers, opener }
    }

    /// The same, where split units of programs are in this package and not in one beside each.
    pub fn with_package(self, package: Option<PathBuf>) -> DebugFiles {
        DebugFiles { package, ..self }
    }

    /// The package that has the split units of programs, where it isn't beside each.
    pub fn package(&self) -> Option<&Path> {
        self.package.as_deref()
    }

    /// How these files are opened, and others that belong to a program.
    pub fn opener(&self) -> Opener {
        self.opener
    }

    /// The file that has the debug information of a program.
    pub fn of_program(&self, path: &Path, file: &File) -> Option<OpenFile> {
        let object = object::File::parse(&**file).ok()?;
        let build_id = object.build_id().ok().flatten();
        let by_build_id = build_id.and_then(|id| self.in_folders(id));
        by_build_id.or_else(|| self.by_link(path, &object)).or_else(|| self.asked_of_servers("debuginfo", build_id?))
    }

    /// The file with a build id: its debug file, else the program.
    pub fn by_build_id(&self, id: &[u8]) -> Option<OpenFile> {
        let found = self.in_folders(id).or_else(|| self.asked_of_servers("debuginfo", id));
        found.or_else(|| self.asked_of_servers("executable", id))
    }

    /// The file of debug information that dwz has taken out of several files, of which this is one.
    pub fn supplementary(&self, path: &Path, object: &object::File<'_>) -> Option<Arc<File>> {
        let (name, id) = object.gnu_debugaltlink().ok().flatten()?;
        let name = Path::new(OsStr::from_bytes(name));
        let beside = std::fs::canonicalize(path).ok().and_then(|path| Some(path.parent()?.join(name)));
        let by_path =
            beside.and_then(|path| self.opener.open(&path).ok()).filter(|found| has_build_id(&found.file, id));
        by_path.or_else(|| self.named_by_build_id(id)).map(|found| found.file)
    }

    fn in_folders(&self, id: &[u8]) -> Option<OpenFile> {
        self.named_by_build_id(id).filter(|found| has_debug_info(&found.file))
    }

    fn named_by_build_id(&self, id: &[u8]) -> Option<OpenFile> {
        let (first, rest) = id.split_first()?;
        let name = format!(".build-id/{first:02x}/{}.debug", hexadecimal(rest));
        let mut found = self.folders.iter().filter_map(|folder| self.opener.open(&folder.join(&name)).ok());
        found.find(|found| has_build_id(&found.file, id))
    }

    /// The file of .gnu_debuglink, whose bytes have the checksum that stands there.
    fn by_link(&self, path: &Path, object: &object::File<'_>) -> Option<OpenFile> {
        let (name, checksum) = object.gnu_debuglink().ok().flatten()?;
        let name = OsStr::from_bytes(name);
        let path = std::fs::canonicalize(path).ok()?;
        let folder = path.parent()?;
        let in_folders =
            self.folders.iter().map(|debug| debug.join(folder.strip_prefix("/").unwrap_or(folder)).join(name));
        let candidates = [folder.join(name), folder.join(".debug").join(name)].into_iter().chain(in_folders);
        let mut others = candidates.filter(|candidate| *candidate != path);
        others.find_map(|candidate| {
            let found = self.opener.open(&candidate).ok()?;
            (crc32fast::hash(&found.file) == checksum).then_some(found)
        })
    }

    /// Asks `debuginfod-find`, which keeps what it got.
    fn asked_of_servers(&self, what: &str, id: &[u8]) -> Option<OpenFile> {
        if !self.asks {
            return None;
        }
        let mut command = Command::new("debuginfod-find");
        command.arg(what).arg(hexadecimal(id)).stdin(Stdio::null()).stderr(Stdio::null());
        let output = command.output().ok().filter(|output| output.status.success())?;
        let path = OsString::from_vec(output.stdout.trim_ascii_end().to_vec());
        self.opener.open(Path::new(&path)).ok()
    }
}

fn has_build_id(file: &File, id: &[u8]) -> bool {
    object::File::parse(&**file).is_ok_and(|object| object.build_id().ok().flatten() == Some(id))
}

fn hexadecimal(bytes: &[u8]) -> String {
    bytes.iter().map(|byte| format!("{byte:02x}")).collect()
}
