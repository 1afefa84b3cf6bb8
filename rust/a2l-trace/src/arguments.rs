//! The command line.

use std::ffi::OsStr;
use std::io;
use std::os::unix::ffi::{OsStrExt, OsStringExt};
use std::path::{Path, PathBuf};

use clap::builder::{OsStringValueParser, TypedValueParser};
use clap::Parser;

use crate::answers::Answers;
use crate::modules::{Modules, Places};
use crate::output::Output;
use crate::process::Process;
use crate::process_files::{of_core, of_maps, of_pid};

#[derive(Debug, Parser)]
#[command(
    name = "a2l-trace",
    version,
    about = "Puts functions, files and lines into crash logs",
    after_help = "Logs are read from standard input where there is no FILE. See a2l-trace(1)."
)]
pub struct Arguments {
    /// Logs
    #[arg(value_name = "FILE")]
    pub logs: Vec<PathBuf>,
    /// Writes functions behind each line, as is usual
    #[arg(long, conflicts_with_all = ["in_place", "json"])]
    below: bool,
    /// Writes frames as their producer would have with debug information
    #[arg(long, conflicts_with = "json")]
    in_place: bool,
    /// Writes no text, but a row of JSON for each frame
    #[arg(long)]
    json: bool,
    /// Mappings of the process, as /proc/PID/maps has them
    #[arg(long, value_name = "FILE", conflicts_with_all = ["pid", "core"])]
    maps: Option<PathBuf>,
    /// The process, which runs
    #[arg(long, value_name = "N", conflicts_with = "core")]
    pid: Option<u32>,
    /// The core file of the process
    #[arg(long, value_name = "CORE")]
    core: Option<PathBuf>,
    /// The file of a module, by its path or its name in the log; may be given many times
    #[arg(long = "module", value_name = "NAME=FILE", value_parser = OsStringValueParser::new().try_map(|word| module(&word)))]
    modules: Vec<(Vec<u8>, PathBuf)>,
    /// The folder in which paths of the log begin
    #[arg(long, value_name = "DIR")]
    sysroot: Option<PathBuf>,
    /// Has debug files by build id, and by path; may be given many times
    #[arg(long = "debug-file-directory", value_name = "DIR")]
    debug_folders: Vec<PathBuf>,
    /// Asks no debuginfod
    #[arg(long)]
    no_debuginfod: bool,
}

/// A name and a file. The last equals sign parts them after which a file follows.
fn module(word: &OsStr) -> Result<(Vec<u8>, PathBuf), String> {
    let bytes = word.as_bytes();
    let at = bytes.iter().position(|&byte| byte == b'=').filter(|&at| at > 0).ok_or("no NAME=FILE")?;
    let file = std::ffi::OsString::from_vec(bytes[at + 1..].to_vec());
    Ok((bytes[..at].to_vec(), PathBuf::from(file)))
}

impl Arguments {
    /// How frames are written.
    pub fn output(&self) -> Output {
        match (self.in_place, self.json) {
            (true, _) => Output::InPlace,
            (_, true) => Output::Json,
            _ => Output::Below,
        }
    }

    /// The files of modules. Below a system root its own debug files are looked for too.
    pub fn files(&self) -> Modules {
        let mut folders = self.debug_folders.clone();
        folders.extend(self.sysroot.as_ref().map(|root| root.join("usr/lib/debug")));
        let places = Places { given: self.modules.clone(), sysroot: self.sysroot.clone() };
        Modules::new(places, Answers::new(&folders, !self.no_debuginfod))
    }

    /// The process of the logs, where one is given. The text of an error says why there is none.
    pub fn process(&self) -> Result<Option<Process>, String> {
        let named = |path: &Path, found: io::Result<Process>| {
            found.map(Some).map_err(|why| format!("'{}': {why}", path.display()))
        };
        match (&self.maps, self.pid, &self.core) {
            (Some(path), _, _) => named(path, of_maps(path)),
            (_, Some(pid), _) => named(Path::new(&format!("/proc/{pid}")), of_pid(pid)),
            (_, _, Some(path)) => named(path, of_core(path)),
            _ => Ok(None),
        }
    }
}

#[cfg(test)]
mod tests {
    use super::*;

    fn parsed(words: &[&str]) -> Result<Arguments, clap::Error> {
        Arguments::try_parse_from(std::iter::once(&"a2l-trace").chain(words))
    }

    #[test]
    fn outputs() {
        for (words, output) in [
            ([].as_slice(), Output::Below),
            (&["--below", "log"], Output::Below),
            (&["--in-place"], Output::InPlace),
            (&["--json", "--maps", "x"], Output::Json),
        ] {
            assert_eq!(parsed(words).expect("arguments that are taken").output(), output);
        }
    }

    #[test]
    fn refusals() {
        for words in [["--json", "--below"], ["--module", "x"], ["--module", "=x"], ["--pid", "x"]] {
            assert!(parsed(&words).is_err(), "{words:?}");
        }
        assert!(parsed(&["--pid", "1", "--maps", "x"]).is_err() && parsed(&["--core", "x", "--pid", "1"]).is_err());
    }

    #[test]
    fn modules() {
        let found = parsed(&["--module", "a=b=c", "--module", "/x/y=z"]).expect("arguments that are taken").modules;
        assert_eq!(found, [(b"a".to_vec(), PathBuf::from("b=c")), (b"/x/y".to_vec(), PathBuf::from("z"))]);
    }
}
