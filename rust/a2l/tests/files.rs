//! Files that are mapped or read, and programs that own theirs.

use a2l::{Error, File, Part, Program};
use std::fs::Metadata;
use std::io::Write;
use std::path::{Path, PathBuf};
use std::process::Command;
use std::sync::Arc;

const SAMPLE: &str = concat!(env!("CARGO_MANIFEST_DIR"), "/../../samples/inlined.elf");

/// A file of a test, which is removed with it.
struct Scratch(PathBuf);

impl Scratch {
    fn new(name: &str, bytes: &[u8]) -> Scratch {
        let path = std::env::temp_dir().join(format!("a2l-{}-{name}", std::process::id()));
        std::fs::write(&path, bytes).expect("a file is written");
        Scratch(path)
    }
}

impl Drop for Scratch {
    fn drop(&mut self) {
        std::fs::remove_file(&self.0).expect("the file is removed");
    }
}

/// Maps a file of these tests.
fn map(path: impl AsRef<Path>) -> std::io::Result<(File, Metadata)> {
    // SAFETY: no test writes to such a file while it is mapped.
    unsafe { File::map(path.as_ref()) }
}

#[test]
fn both_ways_give_the_bytes() {
    let wanted = std::fs::read(SAMPLE).expect("the sample");
    for opened in [map(SAMPLE), File::read(Path::new(SAMPLE))] {
        let (file, about) = opened.expect("a file that is opened");
        assert_eq!(*file, *wanted);
        assert_eq!(about.len(), wanted.len() as u64);
    }
    let empty = Scratch::new("empty", b"");
    assert_eq!(map(&empty.0).expect("a file that is opened").0.len(), 0);
}

#[test]
fn what_is_no_file() {
    for path in ["/", "/no/such", "/dev/null"] {
        assert!(map(path).is_err() && File::read(Path::new(path)).is_err(), "{path}");
    }
}

#[test]
fn parts_keep_their_file() {
    let file = Arc::new(File::from(b"abcdef".to_vec()));
    let part = Part::new(&file, 2..4).expect("a part");
    assert!(Part::new(&file, 4..7).is_none());
    drop(file);
    let copy = part.clone();
    assert_eq!((&*part, &*copy), (&b"cd"[..], &b"cd"[..]));
}

#[test]
fn a_program_owns_its_file() {
    let (file, _) = map(SAMPLE).expect("the sample");
    let mut program = Program::open(Arc::new(file), 1).unwrap_or_else(|why| panic!("{why}"));
    let found = program.find_frames(0x401004).expect("no fault").expect("frames");
    let names: Vec<_> = found.frames.iter().map(|frame| frame.function_name()).collect();
    assert_eq!((found.unit, names), (0, vec![Some("leaf"), Some("mid"), Some("main")]));
    assert!(program.find_frames(0).expect("no fault").is_none());
    assert_eq!(program.find_units(&[0x401004, 0]), Ok(vec![Some(0), None]));
    assert_eq!(program.find_starts().expect("no fault").first(), Some(&0x401000));
}

#[test]
fn a_program_may_be_refused() {
    let refused = Program::open(Arc::new(File::from(Vec::new())), 1);
    assert!(matches!(refused.map(drop), Err(Error::Refused { number: 1, .. })));
}

/// This test runs itself in another process, which reads what it has cut off a file.
#[test]
fn bytes_that_are_cut_off() {
    let name = "A2L_FILE_TO_CUT_OFF";
    if let Some(path) = std::env::var_os(name) {
        a2l::end_where_cut_off("it was cut off\n", 7).expect("a handler");
        let (file, _) = map(&path).expect("a file that is opened");
        std::fs::OpenOptions::new().write(true).open(&path).and_then(|file| file.set_len(0)).expect("it is cut off");
        // The process ends here.
        let _ = writeln!(std::io::stdout(), "{}", file[4096]);
        return;
    }
    let scratch = Scratch::new("cut-off", &[1; 8192]);
    let mut command = Command::new(std::env::current_exe().expect("this program"));
    let output = command.args(["--exact", "bytes_that_are_cut_off", "--nocapture"]).env(name, &scratch.0).output();
    let output = output.expect("it runs");
    assert_eq!((output.status.code(), &*output.stderr), (Some(7), &b"it was cut off\n"[..]));
}
