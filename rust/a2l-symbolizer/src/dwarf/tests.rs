//! Walks addresses of code of programs that the library reads too: both have the same frames.

use std::path::{Path, PathBuf};
use std::process::{Command, Stdio};

use crate::debug_files::DebugFiles;
use crate::fallback::Fallback;
use crate::open_file::Opener;
use crate::placement::PlacedFile;
use crate::program::frames;
use crate::reply::Frame;

/// Functions that are inlined in one another, in parts of code that are apart.
const SOURCE: &str = "
static inline __attribute__((always_inline)) int inner(int x) { volatile int y = x; return y + 1; }
static inline __attribute__((always_inline)) int middle(int x) {
    if (x > 100) __builtin_trap();
    return inner(x) * inner(x + 1);
}
__attribute__((cold)) int rare(int x) { return middle(x) - 1; }
int other(int x) {
    for (int i = 0; i < 3; i++) x += middle(i);
    return x ? middle(x) : rare(x);
}
int main(int count, char **words) { return other(count) + inner(words != 0); }
";

/// A piece of code with one place in the source is rarely longer than this.
const MOST: u64 = 256;

/// How many addresses of a file have frames, by the library and by the reader of another file that
/// has the same code.
fn walk(path: &Path, other: &Path) -> usize {
    let open = |path| Opener::Map.open(path).expect("a file");
    let mut library = a2l::Program::open(open(path).file, 16).expect("a file that the library reads");
    let debug_files = DebugFiles::new(&[], false, Opener::Map);
    let fallback = Fallback::open(&PlacedFile::of_program(open(other)), &debug_files).expect("a file that gimli reads");
    let starts = library.find_starts().expect("pieces");
    let ends = starts.iter().skip(1).copied().chain([u64::MAX]);
    let near = starts.iter().zip(ends).flat_map(|(&start, end)| start.saturating_sub(1)..end.min(start + MOST));
    let mut known = 0;
    for address in near {
        let found = library.find_frames(address).expect("no fault");
        let wanted = found.map(|found| shown(path, frames(found))).unwrap_or_default();
        assert_eq!(shown(other, fallback.find_frames(address)), wanted, "{} {address:#x}", other.display());
        known += usize::from(!wanted.is_empty());
    }
    known
}

/// Frames as functions, files from the folder of a program on, lines, and columns where there is a
/// line.
fn shown(program: &Path, frames: Vec<Frame>) -> Vec<String> {
    let folder = program.parent().expect("a folder");
    let text = |bytes: Option<Vec<u8>>| bytes.map(|bytes| String::from_utf8(bytes).expect("UTF-8"));
    let frame = |frame: Frame| {
        let (path, column) = (text(frame.path).map(PathBuf::from), if frame.line == 0 { 0 } else { frame.column });
        let path = path.as_ref().map(|path| path.strip_prefix(folder).unwrap_or(path));
        format!("{:?} {path:?} {}:{column}", text(frame.name), frame.line)
    };
    frames.into_iter().map(frame).collect()
}

/// Builds the program by a compiler with its flags, in a folder of its own, where the compiler
/// leaves split units too; none where that isn't here.
fn built(folder: &Folder, compiler: &str, flags: &str) -> Option<PathBuf> {
    let folder = folder.0.join(format!("{compiler}{}", flags.replace(' ', "")));
    std::fs::create_dir(&folder).expect("a folder");
    std::fs::write(folder.join("calls.c"), SOURCE).expect("the source");
    let mut command = Command::new(compiler);
    command.args(["-g", "-gdwarf-5", "calls.c", "-o", "calls"]).args(flags.split(' ')).current_dir(&folder);
    let ended = command.stdin(Stdio::null()).status().ok()?;
    assert!(ended.success(), "{compiler} {flags}");
    Some(folder.join("calls"))
}

/// A folder for programs, which is removed in the end.
struct Folder(PathBuf);

impl Folder {
    fn new(name: &str) -> Folder {
        let path = std::env::temp_dir().join(format!("a2l-{name}-{}", std::process::id()));
        std::fs::create_dir_all(&path).expect("a folder");
        Folder(path)
    }
}

impl Drop for Folder {
    fn drop(&mut self) {
        let _ = std::fs::remove_dir_all(&self.0);
    }
}

#[test]
fn the_library_has_the_same_frames() {
    for sample in ["inlined.elf", "mixed.elf"] {
        let sample = Path::new(env!("CARGO_MANIFEST_DIR")).join("../../samples").join(sample);
        assert!(walk(&sample, &sample) > 0, "{}", sample.display());
    }
    let folder = Folder::new("whole");
    for compiler in ["gcc", "clang"] {
        for flags in ["-O0", "-O2", "-O2 -ffunction-sections -Wl,--gc-sections", "-O2 -flto", "-O1 -gdwarf64"] {
            match built(&folder, compiler, flags) {
                Some(program) => assert!(walk(&program, &program) > 100, "{compiler} {flags}"),
                None => println!("skipped, no {compiler} here: {flags}"),
            }
        }
    }
}

#[test]
fn split_units_have_the_frames_of_whole_ones() {
    let folder = Folder::new("split");
    for compiler in ["gcc", "clang"] {
        for flags in ["-O0", "-O2"] {
            let split = |version| built(&folder, compiler, &format!("{flags} -gsplit-dwarf -gdwarf-{version}"));
            match (built(&folder, compiler, flags), split(4), split(5)) {
                (Some(whole), Some(older), Some(newer)) => {
                    assert!(walk(&whole, &older) > 100 && walk(&whole, &newer) > 100, "{compiler} {flags}");
                }
                _ => println!("skipped, no {compiler} here: {flags}"),
            }
        }
    }
}
