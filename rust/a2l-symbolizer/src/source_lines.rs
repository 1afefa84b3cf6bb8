//! Lines of source files around a place, as llvm-symbolizer shows them.

use std::ffi::OsStr;
use std::os::unix::ffi::OsStrExt;
use std::path::Path;

use a2l::File;

use crate::plain::without_controls;

/// So many lines of a file, with their numbers, of which half are before a line; none where the file
/// can't be read or isn't that long. The line itself is marked.
pub fn around(path: &[u8], line: u64, count: usize) -> Option<Vec<u8>> {
    let (file, _) = File::read(Path::new(OsStr::from_bytes(path))).ok()?;
    let first = line.saturating_sub(count as u64 / 2).max(1);
    let last = first.saturating_add(count as u64) - 1;
    let width = (last as f64).log10().ceil() as usize;
    let mut shown = Vec::new();
    let lines = (1..=last).zip(file.split_inclusive(|&byte| byte == b'\n'));
    for (number, text) in lines.skip_while(|&(number, _)| number < first) {
        let text = text.strip_suffix(b"\n").unwrap_or(text);
        let text = text.strip_suffix(b"\r").unwrap_or(text);
        let mark = if number == line { " >" } else { "  " };
        shown.extend_from_slice(format!("{number:width$}{mark}: ").as_bytes());
        shown.extend(without_controls(text));
        shown.push(b'\n');
    }
    Some(shown).filter(|shown| !shown.is_empty())
}

#[cfg(test)]
mod tests {
    use super::*;

    #[test]
    fn lines_around() {
        let path = std::env::temp_dir().join(format!("a2l-symbolizer-{}-lines", std::process::id()));
        std::fs::write(&path, "one\ntwo\r\n\nfour\x07").expect("a file");
        let around = |line, count| {
            let shown = around(path.as_os_str().as_bytes(), line, count)?;
            Some(String::from_utf8(shown).expect("UTF-8"))
        };
        assert_eq!(around(1, 1).as_deref(), Some("1 >: one\n"));
        assert_eq!(around(2, 3).as_deref(), Some("1  : one\n2 >: two\n3  : \n"));
        assert_eq!(around(4, 100).as_deref(), Some(" 1  : one\n 2  : two\n 3  : \n 4 >: four?\n"));
        assert_eq!((around(9, 2), around(u64::MAX, 3)), (None, None));
        std::fs::remove_file(&path).expect("the file is removed");
    }
}
