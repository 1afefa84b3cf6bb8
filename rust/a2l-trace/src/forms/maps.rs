//! Mappings of a process: a line of `/proc/PID/maps` (`55e67214f000-55e672150000 r--p 00000000 fe:00
//! 11018231 /tmp/program`), and of gdb's `info proc mappings` (`0x55e67214f000 0x55e672150000 0x1000
//! 0x0 r--p /tmp/program`).

use memchr::memchr_iter;

use crate::process::Mapping;
use crate::scan::{after_blanks, hexadecimal, prefixed};

/// The mapping of a line of either kind.
pub fn find(line: &[u8]) -> Option<Mapping> {
    of_system(line).or_else(|| of_gdb(line))
}

/// That of a line of the system.
pub fn of_system(line: &[u8]) -> Option<Mapping> {
    memchr_iter(b'-', line).find_map(|at| around(line, at))
}

/// That with a dash between its first two numbers.
fn around(line: &[u8], dash: usize) -> Option<Mapping> {
    let digits = line[..dash].iter().rev().take(17).take_while(|byte| byte.is_ascii_hexdigit()).count();
    let (start, b"") = hexadecimal(&line[dash - digits..dash])? else { return None };
    let (end, rest) = hexadecimal(&line[dash + 1..])?;
    let (executable, rest) = permissions(rest.strip_prefix(b" ")?)?;
    let (offset, rest) = hexadecimal(rest.strip_prefix(b" ")?)?;
    let (_, rest) = hexadecimal(rest.strip_prefix(b" ")?)?;
    let (_, rest) = hexadecimal(rest.strip_prefix(b":")?)?;
    let rest = rest.strip_prefix(b" ")?;
    let inode = rest.iter().take(20).take_while(|byte| byte.is_ascii_digit()).count();
    mapping(start, end, offset, Some(executable), after_blanks(&rest[inode..]))
}

/// That of a line of gdb, which may have permissions.
pub fn of_gdb(line: &[u8]) -> Option<Mapping> {
    let (start, rest) = prefixed(after_blanks(line))?;
    let (end, rest) = prefixed(after_blanks(rest))?;
    let (size, rest) = prefixed(after_blanks(rest))?;
    let (offset, rest) = prefixed(after_blanks(rest))?;
    let rest = after_blanks(rest);
    let (executable, rest) = permissions(rest).map_or((None, rest), |(flag, rest)| (Some(flag), rest));
    let is_one = end.checked_sub(start) == Some(size);
    is_one.then(|| mapping(start, end, offset, executable, after_blanks(rest)))?
}

/// Whether it is executable, of `r-xp`.
fn permissions(text: &[u8]) -> Option<(bool, &[u8])> {
    let (word, rest) = (text.get(..4)?, &text[4..]);
    let is_one = word.iter().zip([b"r-", b"w-", b"x-", b"ps"]).all(|(byte, allowed)| allowed.contains(byte));
    is_one.then_some((word[2] == b'x', rest))
}

fn mapping(start: u64, end: u64, offset: u64, executable: Option<bool>, path: &[u8]) -> Option<Mapping> {
    let path = path.trim_ascii_end().to_vec();
    (start < end).then_some(Mapping { start, end, offset, executable, path })
}

#[cfg(test)]
mod tests {
    use super::*;

    #[test]
    fn lines_of_the_system() {
        let line = b"x: 55e67214f000-55e672150000 r-xp 00001000 fe:00 11018231    /tmp/a b/program";
        let found = find(line).expect("a mapping");
        assert_eq!((found.start, found.end, found.offset), (0x55e67214f000, 0x55e672150000, 0x1000));
        assert_eq!((found.executable, &*found.path), (Some(true), &b"/tmp/a b/program"[..]));
        assert_eq!(find(b"7ffe1-7ffe2 rw-p 00000000 00:00 0 ").expect("a mapping").path, b"");
    }

    #[test]
    fn lines_of_gdb() {
        let line = b"      0x555555555000     0x555555556000     0x1000     0x1000  r-xp   /tmp/program";
        let found = find(line).expect("a mapping");
        assert_eq!((found.start, found.offset, found.executable), (0x555555555000, 0x1000, Some(true)));
        assert_eq!(find(b" 0x1000 0x2000 0x1000 0x0 /tmp/p").expect("a mapping").executable, None);
    }

    #[test]
    fn other_lines() {
        for line in ["2026-12-01 10:11", "a-b r-xp", "2-1 r-xp 0 0:0 0 /x", "1-2 r-xq 0 0:0 0 /x", "0x1 0x2 0x3 0x4 /x"]
        {
            assert!(find(line.as_bytes()).is_none(), "{line}");
        }
    }
}
