//! Names of functions as people read them.

use std::collections::HashSet;
use std::ffi::CString;
use std::fmt::{self, Write};

use a2l::Tools;
use cpp_demangle::{DemangleOptions, Symbol};
use lru::LruCache;

use crate::guard::guarded;

/// A readable name isn't longer than this; a name of which it would be stays as it is.
const LONGEST: usize = 64 << 10;
/// A mangled name that is longer than this stays as it is too.
pub const LONGEST_MANGLED: usize = 16 << 10;

/// How much of a name is shown.
#[derive(Debug, Clone, Copy, PartialEq, Eq)]
pub enum Length {
    /// With all types.
    Whole,
    /// Without parameters, return type and the scopes around it.
    Short,
}

/// Readable names of functions. Those that were asked for last are kept, since the same functions
/// are inlined everywhere.
pub struct Names {
    tools: Tools,
    length: Length,
    kept: LruCache<Vec<u8>, Option<Vec<u8>>>,
}

impl Names {
    /// So many names are kept, where they aren't longer than so many bytes.
    const KEPT: usize = 2048;
    const LONGEST_KEPT: usize = 4096;

    /// Names in the style of LLVM's tools or of GNU's.
    pub fn new(tools: Tools, length: Length) -> Names {
        Names { tools, length, kept: LruCache::new(Names::KEPT) }
    }

    /// The name that stands behind a mangled one; the name itself where there is none.
    pub fn readable(&mut self, name: &[u8]) -> Vec<u8> {
        if !is_mangled(name) {
            return name.to_vec();
        }
        if let Some(kept) = self.kept.get(name) {
            return kept.clone().unwrap_or_else(|| name.to_vec());
        }
        let readable = self.demangled(name);
        if name.len().max(readable.as_ref().map_or(0, Vec::len)) <= Names::LONGEST_KEPT {
            self.kept.put(name.to_vec(), readable.clone());
        }
        readable.unwrap_or_else(|| name.to_vec())
    }

    /// The name that stands behind a mangled one; none where it is of no scheme, or would be too
    /// long.
    fn demangled(&self, name: &[u8]) -> Option<Vec<u8>> {
        if name.len() > LONGEST_MANGLED {
            return None;
        }
        guarded(|| match self.length {
            Length::Whole => rust(self.tools, name).or_else(|| cxx(self.tools, name)),
            Length::Short => rust(Tools::Gnu, name).or_else(|| short_cxx(name)).map(|name| without_scopes(&name)),
        })?
    }
}

/// The name is of a scheme of C++ or Rust.
pub fn is_mangled(name: &[u8]) -> bool {
    name.starts_with(b"_Z") || name.starts_with(b"_R")
}

/// A name of Rust. Of its older scheme LLVM's tools know nothing: they take the name for one of C++.
/// What a compiler has appended (.llvm.123) they write behind the name, and GNU's leave it out.
fn rust(tools: Tools, name: &[u8]) -> Option<Vec<u8>> {
    let end = match (name, tools) {
        ([b'_', b'R', ..], _) => name.iter().position(|&byte| byte == b'.').unwrap_or(name.len()),
        (_, Tools::Gnu) => end_of_hash(name)?,
        (_, Tools::Llvm) => return None,
    };
    let (own, appended) = std::str::from_utf8(name).ok()?.split_at_checked(end)?;
    let readable = rustc_demangle::try_demangle(own).ok()?;
    let mut bounded = Bounded::default();
    write!(bounded, "{readable:#}").ok()?;
    if tools == Tools::Llvm && !appended.is_empty() {
        write!(bounded, " ({appended})").ok()?;
    }
    Some(bounded.0.into_bytes())
}

/// Where a name of Rust's older scheme ends: it is one of C++ that ends in a hash (17h, 16 digits,
/// of which at least five are different, as GNU's tools want it, and E), after which a compiler may
/// have appended something.
fn end_of_hash(name: &[u8]) -> Option<usize> {
    let is_hash = |part: &[u8]| {
        let digits: HashSet<u8> = part[3..19].iter().copied().collect();
        part.starts_with(b"17h") && part[19] == b'E' && digits.iter().all(u8::is_ascii_hexdigit) && digits.len() >= 5
    };
    let mut parts = name.windows(20).enumerate();
    let (at, _) = parts.find(|&(at, part)| is_hash(part) && matches!(name.get(at + 20), None | Some(b'.')))?;
    Some(at + 20)
}

/// A name of C++. The crate writes it into a bounded text first, unless the name is one of those
/// that can't stand for a long text; it gets empty packs and conversions wrong.
fn cxx(tools: Tools, name: &[u8]) -> Option<Vec<u8>> {
    if !is_surely_short(name) {
        bounded_cxx(name, &DemangleOptions::new())?;
    }
    a2l::demangle_cxx(tools, &CString::new(name).ok()?).filter(|readable| readable.len() <= LONGEST)
}

fn short_cxx(name: &[u8]) -> Option<Vec<u8>> {
    Some(bounded_cxx(name, &DemangleOptions::new().no_params().no_return_type())?.into_bytes())
}

/// What the crate makes of a name of C++, where it isn't longer than `LONGEST`.
fn bounded_cxx(name: &[u8], options: &DemangleOptions) -> Option<String> {
    let mut bounded = Bounded::default();
    Symbol::new(name).ok()?.structured_demangle(&mut bounded, options).ok()?;
    Some(bounded.0)
}

/// The readable name is surely of less than a megabyte, so that nothing is lost in writing it. A
/// byte of a mangled name stands for at most 18 bytes (`y`, unsigned long long), a stream or string
/// of the standard library for 80, a constructor for a part of the mangled name. A reference back
/// (`S_`, `T1_`) repeats at most all that stands before it, so that each can double the text. Packs
/// (`Dp`, `sp`) repeat it more often, and what a conversion (`cv`) refers to can follow it.
fn is_surely_short(name: &[u8]) -> bool {
    const SHORT: usize = 1 << 20;
    let (mut plain, mut references) = (18 * name.len(), 0_u32);
    for pair in name.windows(2) {
        match pair {
            b"Dp" | b"sp" | b"sZ" | b"sP" | b"cv" => return false,
            [b'S' | b'T', b'_' | b'0'..=b'9' | b'A'..=b'Z'] => references += 1,
            [b'S', b's' | b'i' | b'o' | b'd'] => plain += 80,
            [b'C' | b'D', b'0'..=b'9' | b'I'] => plain += name.len(),
            _ => {}
        }
    }
    references < 16 && plain << references < SHORT
}

/// A text that refuses to be longer than `LONGEST`: a short mangled name can stand for an endless
/// one.
#[derive(Default)]
struct Bounded(String);

impl Write for Bounded {
    fn write_str(&mut self, text: &str) -> fmt::Result {
        if self.0.len() + text.len() > LONGEST {
            return Err(fmt::Error);
        }
        self.0.push_str(text);
        Ok(())
    }
}

/// The last part of a name that isn't inside of parentheses or brackets.
fn without_scopes(name: &[u8]) -> Vec<u8> {
    let (mut depth, mut begin) = (0_usize, 0);
    for (at, pair) in name.windows(2).enumerate() {
        match pair {
            [b'<' | b'(' | b'{' | b'[', _] => depth += 1,
            [b'>' | b')' | b'}' | b']', _] => depth = depth.saturating_sub(1),
            b"::" if depth == 0 => begin = at + 2,
            _ => {}
        }
    }
    match &name[begin..] {
        b"" => name.to_vec(),
        last => last.to_vec(),
    }
}

#[cfg(test)]
mod tests {
    use super::*;

    fn readable(tools: Tools, length: Length, name: &str) -> Option<String> {
        let found = Names::new(tools, length).demangled(name.as_bytes());
        found.map(|name| String::from_utf8(name).expect("UTF-8"))
    }

    /// What llvm-cxxfilt 19 and c++filt 2.40 write.
    #[test]
    fn names_of_both() {
        for (name, llvm, gnu) in [
            ("_ZN3lib4peekEPKii", "lib::peek(int const*, int)", "lib::peek(int const*, int)"),
            ("_ZN1BC1IcEEmc", "B::B<char>(unsigned long, char)", "B::B<char>(unsigned long, char)"),
            ("_ZN3foo3barE", "foo::bar", "foo::bar"),
            ("_ZL4fillv.part.1.cold", "fill() (.part.1.cold)", "fill() [clone .part.1] [clone .cold]"),
            ("_ZN4core3fmt5write17h0123456789abcdefE", "core::fmt::write::h0123456789abcdef", "core::fmt::write"),
            (
                "_ZN4core3fmt5write17h0123456789abcdefE.llvm.12",
                "core::fmt::write::h0123456789abcdef (.llvm.12)",
                "core::fmt::write",
            ),
            ("_ZN3foo17haaaaaaaaaaaaaaaaE", "foo::haaaaaaaaaaaaaaaa", "foo::haaaaaaaaaaaaaaaa"),
            (
                "_ZN43_$LT$words..Big$u20$as$u20$words..Shape$GT$4size17h80d88d1f55a7463bE",
                "_$LT$words..Big$u20$as$u20$words..Shape$GT$::size::h80d88d1f55a7463b",
                "<words::Big as words::Shape>::size",
            ),
            ("_RNvC7mycrate4main", "mycrate::main", "mycrate::main"),
            ("_RNvC7mycrate4main.cold.1", "mycrate::main (.cold.1)", "mycrate::main"),
        ] {
            assert_eq!(readable(Tools::Llvm, Length::Whole, name).as_deref(), Some(llvm));
            assert_eq!(readable(Tools::Gnu, Length::Whole, name).as_deref(), Some(gnu));
        }
        for tools in [Tools::Llvm, Tools::Gnu] {
            assert!(["main", "_start", "_Z", "_ZN3foo", "_R"]
                .iter()
                .all(|name| Names::new(tools, Length::Whole).readable(name.as_bytes()) == name.as_bytes()));
        }
    }

    #[test]
    fn short_names() {
        for (name, short) in [
            ("_ZN3lib4peekEPKii", "peek"),
            ("_ZN3lib3sumIiEET_PKS1_i", "sum<int>"),
            ("_ZN12_GLOBAL__N_14foldEv", "fold"),
            ("_ZN1AC2ERKS_", "A"),
            ("_ZN4core3fmt5write17h0123456789abcdefE", "write"),
            ("_RNvC7mycrate4main", "main"),
        ] {
            assert_eq!(readable(Tools::Llvm, Length::Short, name).as_deref(), Some(short));
        }
    }

    #[test]
    fn kept_names_are_the_same() {
        let mut names = Names::new(Tools::Llvm, Length::Whole);
        for _ in 0..2 {
            assert_eq!(names.readable(b"_Z1fi"), b"f(int)");
            assert_eq!(names.readable(b"_ZN3foo"), b"_ZN3foo");
            assert_eq!(names.readable(b"main"), b"main");
        }
    }

    #[test]
    fn endless_names_stay() {
        // Each of the parameters has twice the text of the one before.
        let parameters: String = (0..30).map(|n| format!("S{}_", char::from_digit(n, 36).expect("a digit"))).collect();
        let name = format!("_Z1f1AIS_S_E{}", parameters.to_uppercase());
        for tools in [Tools::Llvm, Tools::Gnu] {
            assert!(readable(tools, Length::Whole, &name).is_none_or(|text| text.len() <= LONGEST));
        }
    }
}
