//! Names of a string table, by which symbols are found.

use std::cmp::Ordering;

use crate::names::is_mangled;

/// The places of symbols in order of the length of their names, and of the names of one length.
///
/// It is made in time near linear in the bytes of the table, whatever names overlap: two names of
/// one length that begin at different offsets have no byte in common.
#[derive(Debug)]
pub struct NameIndex {
    entries: Vec<NameEntry>,
    /// The places of the symbols, in the order of the entries.
    places: Vec<u32>,
}

#[derive(Debug, Clone, Copy)]
struct NameEntry {
    offset: u32,
    length: u32,
}

impl NameEntry {
    fn text(self, names: &[u8]) -> &[u8] {
        &names[self.offset as usize..][..self.length as usize]
    }
}

impl NameIndex {
    /// An index of the names at some offsets, of which each is that of the symbol at its place.
    pub fn new(names: &[u8], offsets: impl Iterator<Item = u32>) -> NameIndex {
        let last = u32::try_from(names.len()).unwrap_or(u32::MAX);
        let ends: Vec<u32> = (0..last).filter(|&at| matches!(names[at as usize], 0 | b'@')).chain([last]).collect();
        let named = |offset: u32| {
            let is_name = offset < last && names[offset as usize] != 0;
            // A name may begin with what ends others.
            let end = ends.get(ends.partition_point(|&end| end <= offset))?;
            is_name.then(|| NameEntry { offset, length: end - offset })
        };
        let mut found: Vec<(NameEntry, u32)> =
            offsets.zip(0..).filter_map(|(offset, place)| Some((named(offset)?, place))).collect();
        found.sort_unstable_by_key(|(entry, place)| (entry.length, entry.offset, *place));
        found.sort_by(|(one, _), (other, _)| {
            one.length.cmp(&other.length).then_with(|| match one.offset == other.offset {
                true => Ordering::Equal,
                false => one.text(names).cmp(other.text(names)),
            })
        });
        let (entries, places) = found.into_iter().unzip();
        NameIndex { entries, places }
    }

    /// The places of the symbols that have a name.
    pub fn find(&self, names: &[u8], name: &[u8]) -> &[u32] {
        let order =
            |entry: &NameEntry| (entry.length as usize).cmp(&name.len()).then_with(|| entry.text(names).cmp(name));
        let begin = self.entries.partition_point(|entry| order(entry) == Ordering::Less);
        let count = self.entries[begin..].partition_point(|entry| order(entry) == Ordering::Equal);
        &self.places[begin..begin + count]
    }

    /// The names that are no longer than so many bytes, each with the place of its symbol.
    pub fn up_to<'n>(&'n self, length: usize, names: &'n [u8]) -> impl Iterator<Item = (&'n [u8], u32)> {
        let end = self.entries.partition_point(|entry| entry.length as usize <= length);
        self.entries[..end].iter().zip(&self.places).map(|(entry, &place)| (entry.text(names), place))
    }
}

/// A name without the version that linkers append to those of a shared library (name@VERSION,
/// name@@VERSION).
pub fn without_version(name: &[u8]) -> &[u8] {
    let end = name.iter().skip(1).position(|&byte| byte == b'@');
    end.map_or(name, |end| &name[..end + 1])
}

/// Whether a name can be a mangled one that stands for a readable one: the last part of that before
/// its parameters is in both.
pub fn may_stand_for(mangled: &[u8], readable: &[u8]) -> bool {
    let is_part = |byte: &u8| byte.is_ascii_alphanumeric() || *byte == b'_';
    let name = readable.split(|byte| matches!(byte, b'(' | b'<')).next().unwrap_or_default();
    let part = name.rsplit(|byte| !is_part(byte)).next().unwrap_or_default();
    !part.is_empty() && is_mangled(mangled) && mangled.windows(part.len()).any(|window| window == part)
}

#[cfg(test)]
mod tests {
    use super::*;

    #[test]
    fn versions_are_no_part_of_a_name() {
        for (name, wanted) in
            [("qsort@@GLIBC_2.2.5", "qsort"), ("a@b", "a"), ("main", "main"), ("@x@y", "@x"), ("", "")]
        {
            assert_eq!(without_version(name.as_bytes()), wanted.as_bytes());
        }
    }

    #[test]
    fn names_that_overlap() {
        let names = b"\0long\0other@@V1\0long";
        let index = NameIndex::new(names, [1, 3, 6, 7, 1, 0, 16, 99, 11].into_iter());
        for (name, places) in [
            ("long", &[0, 4, 6][..]),
            ("ng", &[1]),
            ("other", &[2]),
            ("ther", &[3]),
            ("@", &[8]),
            ("other@@V1", &[]),
            ("o", &[]),
            ("", &[]),
        ] {
            let mut found = index.find(names, name.as_bytes()).to_vec();
            found.sort_unstable();
            assert_eq!(found, places, "{name}");
        }
    }

    #[test]
    fn a_long_name_with_many_ends() {
        let names = vec![b'a'; 1 << 20];
        let index = NameIndex::new(&names, (0..200_000).map(|n| n * 5));
        let begun = std::time::Instant::now();
        assert_eq!(index.find(&names, &names[5..]), [1]);
        assert!(begun.elapsed().as_secs() < 1);
    }

    #[test]
    fn readable_names() {
        assert!(may_stand_for(b"_ZN1n1S2goEv", b"n::S::go()") && may_stand_for(b"_Z1fIiEvv", b"f<int>"));
        assert!(!may_stand_for(b"_ZN1n1S2goEv", b"n::S::gone()") && !may_stand_for(b"_Z1fv", b"::"));
    }
}
