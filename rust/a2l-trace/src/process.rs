//! A process: which file is where in its memory.

use std::collections::{BTreeMap, HashMap};
use std::path::PathBuf;

use crate::layout::{Layout, Segment};

/// A part of a file in memory.
#[derive(Debug, Clone, PartialEq, Eq)]
pub struct Mapping {
    pub start: u64,
    /// The address after the last one.
    pub end: u64,
    /// Where its first byte is in the file.
    pub offset: u64,
    /// Whether it is executable, where that is known.
    pub executable: Option<bool>,
    /// The path of the file, by its bytes; empty where there is none.
    pub path: Vec<u8>,
}

/// What is known of a process.
#[derive(Debug, Default)]
pub struct Process {
    /// By their first address; none overlaps another one.
    mappings: BTreeMap<u64, Mapping>,
    /// What memory has of the headers of files, by their paths.
    headers: HashMap<Vec<u8>, Layout>,
    /// The folder in which the paths of the process begin.
    pub root: Option<PathBuf>,
}

/// Pages are of so many bytes, to which the system rounds what it maps.
const PAGE: u64 = 4096;
/// So many mappings are kept at most, of paths that the system takes.
const MOST: usize = 1 << 14;
const LONGEST: usize = 4096;

impl Process {
    /// Adds a mapping, in the place of those that it overlaps. A list goes up, so one that doesn't
    /// begins another list, of another process.
    pub fn add_of_list(&mut self, mapping: Mapping, last: Option<u64>) {
        if last.is_some_and(|last| mapping.start <= last) {
            self.mappings.clear();
            self.headers.clear();
        }
        self.add(mapping);
    }

    /// Adds a mapping, in the place of those that it overlaps.
    pub fn add(&mut self, mapping: Mapping) {
        let overlapped = self.mappings.range(..mapping.end).rev().take_while(|(_, other)| other.end > mapping.start);
        let gone: Vec<u64> = overlapped.map(|(&start, _)| start).collect();
        gone.iter().for_each(|start| drop(self.mappings.remove(start)));
        if self.mappings.len() < MOST && mapping.path.len() <= LONGEST {
            self.mappings.insert(mapping.start, mapping);
        }
    }

    /// Adds what memory has of the headers of a file.
    pub fn add_headers(&mut self, path: Vec<u8>, layout: Layout) {
        self.headers.entry(path).or_insert(layout);
    }

    /// Where the first page of each file is, and its path.
    pub fn first_pages(&self) -> Vec<(u64, Vec<u8>)> {
        let first = self.mappings.values().filter(|mapping| mapping.offset == 0 && !mapping.path.is_empty());
        first.map(|mapping| (mapping.start, mapping.path.clone())).collect()
    }

    /// No mapping is known.
    pub fn is_empty(&self) -> bool {
        self.mappings.is_empty()
    }

    /// The mapping of a file that holds an address.
    pub fn find(&self, address: u64) -> Option<&Mapping> {
        let (_, mapping) = self.mappings.range(..=address).next_back()?;
        (address < mapping.end && mapping.path.first().is_some_and(|&first| first != b'[')).then_some(mapping)
    }

    /// What memory has of the headers of a file.
    pub fn headers(&self, path: &[u8]) -> Option<&Layout> {
        self.headers.get(path)
    }

    /// The address that the file of a mapping has for one of the process: the one address to which
    /// the program headers lead. Where two segments have the page, as when both are in one page of
    /// the file, the one counts that moves the file as its other mappings do.
    pub fn file_address(&self, mapping: &Mapping, segments: &[Segment], address: u64) -> Option<u64> {
        let mut moves = moves(mapping, segments);
        if moves.len() > 1 {
            // Neighbors on both sides, as far as they are of the file.
            let is_of_file = |other: &&Mapping| other.path == mapping.path;
            let before = self.mappings.range(..mapping.start).rev().map(|(_, other)| other).take_while(is_of_file);
            let after = self.mappings.range(mapping.end..).map(|(_, other)| other).take_while(is_of_file);
            for other in before.take(NEIGHBORS).chain(after.take(NEIGHBORS)) {
                let others = self::moves(other, segments);
                moves.retain(|by| others.contains(by));
            }
        }
        match moves.as_slice() {
            [by] => Some(address.wrapping_sub(*by)),
            _ => None,
        }
    }
}

/// So many mappings on each side are looked at.
const NEIGHBORS: usize = 16;

/// By how much each segment would move that can be what is mapped there.
fn moves(mapping: &Mapping, segments: &[Segment]) -> Vec<u64> {
    let can_be = segments.iter().filter(|segment| {
        let begin = segment.offset & !(PAGE - 1);
        let end = segment.offset.saturating_add(segment.size).saturating_add(PAGE - 1) & !(PAGE - 1);
        let flag = mapping.executable.is_none_or(|flag| flag == segment.executable);
        flag && begin <= mapping.offset && mapping.offset < end
    });
    // The byte of the mapping's offset is so far behind that of the segment's.
    let behind = |segment: &Segment| mapping.offset.wrapping_sub(segment.offset);
    let mut moves: Vec<u64> =
        can_be.map(|segment| mapping.start.wrapping_sub(segment.address.wrapping_add(behind(segment)))).collect();
    moves.sort_unstable();
    moves.dedup();
    moves
}

#[cfg(test)]
mod tests {
    use super::*;

    fn mapping(start: u64, end: u64, offset: u64, executable: Option<bool>) -> Mapping {
        Mapping { start, end, offset, executable, path: b"/p".to_vec() }
    }

    fn segment(address: u64, offset: u64, size: u64, executable: bool) -> Segment {
        Segment { address, offset, size, executable, align: PAGE }
    }

    #[test]
    fn addresses_by_program_headers() {
        let mut process = Process::default();
        process.add(mapping(0x70000, 0x71000, 0, Some(false)));
        process.add(mapping(0x71000, 0x73000, 0x1000, Some(true)));
        let found = process.find(0x72345).expect("a mapping");
        // As GNU ld has it, as lld has it, and of a program that isn't moved.
        for (segments, address) in [
            ([segment(0, 0, 0x800, false), segment(0x1000, 0x1000, 0x1800, true)], 0x2345),
            ([segment(0, 0, 0x1400, false), segment(0x2400, 0x1400, 0x1400, true)], 0x3345),
            ([segment(0x6f000, 0, 0x800, false), segment(0x71000, 0x1000, 0x1800, true)], 0x72345),
        ] {
            assert_eq!(process.file_address(found, &segments, 0x72345), Some(address));
        }
        assert_eq!(process.file_address(found, &[segment(0, 0, 0x800, true)], 0x72345), None);
    }

    #[test]
    fn two_segments_in_a_page() {
        let segments = [segment(0, 0, 0x1400, false), segment(0x2400, 0x1400, 0x100, false)];
        let mut process = Process::default();
        process.add(mapping(0x70000, 0x72000, 0, None));
        process.add(mapping(0x72000, 0x73000, 0x1000, None));
        let second = process.find(0x72450).expect("a mapping");
        assert_eq!(process.file_address(second, &segments, 0x72450), Some(0x2450));
        let mut alone = Process::default();
        alone.add(mapping(0x72000, 0x73000, 0x1000, None));
        assert_eq!(alone.file_address(alone.find(0x72450).expect("a mapping"), &segments, 0x72450), None);
    }

    #[test]
    fn lists() {
        let mut process = Process::default();
        process.add_of_list(mapping(0x1000, 0x2000, 0, None), None);
        process.add_of_list(mapping(0x3000, 0x4000, 0, None), Some(0x1000));
        assert!(process.find(0x1000).is_some() && process.find(0x2000).is_none() && process.find(0x3fff).is_some());
        process.add_of_list(mapping(0x3800, 0x4800, 0, None), Some(0x3000));
        assert!(process.find(0x3000).is_none() && process.find(0x3800).is_some());
        process.add_of_list(mapping(0x2000, 0x2800, 0, None), Some(0x3800));
        assert!(process.find(0x1000).is_none() && process.find(0x3800).is_none() && process.find(0x2000).is_some());
    }
}
