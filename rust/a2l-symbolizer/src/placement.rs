//! Where the sections of a file are: where it says or, in a relocatable file, one after the other,
//! as a linker would put them.

use std::collections::{HashMap, HashSet};
use std::ops::Range;

use object::elf::{SHF_ALLOC, SHF_EXECINSTR};
use object::{Object, ObjectKind, ObjectSection, Section, SectionFlags, SectionIndex};

use crate::compression::Packed;
use crate::open_file::OpenFile;
use crate::sections::name_of_debug_section;

/// The sections of a file that are loaded. Those of a relocatable file, which all begin at 0 there,
/// have no address in common.
#[derive(Debug, Default)]
pub struct Placement {
    /// In the order of the file.
    loaded: Vec<Placed>,
    /// Where each section of a relocatable file begins, by its index; 0 where it isn't loaded. A
    /// section of debug information follows those before it that have its name.
    begins: Option<Vec<u64>>,
}

/// A file that is open, and where its sections are.
#[derive(Debug)]
pub struct PlacedFile {
    pub file: OpenFile,
    pub placement: Placement,
}

/// A section that is loaded.
#[derive(Debug)]
struct Placed {
    name: Vec<u8>,
    index: SectionIndex,
    /// The first address in the file, and where that is put.
    address: u64,
    begin: u64,
    size: u64,
    is_code: bool,
}

/// The first section of a relocatable file is put here, since code that a linker has dropped is at
/// 0 for debug information.
const FIRST: u64 = 1 << 24;
const ALIGNMENT: u64 = 64;

impl PlacedFile {
    /// A file of its own. One whose sections can't be found has none.
    pub fn of_program(file: OpenFile) -> PlacedFile {
        let placement =
            object::File::parse(&**file.file).map_or_else(|_| Placement::default(), |it| Placement::of(&it));
        PlacedFile { file, placement }
    }

    /// The debug file of this one; none where it is another one's.
    pub fn debug_file(&self, file: OpenFile) -> Option<PlacedFile> {
        let placement = object::File::parse(&**file.file)
            .map_or(Some(Placement::default()), |object| self.placement.of_debug_file(&object))?;
        Some(PlacedFile { file, placement })
    }
}

impl Placement {
    /// The places of the sections of a file.
    pub fn of(object: &object::File<'_>) -> Placement {
        let loaded = object.sections().filter_map(|section| Placed::of(&section));
        if object.kind() != ObjectKind::Relocatable {
            return Placement { loaded: loaded.collect(), begins: None };
        }
        let mut next = Some(FIRST);
        // A section that the addresses don't suffice for has none.
        let loaded = loaded.map_while(|section| {
            let begin = next?;
            let end = begin.checked_add(section.size)?;
            next = end.checked_add(1).and_then(|after| after.checked_next_multiple_of(ALIGNMENT));
            Some(Placed { begin, ..section })
        });
        Placement::relocatable(object, loaded.collect())
    }

    /// The places of the sections of this file's debug file: those of the sections that have their
    /// names and sizes here. None where one of the files is relocatable and the other isn't.
    pub fn of_debug_file(&self, object: &object::File<'_>) -> Option<Placement> {
        if self.is_relocatable() != (object.kind() == ObjectKind::Relocatable) {
            return None;
        }
        if !self.is_relocatable() {
            return Some(Placement::of(object));
        }
        let mut own = HashMap::<&[u8], Vec<&Placed>>::new();
        for section in self.loaded.iter().rev() {
            own.entry(&section.name).or_default().push(section);
        }
        let loaded = object.sections().filter_map(|section| {
            let section = Placed::of(&section)?;
            let same = own.get_mut(&*section.name)?.pop().filter(|same| same.size == section.size)?;
            Some(Placed { begin: same.begin, ..section })
        });
        Some(Placement::relocatable(object, loaded.collect()))
    }

    fn relocatable(object: &object::File<'_>, loaded: Vec<Placed>) -> Placement {
        let mut begins = Vec::new();
        let mut set = |index: SectionIndex, begin| {
            begins.resize(begins.len().max(index.0 + 1), 0);
            begins[index.0] = begin;
        };
        loaded.iter().for_each(|section| set(section.index, section.begin));
        let mut sizes = HashMap::<&[u8], u64>::new();
        let sections: Vec<_> = object.sections().collect();
        for section in &sections {
            let name = section.name_bytes().ok().and_then(name_of_debug_section);
            if let (Some(name), Ok(packed)) = (name, Packed::of(object, section)) {
                let size = sizes.entry(name).or_default();
                set(section.index(), *size);
                *size = size.saturating_add(packed.size);
            }
        }
        Placement { loaded, begins: Some(begins) }
    }

    pub fn is_relocatable(&self) -> bool {
        self.begins.is_some()
    }

    /// The place of an offset in the first section that has a name; none where it isn't so long or
    /// isn't loaded.
    pub fn in_section(&self, name: &[u8], offset: u64) -> Option<u64> {
        self.loaded.iter().find(|section| section.name == name)?.place(offset)
    }

    /// The place of an address: that itself or, in a relocatable file, the one in the first section
    /// of code that is so long. For an address of data it is the first of data, else of code.
    pub fn place(&self, address: u64, is_code: bool) -> Option<u64> {
        if !self.is_relocatable() {
            return Some(address);
        }
        let in_sections = |of_code| {
            let mut sections = self.loaded.iter().filter(|section| section.is_code == of_code);
            sections.find_map(|section| section.place(address.checked_sub(section.address)?))
        };
        match is_code {
            true => in_sections(true),
            false => in_sections(false).or_else(|| in_sections(true)),
        }
    }

    /// The places of each section of code of which `in_section` may find some.
    pub fn code(&self) -> impl Iterator<Item = Range<u64>> + '_ {
        let mut names = HashSet::new();
        let sections = self.loaded.iter().filter(move |section| names.insert(&*section.name) && section.is_code);
        sections.map(|section| section.begin..section.begin.saturating_add(section.size))
    }

    /// The address in the file of a place.
    pub fn address(&self, place: u64) -> u64 {
        self.section_of(place).map_or(place, |section| place - section.begin + section.address)
    }

    /// The name of the section that has a place of a relocatable file; none of another one's.
    pub fn name_of_section(&self, place: u64) -> Option<&[u8]> {
        Some(&self.section_of(place)?.name)
    }

    fn section_of(&self, place: u64) -> Option<&Placed> {
        let after = self.loaded.partition_point(|section| section.begin <= place);
        self.loaded[..after].last().filter(|_| self.is_relocatable())
    }

    /// The place of what has a value in the symbol table, in a section.
    pub fn of_symbol(&self, section: Option<SectionIndex>, value: u64) -> u64 {
        let begin = self.begins.as_ref().and_then(|begins| begins.get(section?.0)).copied();
        value.wrapping_add(begin.unwrap_or(0))
    }
}

impl Placed {
    /// A section where it is in the file; none where it isn't loaded.
    fn of(section: &Section<'_, '_>) -> Option<Placed> {
        let SectionFlags::Elf { sh_flags } = section.flags() else {
            return None;
        };
        let has = |flag: u32| sh_flags & u64::from(flag) != 0;
        let (address, is_code) = (section.address(), has(SHF_EXECINSTR));
        has(SHF_ALLOC).then_some(Placed {
            name: section.name_bytes().unwrap_or_default().to_vec(),
            index: section.index(),
            address,
            begin: address,
            size: section.size(),
            is_code,
        })
    }

    /// The place of an offset in it.
    fn place(&self, offset: u64) -> Option<u64> {
        (offset < self.size).then(|| self.begin.wrapping_add(offset))
    }
}

#[cfg(test)]
mod tests {
    use super::*;

    fn section(name: &str, index: usize, begin: u64, size: u64, is_code: bool) -> Placed {
        Placed { name: name.into(), index: SectionIndex(index), address: 0, begin, size, is_code }
    }

    fn relocatable() -> Placement {
        let loaded = vec![
            section(".data", 1, 0x100, 8, false),
            section(".text", 2, 0x200, 8, true),
            section(".init.text", 3, 0x300, 16, true),
        ];
        Placement { loaded, begins: Some(vec![0, 0x100, 0x200, 0x300]) }
    }

    #[test]
    fn the_first_section_of_code_that_is_so_long() {
        let placement = relocatable();
        let places = [0, 7, 8, 15, 16].map(|address| placement.place(address, true));
        assert_eq!(places, [Some(0x200), Some(0x207), Some(0x308), Some(0x30f), None]);
        assert_eq!([7, 8, 16].map(|address| placement.place(address, false)), [Some(0x107), Some(0x308), None]);
    }

    #[test]
    fn sections_by_name() {
        let placement = relocatable();
        assert_eq!(placement.in_section(b".init.text", 8), Some(0x308));
        assert_eq!(placement.in_section(b".text", 8), None);
        assert_eq!(placement.in_section(b".exit.text", 0), None);
    }

    #[test]
    fn addresses_of_places() {
        let placement = relocatable();
        assert_eq!([0x100, 0x207, 0x308].map(|place| placement.address(place)), [0, 7, 8]);
        assert_eq!(placement.of_symbol(Some(SectionIndex(3)), 4), 0x304);
        assert_eq!(placement.of_symbol(None, 4), 4);
    }

    #[test]
    fn a_linked_file_is_where_it_says() {
        let placement = Placement { loaded: vec![section(".text", 1, 0x400, 8, true)], begins: None };
        assert_eq!(placement.place(0x17, true), Some(0x17));
        assert_eq!(placement.in_section(b".text", 7), Some(0x407));
        assert_eq!((placement.address(0x407), placement.of_symbol(Some(SectionIndex(1)), 0x407)), (0x407, 0x407));
    }
}
