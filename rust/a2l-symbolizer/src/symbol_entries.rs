//! The symbols of a table of an ELF file.

use a2l::{Part, Tools};
use object::elf::{
    FileHeader32, FileHeader64, SHF_EXECINSTR, STB_LOCAL, STT_FILE, STT_FUNC, STT_GNU_IFUNC, STT_NOTYPE, STT_OBJECT,
};
use object::read::elf::{FileHeader, SectionHeader, SectionTable, Sym, SymbolTable};
use object::read::{Error, FileKind};
use object::Endianness;

use crate::placement::{PlacedFile, Placement};
use crate::symbols::Kind;

/// A symbol of one kind.
#[derive(Debug)]
pub struct Entry {
    pub start: u64,
    /// The address after the last one; until all are known, the end of the section where the symbol
    /// has no size.
    pub end: u64,
    /// The greatest end of this entry and those before it.
    pub reach: u64,
    /// Where in the table it stands.
    pub index: u32,
    /// Where the name begins in the string table, and that of the source file, or 0.
    pub name: u32,
    pub file: u32,
    /// Its type says that it is of this kind.
    pub typed: bool,
    pub sized: bool,
}

impl Entry {
    /// In this order the last one of the symbols at an address is taken: LLVM's tools take the
    /// longest one, and of these the last in the table; GNU's the shortest one, and of these the
    /// first.
    fn order(&self, tools: Tools) -> impl Ord {
        let (size, index) = (self.end.saturating_sub(self.start), self.index);
        match tools {
            Tools::Llvm => (self.start, self.sized, false, size, index),
            Tools::Gnu => (self.start, self.sized, self.typed, u64::MAX - size, u32::MAX - index),
        }
    }
}

/// The entries of one kind of a table of this type in a file, in order of address, and the table of
/// their names. Of those at one address the last one is taken.
pub fn read(file: &PlacedFile, table: u32, kind: Kind, tools: Tools) -> Result<(Vec<Entry>, Option<Part>), Error> {
    match FileKind::parse(&**file.file.file)? {
        FileKind::Elf32 => of_elf::<FileHeader32<Endianness>>(file, table, kind, tools),
        _ => of_elf::<FileHeader64<Endianness>>(file, table, kind, tools),
    }
}

fn of_elf<Elf>(file: &PlacedFile, table: u32, kind: Kind, tools: Tools) -> Result<(Vec<Entry>, Option<Part>), Error>
where
    Elf: FileHeader<Endian = Endianness>,
{
    let (placement, file) = (&file.placement, &file.file.file);
    let data: &[u8] = file;
    let header = Elf::parse(data)?;
    let endian = header.endian()?;
    let sections = header.sections(endian, data)?;
    let symbols = sections.symbols(endian, data, table)?;
    let names = sections.section(symbols.string_section()).ok().and_then(|section| section.file_range(endian));
    let names = names.and_then(|(offset, size)| {
        Part::new(file, usize::try_from(offset).ok()?..usize::try_from(offset.checked_add(size)?).ok()?)
    });
    let text = names.as_deref().unwrap_or_default();
    let of_kind = OfKind { endian, sections: &sections, symbols: &symbols, names: text, placement, kind };
    let mut entries = of_kind.entries();
    put_in_order(&mut entries, tools);
    Ok((entries, names))
}

/// Where the symbols of one kind stand.
struct OfKind<'s, 'data, Elf: FileHeader> {
    endian: Endianness,
    sections: &'s SectionTable<'data, Elf>,
    symbols: &'s SymbolTable<'data, Elf>,
    names: &'s [u8],
    placement: &'s Placement,
    kind: Kind,
}

impl<Elf: FileHeader<Endian = Endianness>> OfKind<'_, '_, Elf> {
    /// The entries of all symbols. The symbols that are local to a source file stand after its
    /// name.
    fn entries(&self) -> Vec<Entry> {
        let (mut entries, mut file) = (Vec::new(), 0);
        for (index, symbol) in self.symbols.iter().enumerate() {
            if symbol.st_type() == STT_FILE {
                file = symbol.st_name(self.endian);
            }
            let own_file = if symbol.st_bind() == STB_LOCAL { file } else { 0 };
            entries.extend(self.entry(index, symbol).map(|entry| Entry { file: own_file, ..entry }));
        }
        entries
    }

    /// The entry of a symbol, where it is of the kind and stands in a section.
    fn entry(&self, index: usize, symbol: &Elf::Sym) -> Option<Entry> {
        let typed = match (self.kind, symbol.st_type()) {
            (Kind::Functions, STT_FUNC | STT_GNU_IFUNC) | (Kind::Variables, STT_OBJECT) => true,
            (Kind::Functions, STT_NOTYPE) => false,
            _ => return None,
        };
        let in_section = self.symbols.symbol_section(self.endian, symbol, index).ok()??;
        let section = self.sections.section(in_section).ok()?;
        if !typed && !self.may_be_function(symbol, section) {
            return None;
        }
        let section_size: u64 = section.sh_size(self.endian).into();
        let section_end = match self.placement.is_relocatable() {
            true => self.placement.of_symbol(Some(in_section), section_size),
            false => section.sh_addr(self.endian).into().saturating_add(section_size),
        };
        let start = self.placement.of_symbol(Some(in_section), symbol.st_value(self.endian).into());
        let size: u64 = symbol.st_size(self.endian).into();
        let end = if size > 0 { start.saturating_add(size) } else { section_end };
        let end = if self.placement.is_relocatable() { end.min(section_end) } else { end };
        let (index, name) = (u32::try_from(index).ok()?, symbol.st_name(self.endian));
        Some(Entry { start, end, reach: end, index, name, file: 0, typed, sized: size > 0 })
    }

    /// A symbol without a type is a label of assembly, if it stands among instructions and marks no
    /// kind of bytes there ($x, $d) and no place of debug information (.L0).
    fn may_be_function(&self, symbol: &Elf::Sym, section: &Elf::SectionHeader) -> bool {
        let flags: u64 = section.sh_flags(self.endian).into();
        // No more than its begin is looked at, since a table can have many names that are long.
        let name = self.names.get(symbol.st_name(self.endian) as usize..).unwrap_or_default();
        flags & u64::from(SHF_EXECINSTR) != 0 && !matches!(name, [] | [0 | b'$', ..] | [b'.', b'L', ..])
    }
}

/// Ends the symbols that have no size, and sorts all, so that of those at one address the last one
/// is taken.
pub fn put_in_order(entries: &mut [Entry], tools: Tools) {
    entries.sort_by_key(|entry| entry.start);
    end_unsized(entries);
    entries.sort_by_key(|entry| entry.order(tools));
    let mut reach = 0;
    for entry in entries {
        reach = entry.end.max(reach);
        entry.reach = reach;
    }
}

/// A symbol without a size ends where the next one begins, or with its section.
fn end_unsized(entries: &mut [Entry]) {
    let (mut start, mut next) = (u64::MAX, u64::MAX);
    for entry in entries.iter_mut().rev() {
        if entry.start != start {
            (start, next) = (entry.start, start);
        }
        if !entry.sized {
            entry.end = entry.end.min(next).max(entry.start);
        }
    }
}
