//! Names from symbol tables: which function or variable has an address.

use std::cell::OnceCell;

use a2l::{Part, Tools};
use object::elf::{SHT_DYNSYM, SHT_SYMTAB};

use crate::name_index::{may_stand_for, without_version, NameIndex};
use crate::names::{Length, Names, LONGEST_MANGLED};
use crate::placement::PlacedFile;
use crate::symbol_entries::{read, Entry};

/// What symbols are looked for.
#[derive(Debug, Clone, Copy, PartialEq, Eq)]
pub enum Kind {
    Functions,
    Variables,
}

/// The symbols of one kind of a program.
#[derive(Debug, Default)]
pub struct Symbols {
    /// Those of .symtab of the file, else of its .dynsym.
    own: Option<Table>,
    /// Those of .symtab of its debug file, where the file has none. That may lack symbols of
    /// .dynsym.
    of_debug_file: Option<Table>,
}

/// The symbols of one table, in order of address.
#[derive(Debug)]
struct Table {
    entries: Vec<Entry>,
    names: Option<Part>,
    /// Made when a name is first looked for.
    by_name: OnceCell<NameIndex>,
}

/// A symbol that is found.
#[derive(Debug, Clone, Copy, PartialEq, Eq)]
pub struct Symbol<'s> {
    pub name: &'s [u8],
    /// The source file, where the symbol is local to one.
    pub file: Option<&'s [u8]>,
    pub start: u64,
    /// The size that the table has; 0 where it has none.
    pub size: u64,
    /// Where in the table it stands.
    pub index: u32,
}

impl Symbols {
    /// Those of a file, and of its debug file where it has one, as these tools choose among them.
    pub fn read(file: &PlacedFile, debug: Option<&PlacedFile>, kind: Kind, tools: Tools) -> Symbols {
        let table = |file, table| Table::read(file, table, kind, tools).filter(|table| !table.entries.is_empty());
        match table(file, SHT_SYMTAB) {
            Some(own) => Symbols { own: Some(own), of_debug_file: None },
            None => Symbols {
                own: table(file, SHT_DYNSYM),
                of_debug_file: debug.and_then(|debug| table(debug, SHT_SYMTAB)),
            },
        }
    }

    fn tables(&self) -> impl Iterator<Item = &Table> {
        self.own.iter().chain(&self.of_debug_file)
    }

    /// The symbol that has an address: of those that hold it, the one that begins last.
    pub fn find(&self, address: u64) -> Option<Symbol<'_>> {
        self.tables().find_map(|table| table.find(address))
    }

    /// The symbol in the file's own table that has an address by its size, and begins last of all
    /// that begin no later.
    pub fn find_own(&self, address: u64) -> Option<Symbol<'_>> {
        let own = self.own.as_ref()?;
        let last = own.entries[..own.entries.partition_point(|entry| entry.start <= address)].last()?;
        own.symbol(last).filter(|symbol| address - symbol.start < symbol.size)
    }

    /// All symbols that have a name, in order of address.
    pub fn named(&self, name: &[u8]) -> Vec<Symbol<'_>> {
        let mut found = self.tables().map(|table| table.named(name));
        found.find(|found| !found.is_empty()).unwrap_or_default()
    }

    /// All symbols whose readable name this is, as GNU's tools write it, in order of address.
    pub fn named_readably(&self, name: &[u8]) -> Vec<Symbol<'_>> {
        if !name.iter().any(|byte| matches!(byte, b'(' | b':' | b'<')) {
            return Vec::new();
        }
        let mut found = self.tables().map(|table| table.named_readably(name));
        found.find(|found| !found.is_empty()).unwrap_or_default()
    }
}

impl Table {
    fn read(file: &PlacedFile, table: u32, kind: Kind, tools: Tools) -> Option<Table> {
        let (entries, names) = read(file, table, kind, tools).ok()?;
        Some(Table { entries, names, by_name: OnceCell::new() })
    }

    fn find(&self, address: u64) -> Option<Symbol<'_>> {
        let after = self.entries.partition_point(|entry| entry.start <= address);
        let entry = self.entries[..after]
            .iter()
            .rev()
            .take_while(|entry| entry.reach > address)
            .find(|entry| entry.end > address)?;
        self.symbol(entry)
    }

    fn named(&self, name: &[u8]) -> Vec<Symbol<'_>> {
        self.at_places(|names, index| index.find(names, name).to_vec())
    }

    fn named_readably(&self, name: &[u8]) -> Vec<Symbol<'_>> {
        let mut readable = Names::new(Tools::Gnu, Length::Whole);
        self.at_places(|names, index| {
            let mut found = index.up_to(LONGEST_MANGLED, names).collect::<Vec<_>>();
            found.retain(|(mangled, _)| may_stand_for(mangled, name) && readable.readable(mangled) == name);
            found.into_iter().map(|(_, place)| place).collect()
        })
    }

    /// The symbols at some places, in order of address.
    fn at_places(&self, find: impl FnOnce(&[u8], &NameIndex) -> Vec<u32>) -> Vec<Symbol<'_>> {
        let Some(names) = &self.names else {
            return Vec::new();
        };
        let index = self.by_name.get_or_init(|| NameIndex::new(names, self.entries.iter().map(|entry| entry.name)));
        let mut places = find(names, index);
        places.sort_unstable();
        places.iter().filter_map(|&place| self.symbol(&self.entries[place as usize])).collect()
    }

    fn symbol(&self, entry: &Entry) -> Option<Symbol<'_>> {
        let (name, file) = (without_version(self.text(entry.name)?), self.text(entry.file));
        let size = if entry.sized { entry.end.saturating_sub(entry.start) } else { 0 };
        Some(Symbol { name, file, start: entry.start, size, index: entry.index })
    }

    /// The text at an offset of the string table; none where it is empty, as it is at offset 0.
    fn text(&self, offset: u32) -> Option<&[u8]> {
        let text = self.names.as_ref()?.get(offset as usize..)?;
        text.split(|&byte| byte == 0).next().filter(|text| !text.is_empty())
    }
}

#[cfg(test)]
mod tests {
    use super::*;
    use crate::symbol_entries::put_in_order;

    use a2l::File;

    fn entry(start: u64, size: u64, end: u64, name: u32) -> Entry {
        let end = if size > 0 { start + size } else { end };
        Entry { start, end, reach: end, index: name, name, file: 0, typed: true, sized: size > 0 }
    }

    fn symbols(tools: Tools, mut entries: Vec<Entry>) -> Symbols {
        put_in_order(&mut entries, tools);
        let names = Some(Part::whole(File::from(b"\0a\0b\0c\0d\0".to_vec())));
        Symbols { own: Some(Table { entries, names, by_name: OnceCell::new() }), of_debug_file: None }
    }

    fn name_at(symbols: &Symbols, address: u64) -> Option<&str> {
        symbols.find(address).map(|symbol| std::str::from_utf8(symbol.name).expect("ASCII"))
    }

    #[test]
    fn aliases_are_chosen() {
        let table = || vec![entry(16, 8, 99, 1), entry(16, 4, 99, 3), entry(16, 8, 99, 5), entry(16, 0, 99, 7)];
        let (llvm, gnu) = (symbols(Tools::Llvm, table()), symbols(Tools::Gnu, table()));
        assert_eq!(
            [15, 16, 19, 20, 24].map(|address| name_at(&llvm, address)),
            [None, Some("c"), Some("c"), Some("c"), Some("d")]
        );
        assert_eq!(
            [15, 16, 19, 20, 24].map(|address| name_at(&gnu, address)),
            [None, Some("b"), Some("b"), Some("a"), Some("d")]
        );
        assert_eq!(llvm.find_own(24), None);
    }

    #[test]
    fn names_are_found() {
        let found = symbols(Tools::Llvm, vec![entry(32, 4, 99, 1), entry(16, 4, 99, 1), entry(48, 4, 99, 3)]);
        let starts = |name: &[u8]| found.named(name).iter().map(|symbol| symbol.start).collect::<Vec<_>>();
        assert_eq!((starts(b"a"), starts(b"b"), starts(b"c"), starts(b"")), (vec![16, 32], vec![48], vec![], vec![]));
    }

    #[test]
    fn what_has_no_size_ends_with_the_next_one_or_its_section() {
        let found = symbols(Tools::Gnu, vec![entry(16, 0, 99, 1), entry(32, 0, 99, 3)]);
        assert_eq!((name_at(&found, 31), name_at(&found, 32)), (Some("a"), Some("b")));
        assert_eq!((name_at(&found, 98), name_at(&found, 99)), (Some("b"), None));
    }

    #[test]
    fn the_one_around_is_found() {
        let found =
            symbols(Tools::Gnu, vec![entry(0, 100, 0, 1), entry(10, 5, 0, 3), entry(20, 5, 0, 5), entry(200, 8, 0, 7)]);
        let names = [5, 12, 17, 22, 99, 100, 201].map(|address| name_at(&found, address));
        assert_eq!(names, [Some("a"), Some("b"), Some("a"), Some("c"), Some("a"), None, Some("d")]);
    }
}
