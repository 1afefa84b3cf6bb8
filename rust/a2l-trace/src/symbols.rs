//! Symbols of a file by their names.

use std::collections::HashMap;

use object::{Object, ObjectSection, ObjectSymbol, ObjectSymbolTable, SectionIndex, SectionKind, SymbolKind};

use crate::modules::Reason;

/// The symbols of one table of a file.
#[derive(Debug, Default)]
pub struct Symbols {
    by_name: HashMap<Vec<u8>, Vec<Symbol>>,
    /// Where functions begin in their sections, in order.
    starts: Vec<(usize, u64)>,
    /// Where sections end.
    ends: HashMap<usize, u64>,
}

/// Where a symbol is.
#[derive(Debug, Clone, Copy, PartialEq, Eq)]
pub struct Symbol {
    pub section: SectionIndex,
    pub address: u64,
    size: u64,
}

impl Symbols {
    /// The symbols that a loader sees (.dynsym).
    pub fn dynamic(bytes: &[u8]) -> Symbols {
        Symbols::of(bytes, |file| file.dynamic_symbol_table())
    }

    /// All symbols (.symtab).
    pub fn all(bytes: &[u8]) -> Symbols {
        Symbols::of(bytes, |file| file.symbol_table())
    }

    fn of<'data>(
        bytes: &'data [u8],
        table: impl for<'file> FnOnce(&'file object::File<'data>) -> Option<object::SymbolTable<'data, 'file>>,
    ) -> Symbols {
        let mut symbols = Symbols::default();
        let Ok(file) = object::File::parse(bytes) else {
            return symbols;
        };
        let code = file.sections().filter(|section| section.kind() == SectionKind::Text);
        symbols.ends =
            code.map(|section| (section.index().0, section.address().saturating_add(section.size()))).collect();
        for symbol in table(&file).into_iter().flat_map(|table| table.symbols()) {
            symbols.add(&symbol);
        }
        symbols.starts.sort_unstable();
        symbols.starts.dedup();
        symbols
    }

    /// Adds a symbol of code.
    fn add<'data>(&mut self, symbol: &impl ObjectSymbol<'data>) {
        let Some(section) = symbol.section_index().filter(|section| self.ends.contains_key(&section.0)) else {
            return;
        };
        let is_code = matches!(symbol.kind(), SymbolKind::Text | SymbolKind::Label | SymbolKind::Unknown);
        let Some(name) = symbol.name_bytes().ok().filter(|name| is_code && !name.is_empty()) else {
            return;
        };
        let found = Symbol { section, address: symbol.address(), size: symbol.size() };
        self.starts.push((section.0, found.address));
        let same = self.by_name.entry(name.to_vec()).or_default();
        if !same.contains(&found) {
            same.push(found);
        }
    }

    /// The one address that a name has to which an offset leads a process address of a page.
    pub fn moved_by_pages(&self, name: &[u8], offset: u64, process: u64) -> Result<u64, Reason> {
        let found = self.by_name.get(name).map(Vec::as_slice).unwrap_or_default();
        let addresses = found.iter().map(|symbol| symbol.address.wrapping_add(offset));
        let mut addresses: Vec<u64> = addresses.filter(|address| process.wrapping_sub(*address) % PAGE == 0).collect();
        addresses.sort_unstable();
        addresses.dedup();
        one(&addresses).copied()
    }

    /// The one symbol of a name that has a size, or takes so many bytes with what is before the next
    /// one, as the kernel counts.
    pub fn of_size(&self, name: &[u8], size: u64) -> Result<Symbol, Reason> {
        let found = self.by_name.get(name).map(Vec::as_slice).unwrap_or_default();
        let fitting: Vec<Symbol> =
            found.iter().filter(|symbol| symbol.size == size || self.extent(symbol) == Some(size)).copied().collect();
        match fitting.as_slice() {
            [first, rest @ ..] if rest.iter().all(|it| (it.section, it.address) == (first.section, first.address)) => {
                Ok(*first)
            }
            others => one(others).copied(),
        }
    }

    /// How many bytes there are from a symbol to the next one, or to the end of its section.
    fn extent(&self, symbol: &Symbol) -> Option<u64> {
        let next = self.starts.partition_point(|&start| start <= (symbol.section.0, symbol.address));
        let end = match self.starts.get(next) {
            Some(&(section, start)) if section == symbol.section.0 => start,
            _ => *self.ends.get(&symbol.section.0)?,
        };
        end.checked_sub(symbol.address)
    }
}

/// Files are moved by whole pages.
const PAGE: u64 = 4096;

fn one<T>(found: &[T]) -> Result<&T, Reason> {
    match found {
        [one] => Ok(one),
        [] => Err(Reason::NoSymbol),
        _ => Err(Reason::ManySymbols),
    }
}

#[cfg(test)]
mod tests {
    use super::*;

    fn symbols(rows: &[(&str, u64, u64)]) -> Symbols {
        let mut symbols = Symbols { ends: HashMap::from([(1, 0x2000)]), ..Symbols::default() };
        for &(name, address, size) in rows {
            symbols.starts.push((1, address));
            let symbol = Symbol { section: SectionIndex(1), address, size };
            symbols.by_name.entry(name.into()).or_default().push(symbol);
        }
        symbols.starts.sort_unstable();
        symbols
    }

    #[test]
    fn sizes() {
        let found = symbols(&[("f", 0x1000, 0x1a), ("g", 0x1020, 8), ("f", 0x1030, 0x1b), ("h", 0x1ff0, 0)]);
        let address = |name: &str, size| found.of_size(name.as_bytes(), size).map(|symbol| symbol.address);
        assert_eq!((address("f", 0x1a), address("f", 0x20), address("f", 0x1b)), (Ok(0x1000), Ok(0x1000), Ok(0x1030)));
        assert_eq!((address("g", 0x10), address("h", 0x10)), (Ok(0x1020), Ok(0x1ff0)));
        assert_eq!((address("f", 0x21), address("x", 1)), (Err(Reason::NoSymbol), Err(Reason::NoSymbol)));
        let twice = symbols(&[("f", 0x1000, 16), ("f", 0x1040, 16)]);
        assert_eq!(twice.of_size(b"f", 16), Err(Reason::ManySymbols));
    }

    #[test]
    fn whole_pages() {
        let found = symbols(&[("f", 0x1000, 16), ("f", 0x1040, 16), ("f", 0x2040, 16)]);
        assert_eq!(found.moved_by_pages(b"f", 5, 0x7f0000000005), Ok(0x1005));
        assert_eq!(found.moved_by_pages(b"f", 5, 0x7f0000000045), Err(Reason::ManySymbols));
        assert_eq!(found.moved_by_pages(b"f", 5, 0x7f0000000006), Err(Reason::NoSymbol));
    }
}
