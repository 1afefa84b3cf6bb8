//! What a program answers by its symbol tables.

use a2l::Tools;

use super::{Answerer, Program, Sources};
use crate::names::is_mangled;
use crate::reply::{Frame, Start, Variable};
use crate::symbols::{Kind, Symbol, Symbols};

impl Program {
    /// Gives the outermost function the name of its symbol where the tools do so: LLVM's wherever a
    /// symbol of the file covers the address, GNU's where debug information has a plain name, since
    /// compilers give functions of C, of unnamed namespaces and local classes no linkage name. So
    /// what compilers append to names of symbols (.cold, .isra.0) is shown.
    pub(super) fn name_outermost(&mut self, address: u64, frames: &mut Vec<Frame>, tools: Tools) {
        let outermost = frames.last().and_then(|frame| frame.name.as_deref());
        let symbols = self.symbols(Kind::Functions, tools);
        let symbol = match (outermost, tools) {
            (None, _) => symbols.find(address),
            (Some(_), Tools::Llvm) => symbols.find_own(address),
            (Some(name), Tools::Gnu) if is_mangled(name) => None,
            (Some(_), Tools::Gnu) => symbols.find(address).filter(|symbol| symbol.size > 0),
        };
        let Some(symbol) = symbol else {
            return;
        };
        let (name, file, start) = (symbol.name.to_vec(), symbol.file.map(<[u8]>::to_vec), symbol.start);
        let address = Some(self.placement().address(start));
        let frame = frames.pop().unwrap_or_default();
        let (path, start) = (frame.path.or(file), Start { address, ..frame.start });
        frames.push(Frame { name: Some(name), path, start, ..frame });
    }

    fn symbols(&mut self, kind: Kind, tools: Tools) -> &Symbols {
        let place = match kind {
            Kind::Functions => &mut self.functions,
            Kind::Variables => &mut self.variables,
        };
        place.get_or_insert_with(|| Symbols::read(&self.file, self.debug.as_ref(), kind, tools))
    }

    /// The variable at an address, or the function there.
    pub fn find_variable(&mut self, address: u64, sources: &Sources) -> Option<Variable> {
        let tools = sources.symbols?;
        let kinds = [Kind::Variables, Kind::Functions];
        let mut variable = kinds.into_iter().find_map(|kind| {
            let symbol = self.symbols(kind, tools).find(address)?;
            let path = symbol.file.map(<[u8]>::to_vec);
            Some(Variable { name: symbol.name.to_vec(), start: symbol.start, size: symbol.size, path, line: 0 })
        })?;
        let has_debug_info = sources.fallback && self.answerer != Answerer::Nobody;
        let fallback = if has_debug_info { self.fallback(sources) } else { None };
        if let Some(declared) = fallback.and_then(|fallback| fallback.declaration(variable.start)) {
            (variable.path, variable.line) = (Some(declared.path.to_vec()), declared.line);
        }
        variable.start = self.placement().address(variable.start);
        Some(variable)
    }

    /// The addresses of what has a name in the symbol table, each so many bytes after its begin. For
    /// LLVM's tools all that have the name count, and no offset outside of what has the name; for
    /// GNU's the first in the table.
    pub fn find_symbols(&mut self, name: &[u8], offset: u64, sources: &Sources) -> Vec<u64> {
        let Some(tools) = sources.symbols else {
            return Vec::new();
        };
        let mut found = self.addresses(tools, |symbols| symbols.named(name), offset);
        if found.is_empty() && tools == Tools::Gnu {
            found = self.addresses(tools, |symbols| symbols.named_readably(name), offset);
        }
        match tools {
            Tools::Llvm => found.sort_by_key(|&(_, address)| address),
            Tools::Gnu => found = found.into_iter().min().into_iter().collect(),
        }
        found.into_iter().map(|(_, address)| address).collect()
    }

    /// The places in the table of the symbols that are chosen, and an address in each.
    fn addresses<F>(&mut self, tools: Tools, choose: F, offset: u64) -> Vec<(u32, u64)>
    where
        F: Fn(&Symbols) -> Vec<Symbol<'_>>,
    {
        let mut found = Vec::new();
        for kind in [Kind::Functions, Kind::Variables] {
            found.extend(choose(self.symbols(kind, tools)).into_iter().map(|symbol| match tools {
                Tools::Llvm if offset >= symbol.size => (symbol.index, symbol.start),
                _ => (symbol.index, symbol.start.wrapping_add(offset)),
            }));
        }
        found
    }
}
