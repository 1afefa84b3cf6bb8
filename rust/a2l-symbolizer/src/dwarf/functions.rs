//! The functions of a unit, and those inlined in them, by the addresses that they hold (DWARF 5,
//! section 3.3).

use std::collections::HashSet;

use gimli::{Dwarf, EntriesRaw, Unit, UnitOffset};

use super::owners::{Claim, Owner, Owners};
use super::ranges::{Bounds, Lists};
use super::Reader;

/// The functions of a unit.
#[derive(Debug)]
pub struct Functions {
    compiled: Owners,
    /// All functions that have ranges, in the order of their entries.
    functions: Vec<Function>,
}

#[derive(Debug)]
struct Function {
    entry: UnitOffset,
    /// The functions that are inlined directly in this one.
    inlined: Owners,
}

impl Functions {
    /// The functions of a unit, by one walk over its entries.
    pub fn read(dwarf: &Dwarf<Reader>, unit: &Unit<Reader>) -> gimli::Result<Functions> {
        let mut walk = Walk { dwarf, unit, lists: Lists::of(dwarf), compiled: Group::default(), drafts: Vec::new() };
        walk.run(&mut unit.entries_raw(None)?)?;
        let functions = walk.drafts.into_iter();
        let functions = functions.map(|draft| Function { entry: draft.entry, inlined: draft.inlined.owners() });
        Ok(Functions { compiled: walk.compiled.owners(), functions: functions.collect() })
    }

    /// The entries of the functions at an address, the outermost one first: the first function of
    /// the unit that holds it, and each time the first that is inlined there and holds it.
    pub fn at(&self, address: u64) -> impl Iterator<Item = UnitOffset> + '_ {
        let find = move |owners: &Owners| owners.find(address).map(|owner| &self.functions[owner as usize]);
        std::iter::successors(find(&self.compiled), move |outer| find(&outer.inlined)).map(|function| function.entry)
    }
}

/// Functions of which the first one that holds an address counts: those of a unit, or those that
/// are inlined in one of them.
#[derive(Debug, Default)]
struct Group {
    claims: Vec<Claim>,
    /// The range lists that were read. A later function of the group gets nothing from one of these.
    lists: HashSet<usize>,
}

impl Group {
    fn owners(self) -> Owners {
        Owners::of(self.claims)
    }
}

struct Draft {
    entry: UnitOffset,
    inlined: Group,
}

/// A walk over the entries of a unit.
struct Walk<'u> {
    dwarf: &'u Dwarf<Reader>,
    unit: &'u Unit<Reader>,
    lists: Lists,
    compiled: Group,
    drafts: Vec<Draft>,
}

/// A function whose entries the walk is in.
struct Enclosing {
    depth: isize,
    /// None where it has no ranges.
    function: Option<Owner>,
}

impl Walk<'_> {
    fn run(&mut self, entries: &mut EntriesRaw<'_, '_, Reader>) -> gimli::Result<()> {
        let mut enclosing: Vec<Enclosing> = Vec::new();
        while !entries.is_empty() {
            let (entry, depth) = (entries.next_offset(), entries.next_depth());
            let Some(abbreviation) = entries.read_abbreviation()? else {
                continue;
            };
            while enclosing.last().is_some_and(|function| function.depth >= depth) {
                enclosing.pop();
            }
            let is_inlined = match abbreviation.tag() {
                gimli::DW_TAG_subprogram => false,
                gimli::DW_TAG_inlined_subroutine => true,
                _ => {
                    entries.skip_attributes(abbreviation.attributes())?;
                    continue;
                }
            };
            let mut bounds = Bounds::default();
            for &specification in abbreviation.attributes() {
                bounds.note(self.dwarf, self.unit, &entries.read_attribute(specification)?)?;
            }
            let outer = if is_inlined { enclosing.last().map(|outer| outer.function) } else { None };
            let function = match outer {
                // What is inlined in no function, or in one without ranges, is at no address.
                Some(None) => None,
                None if is_inlined => None,
                outer => self.add(entry, outer.flatten(), &bounds)?,
            };
            enclosing.push(Enclosing { depth, function });
        }
        Ok(())
    }

    /// Adds a function that is inlined in another one or, without one, was compiled. It has no
    /// number where it has no ranges.
    fn add(&mut self, entry: UnitOffset, outer: Option<Owner>, bounds: &Bounds) -> gimli::Result<Option<Owner>> {
        if !bounds.are_known() {
            return Ok(None);
        }
        let owner = self.drafts.len() as Owner;
        let group = match outer {
            Some(outer) => &mut self.drafts[outer as usize].inlined,
            None => &mut self.compiled,
        };
        if bounds.list.is_none_or(|list| group.lists.insert(list.0)) {
            let found = |range| group.claims.push(Claim { range, owner });
            self.lists.each(self.dwarf, self.unit, bounds, found)?;
        }
        self.drafts.push(Draft { entry, inlined: Group::default() });
        Ok(Some(owner))
    }
}
