//! Debug information as gimli reads it: the frames of units of DWARF 5 that the library doesn't
//! read, by the same definitions, and of split units of any version.

pub mod functions;
pub mod lines;
pub mod owners;
pub mod package;
pub mod ranges;
pub mod split;
#[cfg(test)]
mod tests;

use std::cell::OnceCell;
use std::sync::Arc;

use a2l::Part;
use gimli::{
    AttributeValue, DebugInfoOffset, DebuggingInformationEntry, Dwarf, DwoId, EndianReader, RunTimeEndian, Section,
    Unit, UnitHeader, UnitOffset, UnitType,
};

use crate::reply::{Frame, Start};
use functions::Functions;
use lines::{path, place, Lines};
use owners::{Claim, Owner, Owners};
use ranges::{Bounds, Lists};

/// The bytes of a section, as gimli reads them.
pub type Reader = EndianReader<RunTimeEndian, Part>;

type Entry<'u> = DebuggingInformationEntry<'u, 'u, Reader>;

/// A name leads to so many other entries at most.
const MOST_REFERENCES: usize = 16;

/// The units of some debug information, each of which is read when it is first needed.
pub struct Units {
    dwarf: Arc<Dwarf<Reader>>,
    /// In the order of their offsets.
    units: Vec<LazyUnit>,
    /// Those of the file that dwz made, of which names are used.
    supplement: OnceCell<Option<Box<Units>>>,
}

/// A unit, and what was read of it.
struct LazyUnit {
    offset: usize,
    header: UnitHeader<Reader>,
    unit: OnceCell<Option<Box<Unit<Reader>>>>,
    functions: OnceCell<Option<Functions>>,
    lines: OnceCell<Option<Lines>>,
}

/// A function at an address.
#[derive(Debug, Default)]
pub struct Function {
    pub name: Option<Vec<u8>>,
    /// Where it was called, if it is inlined.
    pub call: Frame,
}

/// A unit among those of its file.
#[derive(Clone, Copy)]
pub struct UnitRef<'u> {
    units: &'u Units,
    unit: &'u LazyUnit,
}

impl Units {
    /// The units of .debug_info up to the first header that can't be read.
    pub fn of(dwarf: Arc<Dwarf<Reader>>) -> Units {
        let (mut headers, mut units) = (dwarf.units(), Vec::new());
        while let Ok(Some(header)) = headers.next() {
            units.extend(LazyUnit::of(header));
        }
        Units { dwarf, units, supplement: OnceCell::new() }
    }

    pub fn dwarf(&self) -> &Dwarf<Reader> {
        &self.dwarf
    }

    pub fn iter(&self) -> impl Iterator<Item = UnitRef<'_>> {
        self.units.iter().map(|unit| UnitRef { units: self, unit })
    }

    /// The unit at a place in the order of units.
    pub fn get(&self, owner: Owner) -> UnitRef<'_> {
        UnitRef { units: self, unit: &self.units[owner as usize] }
    }

    /// Which unit has an address: the first one that this reader serves and that claims it.
    pub fn owners(&self) -> Owners {
        let (mut lists, mut claims) = (Lists::of(&self.dwarf), Vec::new());
        for (owner, unit) in (0..).zip(self.iter()).filter(|(_, unit)| unit.is_served()) {
            // What was read before a fault stays.
            let _ = unit.read().map(|read| {
                let bounds = root_bounds(&self.dwarf, read)?;
                lists.each(&self.dwarf, read, &bounds, |range| claims.push(Claim { range, owner }))
            });
        }
        Owners::of(claims)
    }

    fn entry_at(&self, DebugInfoOffset(offset): DebugInfoOffset) -> Option<(UnitRef<'_>, UnitOffset)> {
        let after = self.units.partition_point(|unit| unit.offset <= offset);
        let unit = self.units[..after].last()?;
        Some((UnitRef { units: self, unit }, UnitOffset(offset - unit.offset)))
    }

    fn supplement(&self) -> Option<&Units> {
        let of = || Some(Box::new(Units::of(Arc::clone(self.dwarf.sup.as_ref()?))));
        self.supplement.get_or_init(of).as_deref()
    }
}

impl<'u> UnitRef<'u> {
    /// The debug information that has it.
    pub fn dwarf(self) -> &'u Dwarf<Reader> {
        &self.units.dwarf
    }

    pub fn version(self) -> u16 {
        self.unit.header.version()
    }

    /// The unit without its entries; none where its first entry can't be read.
    pub fn read(self) -> Option<&'u Unit<Reader>> {
        self.unit.unit.get_or_init(|| self.dwarf().unit(self.unit.header.clone()).ok().map(Box::new)).as_deref()
    }

    /// This reader serves it: it has version 5, or is split.
    pub fn is_served(self) -> bool {
        match self.unit.header.type_() {
            UnitType::Skeleton(_) => true,
            UnitType::Compilation if self.version() == 5 => true,
            // A split unit of version 4 has its addresses in this section.
            UnitType::Compilation if self.dwarf().debug_addr.reader().bytes().is_empty() => false,
            UnitType::Compilation => self.read().is_some_and(|unit| unit.dwo_id.is_some()),
            _ => false,
        }
    }

    /// It has code, and this reader doesn't serve it.
    pub fn is_older(self) -> bool {
        self.unit.header.type_() == UnitType::Compilation && !self.is_served()
    }

    /// The number by which a split unit and its skeleton know each other.
    fn split_id(self) -> Option<DwoId> {
        match self.unit.header.type_() {
            UnitType::SplitCompilation(id) => Some(id),
            UnitType::Compilation => self.read()?.dwo_id,
            _ => None,
        }
    }

    /// Where the code at an address comes from, without a function.
    pub fn place(self, address: u64) -> Option<Frame> {
        self.lines()?.place(self.dwarf(), self.read()?, address)
    }

    /// What tells code of one place apart at an address.
    pub fn discriminator(self, address: u64) -> Option<u64> {
        self.lines()?.discriminator(address)
    }

    /// The last place before an address that has a line, in the address's sequence of rows.
    pub fn place_before(self, address: u64) -> Option<Frame> {
        self.lines()?.place_before(self.dwarf(), self.read()?, address)
    }

    fn lines(self) -> Option<&'u Lines> {
        let read = self.read()?;
        self.unit.lines.get_or_init(|| Lines::read(read).ok()).as_ref()
    }

    /// The functions at an address, the outermost one first. A split unit has the addresses and the
    /// line table of its skeleton.
    pub fn functions(self, address: u64, skeleton: Option<UnitRef<'_>>) -> Vec<Function> {
        let entries = self.entries(address, skeleton);
        entries.map(|entry| self.function(entry, skeleton.unwrap_or(self)).unwrap_or_default()).collect()
    }

    fn entries(self, address: u64, skeleton: Option<UnitRef<'_>>) -> impl Iterator<Item = UnitOffset> + 'u {
        let functions = self.unit.functions.get_or_init(|| self.read_functions(skeleton));
        functions.iter().flat_map(move |functions| functions.at(address))
    }

    fn read_functions(self, skeleton: Option<UnitRef<'_>>) -> Option<Functions> {
        let dwarf = self.dwarf();
        let Some(skeleton) = skeleton else {
            return Functions::read(dwarf, self.read()?).ok();
        };
        let mut unit = dwarf.unit(self.unit.header.clone()).ok()?;
        unit.copy_relocated_attributes(skeleton.read()?);
        Functions::read(dwarf, &unit).ok()
    }

    /// A function by its entry. Files of calls are those of the line table of a unit.
    fn function(self, entry: UnitOffset, lines: UnitRef<'_>) -> Option<Function> {
        let name = self.name(entry).filter(|name| !name.is_empty());
        let entry = self.read()?.entry(entry).ok()?;
        let number = |name| entry.attr(name).ok().flatten().and_then(|found| found.udata_value());
        let [file, line, column] =
            [gimli::DW_AT_call_file, gimli::DW_AT_call_line, gimli::DW_AT_call_column].map(number);
        let call = place(lines.dwarf(), lines.read()?, file, line.unwrap_or(0), column.unwrap_or(0));
        Some(Function { name, call })
    }

    /// Where the functions at an address begin, the outermost one first. A split unit has the
    /// addresses and the line table of its skeleton.
    pub fn starts(self, address: u64, skeleton: Option<UnitRef<'_>>) -> Vec<Start> {
        let entries = self.entries(address, skeleton);
        entries.map(|entry| self.start(entry, skeleton.unwrap_or(self)).unwrap_or_default()).collect()
    }

    /// Where a function begins: the first address of its range, and its declaration.
    fn start(self, entry: UnitOffset, lines: UnitRef<'_>) -> Option<Start> {
        let low = self.read()?.entry(entry).ok()?.attr_value(gimli::DW_AT_low_pc).ok()?;
        let address = low.and_then(|low| lines.dwarf().attr_address(lines.read()?, low).ok()?);
        let number = |name| self.first(entry, |_, _, entry| entry.attr(name).ok()??.udata_value());
        let file = number(gimli::DW_AT_decl_file);
        let path = file.and_then(|file| path(lines.dwarf(), lines.read()?, file));
        Some(Start { address, path, line: number(gimli::DW_AT_decl_line).unwrap_or(0) })
    }

    /// The first name among those of an entry and of the entries to which references lead from it.
    fn name(self, entry: UnitOffset) -> Option<Vec<u8>> {
        self.first(entry, own_name)
    }

    /// The first thing that is found in an entry or in those to which references lead from it.
    fn first<T>(
        self,
        entry: UnitOffset,
        find: impl Fn(&Dwarf<Reader>, &Unit<Reader>, &Entry<'_>) -> Option<T>,
    ) -> Option<T> {
        let (mut unit, mut entry) = (self, entry);
        for _ in 0..=MOST_REFERENCES {
            let read = unit.read()?;
            let found = read.entry(entry).ok()?;
            if let Some(found) = find(unit.dwarf(), read, &found) {
                return Some(found);
            }
            (unit, entry) = match reference(&found)? {
                AttributeValue::UnitRef(entry) => (unit, entry),
                AttributeValue::DebugInfoRef(offset) => unit.units.entry_at(offset)?,
                AttributeValue::DebugInfoRefSup(offset) => unit.units.supplement()?.entry_at(offset)?,
                _ => return None,
            };
        }
        None
    }
}

impl LazyUnit {
    /// A unit of .debug_info.
    fn of(header: UnitHeader<Reader>) -> Option<LazyUnit> {
        let offset = header.offset().as_debug_info_offset()?.0;
        Some(LazyUnit { offset, header, unit: OnceCell::new(), functions: OnceCell::new(), lines: OnceCell::new() })
    }
}

/// What the first entry of a unit says of its ranges.
fn root_bounds(dwarf: &Dwarf<Reader>, unit: &Unit<Reader>) -> gimli::Result<Bounds> {
    let (mut entries, mut bounds) = (unit.entries_raw(None)?, Bounds::default());
    let attributes = entries.read_abbreviation()?.map_or(&[][..], |abbreviation| abbreviation.attributes());
    for &specification in attributes {
        bounds.note(dwarf, unit, &entries.read_attribute(specification)?)?;
    }
    Ok(bounds)
}

/// The name of an entry for the linker, else the one of the source.
fn own_name(dwarf: &Dwarf<Reader>, unit: &Unit<Reader>, entry: &Entry<'_>) -> Option<Vec<u8>> {
    [gimli::DW_AT_linkage_name, gimli::DW_AT_MIPS_linkage_name, gimli::DW_AT_name].into_iter().find_map(|name| {
        let value = entry.attr_value(name).ok()??;
        Some(dwarf.attr_string(unit, value).ok()?.bytes().to_vec())
    })
}

/// What an entry is an instance of, else the declaration that it completes.
fn reference(entry: &Entry<'_>) -> Option<AttributeValue<Reader>> {
    use AttributeValue::{DebugInfoRef, DebugInfoRefSup, UnitRef};
    [gimli::DW_AT_abstract_origin, gimli::DW_AT_specification].into_iter().find_map(|name| {
        let value = entry.attr_value(name).ok()??;
        matches!(value, UnitRef(_) | DebugInfoRef(_) | DebugInfoRefSup(_)).then_some(value)
    })
}

/// The frames of functions, the outermost of which is first: innermost first, from the place of the
/// innermost one on. Without functions it is the place alone.
pub fn frames(functions: Vec<Function>, mut place: Frame) -> Vec<Frame> {
    if functions.is_empty() {
        return vec![place];
    }
    let frame = |function: Function| Frame { name: function.name, ..std::mem::replace(&mut place, function.call) };
    functions.into_iter().rev().map(frame).collect()
}
