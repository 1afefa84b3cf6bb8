//! Where variables are declared, by the addresses at which they are.

use std::collections::HashMap;
use std::rc::Rc;

use gimli::{AttributeValue, DebuggingInformationEntry, Dwarf, Operation, Unit};

use crate::dwarf::lines::path;
use crate::dwarf::Reader;

/// The declarations of the variables of a file that have an address of their own.
pub struct Variables(HashMap<u64, Declaration>);

/// Where a variable is declared.
#[derive(Debug, Clone, PartialEq, Eq)]
pub struct Declaration {
    pub path: Rc<[u8]>,
    pub line: u64,
}

impl Variables {
    /// Goes through the entries of all units, and leaves out what can't be read.
    pub fn read(dwarf: &Dwarf<Reader>) -> Variables {
        let (mut variables, mut headers) = (Variables(HashMap::new()), dwarf.units());
        while let Ok(Some(header)) = headers.next() {
            if let Ok(unit) = dwarf.unit(header) {
                // What was read before a fault stays.
                let _ = variables.add_unit(dwarf, &unit);
            }
        }
        variables
    }

    /// The declaration of the variable that begins at an address.
    pub fn at(&self, address: u64) -> Option<&Declaration> {
        self.0.get(&address)
    }

    fn add_unit(&mut self, dwarf: &Dwarf<Reader>, unit: &Unit<Reader>) -> gimli::Result<()> {
        let mut paths = HashMap::new();
        let mut entries = unit.entries();
        while let Some((_, entry)) = entries.next_dfs()? {
            if entry.tag() != gimli::DW_TAG_variable {
                continue;
            }
            let Some(address) = address(dwarf, unit, entry)? else {
                continue;
            };
            let mut declared = declaration(entry)?;
            if let (None, Some(AttributeValue::UnitRef(first))) =
                (declared, entry.attr_value(gimli::DW_AT_specification)?)
            {
                declared = declaration(&unit.entry(first)?)?;
            }
            let Some((file, line)) = declared else {
                continue;
            };
            let path = paths.entry(file).or_insert_with(|| path(dwarf, unit, file).map(Rc::from)).clone();
            self.0.extend(path.map(|path| (address, Declaration { path, line })));
        }
        Ok(())
    }
}

/// The address of a variable whose location is an address alone.
fn address(
    dwarf: &Dwarf<Reader>,
    unit: &Unit<Reader>,
    entry: &DebuggingInformationEntry<'_, '_, Reader>,
) -> gimli::Result<Option<u64>> {
    let Some(AttributeValue::Exprloc(expression)) = entry.attr_value(gimli::DW_AT_location)? else {
        return Ok(None);
    };
    let mut operations = expression.operations(unit.encoding());
    let address = match operations.next()? {
        Some(Operation::Address { address }) => address,
        Some(Operation::AddressIndex { index }) => dwarf.address(unit, index)?,
        _ => return Ok(None),
    };
    Ok(operations.next()?.is_none().then_some(address))
}

/// The number of the file and the line of a declaration.
fn declaration(entry: &DebuggingInformationEntry<'_, '_, Reader>) -> gimli::Result<Option<(u64, u64)>> {
    let file = match entry.attr_value(gimli::DW_AT_decl_file)? {
        Some(AttributeValue::FileIndex(file)) => Some(file),
        _ => None,
    };
    let line = entry.attr(gimli::DW_AT_decl_line)?.and_then(|line| line.udata_value());
    Ok(file.zip(line))
}
