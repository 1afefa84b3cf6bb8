//! The ranges of an entry (DWARF 5, section 2.17).

use gimli::{Attribute, AttributeValue, Dwarf, Range, RangeListsOffset, Unit};

use super::Reader;

/// What an entry says of its ranges.
#[derive(Debug, Default)]
pub struct Bounds {
    low: Option<u64>,
    high: Option<High>,
    /// The list that holds instead of the two.
    pub list: Option<RangeListsOffset>,
}

#[derive(Debug)]
enum High {
    Address(u64),
    Length(u64),
}

impl Bounds {
    /// Notes an attribute of the entry, if it says something of the ranges.
    pub fn note(
        &mut self,
        dwarf: &Dwarf<Reader>,
        unit: &Unit<Reader>,
        attribute: &Attribute<Reader>,
    ) -> gimli::Result<()> {
        let value = attribute.value();
        match attribute.name() {
            gimli::DW_AT_low_pc => self.low = dwarf.attr_address(unit, value)?,
            gimli::DW_AT_high_pc => {
                self.high = match value {
                    AttributeValue::Udata(length) => Some(High::Length(length)),
                    value => dwarf.attr_address(unit, value)?.map(High::Address),
                }
            }
            gimli::DW_AT_ranges => self.list = dwarf.attr_ranges_offset(unit, value)?,
            _ => {}
        }
        Ok(())
    }

    /// Whether the entry has ranges.
    pub fn are_known(&self) -> bool {
        self.list.is_some() || self.low.is_some() && self.high.is_some()
    }

    /// The range from one bound to the other, where there is no list.
    pub fn range(&self) -> Option<Range> {
        let begin = self.low?;
        let end = match self.high {
            Some(High::Address(end)) => end,
            Some(High::Length(length)) => begin.checked_add(length)?,
            None => return None,
        };
        Some(Range { begin, end })
    }
}

/// Reads range lists, of so many ranges in all: lists that overlap in a damaged file can stand for
/// far more ranges than the file has bytes.
#[derive(Debug)]
pub struct Lists {
    left: usize,
}

impl Lists {
    /// Lists of at most as many ranges as the sections of lists have bytes. An entry of a list takes
    /// two at least.
    pub fn of(dwarf: &Dwarf<Reader>) -> Lists {
        use gimli::Section;
        let bytes = |reader: &Reader| reader.bytes().len();
        Lists { left: bytes(dwarf.ranges.debug_ranges().reader()) + bytes(dwarf.ranges.debug_rnglists().reader()) }
    }

    /// Gives each range of an entry to the call.
    pub fn each(
        &mut self,
        dwarf: &Dwarf<Reader>,
        unit: &Unit<Reader>,
        bounds: &Bounds,
        mut found: impl FnMut(Range),
    ) -> gimli::Result<()> {
        let Some(list) = bounds.list else {
            bounds.range().into_iter().for_each(found);
            return Ok(());
        };
        let mut ranges = dwarf.ranges(unit, list)?;
        while let Some(range) = ranges.next()? {
            self.left = self.left.checked_sub(1).ok_or(gimli::Error::InvalidAddressRange)?;
            found(range);
        }
        Ok(())
    }
}
