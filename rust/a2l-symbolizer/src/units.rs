//! What kinds of units a file has, by their headers alone.

use a2l::File;
use gimli::{DebugInfo, EndianSlice, LittleEndian, UnitType};
use object::{Object, ObjectSection};

/// What there is in a file beside what the library reads whole.
#[derive(Debug, Clone, Copy, Default, PartialEq, Eq)]
pub struct UnitKinds {
    /// Units with code that the library skips, as it does those of DWARF 2 to 4, or a header that
    /// can't be read.
    pub unread: bool,
    /// Units whose entries are in another file.
    pub split: bool,
}

impl UnitKinds {
    /// Those of the units in .debug_info.
    pub fn of(file: &File) -> UnitKinds {
        let object = object::File::parse(&**file).ok();
        let bytes = object.and_then(|object| object.section_by_name(".debug_info")?.data().ok()).unwrap_or_default();
        let section = DebugInfo::from(EndianSlice::new(bytes, LittleEndian));
        let (mut units, mut kinds) = (section.units(), UnitKinds::default());
        loop {
            match units.next() {
                Ok(Some(unit)) => kinds.add(unit.version(), unit.type_()),
                Ok(None) => return kinds,
                Err(_) => return UnitKinds { unread: true, ..kinds },
            }
        }
    }

    fn add(&mut self, version: u16, kind: UnitType<usize>) {
        match kind {
            UnitType::Compilation => self.unread |= version != 5,
            UnitType::Skeleton(_) => self.split = true,
            UnitType::SplitCompilation(_) => self.unread = true,
            // These have nothing to ask for.
            UnitType::Partial | UnitType::Type { .. } | UnitType::SplitType { .. } => {}
        }
    }
}
