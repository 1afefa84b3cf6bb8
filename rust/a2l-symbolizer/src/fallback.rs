//! Answers for debug information that the library doesn't read: of units of DWARF 5 and of split
//! units by the reader of this crate, of older ones by the addr2line crate.

use std::cell::OnceCell;
use std::path::Path;
use std::sync::Arc;

use a2l::{File, Part};
use addr2line::Context;
use gimli::{Dwarf, EndianReader, RunTimeEndian};
use object::Object;

use crate::debug_files::DebugFiles;
use crate::dwarf::lines::folder;
use crate::dwarf::owners::Owners;
use crate::dwarf::split::SplitUnits;
use crate::dwarf::{frames, Function, Reader, UnitRef, Units};
use crate::guard::guarded;
use crate::open_file::OpenFile;
use crate::placement::{PlacedFile, Placement};
use crate::relocated::relocated;
use crate::reply::{Frame, Start};
use crate::sections::{part, Error};
use crate::variables::{Declaration, Variables};

/// A file of which debug information is read.
pub struct Fallback {
    units: Units,
    owners: Owners,
    /// Answers for older units; none where there are none. It is made when it is first needed.
    older: OnceCell<Option<Context<Reader>>>,
    split: SplitUnits,
    /// Made when it is first needed.
    variables: OnceCell<Option<Variables>>,
}

impl Fallback {
    /// Opens a file; none where it can't be read.
    pub fn open(file: &PlacedFile, debug_files: &DebugFiles) -> Option<Fallback> {
        guarded(|| {
            let OpenFile { path, file: bytes, .. } = &file.file;
            let object = object::File::parse(&***bytes).ok()?;
            let mut dwarf = dwarf(bytes, &object, &file.placement).ok()?;
            if let Some(other) = debug_files.supplementary(path, &object) {
                let object = object::File::parse(&**other).ok()?;
                dwarf.load_sup(|id| section_named(&other, &object, Some(id.name()))).ok()?;
            }
            let units = Units::of(Arc::new(dwarf));
            let owners = units.owners();
            let split = SplitUnits::new(path, debug_files);
            let (older, variables) = (OnceCell::new(), OnceCell::new());
            Some(Fallback { units, owners, older, split, variables })
        })?
    }

    /// The functions at an address, innermost first; none where it isn't covered, or can't be
    /// answered.
    pub fn find_frames(&self, address: u64) -> Vec<Frame> {
        let frames = || match self.unit(address) {
            Some(unit) => Some(frames(self.functions(unit, address), unit.place(address)?)),
            None => self.older_frames(address),
        };
        guarded(frames).flatten().unwrap_or_default()
    }

    /// The functions at an address of a split unit, innermost first, of which the place is known;
    /// none where it is none.
    pub fn find_split_frames(&self, address: u64, place: &Frame) -> Option<Vec<Frame>> {
        guarded(|| {
            let functions = self.split.functions(self.unit(address)?, address);
            (!functions.is_empty()).then(|| frames(functions, place.clone()))
        })?
    }

    /// Where the functions at an address begin, innermost first, and what tells code of one place
    /// apart there.
    pub fn find_starts(&self, address: u64) -> Option<(Vec<Start>, u64)> {
        guarded(|| {
            let unit = self.unit(address)?;
            let mut starts = self.split.starts(unit, address);
            if starts.is_empty() {
                starts = unit.starts(address, None);
            }
            starts.reverse();
            Some((starts, unit.discriminator(address).unwrap_or(0)))
        })?
    }

    /// The last place before an address that has a line, where the address has none.
    pub fn place_before(&self, address: u64) -> Option<Frame> {
        guarded(|| self.unit(address)?.place_before(address))?
    }

    /// The package of split units that can't be read, and why.
    pub fn unread_package(&self) -> Option<(&Path, &str)> {
        self.split.unread_package()
    }

    fn unit(&self, address: u64) -> Option<UnitRef<'_>> {
        self.owners.find(address).map(|owner| self.units.get(owner))
    }

    /// The functions of the split unit, or of the one in the program where that isn't found.
    fn functions(&self, unit: UnitRef<'_>, address: u64) -> Vec<Function> {
        let functions = self.split.functions(unit, address);
        if functions.is_empty() {
            unit.functions(address, None)
        } else {
            functions
        }
    }

    fn older(&self) -> Option<&Context<Reader>> {
        let open = || {
            let has_older = self.units.iter().any(UnitRef::is_older);
            if has_older {
                Context::from_dwarf(self.units.dwarf().borrow(Reader::clone)).ok()
            } else {
                None
            }
        };
        self.older.get_or_init(open).as_ref()
    }

    fn older_frames(&self, address: u64) -> Option<Vec<Frame>> {
        let mut found = self.older()?.find_frames(address).ok()?;
        let mut frames = Vec::new();
        while let Some(frame) = found.next().ok()? {
            let name = frame.function.as_ref().map(|function| function.name.bytes().to_vec());
            let location = frame.location.as_ref();
            frames.push(Frame {
                name: name.filter(|name| !name.is_empty()),
                path: location.and_then(|location| location.file).map(|path| path.as_bytes().to_vec()),
                line: location.and_then(|location| location.line).unwrap_or(0).into(),
                column: location.and_then(|location| location.column).unwrap_or(0).into(),
                ..Frame::default()
            });
        }
        Some(frames)
    }

    /// Where the variable is declared that begins at an address.
    pub fn declaration(&self, address: u64) -> Option<Declaration> {
        let variables = self.variables.get_or_init(|| guarded(|| Variables::read(self.units.dwarf())));
        variables.as_ref()?.at(address).cloned()
    }

    /// The folder in which the compiler ran that made the code at an address.
    pub fn folder(&self, address: u64) -> Option<Vec<u8>> {
        match self.unit(address) {
            Some(unit) => folder(self.units.dwarf(), unit.read()?),
            None => folder(self.units.dwarf(), self.older()?.find_dwarf_unit(address)?),
        }
    }
}

/// The sections of a file, as gimli takes them.
fn dwarf(file: &Arc<File>, object: &object::File<'_>, placement: &Placement) -> Result<Dwarf<Reader>, Error> {
    Dwarf::load(|id| match placement.is_relocatable() {
        true => Ok(reader(object, relocated(file, object, placement, id.name())?)),
        false => section_named(file, object, Some(id.name())),
    })
}

/// The section of a file that has a name; empty where the file has none, or no name is known.
pub fn section_named(file: &Arc<File>, object: &object::File<'_>, name: Option<&str>) -> Result<Reader, Error> {
    Ok(reader(object, part(file, object, name.unwrap_or_default())?))
}

fn reader(object: &object::File<'_>, bytes: Part) -> Reader {
    EndianReader::new(bytes, if object.is_little_endian() { RunTimeEndian::Little } else { RunTimeEndian::Big })
}
