//! Split units: their entries are in a file of their own (.dwo) or in a package beside the program
//! (.dwp), while the ranges and the line table of the unit are in the program.

use std::cell::RefCell;
use std::collections::HashMap;
use std::ffi::OsStr;
use std::os::unix::ffi::OsStrExt;
use std::path::{Path, PathBuf};
use std::rc::Rc;
use std::sync::Arc;

use gimli::{Dwarf, DwarfFileType, DwoId, RangeLists, Unit};

use super::owners::Owner;
use super::package::PackageFile;
use super::{Function, Reader, UnitRef, Units};
use crate::debug_files::DebugFiles;
use crate::fallback::section_named;
use crate::open_file::Opener;
use crate::reply::Start;
use crate::sections::Error;

/// The split units of a program.
pub struct SplitUnits {
    /// The program whose units are split.
    program: PathBuf,
    package: PackageFile,
    opener: Opener,
    /// The files that were opened, and which of these has a unit.
    files: RefCell<HashMap<PathBuf, Option<Rc<SplitFile>>>>,
    found: RefCell<HashMap<u64, Option<Rc<SplitFile>>>>,
}

/// A file with split units, or what a package has of one.
struct SplitFile {
    units: Units,
    /// The place of each unit among these.
    by_id: HashMap<u64, Owner>,
}

impl SplitUnits {
    pub fn new(program: &Path, debug_files: &DebugFiles) -> SplitUnits {
        SplitUnits {
            program: program.to_owned(),
            package: PackageFile::of(program, debug_files.package()),
            opener: debug_files.opener(),
            files: RefCell::default(),
            found: RefCell::default(),
        }
    }

    /// The functions at an address of a unit of the program, the outermost one first; none where the
    /// unit isn't split or its file isn't found.
    pub fn functions(&self, skeleton: UnitRef<'_>, address: u64) -> Vec<Function> {
        self.with_unit(skeleton, |split| split.functions(address, Some(skeleton))).unwrap_or_default()
    }

    /// Where these functions begin.
    pub fn starts(&self, skeleton: UnitRef<'_>, address: u64) -> Vec<Start> {
        self.with_unit(skeleton, |split| split.starts(address, Some(skeleton))).unwrap_or_default()
    }

    fn with_unit<T>(&self, skeleton: UnitRef<'_>, ask: impl FnOnce(UnitRef<'_>) -> T) -> Option<T> {
        let unit = skeleton.read()?;
        let id = unit.dwo_id?;
        let file = self.file_of(skeleton.dwarf(), unit, id)?;
        let split = file.units.get(*file.by_id.get(&id.0)?);
        // The number of clang is of the entries alone, in whichever version they were written.
        (split.version() == skeleton.version()).then(|| ask(split))
    }

    /// The package of the program that can't be read, and why.
    pub fn unread_package(&self) -> Option<(&Path, &str)> {
        self.package.unread()
    }

    /// The file that has a unit: the package of the program, or the unit's own file.
    fn file_of(&self, main: &Dwarf<Reader>, skeleton: &Unit<Reader>, id: DwoId) -> Option<Rc<SplitFile>> {
        let open = || self.in_package(main, id).or_else(|| self.in_own_file(main, skeleton, id));
        self.found.borrow_mut().entry(id.0).or_insert_with(open).clone()
    }

    fn in_package(&self, main: &Dwarf<Reader>, id: DwoId) -> Option<Rc<SplitFile>> {
        let file = SplitFile::of(self.package.open(self.opener)?.find_cu(id, main).ok()??);
        file.by_id.contains_key(&id.0).then(|| Rc::new(file))
    }

    /// The file that the unit names, in the folder of the compiler, or beside the program.
    fn in_own_file(&self, main: &Dwarf<Reader>, skeleton: &Unit<Reader>, id: DwoId) -> Option<Rc<SplitFile>> {
        let name = name_of_file(main, skeleton)?;
        let name = Path::new(OsStr::from_bytes(&name));
        let folder = skeleton.comp_dir.as_ref().map(|folder| folder.bytes().to_vec()).unwrap_or_default();
        let beside = self.program.with_file_name(name.file_name()?);
        let candidates = [Path::new(OsStr::from_bytes(&folder)).join(name), beside];
        candidates.into_iter().find_map(|path| {
            let mut files = self.files.borrow_mut();
            let file = files.entry(path).or_insert_with_key(|path| self.open_file(path, main).map(Rc::new)).clone()?;
            file.by_id.contains_key(&id.0).then_some(file)
        })
    }

    fn open_file(&self, path: &Path, main: &Dwarf<Reader>) -> Option<SplitFile> {
        let file = self.opener.open(path).ok()?.file;
        let object = object::File::parse(&**file).ok()?;
        let loaded: Result<_, Error> = Dwarf::load(|id| section_named(&file, &object, id.dwo_name()));
        let mut dwarf = loaded.ok()?;
        dwarf.file_type = DwarfFileType::Dwo;
        dwarf.debug_addr = main.debug_addr.clone();
        // Lists of version 4 are in the program.
        dwarf.ranges = RangeLists::new(main.ranges.debug_ranges().clone(), dwarf.ranges.debug_rnglists().clone());
        Some(SplitFile::of(dwarf))
    }
}

impl SplitFile {
    fn of(dwarf: Dwarf<Reader>) -> SplitFile {
        let units = Units::of(Arc::new(dwarf));
        let by_id = (0..).zip(units.iter()).filter_map(|(place, unit)| Some((unit.split_id()?.0, place))).collect();
        SplitFile { units, by_id }
    }
}

/// The name of the file that has the entries of a unit: an attribute of DWARF 5, or the one that
/// GNU had before.
fn name_of_file(main: &Dwarf<Reader>, skeleton: &Unit<Reader>) -> Option<Vec<u8>> {
    let mut entries = skeleton.entries();
    let (_, root) = entries.next_dfs().ok()??;
    let value = [gimli::DW_AT_dwo_name, gimli::DW_AT_GNU_dwo_name]
        .into_iter()
        .find_map(|name| root.attr_value(name).ok().flatten())?;
    Some(main.attr_string(skeleton, value).ok()?.bytes().to_vec())
}
