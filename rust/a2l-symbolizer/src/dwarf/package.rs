//! Packages of split units: those of DWARF 5 (section 7.3.5), and those that GNU had before.

use std::cell::OnceCell;
use std::io::ErrorKind;
use std::path::{Path, PathBuf};

use gimli::{DwarfPackage, SectionId};

use super::Reader;
use crate::fallback::section_named;
use crate::open_file::Opener;
use crate::sections::Error;

/// The package of a program, which is opened when it is first needed.
pub struct PackageFile {
    path: PathBuf,
    /// It was asked for, and not only looked for beside the program.
    is_named: bool,
    /// None where it isn't there; the text of an error says why it can't be read.
    opened: OnceCell<Result<Option<DwarfPackage<Reader>>, String>>,
}

impl PackageFile {
    /// The package that is named, else the one beside a program.
    pub fn of(program: &Path, named: Option<&Path>) -> PackageFile {
        let beside = || {
            let mut name = program.to_owned().into_os_string();
            name.push(".dwp");
            PathBuf::from(name)
        };
        let path = named.map_or_else(beside, Path::to_owned);
        PackageFile { path, is_named: named.is_some(), opened: OnceCell::new() }
    }

    /// The package; none where it isn't there or can't be read.
    pub fn open(&self, opener: Opener) -> Option<&DwarfPackage<Reader>> {
        self.opened.get_or_init(|| self.read(opener)).as_ref().ok()?.as_ref()
    }

    /// The path of the package, and why it can't be read, if it was tried.
    pub fn unread(&self) -> Option<(&Path, &str)> {
        let why = self.opened.get()?.as_ref().err()?;
        Some((&self.path, why))
    }

    fn read(&self, opener: Opener) -> Result<Option<DwarfPackage<Reader>>, String> {
        let file = match opener.open(&self.path) {
            Ok(file) => file.file,
            Err(why) if why.kind() == ErrorKind::NotFound && !self.is_named => return Ok(None),
            Err(why) => return Err(why.to_string()),
        };
        let object = object::File::parse(&**file).map_err(|why| why.to_string())?;
        let section = |id: SectionId| {
            // Types aren't used, and binutils writes an index of none that gimli refuses.
            let name = id.dwo_name().filter(|_| id != SectionId::DebugTuIndex);
            section_named(&file, &object, name)
        };
        let package = section_named(&file, &object, None).and_then(|empty| DwarfPackage::load(section, empty));
        package.map(Some).map_err(|why: Error| why.to_string())
    }
}
