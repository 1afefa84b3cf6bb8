//! A file that is asked about: who answers for it, and the answers.

mod by_symbols;

use std::path::Path;
use std::sync::Arc;

use a2l::{File, Tools, UnitFrames};
use object::Object;

use crate::debug_files::DebugFiles;
use crate::fallback::Fallback;
use crate::image::image;
use crate::open_file::OpenFile;
use crate::placement::{PlacedFile, Placement};
use crate::reply::Frame;
use crate::sections::{has_debug_info, has_supplement};
use crate::symbols::Symbols;
use crate::units::UnitKinds;

/// So many units are kept by the library.
const CAPACITY: usize = 1024;

/// Who may be asked beside the library, and with how much memory.
#[derive(Debug, Clone)]
pub struct Sources {
    pub debug_files: DebugFiles,
    /// Names come from symbol tables too, as these tools choose them.
    pub symbols: Option<Tools>,
    /// The addr2line crate answers where the library doesn't.
    pub fallback: bool,
    /// Paths are those from the folder on in which the compiler ran.
    pub relative: bool,
    /// Where functions begin is looked for.
    pub starts: bool,
    /// The line of the row before is taken where an address has none.
    pub skips_line_zero: bool,
    /// An image of decompressed sections takes at most so many bytes.
    pub most: u64,
}

/// Who answers for the debug information of a file.
#[derive(Debug, Clone, PartialEq, Eq)]
pub enum Answerer {
    Library,
    /// The library refuses the file, for this reason.
    Others(String),
    /// There is no debug information.
    Nobody,
}

/// A file that is open.
pub struct Program {
    file: PlacedFile,
    /// The file that has the debug information, where that is another one.
    debug: Option<PlacedFile>,
    library: Option<a2l::Program>,
    answerer: Answerer,
    /// Made when they are first needed.
    units: Option<UnitKinds>,
    fallback: Option<Option<Box<Fallback>>>,
    functions: Option<Symbols>,
    variables: Option<Symbols>,
}

impl Program {
    /// Opens the debug information of a file, which may be in another one.
    pub fn open(file: OpenFile, sources: &Sources) -> Program {
        let found = has_debug_info(&file.file);
        let debug = if found { None } else { sources.debug_files.of_program(&file.path, &file.file) };
        let file = PlacedFile::of_program(file);
        let debug = debug.and_then(|debug| file.debug_file(debug));
        let mut program = Program {
            file,
            debug,
            library: None,
            answerer: Answerer::Nobody,
            units: None,
            fallback: None,
            functions: None,
            variables: None,
        };
        if found || program.debug.is_some() {
            program.open_library(sources);
        }
        program
    }

    fn open_library(&mut self, sources: &Sources) {
        match open_library(self.with_debug_info(), sources.most) {
            Ok(library) => (self.library, self.answerer) = (Some(library), Answerer::Library),
            Err(why) => self.answerer = Answerer::Others(why),
        }
    }

    /// The bytes of the file itself, which may have no debug information.
    pub fn file(&self) -> &Arc<File> {
        &self.file.file.file
    }

    fn with_debug_info(&self) -> &PlacedFile {
        self.debug.as_ref().unwrap_or(&self.file)
    }

    /// Where the sections are. Addresses below are places of these.
    pub fn placement(&self) -> &Placement {
        &self.file.placement
    }

    /// Who answers for the debug information.
    pub fn answerer(&self) -> &Answerer {
        &self.answerer
    }

    /// The package of split units that can't be read, and why.
    pub fn unread_package(&self) -> Option<(&Path, &str)> {
        self.fallback.as_ref()?.as_ref()?.unread_package()
    }

    /// The path of the file that has the debug information.
    pub fn debug_path(&self) -> &Path {
        &self.with_debug_info().file.path
    }

    /// How many bytes of files and of memory this takes.
    pub fn bytes(&self) -> u64 {
        let library = self.library.as_ref().map_or(0, |library| library.file().len());
        let debug = self.debug.as_ref().map_or(0, |debug| debug.file.file.len());
        (self.file.file.file.len() + debug + library) as u64
    }

    /// One of its files isn't what it was.
    pub fn has_changed(&self) -> bool {
        self.file.file.has_changed() || self.debug.as_ref().is_some_and(|debug| debug.file.has_changed())
    }

    /// The functions at an address, innermost first; none where nothing is known.
    pub fn find_frames(&mut self, address: u64, sources: &Sources) -> Vec<Frame> {
        let mut frames = self.frames_of_debug_info(address, sources);
        if sources.fallback {
            self.add_details(address, &mut frames, sources);
        }
        if let Some(tools) = sources.symbols {
            self.name_outermost(address, &mut frames, tools);
        }
        if sources.fallback && frames.iter().any(|frame| frame.name.is_none()) {
            self.name_by_supplement(address, &mut frames, sources);
        }
        if sources.relative {
            self.shorten_paths(address, &mut frames, sources);
        }
        frames.retain(|frame| !frame.is_unknown());
        frames
    }

    /// Adds what is asked for beside names and places.
    fn add_details(&mut self, address: u64, frames: &mut [Frame], sources: &Sources) {
        let Some(innermost) = frames.first_mut() else {
            return;
        };
        if sources.skips_line_zero && innermost.line == 0 {
            if let Some(place) = self.fallback(sources).and_then(|fallback| fallback.place_before(address)) {
                *innermost = Frame { name: innermost.name.take(), ..place };
            }
        }
        let found = if sources.starts { self.fallback(sources) } else { None };
        if let Some((starts, discriminator)) = found.and_then(|fallback| fallback.find_starts(address)) {
            frames[0].discriminator = discriminator;
            if starts.len() == frames.len() {
                frames.iter_mut().zip(starts).for_each(|(frame, start)| frame.start = start);
            }
        }
    }

    /// Names functions whose names dwz has put into a file of its own, which the library doesn't
    /// read.
    fn name_by_supplement(&mut self, address: u64, frames: &mut [Frame], sources: &Sources) {
        if !has_supplement(&self.with_debug_info().file.file) {
            return;
        }
        let named = self.fallback(sources).map(|fallback| fallback.find_frames(address)).unwrap_or_default();
        if named.len() == frames.len() {
            for (frame, named) in frames.iter_mut().zip(named) {
                frame.name = frame.name.take().or(named.name);
            }
        }
    }

    /// Takes the folder in which the compiler ran off the front of paths.
    fn shorten_paths(&mut self, address: u64, frames: &mut [Frame], sources: &Sources) {
        let Some(mut folder) = self.fallback(sources).and_then(|fallback| fallback.folder(address)) else {
            return;
        };
        folder.push(b'/');
        let paths = frames.iter_mut().flat_map(|frame| [&mut frame.path, &mut frame.start.path]);
        for path in paths.flatten() {
            if let Some(rest) = path.strip_prefix(&*folder).filter(|rest| !rest.is_empty()) {
                *path = rest.to_vec();
            }
        }
    }

    fn frames_of_debug_info(&mut self, address: u64, sources: &Sources) -> Vec<Frame> {
        let found = match self.library.as_mut().map(|library| library.find_frames(address)) {
            Some(Ok(Some(found))) => {
                let frames = frames(found);
                return self.split_frames(address, &frames, sources).unwrap_or(frames);
            }
            Some(Ok(None)) => self.has_unread_units(),
            Some(Err(_)) => true,
            None => self.answerer != Answerer::Nobody,
        };
        if !found || !sources.fallback {
            return Vec::new();
        }
        self.fallback(sources).map_or_else(Vec::new, |fallback| fallback.find_frames(address))
    }

    /// The functions at an address of which the library knows the place alone, as it does where a
    /// unit is split.
    fn split_frames(&mut self, address: u64, frames: &[Frame], sources: &Sources) -> Option<Vec<Frame>> {
        let [place @ Frame { name: None, .. }] = frames else {
            return None;
        };
        if !sources.fallback || !self.has_split_units() {
            return None;
        }
        self.fallback(sources)?.find_split_frames(address, place)
    }

    fn has_split_units(&mut self) -> bool {
        self.units().split
    }

    fn has_unread_units(&mut self) -> bool {
        self.units().unread
    }

    fn units(&mut self) -> UnitKinds {
        let library = self.library.as_ref();
        *self.units.get_or_insert_with(|| library.map(|library| UnitKinds::of(library.file())).unwrap_or_default())
    }

    fn fallback(&mut self, sources: &Sources) -> Option<&Fallback> {
        if self.fallback.is_none() {
            let debug = self.with_debug_info();
            let opened = Fallback::open(debug, &sources.debug_files);
            self.fallback = Some(opened.map(Box::new));
        }
        self.fallback.as_ref()?.as_deref()
    }

    /// The file has a section of this name, loaded or not.
    pub fn has_section(&self, name: &[u8]) -> bool {
        object::File::parse(&**self.file.file.file).is_ok_and(|object| object.section_by_name_bytes(name).is_some())
    }
}

/// Opens the library over a file. Where that is relocatable or has compressed sections, it reads an
/// image of them, of at most so many bytes. The text of an error says why it reads neither.
pub fn open_library(PlacedFile { file, placement }: &PlacedFile, most: u64) -> Result<a2l::Program, String> {
    let numbers = [a2l::RELOCATABLE, a2l::COMPRESSED];
    match a2l::Program::open(file.file.clone(), CAPACITY) {
        Err(why @ a2l::Error::Refused { number, .. }) if numbers.contains(&number) => {
            let image = image(&file.file, placement, most).map_err(|other| format!("{why}: {other}"))?;
            a2l::Program::open(image.into(), CAPACITY).map_err(|why| why.to_string())
        }
        other => other.map_err(|why| why.to_string()),
    }
}

/// The frames of the library, as they are written.
pub fn frames(found: UnitFrames<'_>) -> Vec<Frame> {
    let known = |bytes: &Vec<u8>| !bytes.is_empty();
    let frame = |frame: a2l::Frame<'_>| Frame {
        name: frame.function.map(<[u8]>::to_vec).filter(known),
        path: frame.location.file.filter(known),
        line: frame.location.line.unwrap_or(0),
        column: frame.location.column.unwrap_or(0),
        ..Frame::default()
    };
    found.frames.into_iter().map(frame).collect()
}
