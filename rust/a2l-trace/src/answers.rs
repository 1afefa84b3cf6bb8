//! Functions at addresses of files, by the library of a2l-symbolizer.

use std::path::PathBuf;
use std::sync::Arc;

use a2l::{File, Tools};
use a2l_symbolizer::{
    without_controls, CacheSize, DebugFiles, Frame, Length, Module, Names, Opener, Programs, Sources,
};

use crate::symbols::Symbol;

/// Open files, and readable names.
pub struct Answers {
    programs: Programs,
    names: Names,
}

/// So much of files stays open.
const SIZE: CacheSize = CacheSize { files: 64, bytes: 4 << 30 };

impl Answers {
    /// No file is open yet. Debug files are looked for below these folders and the usual one, and
    /// at debuginfod's servers where these may be asked.
    pub fn new(debug_folders: &[PathBuf], may_ask: bool) -> Answers {
        let debug_files = DebugFiles::new(debug_folders, may_ask, Opener::Map);
        let sources = Sources {
            debug_files,
            symbols: Some(Tools::Gnu),
            fallback: true,
            relative: false,
            starts: false,
            skips_line_zero: false,
            most: SIZE.bytes,
        };
        Answers { programs: Programs::new(sources, Opener::Map, SIZE), names: Names::new(Tools::Gnu, Length::Whole) }
    }

    /// The bytes of a file. The text of an error says why it can't be opened.
    pub fn file(&mut self, module: &Module) -> Result<Arc<File>, String> {
        self.programs.get(module).map(|found| Arc::clone(found.program.file()))
    }

    /// Where an offset from a symbol of a section is, as addresses below are: in a relocatable file
    /// its sections are put one after the other. None where the file can't be opened.
    pub fn place_of_symbol(&mut self, module: &Module, symbol: &Symbol, offset: u64) -> Option<u64> {
        let found = self.programs.get(module).ok()?;
        Some(found.program.placement().of_symbol(Some(symbol.section), symbol.address).wrapping_add(offset))
    }

    /// The functions at an address of a file, innermost first; none where nothing is known, or the
    /// file can't be opened. Names are readable, and nothing has a control character but tab.
    pub fn find_frames(&mut self, module: &Module, address: u64) -> Vec<Frame> {
        let Ok(found) = self.programs.get(module) else {
            return Vec::new();
        };
        let frames = found.program.find_frames(address, found.sources);
        frames.into_iter().map(|frame| self.shown(frame)).collect()
    }

    /// The variable at an address of a file, as a frame where it is declared.
    pub fn find_variable(&mut self, module: &Module, address: u64) -> Vec<Frame> {
        let variable = match self.programs.get(module) {
            Ok(found) => found.program.find_variable(address, found.sources),
            Err(_) => None,
        };
        let frame = variable.map(|it| Frame { name: Some(it.name), path: it.path, line: it.line, ..Frame::default() });
        frame.into_iter().map(|frame| self.shown(frame)).collect()
    }

    fn shown(&mut self, frame: Frame) -> Frame {
        let name = frame.name.map(|name| without_controls(&self.names.readable(&name)));
        Frame { name, path: frame.path.map(|path| without_controls(&path)), ..frame }
    }
}
