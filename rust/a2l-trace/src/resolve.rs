//! From what a line says to an address of a file, and to the functions there.

use a2l_symbolizer::Frame;

use crate::calls::can_follow_call;
use crate::modules::{Found, Modules, Reason, Wanted};
use crate::process::{Mapping, Process};
use crate::scan::basename;
use crate::sighting::{Form, Kind, Place, Sighting};

/// What is known of a frame.
#[derive(Debug, Clone, PartialEq, Eq)]
pub struct Answer {
    /// The path of the file that was asked, or its build id.
    pub file: Vec<u8>,
    pub build_id: Option<Vec<u8>>,
    /// The address that was asked about, as the file has it.
    pub address: u64,
    /// The functions there, innermost first.
    pub frames: Vec<Frame>,
    /// The system made the frame for a signal.
    pub is_signal: bool,
}

/// The module that a line means, where one is known.
pub struct Meant<'p> {
    pub name: Vec<u8>,
    pub build_id: Option<Vec<u8>>,
    mapping: Option<&'p Mapping>,
}

impl<'p> Meant<'p> {
    /// What a line and the process say together.
    pub fn of(sighting: &Sighting<'_>, process: &'p Process) -> Meant<'p> {
        let address = sighting.process;
        let mapping =
            address.and_then(|address| process.find(address).or_else(|| process.find(address.wrapping_sub(1))));
        let said = sighting.module.as_deref().unwrap_or_default();
        // The name of a library is often without its folder, which the process knows.
        let path = mapping.map(|mapping| mapping.path.as_slice());
        let path = path.filter(|path| said.is_empty() || basename(path) == said || sighting.place == Place::Process);
        let name = Some(path.unwrap_or(said)).filter(|name| name.len() <= LONGEST).unwrap_or_default().to_vec();
        let in_memory = path.and_then(|path| process.headers(path)?.build_id.clone());
        Meant { name, build_id: sighting.build_id.clone().or(in_memory), mapping }
    }
}

/// The system takes no longer path.
const LONGEST: usize = 4096;

/// The answer for a frame. `after_signal` says that the frame before it, which it called or was
/// interrupted for, is one that the system made for a signal.
pub fn resolve(
    modules: &mut Modules,
    sighting: &Sighting<'_>,
    meant: &Meant<'_>,
    process: &Process,
    after_signal: bool,
) -> Result<Answer, Reason> {
    if meant.name.is_empty() && meant.build_id.is_none() {
        return Err(Reason::NoModule);
    }
    let root = meant.mapping.and(process.root.clone());
    let wanted = Wanted { name: meant.name.clone(), build_id: meant.build_id.clone(), root };
    let found = modules.find(&wanted)?;
    let address = file_address(modules, &found, sighting, meant, process)?;
    let may_be_signal = matches!(sighting.kind, Kind::Return | Kind::Subtracted);
    let is_signal = may_be_signal && found.is_signal(address);
    let was_interrupted = is_signal || after_signal;
    // What stands anywhere in a line can be the address of a function too.
    let is_exact = sighting.form == Form::Bare && !can_follow_call(&found.file, address);
    let address = match sighting.kind {
        Kind::Return if !was_interrupted && !is_exact => address.wrapping_sub(1),
        Kind::Subtracted if was_interrupted => address.wrapping_add(1),
        _ => address,
    };
    let frames = match sighting.kind {
        Kind::Data => modules.find_variable(&found, address),
        _ => modules.find_frames(&found, address),
    };
    let build_id = found.layout.build_id.clone();
    Ok(Answer { file: found.name(), build_id, address, frames, is_signal })
}

/// The address as the file has it.
fn file_address(
    modules: &mut Modules,
    found: &Found,
    sighting: &Sighting<'_>,
    meant: &Meant<'_>,
    process: &Process,
) -> Result<u64, Reason> {
    match sighting.place {
        Place::Address(address) => Ok(address),
        Place::Unmoved(address) if found.layout.has_code(address) => Ok(address),
        Place::Unmoved(_) => Err(Reason::Moved),
        Place::FromStart(offset) => {
            found.layout.start().map(|start| start.wrapping_add(offset)).ok_or(Reason::NoAddress)
        }
        Place::FromDynamic { symbol, offset } => {
            found.dynamic_symbols().moved_by_pages(symbol, offset, sighting.process.unwrap_or(0))
        }
        Place::FromFunction { symbol, offset, size } => {
            modules.place_of_symbol(found, &found.all_symbols().of_size(symbol, size)?, offset)
        }
        Place::Process => {
            let (Some(mapping), Some(address)) = (meant.mapping, sighting.process) else {
                return Err(Reason::NoModule);
            };
            let headers = process.headers(&mapping.path).filter(|headers| !headers.segments.is_empty());
            let segments = &headers.unwrap_or(&found.layout).segments;
            process.file_address(mapping, segments, address).ok_or(Reason::NoAddress)
        }
    }
}
